//! Reads a waveform (VCD), by the standard's words and not by what writes it.

use std::collections::{BTreeMap, HashMap};

/// Each signal by its full name and number of bits, with its values at the times 0, 1 .., the highest bit first. Signals that share a
/// name are told apart by their order.
pub type Signals = BTreeMap<(String, usize, usize), Vec<String>>;

/// Adds a signal behind those of its name.
pub fn add(signals: &mut Signals, name: String, bits: usize, values: Vec<String>) {
    let same = signals
        .keys()
        .filter(|key| key.0 == name && key.1 == bits)
        .count();
    signals.insert((name, bits, same), values);
}

/// The signals of a text; none where it is no waveform, or a time is left out. The last time only ends the step before it.
pub fn read(text: &[u8]) -> Option<Signals> {
    let mut words = std::str::from_utf8(text).ok()?.split_ascii_whitespace();
    let mut scopes: Vec<&str> = Vec::new();
    let mut declared: Vec<(String, usize, &str)> = Vec::new();
    loop {
        let word = words.next()?;
        let rest: Vec<&str> = words.by_ref().take_while(|word| *word != "$end").collect();
        match (word, rest.as_slice()) {
            ("$enddefinitions", []) => break,
            ("$comment" | "$date" | "$version" | "$timescale", _) => {}
            ("$scope", [_, name]) => scopes.push(name),
            ("$upscope", []) => drop(scopes.pop()?),
            ("$var", ["wire", bits, id, name, range @ ..]) => {
                let bits: usize = bits.parse().ok()?;
                let due = if bits == 1 {
                    vec![]
                } else {
                    vec![format!("[{}:0]", bits - 1)]
                };
                if range != due.as_slice() {
                    return None;
                }
                let name = [scopes.as_slice(), &[name]].concat().join(" ");
                declared.push((name, bits, id));
            }
            _ => return None,
        }
    }
    let mut now: HashMap<&str, String> = HashMap::new();
    let mut steps: Vec<HashMap<&str, String>> = Vec::new();
    let mut time = None;
    while let Some(word) = words.next() {
        match word.as_bytes()[0] {
            b'#' => {
                let next: usize = word[1..].parse().ok()?;
                if next != time.map_or(0, |time: usize| time + 1) {
                    return None;
                }
                if time.is_some() {
                    steps.push(now.clone());
                }
                time = Some(next);
            }
            b'0' | b'1' => drop(now.insert(&word[1..], word[..1].to_string())),
            b'b' => drop(now.insert(words.next()?, word[1..].to_string())),
            _ if word == "$dumpvars" || word == "$end" => {}
            _ => return None,
        }
    }
    let mut signals = Signals::new();
    for (name, bits, id) in declared {
        // a value may leave out zeros in front
        let values = steps
            .iter()
            .map(|step| step.get(id).map(|value| format!("{value:0>bits$}")));
        let values: Option<Vec<String>> = values.collect();
        add(&mut signals, name, bits, values?);
    }
    Some(signals)
}
