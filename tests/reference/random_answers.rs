//! Deterministic random answers of K2 that feed a known run, and such answers and calls with exactly
//! one fault.
//!
//! A `Draft` is a run of a chip and the numbers of an answer that feeds it. `UNSEEN` are changes of
//! the numbers that no outcome shows, `FEED_FAULTS` take away what the run needs. `written` lays
//! the numbers out as an answer, `TEXT_FAULTS` make that malformed, `CALL_FAULTS` damage the rest
//! of the call. `answer_case` and `call_case` draw from all of these.

use super::agreement::{feed_literals, variable};
use super::answer::{trace_size, Claim};
use super::answer_calls::{Call, Outcome};
use super::circuit::Run;
use super::formula::frame_base;
use super::netlist::Netlist;
use super::random::{
    random_feeds, tiny_netlist, tiny_two_ports, wide_netlist, wide_two_ports, Random,
};
use super::refusal::{
    Refusal, CODE, DEPTH, MEMORY_LOOP, NO_ROOM, OUT_OF_ORDER, SIZE, TIED_ADDRESS,
};

/// A run, and the numbers of an answer that feeds it, without the 0 that ends them.
#[derive(Clone, Debug)]
pub struct Draft {
    pub netlist: Netlist,
    pub depth: u32,
    pub run: Run,
    pub numbers: Vec<i32>,
}

impl Draft {
    /// A draft whose numbers are those that the run needs and no others.
    pub fn new(netlist: &Netlist, depth: u32, run: Run) -> Draft {
        Draft {
            netlist: netlist.clone(),
            depth,
            numbers: feed_literals(netlist, &run),
            run,
        }
    }

    /// The call with this answer, often with more room than it needs.
    pub fn call(&self, random: &mut Random, answer: Vec<u8>) -> Call {
        let more = [random.pick(&[0, 0, 1, 5]), random.pick(&[0, 0, 1, 9])];
        Call::new(&self.netlist, self.depth, answer, more)
    }

    /// Variables of the depth.
    fn variables(&self) -> i32 {
        frame_base(&self.netlist, self.depth + 1) as i32
    }

    /// The variables of all inputs, or of the read bits of the frames that need them.
    fn needed(&self, read_bits: bool) -> Vec<i32> {
        let mut input = vec![false; self.variables() as usize + 1];
        for (frame, wire) in self.wires(1..self.netlist.first_latch()) {
            input[variable(&self.netlist, frame, wire as usize)] = true;
        }
        let literals = feed_literals(&self.netlist, &self.run);
        let variables = literals.iter().map(|literal| literal.abs());
        variables
            .filter(|it| input[*it as usize] != read_bits)
            .collect()
    }

    /// The variables that the run does not need.
    fn others(&self) -> Vec<i32> {
        let mut others = vec![true; self.variables() as usize + 1];
        for literal in feed_literals(&self.netlist, &self.run) {
            others[literal.unsigned_abs() as usize] = false;
        }
        (1..=self.variables())
            .filter(|it| others[*it as usize])
            .collect()
    }

    /// The variables of read bits that the run does not need.
    fn unneeded_read_bits(&self) -> Vec<i32> {
        let needed = self.needed(true);
        let wires = self.wires(self.netlist.first_read_bit()..self.netlist.first_gate());
        let variables = wires.map(|(frame, wire)| variable(&self.netlist, frame, wire as usize));
        variables
            .map(|variable| variable as i32)
            .filter(|variable| !needed.contains(variable))
            .collect()
    }

    /// These wires in each frame.
    fn wires(&self, range: std::ops::Range<u32>) -> impl Iterator<Item = (usize, u32)> {
        (0..=self.depth as usize)
            .flat_map(move |frame| range.clone().map(move |wire| (frame, wire)))
    }

    fn forget(&mut self, variable: i32) {
        self.numbers.retain(|number| number.abs() != variable);
    }

    /// Puts a number anywhere among the others.
    fn insert(&mut self, random: &mut Random, number: i32) {
        let at = random.index(self.numbers.len() + 1);
        self.numbers.insert(at, number);
    }
}

/// A change of a draft's numbers; false where the draft has no place for it and is as it was.
pub type NumbersChange = (&'static str, fn(&mut Random, &mut Draft) -> bool);

/// Changes that leave the outcome as it is.
pub const UNSEEN: [NumbersChange; 9] = [
    ("all other variables, as in no run", all_others),
    ("all other variables, as in the run", all_as_in_the_run),
    ("some other variables", some_others),
    ("another variable with both signs", other_with_both_signs),
    ("an unneeded read bit missing", unneeded_read_bit_missing),
    (
        "an unneeded read bit with both signs",
        unneeded_read_bit_doubled,
    ),
    ("variables past the file's", past_the_file),
    ("repeated numbers", repeated),
    ("another order", reordered),
];

fn either(random: &mut Random, variable: i32) -> i32 {
    if random.percent(50) {
        variable
    } else {
        -variable
    }
}

/// Random values: those of latches, gates and pairs fit no run, and variable 1 may be false.
fn all_others(random: &mut Random, draft: &mut Draft) -> bool {
    draft.numbers = feed_literals(&draft.netlist, &draft.run);
    for variable in draft.others() {
        let number = either(random, variable);
        draft.numbers.push(number);
    }
    draft.numbers.sort_unstable_by_key(|number| number.abs());
    true
}

/// The wires as in the run, in the order of a solver; pairs as anything.
fn all_as_in_the_run(random: &mut Random, draft: &mut Draft) -> bool {
    let mut values: Vec<bool> = (0..=draft.variables())
        .map(|_| random.percent(50))
        .collect();
    values[1] = true;
    for (frame, wire) in draft.wires(1..draft.netlist.wire_count() + 1) {
        values[variable(&draft.netlist, frame, wire as usize)] =
            draft.run.frames[frame][wire as usize];
    }
    draft.numbers = (1..=draft.variables())
        .map(|it| if values[it as usize] { it } else { -it })
        .collect();
    true
}

fn some_others(random: &mut Random, draft: &mut Draft) -> bool {
    let others = draft.others();
    for _ in 0..random.between(1, 5) {
        let variable = random.pick(&others);
        let number = either(random, variable);
        draft.insert(random, number);
    }
    true
}

fn other_with_both_signs(random: &mut Random, draft: &mut Draft) -> bool {
    let variable = random.pick(&draft.others());
    draft.insert(random, variable);
    draft.insert(random, -variable);
    true
}

fn unneeded_read_bit_missing(random: &mut Random, draft: &mut Draft) -> bool {
    let bits = draft.unneeded_read_bits();
    if bits.is_empty() {
        return false;
    }
    draft.forget(random.pick(&bits));
    true
}

fn unneeded_read_bit_doubled(random: &mut Random, draft: &mut Draft) -> bool {
    let bits = draft.unneeded_read_bits();
    if bits.is_empty() {
        return false;
    }
    let variable = random.pick(&bits);
    draft.insert(random, variable);
    draft.insert(random, -variable);
    true
}

fn past_the_file(random: &mut Random, draft: &mut Draft) -> bool {
    let first = draft.variables() + 1;
    let any = first + random.below(1000) as i32;
    for variable in [first, any, i32::MAX] {
        if random.percent(60) {
            let number = either(random, variable);
            draft.insert(random, number);
        }
    }
    let both = random.pick(&[first, any, i32::MAX]);
    draft.insert(random, both);
    draft.insert(random, -both);
    true
}

fn repeated(random: &mut Random, draft: &mut Draft) -> bool {
    if draft.numbers.is_empty() {
        return false;
    }
    for _ in 0..random.between(1, 4) {
        let number = random.pick(&draft.numbers);
        draft.insert(random, number);
    }
    true
}

fn reordered(random: &mut Random, draft: &mut Draft) -> bool {
    for at in (1..draft.numbers.len()).rev() {
        draft.numbers.swap(at, random.index(at + 1));
    }
    draft.numbers.len() > 1
}

/// Changes after which the answer is well-formed and feeds no run: each alone is 14.
pub const FEED_FAULTS: [NumbersChange; 4] = [
    ("input missing", |random, draft| {
        lose(random, draft, false, false)
    }),
    ("input with both signs", |random, draft| {
        lose(random, draft, false, true)
    }),
    ("needed read bit missing", |random, draft| {
        lose(random, draft, true, false)
    }),
    ("needed read bit with both signs", |random, draft| {
        lose(random, draft, true, true)
    }),
];

fn lose(random: &mut Random, draft: &mut Draft, read_bit: bool, both_signs: bool) -> bool {
    let needed = draft.needed(read_bit);
    if needed.is_empty() {
        return false;
    }
    let variable = random.pick(&needed);
    if both_signs {
        draft.insert(random, variable);
        draft.insert(random, -variable);
    } else {
        draft.forget(variable);
    }
    true
}

/// A chip and a depth whose runs are short enough to be written down.
pub fn small_chip(random: &mut Random) -> (Netlist, u32) {
    if random.percent(80) {
        (tiny_netlist(random), random.below(7))
    } else {
        (wide_netlist(random), random.below(4))
    }
}

/// A random run of a random small chip, and the numbers of an answer of any shape that feeds it.
pub fn random_draft(random: &mut Random) -> Draft {
    let (netlist, depth) = small_chip(random);
    draft_of(random, netlist, depth)
}

/// The same of a chip with two ports.
pub fn two_port_draft(random: &mut Random) -> Draft {
    let (netlist, depth) = if random.percent(80) {
        (tiny_two_ports(random), random.below(7))
    } else {
        (wide_two_ports(random), random.below(4))
    };
    draft_of(random, netlist, depth)
}

/// A random run of a chip, and the numbers of an answer of any shape that feeds it.
pub fn draft_of(random: &mut Random, netlist: Netlist, depth: u32) -> Draft {
    let run = Run::new(&netlist, &random_feeds(random, &netlist, depth));
    let mut draft = Draft::new(&netlist, depth, run);
    for (_, change) in UNSEEN {
        if random.percent(30) {
            change(random, &mut draft);
        }
    }
    draft
}

/// Lines that are skipped. The longest is longer than most buffers.
fn comment(random: &mut Random) -> Vec<u8> {
    let length = random.pick(&[0, 1, 80, 80, 5000]);
    let any = (0..length).map(|_| random.below(256) as u8);
    let mut any: Vec<u8> = any.filter(|byte| *byte != b'\n').collect();
    any.insert(0, b'c');
    let fixed: [&[u8]; 8] = [
        b"c",
        b"c the solver's own words",
        b"c s SATISFIABLE",
        b"cs UNSATISFIABLE",
        b"cv 1 -1 0",
        b"c v 0",
        b"cc",
        b"c\r",
    ];
    let fixed = random.pick(&fixed).to_vec();
    if random.percent(25) {
        any
    } else {
        fixed
    }
}

fn add_comments(random: &mut Random, lines: &mut Vec<Vec<u8>>) {
    for _ in 0..random.pick(&[0, 0, 1, 2, 6]) {
        let at = random.index(lines.len() + 1);
        lines.insert(at, comment(random));
    }
}

fn with_line_feeds(lines: &[Vec<u8>]) -> Vec<u8> {
    let mut text = Vec::new();
    for line in lines {
        text.extend_from_slice(line);
        text.push(b'\n');
    }
    text
}

/// An answer with these numbers and the 0 behind them, on `v` lines of any lengths, with comments
/// anywhere.
pub fn written(random: &mut Random, numbers: &[i32]) -> Vec<u8> {
    let words: Vec<String> = numbers.iter().chain(&[0]).map(i32::to_string).collect();
    // One number a line, lines as solvers write them, lines of all lengths, or one line.
    let most = random.pick(&[1, 14, 14, 40, usize::MAX]);
    let uneven = random.percent(50);
    let mut lines = vec![b"s SATISFIABLE".to_vec()];
    let mut rest = words.as_slice();
    while !rest.is_empty() {
        let full = rest.len().min(most);
        let count = if uneven { 1 + random.index(full) } else { full };
        let (line, behind) = rest.split_at(count);
        lines.push(format!("v {}", line.join(" ")).into_bytes());
        rest = behind;
    }
    add_comments(random, &mut lines);
    with_line_feeds(&lines)
}

/// An answer that claims that there is no assignment, with comments anywhere.
pub fn written_unsatisfiable(random: &mut Random) -> Vec<u8> {
    let mut lines = vec![b"s UNSATISFIABLE".to_vec()];
    add_comments(random, &mut lines);
    with_line_feeds(&lines)
}

/// A change of a well-formed answer that makes it malformed; false where it has no place for it.
pub type TextFault = (&'static str, fn(&mut Random, &mut Vec<u8>) -> bool);

pub const TEXT_FAULTS: [TextFault; 20] = [
    ("empty", |_, text| {
        text.clear();
        true
    }),
    ("last line feed missing", |_, text| text.pop().is_some()),
    ("cut in a line", cut),
    ("a line of no kind", |random, text| {
        let line = random.pick(&NO_LINES);
        change_lines(text, |lines| {
            lines.insert(random.index(lines.len() + 1), line.into());
            true
        })
    }),
    ("s line missing", |_, text| {
        change_lines(text, |lines| {
            lines.remove(status_line(lines));
            true
        })
    }),
    ("two s lines", |random, text| {
        change_lines(text, |lines| {
            let line = random.pick(&["s SATISFIABLE", "s UNSATISFIABLE"]);
            lines.insert(random.index(lines.len() + 1), line.into());
            true
        })
    }),
    ("s line misspelt", |random, text| {
        change_lines(text, |lines| {
            let at = status_line(lines);
            lines[at] = random.pick(&MISSPELT).into();
            true
        })
    }),
    ("s line behind a v line", |_, text| {
        change_lines(text, |lines| {
            let status = status_line(lines);
            let line = lines.remove(status);
            let values = value_lines(lines);
            lines.insert(values.first().map_or(0, |first| first + 1), line);
            !values.is_empty()
        })
    }),
    ("v lines though unsatisfiable", |random, text| {
        change_lines(text, |lines| {
            let at = status_line(lines);
            lines[at] = b"s UNSATISFIABLE".to_vec();
            if value_lines(lines).is_empty() {
                lines.insert(at + 1, random.pick(&["v 0", "v 1 0"]).into());
            }
            true
        })
    }),
    ("v lines missing", |_, text| {
        change_lines(text, |lines| {
            let values = value_lines(lines);
            lines.retain(|line| !line.starts_with(b"v"));
            !values.is_empty()
        })
    }),
    ("0 missing", |random, text| {
        change_words(random, text, |_, words, _| {
            words.last_mut().map_or(false, |last| {
                last.pop();
                true
            })
        })
    }),
    ("0 not only at the end", |random, text| {
        change_words(random, text, |random, words, line| {
            let at = random.index(words[line].len());
            words[line].insert(at, b"0".to_vec());
            true
        })
    }),
    ("v line behind the 0", |random, text| {
        change_words(random, text, |random, words, _| {
            let line = random.pick(&["0", "1", "7 -2 0"]);
            words.push(vec![line.into()]);
            true
        })
    }),
    ("v line without a number", |random, text| {
        change_lines(text, |lines| {
            let at = random.index(lines.len() + 1);
            lines.insert(at.max(status_line(lines) + 1), b"v".to_vec());
            true
        })
    }),
    ("not a number", |random, text| {
        change_words(random, text, |random, words, line| {
            let at = random.index(words[line].len());
            words[line][at] = random.pick(&NO_NUMBERS).into();
            true
        })
    }),
    ("a number marred", |random, text| {
        change_words(random, text, |random, words, line| {
            let at = random.index(words[line].len());
            mar(random, &mut words[line][at]);
            true
        })
    }),
    ("not a single space", |random, text| {
        change_values(random, text, |random, line| {
            let spaces: Vec<usize> = (0..line.len()).filter(|at| line[*at] == b' ').collect();
            let at = random.pick(&spaces);
            let other = random.pick(&["", "  ", "\t", " \t", "\u{a0}", ",", "\0"]);
            line.splice(at..at + 1, other.bytes());
            // Without their space two numbers may become one, and `v0` is none.
            at == 1 || !other.is_empty()
        })
    }),
    ("something behind a line", |random, text| {
        change_lines(text, |lines| {
            let told: Vec<usize> = (0..lines.len())
                .filter(|at| !lines[*at].starts_with(b"c"))
                .collect();
            let at = random.pick(&told);
            lines[at].extend(
                random
                    .pick(&[" ", "\r", "\t", "\0", "c", " c", "%"])
                    .bytes(),
            );
            true
        })
    }),
    ("something before a line", |random, text| {
        change_lines(text, |lines| {
            let at = random.index(lines.len());
            let before = random.pick(&[" ", "\t", "\r", "\0", "s", "v", "v ", "\u{feff}"]);
            // A comment behind `v ` is still no number.
            lines[at].splice(0..0, before.bytes());
            true
        })
    }),
    ("letter of another kind", |random, text| {
        change_lines(text, |lines| {
            let at = random.index(lines.len());
            let letter = random.pick(b"svSVC abotp0-1");
            let changed = lines[at][0] != letter;
            lines[at][0] = letter;
            changed
        })
    }),
];

/// Lines that are neither a comment nor an `s` or `v` line.
const NO_LINES: [&str; 16] = [
    "",
    " ",
    "\r",
    "\0",
    "o 1",
    "p cnf 3 1",
    "C comment",
    " c",
    "-",
    "0",
    "1 0",
    "-1 2 0",
    "V 1 0",
    "S SATISFIABLE",
    "SATISFIABLE",
    "%",
];

const MISSPELT: [&str; 21] = [
    "s",
    "s ",
    "s  SATISFIABLE",
    "s SATISFIABLE ",
    "s SATISFIABLE\r",
    "s SATISFIABLE 0",
    "sSATISFIABLE",
    "s\tSATISFIABLE",
    " s SATISFIABLE",
    "S SATISFIABLE",
    "s satisfiable",
    "s SATISFIABL",
    "s SATISFIABLEE",
    "s UNSATISFIABL",
    "s UNSATISFIABLE ",
    "s UN SATISFIABLE",
    "s NSATISFIABLE",
    "s UNKNOWN",
    "s OPTIMUM FOUND",
    "s SAT",
    "s 1",
];

const NO_NUMBERS: [&str; 22] = [
    "-",
    "+",
    "+0",
    "-0",
    "00",
    "+1",
    "01",
    "-01",
    "--1",
    "-+1",
    "1-",
    "1.0",
    "1e1",
    "0x1",
    "x1",
    "-x",
    "2147483648",
    "-2147483648",
    "4294967297",
    "-4294967297",
    "18446744073709551617",
    "99999999999999999999999999999999999999999",
];

/// Cuts behind a byte that is not the last of a line.
fn cut(random: &mut Random, text: &mut Vec<u8>) -> bool {
    let ends: Vec<usize> = (1..text.len()).filter(|at| text[at - 1] != b'\n').collect();
    text.truncate(random.pick(&ends));
    true
}

/// A number with something before it or behind it, or too long for a clause number.
fn mar(random: &mut Random, word: &mut Vec<u8>) {
    let sign = usize::from(word.starts_with(b"-"));
    match random.below(5) {
        0 => word.insert(sign, b'0'),
        1 => word.insert(0, b'+'),
        2 => word.insert(sign, b'-'),
        3 => word.extend(random.pick(&["-", "+", ".", "x", "\0", "\r"]).bytes()),
        _ => {
            word.splice(sign.., b"12345678901".iter().copied());
        }
    }
    // A single minus before a number that had none would only turn its sign.
    if word.iter().filter(|byte| **byte == b'-').count() == 1 && sign == 0 && word[0] == b'-' {
        word.insert(0, b'-');
    }
}

fn change_lines(text: &mut Vec<u8>, change: impl FnOnce(&mut Vec<Vec<u8>>) -> bool) -> bool {
    let before = text.clone();
    let mut lines: Vec<Vec<u8>> = text
        .split(|byte| *byte == b'\n')
        .map(<[u8]>::to_vec)
        .collect();
    lines.pop();
    let changed = change(&mut lines);
    *text = if changed {
        with_line_feeds(&lines)
    } else {
        before
    };
    changed
}

/// A change of one `v` line.
fn change_values(
    random: &mut Random,
    text: &mut Vec<u8>,
    change: impl FnOnce(&mut Random, &mut Vec<u8>) -> bool,
) -> bool {
    change_lines(text, |lines| {
        let values = value_lines(lines);
        if values.is_empty() {
            return false;
        }
        let at = random.pick(&values);
        change(random, &mut lines[at])
    })
}

/// A change of the words of all `v` lines, with the index of a random line. A line that is left
/// without words goes; lines that are added follow the last.
fn change_words(
    random: &mut Random,
    text: &mut Vec<u8>,
    change: impl FnOnce(&mut Random, &mut Vec<Vec<Vec<u8>>>, usize) -> bool,
) -> bool {
    change_lines(text, |lines| {
        let values = value_lines(lines);
        if values.is_empty() {
            return false;
        }
        let words_of = |at: &usize| {
            let words = lines[*at][2..].split(|byte| *byte == b' ');
            words.map(<[u8]>::to_vec).collect()
        };
        let mut words: Vec<Vec<Vec<u8>>> = values.iter().map(words_of).collect();
        let line = random.index(words.len());
        let changed = change(random, &mut words, line);
        for (index, words) in words.iter().enumerate().rev() {
            let line = [b"v ".to_vec(), words.join(&b' ')].concat();
            match values.get(index) {
                Some(at) if words.is_empty() => drop(lines.remove(*at)),
                Some(at) => lines[*at] = line,
                None => lines.push(line),
            }
        }
        changed
    })
}

/// The index of the `s` line of a well-formed answer.
fn status_line(lines: &[Vec<u8>]) -> usize {
    let found = lines.iter().position(|line| line.starts_with(b"s"));
    found.expect("an s line")
}

fn value_lines(lines: &[Vec<u8>]) -> Vec<usize> {
    (0..lines.len())
        .filter(|at| lines[*at].starts_with(b"v"))
        .collect()
}

/// A change of a call that was not refused before its answer, and the refusal that it alone causes.
pub type CallFault = (&'static str, fn(&mut Random, &mut Call) -> Option<Refusal>);

/// In the order of their tests. Of two at once, the later is to be made first: it relies on what the
/// earlier damages.
pub const CALL_FAULTS: [CallFault; 8] = [
    ("size", |random, call| {
        let (field, place) = random.pick(&[(0, 1), (1, 1), (2, 2), (3, 2), (4, 2)]);
        match field {
            0 => call.netlist.inputs = 601,
            1 => call.netlist.gate_count = u32::MAX,
            2 => call.netlist.address_width = random.pick(&[0, 13, u32::MAX]),
            3 => call.netlist.unknown_start = random.pick(&[2, 3, u32::MAX]),
            _ => call.netlist.data_width = random.pick(&[0, 33, u32::MAX]),
        }
        fault(SIZE, place)
    }),
    ("short list", |random, call| {
        let netlist = &mut call.netlist;
        if random.percent(50) {
            netlist.latches.truncate(netlist.latch_count as usize);
            netlist.latches.pop()?;
        } else {
            netlist.gates.truncate(netlist.gate_count as usize);
            netlist.gates.pop()?;
        }
        fault(OUT_OF_ORDER, 0)
    }),
    ("code", |random, call| {
        call.netlist.property = random.pick(&[2 * call.netlist.wire_count() + 2, u32::MAX]);
        fault(CODE, call.netlist.line_count())
    }),
    ("tied address", |random, call| {
        let netlist = &mut call.netlist;
        let later = random.below(netlist.address_width) as usize;
        let code = netlist.address[random.index(later.max(1))];
        if later == 0 || code < 2 {
            return None;
        }
        netlist.address[later] = code ^ random.below(2);
        let mut lines_behind = netlist.address_width + netlist.data_width - later as u32;
        if netlist.has_two_ports() {
            lines_behind += netlist.address_width + 1;
        }
        fault(TIED_ADDRESS, netlist.line_count() - lines_behind)
    }),
    ("memory loop", |random, call| {
        call.netlist.read_enable = 2 * call.netlist.first_read_bit() + random.below(2);
        fault(MEMORY_LOOP, call.netlist.line_count())
    }),
    ("depth", |random, call| {
        call.depth = random.pick(&[256, 257, u32::MAX - 1, u32::MAX]);
        fault(DEPTH, 0)
    }),
    ("short memory", |random, call| {
        let words = 1 << call.netlist.address_width;
        call.memory
            .truncate(random.pick(&[words - 1, words / 2, 0]));
        fault(NO_ROOM, 0)
    }),
    ("short trace", |random, call| {
        let bytes = trace_size(&call.netlist, call.depth);
        call.trace.truncate(random.pick(&[bytes - 1, bytes - 2, 0]));
        fault(NO_ROOM, 0)
    }),
];

fn fault(number: u32, place: u32) -> Option<Refusal> {
    Some(Refusal { number, place })
}

/// What it is, a call with any answer that the program may find, and what it must do.
pub fn answer_case(random: &mut Random) -> (&'static str, Call, Outcome) {
    let draft = random_draft(random);
    answer_case_of(random, draft)
}

/// The same for a given draft.
pub fn answer_case_of(random: &mut Random, mut draft: Draft) -> (&'static str, Call, Outcome) {
    let kind = random.below(100);
    let mut name = "a run";
    let mut feeds = true;
    if kind < 20 {
        let (fault_name, fault) = random.pick(&FEED_FAULTS);
        if fault(random, &mut draft) {
            name = fault_name;
            feeds = false;
        }
    }
    let mut answer = written(random, &draft.numbers);
    let claims_none = kind >= 90;
    if claims_none {
        answer = written_unsatisfiable(random);
        name = "unsatisfiable";
    }
    if (20..50).contains(&kind) || kind >= 95 {
        let (fault_name, fault) = random.pick(&TEXT_FAULTS);
        if fault(random, &mut answer) {
            let call = draft.call(random, answer);
            let outcome = call.bad_answer();
            return (fault_name, call, outcome);
        }
    }
    let call = draft.call(random, answer);
    let outcome = match (claims_none, feeds) {
        (true, _) => call.untouched(Ok(Claim::Unsatisfiable)),
        (false, true) => call.of_run(&draft.run),
        (false, false) => call.bad_answer(),
    };
    (name, call, outcome)
}

/// The same with one fault, or two, of the call beside its answer.
pub fn call_case(random: &mut Random) -> (&'static str, Call, Outcome) {
    let draft = random_draft(random);
    call_case_of(random, draft)
}

/// The same for a given draft.
pub fn call_case_of(random: &mut Random, draft: Draft) -> (&'static str, Call, Outcome) {
    let (mut name, mut call, mut outcome) = answer_case_of(random, draft);
    let mut kinds = [
        random.index(CALL_FAULTS.len()),
        random.index(CALL_FAULTS.len()),
    ];
    kinds.sort_unstable();
    let count = if kinds[0] == kinds[1] { 1 } else { 2 };
    for kind in kinds[..count].iter().rev() {
        let (fault_name, fault) = CALL_FAULTS[*kind];
        if let Some(refusal) = fault(random, &mut call) {
            name = fault_name;
            outcome = call.untouched(Err(refusal));
        }
    }
    (name, call, outcome)
}
