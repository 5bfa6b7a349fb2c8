//! Readers' paths: for each promise the definitions and types that its contract reaches, in an order in which each stands behind what it uses.

use super::{begun, code, import, path_of, Definition, Definitions, Module, Promise, Public, Repository, KIT};
use std::collections::{BTreeMap, BTreeSet};

/// How many lines a careful reader compares with their rules in a minute: the pace of a code inspection, some 120 lines an hour. It is assumed: no
/// reader was timed.
const LINES_A_MINUTE: usize = 2;

/// Where a path begins: a public function, its promise, and one definition that this cites; without one, all of them.
type Begin = (&'static str, &'static str, Option<&'static str>);

/// A reader's path to one promise.
pub struct ReadersPath {
    pub label: &'static str,
    promise: &'static str,
    from: &'static [Begin],
    /// what it speaks of without saying what it is, so that a reader need not open it
    shut: &'static [&'static str],
}

/// A run is one whatever feeds it, and what is refused shows none: neither what an answer's text says nor the tests before it have to be read.
const FED_ANYTHING: [&str; 4] = [
    "answer_lines/Answer/answer_in",
    "answer_lines/Answer/answer_kind",
    "replay_answer/ReplayAnswer/said_of",
    "netlist_tests/Record/record_verdict",
];

/// Demand 3 takes the numbers that the calls leave and the formula that they are together as they come, what passes the tests by the theorem that
/// says which netlists those are, and the depth as any.
const UNOPENED: [&str; 7] = [
    "model/Numbers/formula",
    "model/Numbers/numbers_of",
    "model/Groups/group_order",
    "model/Groups/in_depth",
    "netlist_tests/Record/record_verdict",
    "call_unpacked/Calls/group_sent",
    "call_unpacked/Calls/group_leaves",
];

/// The bound on numbers says of whatever is written how large it is.
const NUMBERS_ALONE: [&str; 1] = ["model/Numbers/numbers_of"];

/// Groups through a running record are said to be those by frame number, which are demand 2's; the record's tests are demand 1's.
const BY_FRAME: [&str; 4] = [
    "model/Numbers/numbers_of",
    "netlist_tests/Record/record_verdict",
    "call_unpacked/Calls/group_sent",
    "call_unpacked/Calls/group_leaves",
];

const DEMAND_2: [Begin; 2] = [("marrubigai_write_group", "borrowed", None), ("marrubigai_heading", "answer", None)];

/// The paths, in the order in which the last column takes off what was read before.
pub const PATHS: [ReadersPath; 22] = [
    ReadersPath {
        label: "certify",
        promise: "no run to depth k, certified",
        from: &[("marrubigai_certify", "certified", None)],
        shut: &[],
    },
    ReadersPath {
        label: "forever",
        promise: "no run at any depth, certified",
        from: &[("marrubigai_certify_forever", "certified", None)],
        shut: &[],
    },
    ReadersPath {
        label: "replay",
        promise: "a run that is shown is one",
        from: &[
            ("marrubigai_replay", "answer", None),
            ("marrubigai_replay", "trace", None),
            ("marrubigai_replay", "settled", Some("OneRunTheorem")),
        ],
        shut: &FED_ANYTHING,
    },
    ReadersPath {
        label: "3-record",
        promise: "demand 3 of a record",
        from: &[("marrubigai_heading", "claim", None), ("marrubigai_heading", "accepted", None)],
        shut: &UNOPENED,
    },
    ReadersPath {
        label: "3-sheet",
        promise: "demand 3 of a sheet",
        from: &[("marrubigai_read", "accepted", None), ("read_input", "encoded", None)],
        shut: &UNOPENED,
    },
    ReadersPath {
        label: "2",
        promise: "demand 2",
        from: &DEMAND_2,
        shut: &["call_unpacked/Calls/group_verdict", "call_unpacked/Calls/heading_verdict"],
    },
    ReadersPath {
        label: "1-record",
        promise: "demand 1 of the calls over a record",
        from: &[("marrubigai_write_group", "answer", None), ("marrubigai_heading", "answer", None)],
        shut: &["model/Numbers/numbers_of", "model/Numbers/formula"],
    },
    ReadersPath {
        label: "1-sheet",
        promise: "demand 1 of a sheet",
        from: &[
            ("marrubigai_read", "reply", None),
            ("marrubigai_read", "latches", None),
            ("marrubigai_read", "gates", None),
        ],
        shut: &[],
    },
    ReadersPath {
        label: "K1",
        promise: "an ASCII AIGER text imported",
        from: &[
            ("marrubigai_import", "reply", None),
            ("marrubigai_import", "latches", None),
            ("marrubigai_import", "gates", None),
            ("marrubigai_import", "accepted", None),
            ("marrubigai_import", "written", None),
        ],
        shut: &UNOPENED,
    },
    ReadersPath {
        label: "K2",
        promise: "a solver's answer run",
        from: &[
            ("marrubigai_replay", "answer", None),
            ("marrubigai_replay", "memory", None),
            ("marrubigai_replay", "trace", None),
            ("marrubigai_replay", "settled", Some("FaultsSettled")),
            ("marrubigai_replay", "settled", Some("OneRunTheorem")),
            ("marrubigai_replay", "settled", Some("RoomTheorem")),
            ("marrubigai_replay", "settled", Some("RightAnswerTheorem")),
            ("marrubigai_replay", "written", None),
        ],
        shut: &["model/Numbers/formula", "netlist_tests/Record/record_verdict"],
    },
    ReadersPath {
        label: "K3",
        promise: "idle read data holds its word, in runs and in clauses",
        from: &[("marrubigai_heading", "theorems", Some("EncodingTheorem"))],
        shut: &[],
    },
    ReadersPath {
        label: "K4",
        promise: "no constants in clauses",
        from: &[("marrubigai_heading", "theorems", Some("StatedTheorem"))],
        shut: &[],
    },
    ReadersPath {
        label: "K5",
        promise: "a running record",
        from: &[
            ("marrubigai_move", "answer", None),
            ("marrubigai_move", "stands", None),
            ("marrubigai_write_group_at", "answer", None),
            ("marrubigai_write_group_at", "borrowed", None),
            ("marrubigai_write_group_at", "by_frame", None),
            ("marrubigai_literal_at", "answer", None),
            ("marrubigai_literal_at", "inverse", None),
        ],
        shut: &BY_FRAME,
    },
    ReadersPath {
        label: "K6",
        promise: "a number printed",
        from: &[
            ("marrubigai_put_number", "answer", None),
            ("marrubigai_put_number", "borrowed", None),
            ("marrubigai_put_number", "printed", None),
        ],
        shut: &[],
    },
    ReadersPath {
        label: "K7",
        promise: "a memory that begins unknown, in runs, clauses and replays",
        from: &[("marrubigai_heading", "theorems", Some("EncodingTheorem")), ("marrubigai_replay", "settled", Some("OneRunTheorem"))],
        shut: &[],
    },
    ReadersPath {
        label: "K8",
        promise: "address bits tied together are refused",
        from: &[("marrubigai_heading", "accepted", None)],
        shut: &[],
    },
    ReadersPath {
        label: "K9",
        promise: "the sheet of a record",
        from: &[
            ("marrubigai_write_sheet", "answer", None),
            ("marrubigai_write_sheet", "borrowed", None),
            ("marrubigai_write_sheet", "written", None),
        ],
        shut: &["netlist_tests/Record/record_verdict"],
    },
    ReadersPath {
        label: "K10",
        promise: "a second read port, in runs, clauses and calls",
        from: &[("marrubigai_heading", "theorems", Some("EncodingTheorem")), ("marrubigai_write_group", "answer", None)],
        shut: &["netlist_tests/Record/record_verdict"],
    },
    ReadersPath {
        label: "K11",
        promise: "a sheet for one port",
        from: &[
            ("marrubigai_one_port", "answer", None),
            ("marrubigai_one_port", "borrowed", None),
            ("marrubigai_one_port", "converted", None),
        ],
        shut: &[],
    },
    ReadersPath {
        label: "K12",
        promise: "the largest variable and number",
        from: &[("marrubigai_heading", "theorems", Some("BoundTheorem"))],
        shut: &NUMBERS_ALONE,
    },
    ReadersPath {
        label: "K13",
        promise: "one source of each read, and what follows from what is fed",
        from: &[("marrubigai_heading", "theorems", Some("TraceTheorem")), ("marrubigai_source_literal", "", None)],
        shut: &["model/Numbers/formula", "netlist_tests/Record/record_verdict"],
    },
    ReadersPath {
        label: "K14",
        promise: "a record exported as binary AIGER, also from a text",
        from: &[
            ("marrubigai_export", "answer", None),
            ("marrubigai_export", "borrowed", None),
            ("marrubigai_export", "exported", None),
        ],
        shut: &["netlist_tests/Record/record_verdict"],
    },
];

/// A type that Rattle code declares: its crate and name.
type Declared = (String, String);

/// The types of all crates with the lines of their declarations, comments included.
fn declarations(repository: &Repository) -> BTreeMap<Declared, Vec<String>> {
    let mut found: BTreeMap<Declared, Vec<String>> = BTreeMap::new();
    for of in repository.folders("crates") {
        for path in repository.files(&format!("crates/{of}/src"), ".rt") {
            let (mut open, mut comments) = (None, Vec::new());
            for line in repository.read(&path).lines().map(String::from) {
                let head = line.strip_prefix("pub struct ").or_else(|| line.strip_prefix("pub enum "));
                if let Some(head) = head {
                    let name = head.split(|c: char| !c.is_alphanumeric()).next().unwrap_or("").to_string();
                    open = Some((of.clone(), name));
                    found.insert(open.clone().expect("a type"), std::mem::take(&mut comments));
                }
                match &open {
                    Some(it) => {
                        let is_last = line.starts_with('}') || line.ends_with(';') && !line.starts_with(' ') || line.ends_with('}');
                        found.get_mut(it).expect("a type").push(line);
                        open = open.filter(|_| !is_last);
                    }
                    None if line.starts_with("//") => comments.push(line),
                    None if line.starts_with("#[") => {}
                    None => comments.clear(),
                }
            }
        }
    }
    found
}

/// The type of ours and the names that a `use` line of a declared type brings.
fn declared(line: &str) -> Option<(Declared, Vec<String>)> {
    let (of, rest) = line.strip_prefix("use Rattle.")?.split_once(".specs.declared.")?;
    if KIT.contains(&of) {
        return None;
    }
    let name = rest.split(['.', ' ']).next()?;
    let names = match rest.split_once('{') {
        Some((_, names)) => names.trim_end_matches('}').split(", ").map(String::from).collect(),
        None => vec![rest.rsplit(' ').next()?.to_string()],
    };
    Some(((of.to_string(), name.to_string()), names))
}

/// What is read on a path.
pub struct Reading {
    pub definitions: BTreeSet<Definition>,
    types: BTreeSet<Declared>,
}

/// What all paths are read off.
pub struct Paths<'a> {
    definitions: &'a Definitions,
    functions: Vec<&'a Public>,
    types: BTreeMap<Declared, Vec<String>>,
    /// the files in their order: crates as crates.txt has them, in a crate as its Lib.antt has them
    order: Vec<Module>,
}

impl<'a> Paths<'a> {
    pub fn of(repository: &'a Repository, definitions: &'a Definitions, functions: Vec<&'a Public>) -> Paths<'a> {
        let list = repository.read("crates.txt");
        let crates = list.lines().filter(|line| !line.starts_with('#')).filter(|line| line.contains(':')).filter_map(|line| line.split([' ', ':']).next());
        let mut order = Vec::new();
        for of in crates {
            let lib = repository.0.join(format!("crates/{of}/specs/Lib.antt"));
            let lib = std::fs::read_to_string(lib).unwrap_or_default();
            order.extend(lib.lines().filter_map(|line| Some((of.to_string(), line.strip_prefix("pub mod ")?.to_string()))));
        }
        Paths { definitions, functions, types: declarations(repository), order }
    }

    /// A public function's promise.
    fn promise(&self, function: &str, called: &str) -> &Promise {
        let mut promises = self.functions.iter().filter(|it| it.name == function).flat_map(|it| &it.promises);
        promises.find(|promise| promise.called == called).unwrap_or_else(|| panic!("{function} has no promise {called:?}"))
    }

    /// What a path begins with, as the contracts have it.
    fn cited(&self, (function, called, only): &Begin) -> Vec<Definition> {
        let cited = self.promise(function, called).cited.iter().filter(|(name, _)| only.map_or(true, |only| name == only));
        let found: Vec<Definition> = cited.map(|(name, module)| (module.clone(), name.clone())).collect();
        assert!(!found.is_empty(), "{function}'s promise {called:?} does not cite {only:?}");
        found
    }

    fn begins(&self, path: &ReadersPath) -> Vec<Definition> {
        path.from.iter().flat_map(|begin| self.cited(begin)).collect()
    }

    /// The same for the table, by function.
    fn begins_text(&self, path: &ReadersPath) -> String {
        let mut by_function: Vec<(&str, Vec<String>)> = Vec::new();
        for begin in path.from {
            if by_function.last().map_or(true, |(last, _)| *last != begin.0) {
                by_function.push((begin.0, Vec::new()));
            }
            let names = &mut by_function.last_mut().expect("a function").1;
            for (_, name) in self.cited(begin) {
                let text = format!("`{name}`");
                if !names.contains(&text) {
                    names.push(text);
                }
            }
        }
        let text: Vec<String> = by_function.iter().map(|(function, names)| format!("{} of `{function}`", names.join(" "))).collect();
        text.join("; ")
    }

    pub fn reading(&self, path: &ReadersPath) -> Reading {
        let shut: Vec<Definition> = path.shut.iter().map(|place| self.definitions.at(place)).collect();
        let definitions = self.definitions.reached(self.begins(path), &shut);
        let types = self.types_of(&definitions);
        Reading { definitions, types }
    }

    /// The declared types that definitions speak of, and those in their fields.
    fn types_of(&self, definitions: &BTreeSet<Definition>) -> BTreeSet<Declared> {
        let mut left = Vec::new();
        for (module, name) in definitions {
            let body = &self.definitions.known[module].iter().find(|(own, _)| own == name).expect("a definition").1;
            // of a name in another module, the module's
            let words = body.split(|c: char| c.is_whitespace() || "(){}[];,".contains(c));
            let body: BTreeSet<&str> = words.filter_map(|word| word.split('.').next()).collect();
            for line in self.definitions.texts[module].lines() {
                if let Some((it, names)) = declared(line) {
                    if names.iter().any(|name| body.contains(name.as_str())) {
                        left.push(it);
                    }
                }
            }
        }
        let mut found = BTreeSet::new();
        while let Some(it) = left.pop() {
            let text = self.types.get(&it).unwrap_or_else(|| panic!("no type {it:?}")).join("\n");
            if found.insert(it) {
                let text = code(&text);
                let words: BTreeSet<&str> = text.split(|c: char| !c.is_alphanumeric()).collect();
                left.extend(self.types.keys().filter(|(_, name)| words.contains(name.as_str())).cloned());
            }
        }
        found
    }

    fn lines(&self, definitions: &BTreeSet<Definition>) -> usize {
        let files: BTreeSet<&Module> = definitions.iter().map(|(module, _)| module).collect();
        files.into_iter().map(|module| self.definitions.lines(module, definitions)).sum()
    }

    fn type_lines(&self, types: &BTreeSet<Declared>) -> usize {
        types.iter().map(|it| code(&self.types[it].join("\n")).lines().filter(|line| !line.trim().is_empty()).count()).sum()
    }

    /// The files of a path in the order of reading.
    fn files(&self, reading: &Reading) -> Vec<&Module> {
        let files: BTreeSet<&Module> = reading.definitions.iter().map(|(module, _)| module).collect();
        let ordered: Vec<&Module> = self.order.iter().filter(|module| files.contains(module)).collect();
        assert_eq!(ordered.len(), files.len(), "a file that no Lib.antt has");
        ordered
    }

    /// What is wrong with the paths: a file that stands before one that it uses, and what is shut though no path that shuts it leads there.
    pub fn faults(&self) -> Vec<String> {
        let place = |module: &Module| self.order.iter().position(|it| it == module);
        let mut found = Vec::new();
        let read: BTreeSet<Definition> = PATHS.iter().flat_map(|path| self.reading(path).definitions).collect();
        for module in read.iter().map(|(module, _)| module).collect::<BTreeSet<_>>() {
            let uses = self.definitions.texts[module].lines().filter(|line| line.starts_with("use Rattle."));
            let late = uses.filter_map(|line| import(line)).filter(|(it, _)| place(it) > place(module));
            found.extend(late.map(|(it, _)| format!("{} is read before {}, which it uses", path_of(module), path_of(&it))));
        }
        let mut shut: BTreeMap<&str, bool> = BTreeMap::new();
        for path in &PATHS {
            let open = self.definitions.reached(self.begins(path), &[]);
            for place in path.shut {
                *shut.entry(place).or_default() |= open.contains(&self.definitions.at(place));
            }
        }
        let idle = shut.iter().filter(|(_, is_met)| !**is_met);
        found.extend(idle.map(|(place, _)| format!("{place} is shut, and no path that shuts it leads there")));
        found
    }

    /// The table of all paths, and for each the files in the order of reading.
    pub fn block(&self) -> String {
        let mut table = format!(
            "Minutes are at {LINES_A_MINUTE} lines a minute, the pace of a code inspection; it is assumed, no reader was timed.\n\n\
             | path | what is promised | begins with | lines of definitions | of types | minutes | lines besides the paths above |\n\
             |---|---|---|---|---|---|---|\n"
        );
        let mut order = String::new();
        let (mut before, mut types_before) = (BTreeSet::new(), BTreeSet::new());
        for path in &PATHS {
            let reading = self.reading(path);
            let (lines, type_lines) = (self.lines(&reading.definitions), self.type_lines(&reading.types));
            let besides: BTreeSet<Definition> = reading.definitions.difference(&before).cloned().collect();
            let types_besides: BTreeSet<Declared> = reading.types.difference(&types_before).cloned().collect();
            table += &format!(
                "| `{}` | {} | {} | {lines} | {type_lines} | {} | {} |\n",
                path.label,
                path.promise,
                self.begins_text(path),
                (lines + type_lines + LINES_A_MINUTE - 1) / LINES_A_MINUTE,
                self.lines(&besides) + self.type_lines(&types_besides),
            );
            order += &format!("- `{}`: {}", path.label, self.files_text(&reading));
            let names: Vec<String> = reading.types.iter().map(|(_, name)| format!("`{name}`")).collect();
            order += &if names.is_empty() { String::from("\n") } else { format!("; types {}\n", names.join(" ")) };
            before.extend(reading.definitions);
            types_before.extend(reading.types);
        }
        table += &format!(
            "\nAll paths together have {} lines of definitions and {} of types. What to read on each, in this order, with the lines of each file:\n\n",
            self.lines(&before),
            self.type_lines(&types_before)
        );
        table + &order
    }

    fn files_text(&self, reading: &Reading) -> String {
        let mut by_crate: Vec<(&str, Vec<String>)> = Vec::new();
        for module in self.files(reading) {
            let file = format!("{} ({})", module.1, self.definitions.lines(module, &reading.definitions));
            match by_crate.last_mut() {
                Some((of, files)) if *of == module.0 => files.push(file),
                _ => by_crate.push((&module.0, vec![file])),
            }
        }
        let text: Vec<String> = by_crate.iter().map(|(of, files)| format!("[{of}](../crates/{of}/specs) {}", files.join(", "))).collect();
        text.join("; ")
    }

    /// The text of one path: its contracts, the types, and each definition with its comment, in the order of reading.
    pub fn text(&self, path: &ReadersPath) -> String {
        let reading = self.reading(path);
        let mut text = format!("{}: {}\n", path.label, path.promise);
        let promises: BTreeSet<(&str, &str)> = path.from.iter().map(|(function, called, _)| (*function, *called)).collect();
        for (function, called) in promises {
            let ensures = if called.is_empty() { String::from("ensures") } else { format!("ensures {called}") };
            text += &format!("\n{function} {ensures}\n  {}\n", self.promise(function, called).says);
        }
        let mut last = "";
        for it in &reading.types {
            if it.0 != last {
                text += &format!("\n== crates/{}/src\n", it.0);
                last = &it.0;
            }
            text += &format!("\n{}\n", self.types[it].join("\n"));
        }
        for module in self.files(&reading) {
            text += &format!("\n== {}\n", path_of(module));
            let (head, parts) = parts(&self.definitions.texts[module]);
            text += &format!("{head}\n");
            for (name, body) in parts {
                if reading.definitions.contains(&(module.clone(), name)) {
                    text += &format!("\n{}\n", body.trim_end());
                }
            }
        }
        let shut: Vec<&str> = path.shut.iter().filter_map(|place| place.rsplit('/').next()).collect();
        if !shut.is_empty() {
            text += &format!("\nNeed not be opened: {}\n", shut.join(", "));
        }
        text
    }
}

/// A file of specs/: its head comment, and each definition with the comment above it.
fn parts(text: &str) -> (String, Vec<(String, String)>) {
    let head: Vec<&str> = text.lines().take_while(|line| line.starts_with("--")).collect();
    let (mut found, mut comment): (Vec<(String, String)>, String) = (Vec::new(), String::new());
    for line in text.lines().skip(head.len()).filter(|line| !line.starts_with("use ") && !line.starts_with("module ")) {
        if let Some(name) = begun(line) {
            found.push((name.to_string(), std::mem::take(&mut comment) + line + "\n"));
        } else if line.starts_with("--") {
            comment += &format!("{line}\n");
        } else if let Some((_, body)) = found.last_mut() {
            *body += &format!("{line}\n");
        }
    }
    (head.join("\n"), found)
}
