//! What is promised and what must be believed, read off the repository: the public functions with the definitions that their
//! contracts cite, the files in which those definitions stand, which of them each promise needs, the wrong programs and definitions that are
//! refused, and the C functions whose contracts the check assumes. `print` prints it as docs/TRUST.md has it, `write` puts it there, and `check`
//! holds the page to it. `read` prints what there is to read for one promise.
//! `check` also wants each definition in specs/ reached by the contract of some function: what only proofs need stands beside them.
//! The last line of `check` is the total.
//! Arguments: print, write or check, and the repository's folder; or read, the path's label, and the folder. What the proofs' check said is read from
//! target/log (after `scripts/build.sh library`), but for `read`.

mod paths;

use paths::{Paths, PATHS};
use std::collections::{BTreeMap, BTreeSet};
use std::fs;
use std::ops::Range;
use std::path::{Path, PathBuf};

/// The crates with the functions for designers: every `pub fn` and every exported C function, methods included.
const SHOWN: [&str; 6] = [
    "calls",
    "sheet_reader",
    "sheet_parse",
    "sheet_lines",
    "dimacs",
    "marrubigai",
];

/// Of `sheet_parse` it is the reader's method alone, of `sheet_lines` the depth line's; what asks something of its caller in `dimacs` is the program's.
fn is_shown(of: &str, it: &Public) -> bool {
    match of {
        "sheet_parse" => it.name == "next_line",
        "sheet_lines" => it.name == "read_depth",
        "dimacs" => !it.has_requires,
        _ => true,
    }
}

/// The crates whose functions the programs are put together from; what they promise must be believed too.
const PROGRAM: [&str; 6] = ["program_input", "program_output", "program_replay", "program_import", "program_one_port", "program_export"];

struct Repository(PathBuf);

/// The libraries of the kit, whose definitions are not ours.
const KIT: [&str; 6] = ["core", "std", "std_alloc", "std_collections", "std_heap", "std_io"];

/// A file of definitions: crate and module.
type Module = (String, String);

struct Public {
    file: String,
    name: String,
    has_requires: bool,
    /// The parameters that are lent for writing and of whose last contents nothing is promised.
    unsaid: Vec<String>,
    promises: Vec<Promise>,
}

/// An `ensures`.
struct Promise {
    called: String,
    says: String,
    /// The definitions that it cites.
    cited: Vec<(String, Module)>,
}

impl Repository {
    fn read(&self, path: &str) -> String {
        let whole = self.0.join(path);
        fs::read_to_string(&whole).unwrap_or_else(|error| panic!("{}: {error}", whole.display()))
    }

    fn files(&self, folder: &str, ending: &str) -> Vec<String> {
        let mut found = Vec::new();
        for entry in fs::read_dir(self.0.join(folder)).into_iter().flatten() {
            let name = entry.expect("an entry").file_name();
            let name = name.to_string_lossy();
            if name.ends_with(ending) {
                found.push(format!("{folder}/{name}"));
            }
        }
        found.sort();
        found
    }

    fn folders(&self, folder: &str) -> Vec<String> {
        let entries = fs::read_dir(self.0.join(folder)).expect("a folder");
        let mut found: Vec<String> = entries.map(|entry| entry.expect("an entry").file_name().to_string_lossy().into_owned()).collect();
        found.sort();
        found
    }

    /// The public functions of some crates.
    fn functions_of(&self, crates: &[&str], shown: fn(&str, &Public) -> bool) -> Vec<Public> {
        let mut all = Vec::new();
        for of in crates {
            for path in self.files(&format!("crates/{of}/src"), ".rt") {
                let text = self.read(&path);
                let found = functions(&path["crates/".len()..], &text);
                all.extend(found.into_iter().filter(|it| shown(of, it)));
            }
        }
        all
    }
}

/// What separates words, of code and of definitions.
fn words(text: &str) -> BTreeSet<&str> {
    text.split(|c: char| c.is_whitespace() || "(){}[];,.".contains(c)).collect()
}

/// Whether a name is one of the words; an operator where its parts are.
fn is_word(name: &str, words: &BTreeSet<&str>) -> bool {
    words.contains(name) || name.contains('◌') && name.split('◌').filter(|part| !part.is_empty()).all(|part| words.contains(part))
}

/// A text without its comments.
fn code(text: &str) -> String {
    let lines = text.lines().filter(|line| !line.trim_start().starts_with("--") && !line.trim_start().starts_with("//"));
    lines.map(|line| line.split(" -- ").next().unwrap_or("")).collect::<Vec<_>>().join("\n")
}

/// Where the names of a file come from that are definitions of ours: imported by name, or all of a module that has another name there.
fn sources(text: &str, modules: &BTreeMap<Module, Vec<(String, String)>>) -> BTreeMap<String, Module> {
    let mut found = BTreeMap::new();
    for line in text.lines().filter(|line| line.starts_with("use Rattle.") || line.starts_with("ghost use Rattle.")) {
        if let Some((module, names)) = import(line) {
            let whole = modules.get(&module).into_iter().flatten().map(|(name, _)| name.clone());
            let names = if names.is_empty() { whole.collect() } else { names };
            found.extend(names.into_iter().map(|name| (name, module.clone())));
        }
    }
    found
}

/// The name of the definition that a line of specs/ begins. In a module with parameters it stands further right, as a record's fields do, which are
/// no definitions.
fn begun(line: &str) -> Option<&str> {
    const STARTS: [&str; 5] = ["unfoldable", "abbrev", "pub", "record", "data"];
    let inner = line.strip_prefix("  ").filter(|inner| ["unfoldable ", "abbrev "].iter().any(|start| inner.starts_with(start)));
    let mut words = inner.unwrap_or(line).split(' ');
    let first = words.next().filter(|word| STARTS.contains(word));
    first.and_then(|_| words.find(|word| !STARTS.contains(word)))
}

/// The definitions of a file of specs/, each with its text: it begins at a line that says so and ends where the next begins.
fn defined(text: &str) -> Vec<(String, String)> {
    let mut found: Vec<(String, String)> = Vec::new();
    for line in code(text).lines().filter(|line| !["use ", "module ", "infix"].iter().any(|start| line.starts_with(start))) {
        if let Some(name) = begun(line) {
            found.push((name.to_string(), String::new()));
        }
        if let Some((_, body)) = found.last_mut() {
            *body += line;
            body.push('\n');
        }
    }
    found
}

/// A definition: its file and its name.
type Definition = (Module, String);

/// All definitions of specs/ by their files, and the files' texts.
struct Definitions {
    known: BTreeMap<Module, Vec<(String, String)>>,
    texts: BTreeMap<Module, String>,
}

impl Definitions {
    fn of(repository: &Repository) -> Definitions {
        let (mut known, mut texts) = (BTreeMap::new(), BTreeMap::new());
        for of in repository.folders("crates") {
            for path in repository.files(&format!("crates/{of}/specs"), ".antt") {
                let module = Path::new(&path).file_stem().expect("a name").to_string_lossy().into_owned();
                let text = repository.read(&path);
                if module != "Lib" {
                    known.insert((of.clone(), module.clone()), defined(&text));
                    texts.insert((of.clone(), module), text);
                }
            }
        }
        Definitions { known, texts }
    }

    /// The definitions that the contracts of all functions cite.
    fn cited(&self, repository: &Repository) -> Vec<Definition> {
        let mut found = Vec::new();
        for of in repository.folders("crates") {
            for path in repository.files(&format!("crates/{of}/src"), ".rt") {
                let text = repository.read(&path);
                let contracts: Vec<&str> = clauses(&text).into_iter().map(|clause| &text[clause]).collect();
                let contracts = contracts.join(" ");
                let sources = sources(&text, &self.known);
                found.extend(words(&contracts).into_iter().filter_map(|word| Some((sources.get(word)?.clone(), word.to_string()))));
            }
        }
        found
    }

    /// The definitions that these reach, themselves included; what is not to be opened is not reached.
    fn reached(&self, mut next: Vec<Definition>, shut: &[Definition]) -> BTreeSet<Definition> {
        let mut reached = BTreeSet::new();
        while let Some((module, name)) = next.pop() {
            let known = self.known.get(&module).map(Vec::as_slice).unwrap_or(&[]);
            // what is no definition's own name is a constructor of a type of the file
            let is_own = known.iter().any(|(other, _)| *other == name);
            let has = |body: &str| body.starts_with("pub data ") && words(body).contains(name.as_str());
            let wanted = |(own, body): &&(String, String)| *own == name || (!is_own && has(body));
            for (own, body) in known.iter().filter(wanted) {
                let one = (module.clone(), own.clone());
                if !shut.contains(&one) && reached.insert(one) {
                    let sources = sources(&self.texts[&module], &self.known);
                    let here = known.iter().map(|(other, _)| (other.clone(), module.clone()));
                    let all: BTreeMap<String, Module> = sources.into_iter().chain(here).collect();
                    let words = words(body);
                    next.extend(all.into_iter().filter(|(name, _)| is_word(name, &words)).map(|(name, module)| (module, name)));
                }
            }
        }
        reached
    }

    /// A definition by its place, crate/file/name.
    fn at(&self, place: &str) -> Definition {
        let parts: Vec<&str> = place.split('/').collect();
        let one = ((parts[0].to_string(), parts[1].to_string()), parts[2].to_string());
        let is_there = self.known.get(&one.0).map_or(false, |known| known.iter().any(|(name, _)| *name == one.1));
        assert!(is_there, "no definition {place}");
        one
    }

    /// How many lines of a file these definitions have, comments, imports and blanks left out.
    fn lines(&self, module: &Module, of: &BTreeSet<Definition>) -> usize {
        let here = self.known[module].iter().filter(|(name, _)| of.contains(&(module.clone(), name.clone())));
        here.map(|(_, body)| body.lines().filter(|line| !line.trim().is_empty()).count()).sum()
    }

    /// The definitions of specs/ that no contract reaches, as crate/name.
    fn unreached(&self, repository: &Repository) -> BTreeSet<String> {
        let reached = self.reached(self.cited(repository), &[]);
        let all = self.known.iter().flat_map(|(module, known)| known.iter().map(move |(name, _)| (module.clone(), name.clone())));
        all.filter(|one| !reached.contains(one)).map(|((of, _), name)| format!("{of}/{name}")).collect()
    }
}

fn path_of((of, module): &Module) -> String {
    format!("crates/{of}/specs/{module}.antt")
}

/// Where the clauses of a file's contracts stand, each from its word to the brace that closes it.
fn clauses(text: &str) -> Vec<Range<usize>> {
    let mut found = Vec::new();
    let mut start = 0;
    for line in text.split_inclusive('\n') {
        let head = line.trim_start();
        if ["requires ", "ensures "].iter().any(|word| head.starts_with(word)) {
            let begin = start + line.len() - head.len();
            let mut depth = 0;
            let end = text[begin..].find(|c: char| {
                depth += i32::from(c == '{') - i32::from(c == '}');
                c == '}' && depth == 0
            });
            found.push(begin..begin + end.expect("the clause's end"));
        }
        start += line.len();
    }
    found
}

/// The module and the names that a `use` line brings; none where it brings a declared type, or no definition of ours.
fn import(line: &str) -> Option<(Module, Vec<String>)> {
    let rest = line.split_once("Rattle.")?.1;
    let (of, rest) = rest.trim_end_matches(';').split_once(".specs.")?;
    if KIT.contains(&of) || rest.starts_with("declared") {
        return None;
    }
    let module = rest.split([' ', '.']).next()?.to_string();
    let names = match rest.split_once('{') {
        Some((_, names)) => names.trim_end_matches('}').split(", ").map(String::from).collect(),
        None => Vec::new(),
    };
    Some(((of.to_string(), module), names))
}

/// The public functions of a file, in its order. A contract goes from a function's head to the brace that opens its body, which
/// stands on a line of its own, as far to the right as the head.
fn functions(file: &str, text: &str) -> Vec<Public> {
    let mut cited: BTreeMap<String, Module> = BTreeMap::new();
    for line in text.lines().filter(|line| line.starts_with("ghost use Rattle.")) {
        if let Some((module, names)) = import(line) {
            for name in names {
                cited.insert(name, module.clone());
            }
        }
    }
    let mut found = Vec::new();
    let mut start = 0;
    for line in text.split_inclusive('\n') {
        let head = line.trim_start();
        let after = head.strip_prefix("pub fn ").or_else(|| head.strip_prefix("pub extern \"C\" fn "));
        if let Some(after) = after {
            let indent = &line[..line.len() - head.len()];
            let contract = text[start..].split(&format!("\n{indent}{{")).next().expect("a contract");
            let name = after.split(['(', '<']).next().unwrap_or(after);
            found.push(public(file, name, indent, contract, &cited));
        }
        start += line.len();
    }
    found
}

fn public(file: &str, name: &str, indent: &str, contract: &str, cited: &BTreeMap<String, Module>) -> Public {
    let requires = format!("\n{indent}    requires ");
    let ensures = format!("\n{indent}    ensures ");
    let mut clauses = contract.split(&ensures);
    let head = clauses.next().expect("a head").split(&requires).next().expect("a head");
    let mut promises = Vec::new();
    let mut ends = BTreeSet::new();
    for clause in clauses {
        let (called, body) = clause.split_once('{').expect("an ensures");
        // of a value with its field, as `result.verdict`, the value
        let words = body.split(|c: char| c.is_whitespace() || "(){}".contains(c));
        let words: BTreeSet<&str> = words.filter_map(|word| word.split('.').next()).collect();
        let definitions = cited.iter().filter(|(name, _)| words.contains(name.as_str()));
        promises.push(Promise {
            called: called.trim().to_string(),
            says: body.trim().strip_suffix('}').expect("the clause's end").trim().to_string(),
            cited: definitions.map(|(name, module)| (name.clone(), module.clone())).collect(),
        });
        ends.extend(body.split(|c: char| c.is_whitespace() || "(){},".contains(c)).map(String::from));
    }
    let lent = head.split(['(', ',']).filter_map(|parameter| {
        let (name, of) = parameter.split_once(": &")?;
        let is_mut = of.split([' ', '[']).take(2).any(|word| word == "mut");
        is_mut.then(|| name.trim().to_string())
    });
    let is_said = |new: &str| ends.iter().any(|word| word.strip_prefix(new).map_or(false, |rest| rest.is_empty() || rest.starts_with('.')));
    Public {
        file: file.to_string(),
        name: name.to_string(),
        has_requires: contract.contains(&requires),
        unsaid: lent.filter(|name| !is_said(&format!("{name}.new"))).collect(),
        promises,
    }
}

fn functions_block(functions: &[Public]) -> String {
    let mut text = String::from("| function | promise: the definitions that it cites |\n|---|---|\n");
    for it in functions {
        let own = it.file.split('/').next().expect("a crate");
        let promises = it.promises.iter().map(|promise| {
            let names: Vec<String> = promise.cited.iter().map(|(name, _)| format!("`{name}`")).collect();
            let called = if promise.called.is_empty() { String::new() } else { format!("{}: ", promise.called) };
            format!("{called}{}", names.join(" "))
        });
        let promises: Vec<String> = promises.collect();
        text += &format!("| [`{own}::{}`](../crates/{}) | {} |\n", it.name, it.file, promises.join("; "));
    }
    text
}

fn definitions_block<'a>(all: &Definitions, functions: impl Iterator<Item = &'a Public>) -> String {
    let cited = functions.flat_map(|it| it.promises.iter().flat_map(|promise| &promise.cited));
    let reached = all.reached(cited.map(|(name, module)| (module.clone(), name.clone())).collect(), &[]);
    let files: BTreeSet<&Module> = reached.iter().map(|(module, _)| module).collect();
    let mut by_crate: BTreeMap<&str, Vec<String>> = BTreeMap::new();
    let mut sum = 0;
    for module in &files {
        let lines = all.lines(module, &reached);
        sum += lines;
        by_crate.entry(&module.0).or_default().push(format!("{} ({lines})", module.1));
    }
    let mut text = String::from("| crate | definitions (lines) |\n|---|---|\n");
    for (of, files) in by_crate {
        text += &format!("| [{of}](../crates/{of}/specs) | {} |\n", files.join(", "));
    }
    text + &format!("\n{} files, {sum} lines, without comments, imports and blanks.\n", files.len())
}

/// What an edit makes wrong.
#[derive(Clone, Copy, PartialEq, Eq, PartialOrd, Ord)]
enum Wrong {
    Code,
    Definition,
    Promise,
}

/// What the replaced text is: a definition where it stands in specs/; in src/ a promise where it stands in a contract, and else code.
/// None of an import, which only goes with what uses it, nor of a proof file, where an answer takes its goal's other name.
fn wrong_of(path: &str, source: &str, at: usize) -> Option<Wrong> {
    if path.starts_with("proofs/") {
        return None;
    }
    let line = source[source[..at].rfind('\n').map_or(0, |end| end + 1)..].trim_start();
    if line.starts_with("use ") || line.starts_with("ghost use ") {
        return None;
    }
    if path.starts_with("specs/") {
        return Some(Wrong::Definition);
    }
    let is_contract = line.starts_with("ensures ") || line.starts_with("requires ") || clauses(source).iter().any(|clause| clause.contains(&at));
    Some(if is_contract { Wrong::Promise } else { Wrong::Code })
}

/// What a crate's edit makes wrong. Its lines 'file: PATH' and 'old: TEXT' say what is replaced.
fn wrongs(repository: &Repository, of: &str, edit: &str) -> BTreeSet<Wrong> {
    let mut found = BTreeSet::new();
    let mut path = "";
    let mut source = String::new();
    for line in edit.lines() {
        if let Some(file) = line.strip_prefix("file: ") {
            path = file;
            source = repository.read(&format!("crates/{of}/{file}"));
        } else if let Some(old) = line.strip_prefix("old: ") {
            found.extend(source.match_indices(old).filter_map(|(at, _)| wrong_of(path, &source, at)));
        }
    }
    found
}

/// The wrong versions of an edit that stand for a public function, by a line '# public: NAME' or '# public: NAME by FUNCTION, ..': one, or
/// those of the functions named, each of which is refused at a fact of its own.
fn stands_for<'a>(edit: &str, line: &'a str) -> Result<(&'a str, usize), String> {
    let (name, by) = match line.split_once(" by ") {
        Some((name, by)) => (name, by.split(", ").collect::<BTreeSet<&str>>()),
        None => return Ok((line, 1)),
    };
    let refused: BTreeSet<&str> = edit
        .lines()
        .filter_map(|line| Some(line.strip_prefix("# refused at: ")?.rsplit_once('/')?.0))
        .collect();
    match by.iter().find(|function| !refused.contains(*function)) {
        Some(function) => Err(format!("{name}: no fact at which {function} is refused")),
        None => Ok((name, by.len())),
    }
}

/// The edits that stand for a public function: wrong programs, then wrong definitions and promises.
/// Each is of one kind, and each function has two wrong programs.
fn edits_blocks(repository: &Repository, functions: &[Public]) -> ([String; 2], Vec<String>) {
    let mut count: BTreeMap<String, usize> = BTreeMap::new();
    let mut short = Vec::new();
    let mut programs = String::from("| wrong program | of | edit |\n|---|---|---|\n");
    let mut definitions = String::from("| wrong definition or promise | of | edit |\n|---|---|---|\n");
    for of in repository.folders("crates") {
        for path in repository.files(&format!("crates/{of}/must-fail"), ".edit") {
            let edit = repository.read(&path);
            let says = edit.lines().next().unwrap_or("").trim_start_matches("# ");
            let public = edit.lines().filter_map(|line| line.strip_prefix("# public: "));
            let mut names = Vec::new();
            let mut wrong_versions = Vec::new();
            for line in public {
                match stands_for(&edit, line) {
                    Ok((name, many)) => {
                        names.push(name);
                        wrong_versions.push(many);
                    }
                    Err(why) => short.push(format!("{path}: {why}")),
                }
            }
            if names.is_empty() {
                continue;
            }
            let wrong = wrongs(repository, &of, &edit);
            if wrong.len() != 1 {
                short.push(format!("{path} is not of one kind: code, definitions or promises"));
            }
            let is_code = wrong.contains(&Wrong::Code);
            for (name, many) in names.iter().zip(wrong_versions) {
                *count.entry(name.to_string()).or_default() += if is_code { many } else { 0 };
            }
            let file = Path::new(&path).file_stem().expect("a name").to_string_lossy().into_owned();
            let kind = if wrong.contains(&Wrong::Promise) { "promise: " } else { "definition: " };
            let (text, kind) = if is_code { (&mut programs, "") } else { (&mut definitions, kind) };
            *text += &format!("| {kind}{says} | `{}` | [{of}/{file}](../{path}) |\n", names.join("` `"));
        }
    }
    for it in functions {
        let programs = count.remove(&it.name).unwrap_or_default();
        if programs < 2 {
            short.push(format!("{} has {programs} wrong programs", it.name));
        }
    }
    short.extend(count.into_keys().map(|name| format!("no public function {name}")));
    ([programs, definitions], short)
}

/// What the check said that it assumes. It says so of the crates that no other imports, of all that these reach.
fn axioms_block(repository: &Repository) -> String {
    let list = repository.read("crates.txt");
    let lines = list.lines().filter(|line| !line.starts_with('#')).filter_map(|line| line.split_once(':'));
    let (mut tops, mut imported) = (BTreeSet::new(), BTreeSet::new());
    for (head, imports) in lines {
        tops.extend(head.split_whitespace().next());
        imported.extend(imports.split_whitespace());
    }
    let mut text = String::new();
    for name in tops.difference(&imported) {
        let said = fs::read_to_string(repository.0.join(format!("target/log/{name}.say"))).unwrap_or_default();
        if !said.lines().any(|line| line.starts_with("logic=proved ")) {
            eprintln!("target/log has no check of {name}: make test first, or scripts/build.sh library");
            std::process::exit(2);
        }
        for line in said.lines().filter(|line| line.starts_with("axioms ") && !line.contains(": none reached ")) {
            text += &format!("{name}: {line}\n");
        }
    }
    format!("```\n{text}```\n")
}

fn main() {
    let arguments: Vec<String> = std::env::args().skip(1).collect();
    let arguments: Vec<&str> = arguments.iter().map(String::as_str).collect();
    let (mode, label, folder) = match arguments.as_slice() {
        [mode @ ("print" | "write" | "check"), folder] => (*mode, "", *folder),
        ["read", label, folder] => ("read", *label, *folder),
        _ => {
            eprintln!("arguments: print, write or check, the repository's folder; or read, a path's label, the folder");
            std::process::exit(2);
        }
    };
    let repository = Repository(PathBuf::from(folder));
    let functions = repository.functions_of(&SHOWN, is_shown);
    let program = repository.functions_of(&PROGRAM, |_, _| true);
    let all = Definitions::of(&repository);
    let paths = Paths::of(&repository, &all, functions.iter().chain(&program).collect());
    if mode == "read" {
        match PATHS.iter().find(|path| path.label == label) {
            Some(path) => print!("{}", paths.text(path)),
            None => {
                eprintln!("the paths are {}", PATHS.map(|path| path.label).join(", "));
                std::process::exit(2);
            }
        }
        return;
    }
    let ([programs, definitions], short) = edits_blocks(&repository, &functions);
    let blocks = [
        ("functions", functions_block(&functions)),
        ("paths", paths.block()),
        ("definitions", definitions_block(&all, functions.iter().chain(&program))),
        ("assumed", axioms_block(&repository)),
        ("wrong programs", programs),
        ("wrong definitions", definitions),
    ];
    if mode == "print" {
        for (name, text) in &blocks {
            println!("<!-- {name} -->\n{text}<!-- end -->");
        }
        return;
    }
    let mut page = repository.read("docs/TRUST.md");
    if mode == "write" {
        for (name, text) in &blocks {
            let (before, rest) = page.split_once(&format!("<!-- {name} -->\n")).expect("the block's begin");
            let after = rest.split_once("<!-- end -->").expect("the block's end").1;
            page = format!("{before}<!-- {name} -->\n{text}<!-- end -->{after}");
        }
        fs::write(repository.0.join("docs/TRUST.md"), page).expect("docs/TRUST.md");
        return;
    }
    let (mut passed, mut failed) = (0, 0);
    let mut check = |name: String, holds: bool| {
        if holds {
            passed += 1;
        } else {
            failed += 1;
            println!("FAILED: {name}");
        }
    };
    for (name, text) in &blocks {
        let whole = format!("<!-- {name} -->\n{text}<!-- end -->");
        check(format!("docs/TRUST.md's {name} are not what the repository has (make promises)"), page.contains(&whole));
    }
    for it in &functions {
        check(format!("{} has a requires", it.name), !it.has_requires);
        check(format!("{} promises nothing", it.name), !it.promises.is_empty());
        check(format!("{} says nothing of the last contents of {:?}", it.name, it.unsaid), it.unsaid.is_empty());
    }
    for what in short {
        check(what, false);
    }
    let faults = paths.faults();
    check(format!("the paths: {}", faults.join(", ")), faults.is_empty());
    for name in all.unreached(&repository) {
        check(format!("{name} is reached by no contract: it belongs to proofs/"), false);
    }
    println!("{passed} passed, {failed} failed");
    if failed > 0 {
        std::process::exit(1);
    }
}
