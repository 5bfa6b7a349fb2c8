//! Holds citations and quotes to docs/RULES.md: each paragraph of the page has one label and no label stands twice; every citation
//! names a rule that is not given up, and a range of labels spans such rules alone; a phrase in quotes directly behind a label stands
//! in that paragraph, pieces in order around `..`; in the comments of definitions and code every other quote has its source named; each
//! file of definitions that docs/TRUST.md lists cites a rule; and no file but those that may names the customer's paper.
//! Argument: the repository's folder. The last line is the total.

use std::collections::BTreeMap;
use std::fs;
use std::path::Path;

/// In two pieces, so that this file has neither the name alone nor the paper's.
const PAGE_NAME: &str = concat!("RUL", "ES");
const PAPER: [&str; 3] = [concat!("document", " 01"), concat!("document", "-01"), concat!("document", "_01")];

const PAGE: &str = "docs/RULES.md";
/// Where the demands are quoted, and the only words there that name the paper.
const DEMANDS: &str = "docs/TRUST.md";
const PAPER_IN_DEMAND: &str = concat!("under document", " 01's numbering and frame rules");
/// The pages of what was decided and when.
const MAY_NAME_PAPER: [&str; 2] = ["docs/DECISIONS.md", "docs/LANDINGS.md"];

/// What else may be quoted in comments: named in front of the quote, behind the quote before it.
const SOURCES: [&str; 3] = ["Ganai et al.", "AIGER", "DIMACS"];
/// A word that the customer coined; it has to stand on the page.
const COINED: [&str; 2] = ["the customer's", "The customer's"];

/// What stands before the table of the definitions to be believed, each file of which cites a rule.
const DEFINITIONS: &str = "<!-- definitions -->";

/// What stands behind the label of a rule that is given up, before the labels of those that hold instead.
const GIVEN_UP: &str = ".** Given up for ";

type Paragraphs = BTreeMap<String, String>;

#[derive(Default)]
struct Tally {
    passed: usize,
    failed: usize,
}

impl Tally {
    fn check(&mut self, holds: bool, fault: impl FnOnce() -> String) {
        if holds {
            self.passed += 1;
        } else {
            self.failed += 1;
            println!("{}", fault());
        }
    }
}

/// Lines joined by single spaces, without the marks of comments, and where each line begins.
#[derive(Default)]
struct Joined {
    text: String,
    begins: Vec<(usize, usize)>,
}

impl Joined {
    fn push(&mut self, number: usize, line: &str) {
        if !self.text.is_empty() {
            self.text.push(' ');
        }
        self.begins.push((self.text.len(), number));
        self.text.push_str(line.trim());
    }

    fn line_at(&self, offset: usize) -> usize {
        self.begins.iter().rev().find(|(begin, _)| *begin <= offset).map_or(0, |(_, number)| *number)
    }
}

/// What stands on a line behind the mark of a comment, where the line begins with one.
fn behind_mark(line: &str) -> Option<&str> {
    let line = line.trim();
    let marks = ["//!", "///", "//", "--", "/*", "* ", "#"];
    marks.iter().find_map(|mark| line.strip_prefix(mark))
}

fn whole(text: &str) -> Joined {
    let mut joined = Joined::default();
    for (index, line) in text.lines().enumerate() {
        joined.push(index + 1, behind_mark(line).unwrap_or(line));
    }
    joined
}

/// The comments of a file, each with all its lines.
fn comments(text: &str) -> Vec<Joined> {
    let mut found = vec![Joined::default()];
    for (index, line) in text.lines().enumerate() {
        match behind_mark(line) {
            Some(rest) => found.last_mut().expect("one at least").push(index + 1, rest),
            None => found.push(Joined::default()),
        }
        if let (None, Some(at)) = (behind_mark(line), line.find(" -- ").or_else(|| line.find(" // "))) {
            found.last_mut().expect("one at least").push(index + 1, &line[at + 4..]);
            found.push(Joined::default());
        }
    }
    found
}

/// A label at the start of a text, and what is behind it.
fn label_at(text: &str) -> Option<(&str, &str)> {
    let digits = text.get(1..)?.bytes().take_while(u8::is_ascii_digit).count();
    let next = text.as_bytes().get(1 + digits);
    let ends = next.map_or(true, |byte| !byte.is_ascii_alphanumeric() && *byte != b'_');
    (text.as_bytes()[0].is_ascii_uppercase() && digits > 0 && ends).then(|| text.split_at(1 + digits))
}

/// The first of these at the start of a text, removed.
fn without<'a>(text: &'a str, starts: &[&str]) -> Option<&'a str> {
    starts.iter().find_map(|start| text.strip_prefix(start))
}

/// Whether the pieces of a quote stand in a text, in their order.
fn stands_in(quote: &str, text: &str) -> bool {
    let mut rest = text;
    quote.split("..").map(str::trim).filter(|piece| !piece.is_empty()).all(|piece| match rest.find(piece) {
        Some(at) => {
            rest = &rest[at + piece.len()..];
            true
        }
        None => false,
    })
}

fn word_begins(text: &str, at: usize) -> bool {
    !text[..at].ends_with(|before: char| before.is_alphanumeric() || before == '_')
}

/// The page's labelled paragraphs, tables and printed texts included; behind a heading one paragraph without a label may stand.
fn paragraphs(page: &str, tally: &mut Tally) -> Paragraphs {
    let mut found = Paragraphs::new();
    let (mut label, mut begun, mut behind_heading, mut in_code) = (String::new(), false, false, false);
    let body = page.find("\n## ").map_or("", |at| &page[at..]);
    for line in body.lines() {
        if line.starts_with("```") {
            in_code = !in_code;
            begun = true;
        } else if in_code || line.starts_with('|') || (begun && !line.is_empty()) {
            tally.check(line.matches("**").count() == 0, || format!("{PAGE}: a label inside a paragraph: {line}"));
        } else if line.is_empty() {
            begun = false;
            continue;
        } else if line.starts_with("## ") {
            (label, behind_heading) = (String::new(), true);
            continue;
        } else {
            let start = line.strip_prefix("**").and_then(label_at).filter(|(_, rest)| rest.starts_with(".** "));
            let may_lack = behind_heading && !line.starts_with("**");
            tally.check(start.is_some() || may_lack, || format!("{PAGE}: a paragraph without a label: {line}"));
            label = start.map_or(String::new(), |(name, _)| name.to_string());
            tally.check(!found.contains_key(&label), || format!("{PAGE}: {label} stands twice"));
            (begun, behind_heading) = (true, false);
        }
        if !label.is_empty() {
            let text = found.entry(label.clone()).or_insert_with(String::new);
            text.push_str(if text.is_empty() { "" } else { " " });
            text.push_str(line);
        }
    }
    for (own, text) in &found {
        let words = text.split(|c: char| !c.is_alphanumeric()).filter_map(label_at);
        for (cited, _) in words.filter(|(cited, _)| cited != own) {
            tally.check(is_rule(&found, cited), || format!("{PAGE}: {cited} is no rule: {text}"));
        }
        let mut words = text.split(' ').map(|word| word.trim_start_matches('('));
        while let Some(word) = words.next() {
            let range = label_at(word).filter(|(_, rest)| rest.is_empty()).zip(words.clone().next().filter(|to| *to == "to"));
            let last = words.clone().nth(1).and_then(label_at);
            if let (Some(((first, _), _)), Some((last, _))) = (range, last) {
                let spans = between(first, last).unwrap_or_default();
                tally.check(spans.iter().all(|label| is_rule(&found, label)), || format!("{PAGE}: {first} to {last} spans what is no rule: {text}"));
            }
        }
    }
    found
}

/// Whether the page has a rule under this label, one that is not given up.
fn is_rule(rules: &Paragraphs, label: &str) -> bool {
    rules.get(label).map_or(false, |text| !text.contains(GIVEN_UP))
}

/// The labels between the two ends of a range; none where the ends are no range.
fn between(first: &str, last: &str) -> Option<Vec<String>> {
    let number = |label: &str| label[1..].parse::<u32>().ok();
    let (from, to) = (number(first)?, number(last)?);
    (first[..1] == last[..1] && from < to).then(|| (from + 1..to).map(|inner| format!("{}{inner}", &first[..1])).collect())
}

/// A citation: where it stands, and its labels, each with the quotes directly behind it and where they begin; and its ranges.
struct Citation<'a> {
    at: usize,
    labels: Vec<(&'a str, Vec<(usize, &'a str)>)>,
    ranges: Vec<(&'a str, &'a str)>,
}

fn citations(text: &str) -> Vec<Citation<'_>> {
    let mut found = Vec::new();
    for (at, _) in text.match_indices(PAGE_NAME).filter(|(at, _)| word_begins(text, *at)) {
        let mut rest = &text[at + PAGE_NAME.len()..];
        if rest.starts_with(".md") || rest.starts_with(|next: char| next.is_alphanumeric() || next == '_') {
            continue;
        }
        let (mut labels, mut ranges) = (Vec::new(), Vec::new());
        let mut next = rest.strip_prefix(' ').and_then(label_at);
        while let Some((label, behind)) = next {
            rest = behind;
            let mut quotes = Vec::new();
            while let Some(quoted) = without(rest, &[", \"", ": \"", " (\"", " \""]) {
                let end = quoted.find('"').unwrap_or(quoted.len());
                quotes.push((text.len() - quoted.len() - 1, &quoted[..end]));
                rest = quoted.get(end + 1..).unwrap_or("");
            }
            labels.push((label, quotes));
            next = without(rest, &[", and ", ", ", " and ", " to ", " or "]).and_then(label_at);
            if let (Some((last, _)), true) = (next, rest.starts_with(" to ")) {
                ranges.push((label, last));
            }
        }
        found.push(Citation { at, labels, ranges });
    }
    found
}

/// Checks that every citation names labels of the page, and that their paragraphs have the words quoted.
fn cited(path: &str, joined: &Joined, rules: &Paragraphs, tally: &mut Tally) {
    for citation in citations(&joined.text) {
        let place = format!("{path}:{}", joined.line_at(citation.at));
        tally.check(!citation.labels.is_empty(), || format!("{place}: a citation without a label"));
        for (first, last) in citation.ranges {
            let inner = between(first, last);
            tally.check(inner.is_some(), || format!("{place}: {first} to {last} is no range"));
            for label in inner.unwrap_or_default() {
                tally.check(is_rule(rules, &label), || format!("{place}: {first} to {last} spans {label}, which is no rule of {PAGE}"));
            }
        }
        for (label, quotes) in citation.labels {
            let paragraph = rules.get(label);
            tally.check(is_rule(rules, label), || format!("{place}: {label} is no rule of {PAGE}"));
            for (_, quote) in quotes {
                let holds = paragraph.map_or(false, |paragraph| stands_in(quote, paragraph));
                tally.check(holds, || format!("{place}: {label} does not say \"{quote}\""));
            }
        }
    }
}

/// The demand that is named last in a text.
fn demand_named(text: &str) -> Option<&str> {
    let at = text.rfind("emand ")?;
    text[at + 6..].get(..1).filter(|number| "123".contains(number))
}

/// Checks that every quote of a comment that is not behind a label has its source named in front of it.
fn sources(path: &str, comment: &Joined, page: &str, demands: &str, tally: &mut Tally) {
    let text = &comment.text;
    let labels = citations(text).into_iter().flat_map(|citation| citation.labels);
    let behind_labels: Vec<usize> = labels.flat_map(|(_, quotes)| quotes).map(|(at, _)| at).collect();
    let marks: Vec<usize> = text.match_indices('"').map(|(at, _)| at).collect();
    if marks.len() % 2 == 1 {
        tally.check(false, || format!("{path}:{}: a quote without an end", comment.line_at(marks[0])));
    }
    let mut from = 0;
    for pair in marks.chunks_exact(2) {
        let (before, quote) = (&text[from..pair[0]], &text[pair[0] + 1..pair[1]]);
        from = pair[1] + 1;
        if behind_labels.contains(&pair[0]) {
            continue;
        }
        let row = demand_named(before).and_then(|number| demands.split(&format!("\n| {number}. ")).nth(1));
        let holds = match row {
            Some(row) => stands_in(quote, row.lines().next().unwrap_or("")),
            None if COINED.iter().any(|name| before.contains(name)) => page.contains(quote),
            None => SOURCES.iter().any(|name| before.contains(name)),
        };
        tally.check(holds, || format!("{path}:{}: no source, or not its words: \"{quote}\"", comment.line_at(pair[0])));
    }
}

/// Whether a folder is one that `rt` makes in a crate.
fn is_made(path: &str) -> bool {
    path.starts_with("crates/") && path.ends_with("/out") && path.split('/').count() == 3
}

/// The repository's files, but what is built and what git keeps.
fn files(root: &Path, folder: &str, found: &mut Vec<String>) {
    let mut entries: Vec<_> = fs::read_dir(root.join(folder)).expect("a folder").map(|entry| entry.expect("an entry")).collect();
    entries.sort_by_key(|entry| entry.file_name());
    for entry in entries {
        let name = entry.file_name().to_string_lossy().to_string();
        let path = if folder.is_empty() { name.clone() } else { format!("{folder}/{name}") };
        if !entry.file_type().expect("a type").is_dir() {
            found.push(path);
        } else if name != ".git" && path != "target" && !is_made(&path) {
            files(root, &path, found);
        }
    }
}

/// Where a text names the customer's paper.
fn names_paper(text: &str) -> Option<usize> {
    let text = text.to_ascii_lowercase();
    PAPER.iter().find_map(|name| text.find(name))
}

/// The files of the table of definitions: a row is `| [crate](folder) | Name (lines), .. |`.
fn definitions(page: &str) -> Vec<String> {
    let table = page.split(DEFINITIONS).nth(1).and_then(|rest| rest.split("<!--").next()).unwrap_or("");
    let rows = table.lines().filter_map(|row| row.strip_prefix("| [")?.split_once(']'));
    let name = |entry: &str| entry.trim().split(' ').next().unwrap_or("").to_string();
    let names = |row: &str| row.split('|').nth(1).unwrap_or("").split(", ").map(name).collect::<Vec<_>>();
    rows.flat_map(|(of, rest)| names(rest).into_iter().map(move |name| format!("crates/{of}/specs/{name}.antt"))).collect()
}

fn main() {
    let root = match std::env::args().nth(1) {
        Some(root) => root,
        None => {
            eprintln!("argument: the repository's folder");
            std::process::exit(2);
        }
    };
    let root = Path::new(&root);
    let read = |path: &str| fs::read_to_string(root.join(path)).unwrap_or_else(|error| panic!("{path}: {error}"));
    let (page, demands) = (read(PAGE), read(DEMANDS));
    let mut tally = Tally::default();
    let rules = paragraphs(&page, &mut tally);
    tally.check(!rules.is_empty(), || format!("{PAGE} has no rule"));

    let listed = definitions(&demands);
    tally.check(!listed.is_empty(), || format!("{DEMANDS} lists no definitions"));
    for path in &listed {
        let cites = citations(&whole(&read(path)).text).iter().any(|citation| !citation.labels.is_empty());
        tally.check(cites, || format!("{path}: cites no rule"));
    }

    let mut paths = Vec::new();
    files(root, "", &mut paths);
    for path in &paths {
        let bytes = fs::read(root.join(path)).unwrap_or_else(|error| panic!("{path}: {error}"));
        let text = String::from_utf8_lossy(&bytes);
        let mut joined = whole(&text);
        cited(path, &joined, &rules, &mut tally);
        if path == DEMANDS {
            joined.text = joined.text.replacen(PAPER_IN_DEMAND, &" ".repeat(PAPER_IN_DEMAND.len()), 1);
        }
        if !MAY_NAME_PAPER.contains(&path.as_str()) {
            let named = names_paper(path).map(|_| 0).or_else(|| names_paper(&joined.text).map(|at| joined.line_at(at)));
            tally.check(named.is_none(), || format!("{path}:{}: names the customer's paper by its number", named.unwrap_or(0)));
        }
        let parts: Vec<&str> = path.split('/').collect();
        if parts[0] == "crates" && parts.len() > 3 && ["specs", "src"].contains(&parts[2]) {
            for comment in comments(&text) {
                sources(path, &comment, &page, &demands, &mut tally);
            }
        }
    }
    println!("{} passed, {} failed", tally.passed, tally.failed);
    std::process::exit(i32::from(tally.failed > 0));
}
