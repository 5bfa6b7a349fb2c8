//! The examples of docs/FORMAT.md: each block of shell commands is run, with the program on the path, and
//! must print the block of text behind it; each sheet that is shown with its spaces is run as well.

use std::path::Path;
use std::process::Command;

use super::process::{collect, shown, start, Program};
use super::reference::Tally;

/// A fenced block: what stands behind its opening fence, and its lines.
struct Block {
    kind: String,
    text: String,
}

fn blocks(page: &str) -> Vec<Block> {
    let mut found: Vec<Block> = Vec::new();
    let mut inside = false;
    for line in page.lines() {
        match line.strip_prefix("```") {
            Some(_) if inside => inside = false,
            Some(kind) => {
                inside = true;
                found.push(Block {
                    kind: kind.to_string(),
                    text: String::new(),
                });
            }
            None if inside => {
                let block = found.last_mut().expect("a block was opened");
                block.text += line;
                block.text += "\n";
            }
            None => {}
        }
    }
    found
}

/// Blocks come in pairs: `sh` or `input`, then `output`. In `input` a dot `·` stands for a space. The
/// commands of all blocks run in one folder, in their order.
pub fn examples(program: &Program, tally: &mut Tally, page: &Path, folder: &Path) {
    let text = std::fs::read_to_string(page).expect("the page");
    let all = blocks(&text);
    let home = program
        .path()
        .parent()
        .expect("the program's folder")
        .display();
    let path = format!("{home}:{}", std::env::var("PATH").unwrap_or_default());
    for pair in all.chunks(2) {
        let (asked, answer) = match pair {
            [asked, answer] => (asked, answer),
            _ => panic!("a block without its output"),
        };
        tally.check(("output block", &answer.kind), answer.kind == "output");
        let output = match asked.kind.as_str() {
            "input" => program.run(asked.text.replace('·', " ").as_bytes()).output,
            "sh" => {
                let mut command = Command::new("sh");
                command
                    .arg("-ec")
                    .arg(&asked.text)
                    .current_dir(folder)
                    .env("PATH", &path);
                collect(start(&mut command)).output
            }
            kind => panic!("block of unknown kind {kind}"),
        };
        tally.check_with(&asked.text, output == answer.text.as_bytes(), || {
            format!(": printed {}", shown(&output))
        });
    }
    tally.check(
        "the page has examples of both kinds",
        all.iter().any(|it| it.kind == "sh") && all.iter().any(|it| it.kind == "input"),
    );
}
