//! The file `answer`: one that cannot be opened or read, one that comes in pieces, and ones that are longer than any memory for them.

use std::fs::{self, File, OpenOptions};
use std::io::Write;
use std::os::unix::fs::{symlink, OpenOptionsExt};
use std::process::Command;
use std::thread;
use std::time::Duration;

use super::process::{collect, shown, start};
use super::reference::check_examples::{input, FULL_RUN};
use super::reference::refusal::BAD_ANSWER;
use super::reference::Tally;
use super::replays::{refused, Replay};

/// What an answer that is read whole makes the program print.
const RUN: &[u8] = b"1\n10\n01\n";
const O_NONBLOCK: i32 = 0o4000;

/// A file that cannot be opened is an empty answer, and one that cannot be read ends where that is noticed.
pub fn unreadable(replay: &Replay, tally: &mut Tally) {
    let file = replay.file();
    let bytes = input(1, FULL_RUN);
    let judge = |tally: &mut Tally, name: &str| {
        let printed = replay.program.agrees(tally, name, &bytes);
        tally.equal(name, printed, refused(BAD_ANSWER));
        let deep = replay.program.agrees(tally, name, &input(256, FULL_RUN));
        tally.equal((name, "depth 256"), deep, refused(7));
    };
    let _ = fs::remove_file(&file);
    judge(tally, "no file");
    tally.check("none is made", !file.exists());
    symlink("missing", &file).expect("a link");
    judge(tally, "a link to nothing");
    fs::remove_file(&file).expect("the link");
    symlink("answer", &file).expect("a link");
    judge(tally, "a link to itself");
    fs::remove_file(&file).expect("the link");
    fs::create_dir(&file).expect("a folder");
    judge(tally, "a folder");
    fs::remove_dir(&file).expect("the folder");
    File::create(&file).expect("a file");
    judge(tally, "an empty file");
}

/// Texts with what they make the program print, each cut into pieces at every place.
const TEXTS: [(&str, &[u8]); 5] = [
    ("s SATISFIABLE\nv 2 -4 2147483647\nv 0\nc\n", RUN),
    ("c\ns UNSATISFIABLE\nc v 1\n", b"claimed unsatisfiable\n"),
    (
        "s SATISFIABLE\nv 2 -4 2147483648\nv 0\n",
        b"refused        14         0\n",
    ),
    (
        "s SATISFIABLE\nv 2 -4 10 0 10 0\n",
        b"refused        14         0\n",
    ),
    (
        "s SATISFIABLE\nv 2 -4  0\n",
        b"refused        14         0\n",
    ),
];

/// However the bytes come: a comment moves the text to and fro over the end of a piece of every likely size; and in a pipe, byte by byte.
pub fn pieces(replay: &Replay, tally: &mut Tally) {
    let bytes = input(1, FULL_RUN);
    for (text, expected) in TEXTS {
        for size in [4_096, 65_536] {
            for cut in 0..=text.len() {
                let mut answer = vec![b'c'; size - cut];
                answer[size - cut - 1] = b'\n';
                answer.extend(text.bytes());
                let name = format!("{text:?} cut at {cut} by {size}");
                replay.prints(tally, &name, &bytes, &answer, expected);
            }
        }
        for size in [1, 3, 7] {
            let printed = through_pipe(replay, &bytes, text.as_bytes(), size);
            tally.equal(("in a pipe by", size, text), printed, expected.to_vec());
        }
    }
}

/// What the program prints with a pipe for its answer that is written in pieces.
fn through_pipe(replay: &Replay, bytes: &[u8], text: &[u8], size: usize) -> Vec<u8> {
    let file = replay.file();
    let _ = fs::remove_file(&file);
    let made = Command::new("mkfifo").arg(&file).status().expect("mkfifo");
    assert!(made.success(), "mkfifo");
    let output = thread::scope(|scope| {
        scope.spawn(|| {
            let mut pipe = OpenOptions::new()
                .write(true)
                .open(&file)
                .expect("the pipe");
            for piece in text.chunks(size) {
                // the program may have seen enough
                if pipe.write_all(piece).and_then(|()| pipe.flush()).is_err() {
                    break;
                }
                thread::sleep(Duration::from_micros(300));
            }
        });
        let output = replay.program.run(bytes).output;
        // a program that never opened the pipe must not leave its writer waiting
        drop(
            OpenOptions::new()
                .read(true)
                .custom_flags(O_NONBLOCK)
                .open(&file),
        );
        output
    });
    fs::remove_file(&file).expect("the pipe");
    output
}

/// Twice as much address space as the program needs with its C library, and much less than any of these answers.
const ADDRESS_SPACE: &str = "ulimit -v 16384; exec \"$0\"";

/// Long answers, with an address space that does not grow with them.
pub fn long(replay: &Replay, tally: &mut Tally) {
    let file = replay.file();
    let million = |text: &str| text.repeat(1_000_000 / text.len());
    let rows: [(&str, &str, String, usize, &str, &[u8]); 6] = [
        (
            "a comment of 50 MB",
            "s SATISFIABLE\nc",
            million("comment "),
            50,
            "\nv 2 -4 0\n",
            RUN,
        ),
        (
            "a comment of 50 MB without its end",
            "s UNSATISFIABLE\nc",
            million("c"),
            50,
            "",
            b"refused        14         0\n",
        ),
        (
            "30 MB of comments",
            "",
            million("c v 1 0\n"),
            30,
            "s UNSATISFIABLE\n",
            b"claimed unsatisfiable\n",
        ),
        (
            "30 MB of values",
            "s SATISFIABLE\n",
            million("v 2 -4 1198081 -2147483647\n"),
            30,
            "v 0\n",
            RUN,
        ),
        (
            "30 MB of values in a line",
            "s SATISFIABLE\nv",
            million(" 2 -4 3 -3"),
            30,
            " 0\n",
            RUN,
        ),
        (
            "a number of 30 MB",
            "s SATISFIABLE\nv 2 -4 ",
            million("1"),
            30,
            " 0\n",
            b"refused        14         0\n",
        ),
    ];
    for (name, before, part, parts, behind, expected) in rows {
        let mut answer = File::create(&file).expect("a file");
        answer
            .write_all(before.as_bytes())
            .expect("writing the answer");
        for _ in 0..parts {
            answer
                .write_all(part.as_bytes())
                .expect("writing the answer");
        }
        answer
            .write_all(behind.as_bytes())
            .expect("writing the answer");
        drop(answer);
        let mut child = start(&mut replay.program.under_shell(ADDRESS_SPACE));
        let mut stdin = child.stdin.take().expect("piped");
        stdin
            .write_all(&input(1, FULL_RUN))
            .expect("the program reads its input");
        drop(stdin);
        let ran = collect(child);
        tally.check_with(name, ran.ended_well() && ran.output == expected, || {
            format!(
                ": {}, printed {}, said {}",
                ran.status,
                shown(&ran.output),
                shown(&ran.errors)
            )
        });
    }
    fs::remove_file(&file).expect("the answer");
}
