//! Faults of the streams: input in pieces or cut off, output that fails. On a failed write the program
//! says so on standard error and stops; what came before is never passed off as whole, because the
//! heading's count is above the clauses that came.

use std::fs::{self, File};
use std::io::{Read, Write};
use std::os::unix::io::OwnedFd;
use std::os::unix::net::UnixStream;
use std::path::Path;
use std::process::{Child, Command, Stdio};
use std::thread;
use std::time::{Duration, Instant};

use super::process::{collect, shown, start, whole, Program, Ran};
use super::reference::check_examples::{input, FULL_RUN, RICH};
use super::reference::check_ports::largest_two_port_sheet;
use super::reference::netlist::MAX_DEPTH;
use super::reference::sheet::write_depth;
use super::reference::Tally;

const PAUSE: Duration = Duration::from_millis(1);
/// Longer than any of these runs takes; one that is still there is taken for hanging.
const PATIENCE: Duration = Duration::from_secs(20);

/// A formula that is longer than every buffer between the two programs.
fn long_input() -> Vec<u8> {
    input(60, RICH)
}

fn in_pieces(program: &Program, bytes: &[u8], size: usize, pause: bool) -> Ran {
    let mut child = start(&mut program.command());
    let mut stdin = child.stdin.take().expect("piped");
    for piece in bytes.chunks(size) {
        // A program that has seen enough may have ended.
        if stdin.write_all(piece).is_err() {
            break;
        }
        if pause {
            thread::sleep(PAUSE);
        }
    }
    drop(stdin);
    collect(child)
}

/// Input in pieces of many sizes, with pauses, so that each read answers one piece; and cut off anywhere.
pub fn pieces(program: &Program, tally: &mut Tally) {
    let largest = [write_depth(0), largest_two_port_sheet()].concat();
    let too_long = [largest.clone(), vec![b'\n'; 3_000]].concat();
    let whole = input(1, FULL_RUN);
    let rows: [(&str, &[u8], usize, bool); 10] = [
        ("single bytes", &whole, 1, true),
        ("single bytes, refused", b"         1\nN", 1, true),
        ("single bytes, cut off in the depth", &whole[..7], 1, true),
        ("single bytes, cut off in a line", &whole[..100], 1, true),
        ("single bytes without a pause", &largest, 1, false),
        ("three bytes", &whole, 3, true),
        ("pieces of 11 and less", &whole, 11, true),
        ("pieces of 997", &largest, 997, true),
        ("pieces of 4,096", &largest, 4_096, true),
        ("pieces of 997, too long", &too_long, 997, true),
    ];
    for (name, bytes, size, pause) in rows {
        let ran = in_pieces(program, bytes, size, pause);
        let holds = ran.ended_well() && ran.output == program.expected(bytes);
        tally.check_with(name, holds, || said(&ran));
    }
}

/// A standard input that cannot be read further has ended: what came until then is judged.
pub fn unreadable_input(program: &Program, tally: &mut Tally) {
    let rows = [
        ("closed", "exec \"$0\" <&-"),
        ("a directory", "exec \"$0\" </"),
        ("empty", "exec \"$0\" </dev/null"),
    ];
    for (name, script) in rows {
        let ran = collect(start(&mut program.under_shell(script)));
        judged(program, tally, name, &ran, b"");
    }
    let whole = input(1, FULL_RUN);
    for length in [0, 7, 11, 100, whole.len()] {
        // The other end stays open, and a read fails where nothing has come yet.
        let (mut writer, reader) = UnixStream::pair().expect("a pair of sockets");
        reader
            .set_nonblocking(true)
            .expect("a socket that does not wait");
        writer
            .write_all(&whole[..length])
            .expect("writing the input");
        let child = program
            .command()
            .stdin(Stdio::from(OwnedFd::from(reader)))
            .stdout(Stdio::piped())
            .stderr(Stdio::piped())
            .spawn()
            .expect("the program");
        let ran = collect(child);
        judged(
            program,
            tally,
            &format!("fails after {length} bytes"),
            &ran,
            &whole[..length],
        );
    }
}

fn judged(program: &Program, tally: &mut Tally, name: &str, ran: &Ran, bytes: &[u8]) {
    let holds = ran.status.success() && ran.output == program.expected(bytes);
    tally.check_with(name, holds, || said(ran));
}

fn said(ran: &Ran) -> String {
    format!(
        ": {}, output {}, standard error {}",
        ran.status,
        shown(&ran.output),
        shown(&ran.errors)
    )
}

/// Waits for the end of a program that should stop by itself, and reads its messages.
fn stopped(mut child: Child, output: Vec<u8>) -> Option<Ran> {
    let begin = Instant::now();
    loop {
        if let Some(status) = child.try_wait().expect("waiting for the program") {
            let errors = whole(child.stderr.take());
            return Some(Ran {
                output,
                errors,
                status,
            });
        }
        if begin.elapsed() > PATIENCE {
            child.kill().expect("ending the program");
            child.wait().expect("waiting for the program");
            return None;
        }
        thread::sleep(PAUSE);
    }
}

/// Feeds the whole input; the output goes where the command says.
fn begin(command: &mut Command, output: Stdio, bytes: &[u8]) -> Child {
    let mut child = command
        .stdin(Stdio::piped())
        .stdout(output)
        .stderr(Stdio::piped())
        .spawn()
        .expect("a shell");
    child
        .stdin
        .take()
        .expect("piped")
        .write_all(bytes)
        .expect("the program reads its input");
    child
}

/// What a run whose output failed may have left: a message, a beginning of the right text, and fewer
/// clauses than its heading counts.
fn is_defined_failure(ran: &Ran, expected: &[u8]) -> bool {
    ran.status.success() && !ran.errors.is_empty() && is_unfinished(&ran.output, expected)
}

fn is_unfinished(output: &[u8], expected: &[u8]) -> bool {
    let heading = output
        .split_inclusive(|byte| *byte == b'\n')
        .next()
        .filter(|line| line.ends_with(b"\n"));
    let counted = heading.and_then(|line| {
        let line = std::str::from_utf8(line).ok()?;
        line.trim_end()
            .strip_prefix("p cnf ")?
            .split(' ')
            .nth(1)?
            .parse::<usize>()
            .ok()
    });
    let came = output
        .iter()
        .filter(|byte| **byte == b'\n')
        .count()
        .saturating_sub(1);
    expected.starts_with(output)
        && output.len() < expected.len()
        && counted.map_or(true, |count| came < count)
}

fn expect_failure(tally: &mut Tally, name: &str, ran: Option<Ran>, expected: &[u8]) {
    match ran {
        None => tally.check((name, "does not stop"), false),
        Some(ran) => tally.check_with(name, is_defined_failure(&ran, expected), || said(&ran)),
    }
}

/// Output that can never be written: a full device, a closed stream. A refusal that is lost counts too.
pub fn no_output(program: &Program, tally: &mut Tally) {
    for (name, script) in [
        ("full device", "exec \"$0\" >/dev/full"),
        ("closed output", "exec \"$0\" >&-"),
    ] {
        for bytes in [input(1, FULL_RUN), long_input(), b"?".to_vec()] {
            let child = begin(&mut program.under_shell(script), Stdio::null(), &bytes);
            expect_failure(
                tally,
                name,
                stopped(child, Vec::new()),
                &program.expected(&bytes),
            );
        }
    }
}

/// A reader that closes its end after some bytes. The start code of today's Rattle ignores the signal that
/// such a write sends, as a caller may, so the program gets the error.
pub fn closed_pipe(program: &Program, tally: &mut Tally) {
    let bytes = long_input();
    let expected = program.expected(&bytes);
    for (taken, ignored) in [0, 1, 5, 4_096, 100_000]
        .into_iter()
        .flat_map(|taken| [(taken, false), (taken, true)])
    {
        let script = if ignored {
            "trap '' PIPE; exec \"$0\""
        } else {
            "exec \"$0\""
        };
        let mut child = begin(&mut program.under_shell(script), Stdio::piped(), &bytes);
        let mut pipe = child.stdout.take().expect("piped");
        let mut output = vec![0; taken];
        pipe.read_exact(&mut output).expect("the formula is longer");
        drop(pipe);
        let name = format!("closed after {taken} bytes, signal ignored: {ignored}");
        let ran = stopped(child, output);
        expect_failure(tally, &name, ran, &expected);
    }
}

/// A file that may not grow further: the bytes up to its limit are a beginning of the text.
pub fn file_limit(program: &Program, tally: &mut Tally, folder: &Path) {
    let bytes = long_input();
    let path = folder.join("limited");
    for blocks in [1, 16, 128] {
        let file = File::create(&path).expect("a file for the output");
        let script = format!("ulimit -f {blocks}; trap '' XFSZ; exec \"$0\"");
        let child = begin(&mut program.under_shell(&script), Stdio::from(file), &bytes);
        let ran = stopped(child, Vec::new()).map(|ran| Ran {
            output: fs::read(&path).expect("the output"),
            ..ran
        });
        let full = ran
            .as_ref()
            .map_or(false, |ran| ran.output.len() >= 512 * blocks);
        tally.check(("the file has its limit's length", blocks), full);
        expect_failure(
            tally,
            &format!("file limit of {blocks} blocks"),
            ran,
            &program.expected(&bytes),
        );
    }
    fs::remove_file(&path).expect("removing the output");
}

/// A stream that fails only for a moment: a write fails while it is full, and then the reader makes room.
/// A program that went on printing after a failure would leave a text with a gap. Here the reader waits
/// for the message, and then reads what more there is.
/// A program that goes on may have come to its end before there is room, so this is done several times.
pub fn passing_failure(program: &Program, tally: &mut Tally) {
    let bytes = input(MAX_DEPTH, RICH);
    let expected = program.expected(&bytes);
    for _ in 0..8 {
        let (mut child, mut reader) = without_waiting(program, &bytes);
        let mut message = vec![0; 1];
        let pipe = child.stderr.as_mut().expect("piped");
        let came = pipe.read(&mut message).expect("reading the messages");
        let mut output = Vec::new();
        reader.read_to_end(&mut output).expect("reading the output");
        let ran = stopped(child, output).map(|ran| Ran {
            errors: [&message[..came], &ran.errors].concat(),
            ..ran
        });
        expect_failure(tally, "full until the message came", ran, &expected);
    }
}

/// The same with a reader that is only too slow: the text is whole, or it ends at the first failure.
pub fn repeated_failure(program: &Program, tally: &mut Tally) {
    let bytes = input(MAX_DEPTH, RICH);
    let expected = program.expected(&bytes);
    let (child, mut reader) = without_waiting(program, &bytes);
    let mut output = Vec::new();
    let mut piece = [0; 500];
    loop {
        match reader.read(&mut piece).expect("reading the output") {
            0 => break,
            count => output.extend_from_slice(&piece[..count]),
        }
    }
    let ran = stopped(child, output);
    let holds = ran.as_ref().map_or(false, |ran| {
        is_defined_failure(ran, &expected) || ran.ended_well() && ran.output == expected
    });
    tally.check_with("full again and again", holds, || {
        ran.as_ref().map_or("does not stop".to_string(), said)
    });
}

/// The program with an output that fails where another would wait, and the reader's end of it.
fn without_waiting(program: &Program, bytes: &[u8]) -> (Child, UnixStream) {
    let (reader, writer) = UnixStream::pair().expect("a pair of sockets");
    writer
        .set_nonblocking(true)
        .expect("a socket that does not wait");
    let mut command = program.command();
    // The command holds the writer's end too: the output ends only once it is dropped here.
    let child = begin(&mut command, Stdio::from(OwnedFd::from(writer)), bytes);
    (child, reader)
}

/// A reader that takes its time: the program waits and nothing is lost.
pub fn slow_reader(program: &Program, tally: &mut Tally) {
    let bytes = long_input();
    let mut child = begin(&mut program.command(), Stdio::piped(), &bytes);
    let mut pipe = child.stdout.take().expect("piped");
    let mut output = Vec::new();
    let mut piece = [0; 30_001];
    loop {
        thread::sleep(PAUSE);
        let count = pipe.read(&mut piece).expect("reading the output");
        if count == 0 {
            break;
        }
        output.extend_from_slice(&piece[..count]);
    }
    let ran = stopped(child, output);
    let holds = ran.as_ref().map_or(false, |ran| {
        ran.ended_well() && ran.output == program.expected(&bytes)
    });
    tally.check("slow reader", holds);
}
