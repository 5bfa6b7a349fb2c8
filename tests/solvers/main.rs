//! Demand 3 with public solvers: what `frames` prints is solved by CaDiCaL and MiniSat, and every answer
//! is held to the simulated chip of the second implementation; and K13, the source of each read. The last line is the total.
//! Arguments: the program `frames`, a folder for scratch files, the folder of the examples.
//! Build: rustc -O --edition 2021 main.rs (Debian's packages libcadical-dev and g++)

mod blind;
mod cadical;
mod cases;
mod judge;
mod programs;
#[path = "../runner/reference.rs"]
mod reference;
mod sources;
mod stories;
mod wrong;

use std::path::PathBuf;

use cadical::Cadical;
use std::collections::HashSet;

use cases::{
    all_runs, depends_on_read_bit, depends_on_second, small_cases, two_port_cases, unknown_cases,
    Case,
};
use judge::{judge, read_dimacs, Faults};
use programs::{Answer, Programs};
use reference::agreement::{all_feeds, all_memories, variable, Frames};
use reference::circuit::Run;
use reference::sheet::{expand, read_sheet};
use reference::tally::{Report, Tally};

/// Random sheets of each kind that the program's formulas are judged on.
const SHEETS: usize = 1600;

fn main() {
    let arguments: Vec<PathBuf> = std::env::args_os().skip(1).map(PathBuf::from).collect();
    let (frames, scratch, examples) = match arguments.as_slice() {
        [frames, scratch, examples] => (frames, scratch, examples),
        _ => {
            eprintln!("arguments: frames, scratch folder, folder of the examples");
            std::process::exit(2);
        }
    };
    let programs = Programs::new(frames.clone(), scratch.clone());
    let mut report = Report::default();
    report.family("strict reading", |tally| strict_reading(tally, &programs));
    report.family("the full run's sheet", |tally| full_run(tally, &programs));
    report.family("reads that must agree", |tally| agreeing_reads(tally, &programs));
    report.family("both ports' reads", |tally| both_reads(tally, &programs));
    report.family("starting memories", starting_memories);
    report.family("random M sheets", |tally| {
        let unknown = judged(tally, &programs, &small_cases(1, SHEETS), &SHAPES);
        tally.check(("an unknown start", unknown), 10 * unknown >= SHEETS);
    });
    report.family("random T sheets", |tally| {
        judged(tally, &programs, &two_port_cases(6, SHEETS), &TWO_PORT_SHAPES);
    });
    report.family("stories", |tally| {
        stories::stories(tally, &programs, examples)
    });
    report.family("wrong generators", |tally| {
        wrong::wrong_generators(tally, &programs)
    });
    report.family("wrong generators of two ports", |tally| {
        wrong::wrong_two_ports(tally, &programs)
    });
    report.family("reads that depend on the other port's", |tally| {
        blind::loops_between_ports(tally, &programs)
    });
    report.family("sources in all assignments", |tally| {
        sources::all_assignments(tally, &programs)
    });
    report.family("sources in solvers' answers", |tally| {
        sources::answers(tally, &programs)
    });
    report.family("second assignments", |tally| {
        sources::second_assignments(tally, &programs)
    });
    report.family("doubled formulas as files", |tally| {
        sources::doubled_files(tally, &programs)
    });
    report.family("wrong generators and their sources", sources::wrong_generators);
    report.finish()
}

/// Both solvers take a file whose header counts right, and refuse one whose header does not.
fn strict_reading(tally: &mut Tally, programs: &Programs) {
    let texts = [
        ("as it should be", "p cnf 2 2\n1 -2 0\n2 0\n", true),
        ("a clause too few", "p cnf 2 3\n1 -2 0\n2 0\n", false),
        ("a clause too many", "p cnf 2 1\n1 -2 0\n2 0\n", false),
    ];
    for (name, text, taken) in texts {
        for answer in programs.solve(text.as_bytes()) {
            tally.check((name, &answer), answer.is_satisfiable() == taken);
        }
    }
    let beyond = programs.solve(b"p cnf 1 2\n1 -2 0\n2 0\n");
    let refused = matches!(beyond[0], Answer::Refused(_));
    tally.check(
        ("a variable beyond the header, by CaDiCaL", beyond),
        refused,
    );
}

/// RULES P8 and P10. Depth 0: nothing breaks the property. Depth 1: every assignment has the input true in frame 0.
fn full_run(tally: &mut Tally, programs: &Programs) {
    let sheet = expand("N 1 0 0/M 1 1 0/A 0/D 2/C 1 1 5");
    let netlist = read_sheet(&sheet, 0, 0).expect("the sheet of the full run");
    let input = variable(&netlist, 0, 1);
    for (depth, satisfiable) in [(0, false), (1, true)] {
        let text = programs.frames(&netlist, depth);
        let judgement = judge(programs, &netlist, depth, &text);
        tally.equal(
            ("faults at depth", depth),
            judgement.faults,
            Faults::default(),
        );
        tally.check(("all runs at depth", depth), judgement.all_runs);
        tally.equal(
            ("verdict at depth", depth),
            judgement.satisfiable,
            satisfiable,
        );
        for answer in programs.solve(&text) {
            let input_true = match answer {
                Answer::Satisfiable(model) => model[input],
                _ => false,
            };
            tally.equal(
                ("input of frame 0 at depth", depth),
                input_true,
                satisfiable,
            );
        }
    }
    let formula = read_dimacs(&programs.frames(&netlist, 1)).expect("a formula");
    let mut solver = Cadical::new(formula.variables, &formula.numbers);
    let other = solver.solve(&[-(input as i32)]);
    tally.equal("input false in frame 0", other, None);
}

/// Whether two reads in a row differ: wires input 1, latches 2 (a frame has been) and 3 (what it read), read bit 4, and gates of which
/// the last is their AND. It reads in every frame and never writes.
const READS_DIFFER: &str = "L 1 0/L 8 0/G 6 9/G 7 8/G 11 13/G 4 15";

/// With an unknown start, two reads of one address agree, and reads of two need not.
fn agreeing_reads(tally: &mut Tally, programs: &Programs) {
    for (start, address, satisfiable) in [("", 0, false), ("", 2, true), (" 0", 2, false), (" 1", 0, false)] {
        let sheet = expand(&format!("N 1 2 4/M 1 1{start}/{READS_DIFFER}/A {address}/D 0/C 0 1 17"));
        let netlist = read_sheet(&sheet, 2, 4).expect("an accepted sheet");
        for depth in [0, 1, 2, 5] {
            let name = (start, address, depth);
            let text = programs.frames(&netlist, depth);
            let judgement = judge(programs, &netlist, depth, &text);
            tally.equal((name, "faults"), judgement.faults, Faults::default());
            tally.check((name, "all runs"), judgement.all_runs);
            tally.equal((name, "verdict"), judgement.satisfiable, satisfiable && depth > 0);
        }
        let formula = read_dimacs(&programs.frames(&netlist, 1)).expect("a formula");
        let mut solver = Cadical::new(formula.variables, &formula.numbers);
        let [first, second] = [0, 1].map(|frame| variable(&netlist, frame, 1) as i32);
        for (assumed, possible) in [
            ([first, second], false),
            ([-first, -second], false),
            ([first, -second], satisfiable),
            ([-first, second], satisfiable),
        ] {
            let found = solver.solve(&assumed).is_some();
            tally.equal((start, address, assumed), found, possible);
        }
    }
}

/// Whether the words read at once differ: wires inputs 1 to 3, read bits 4 and 5, and gates of which the last is their equality. Both addresses are
/// input 1 or 2, input 3 is written in every frame.
const READS_EQUAL: &str = "G 8 11/G 9 10/G 13 15";

/// The second port's address and RE, and whether the words can differ up to frames 0, 1 and 2. The start word is 0.
const BOTH_READS: [(&str, &str, [bool; 3]); 7] = [
    // one address: one word
    ("2", "1", [false, false, false]),
    // an address of its own, or never the first one: from frame 1 on a written word is read beside one that is not
    ("4", "1", [false, true, true]),
    ("3", "1", [false, true, true]),
    // address 0 alone
    ("0", "1", [false, true, true]),
    // a port that never reads has any word in frame 0, and keeps it
    ("2", "0", [true, true, true]),
    // it does not read while input 2 is false
    ("2", "4", [true, true, true]),
    ("2", "5", [true, true, true]),
];

/// By hand: two reads of one address in a frame are one word, and the second port's idle word is its own.
fn both_reads(tally: &mut Tally, programs: &Programs) {
    for (address, enable, breaks) in BOTH_READS {
        let sheet = expand(&format!("N 3 0 3/T 1 1 0/{READS_EQUAL}/A 2/D 6/B {address}/R {enable}/C 1 1 16"));
        let netlist = read_sheet(&sheet, 0, 3).expect("an accepted sheet");
        for (depth, satisfiable) in breaks.into_iter().enumerate() {
            let name = (address, enable, depth);
            let depth = depth as u32;
            let text = programs.frames(&netlist, depth);
            let judgement = judge(programs, &netlist, depth, &text);
            tally.equal((name, "faults"), judgement.faults, Faults::default());
            tally.check((name, "all runs"), judgement.all_runs);
            tally.equal((name, "verdict"), judgement.satisfiable, satisfiable);
        }
    }
    // Where only input 2 enables the second port, the words of frame 1 differ only if it is false there, or other words were read in frame 0.
    let sheet = expand(&format!("N 3 0 3/T 1 1 0/{READS_EQUAL}/A 2/D 6/B 2/R 4/C 1 1 16"));
    let netlist = read_sheet(&sheet, 0, 3).expect("an accepted sheet");
    let formula = read_dimacs(&programs.frames(&netlist, 1)).expect("a formula");
    let mut solver = Cadical::new(formula.variables, &formula.numbers);
    let [first, second] = [0, 1].map(|frame| variable(&netlist, frame, 2) as i32);
    for (assumed, possible) in [
        ([first, second], false),
        ([first, -second], true),
        ([-first, second], true),
        ([-first, -second], true),
    ] {
        tally.equal(assumed, solver.solve(&assumed).is_some(), possible);
    }
}

/// The runs that `all_runs` finds for an unknown start are those from each whole starting memory.
fn starting_memories(tally: &mut Tally) {
    let is_small = |case: &&Case| {
        let netlist = &case.netlist;
        let feed_bits = netlist.data_width + netlist.inputs * (case.depth + 1);
        netlist.data_width << netlist.address_width <= 6 && feed_bits <= 9
    };
    let cases = unknown_cases(4, 600);
    let mut runs = 0;
    let small: Vec<&Case> = cases.iter().filter(is_small).collect();
    for (index, Case { netlist, depth }) in small.iter().enumerate() {
        let from_memories: HashSet<Frames> = all_memories(netlist)
            .iter()
            .flat_map(|memory| {
                all_feeds(netlist, *depth).map(|feeds| Run::from_memory(netlist, memory, &feeds).frames)
            })
            .collect();
        let found = all_runs(netlist, *depth, 15).expect("few free bits");
        runs += found.len();
        let found: HashSet<Frames> = found.into_iter().map(|run| run.frames).collect();
        tally.check((index, netlist, depth), found == from_memories);
    }
    tally.check(("sheets", small.len()), small.len() >= 100);
    tally.remark = format!(" ({} sheets, {runs} runs)", small.len());
}

type Shape = (&'static str, fn(&Case) -> bool);

/// What the random M sheets must have often.
#[rustfmt::skip]
const SHAPES: [Shape; 11] = [
    ("k = 0", |it| it.depth == 0),
    ("k = 4", |it| it.depth == 4),
    ("m = 1", |it| it.netlist.address_width == 1),
    ("m = 3", |it| it.netlist.address_width == 3),
    ("n = 1", |it| it.netlist.data_width == 1),
    ("n = 3", |it| it.netlist.data_width == 3),
    ("unknown start", |it| it.netlist.has_unknown_start()),
    ("no input", |it| it.netlist.inputs == 0),
    ("no latch", |it| it.netlist.latch_count == 0),
    ("RE not constant", |it| it.netlist.read_enable > 1),
    ("WE depends on a read bit", |it| depends_on_read_bit(&it.netlist, it.netlist.write_enable)),
];

/// What the random T sheets must have often.
#[rustfmt::skip]
const TWO_PORT_SHAPES: [Shape; 14] = [
    ("k = 0", |it| it.depth == 0),
    ("k = 4", |it| it.depth == 4),
    ("m = 1", |it| it.netlist.address_width == 1),
    ("m = 2", |it| it.netlist.address_width == 2),
    ("n = 1", |it| it.netlist.data_width == 1),
    ("n = 2", |it| it.netlist.data_width == 2),
    ("no input", |it| it.netlist.inputs == 0),
    ("no latch", |it| it.netlist.latch_count == 0),
    ("one RE constant, the other not", |it| (it.netlist.read_enable > 1) != (it.netlist.second_read_enable > 1)),
    ("no RE constant", |it| it.netlist.read_enable > 1 && it.netlist.second_read_enable > 1),
    ("both addresses the same", |it| it.netlist.address == it.netlist.second_address),
    ("the addresses differ", |it| it.netlist.address != it.netlist.second_address),
    ("P depends on a second read bit", |it| depends_on_second(&it.netlist, it.netlist.property)),
    ("write data depends on a second read bit", |it| depends_on_second(&it.netlist, it.netlist.write_data[0])),
];

/// Judges the program's formulas; answers on how many sheets with an unknown start all runs were compared.
fn judged(tally: &mut Tally, programs: &Programs, cases: &[Case], shapes: &[Shape]) -> usize {
    let (mut satisfiable, mut all_runs, mut breaking) = (0, [0, 0], 0);
    let mut unknown = 0;
    for (index, Case { netlist, depth }) in cases.iter().enumerate() {
        let text = programs.frames(netlist, *depth);
        let judgement = judge(programs, netlist, *depth, &text);
        let right =
            judgement.faults == Faults::default() && depends_on_read_bit(netlist, netlist.property);
        tally.check((index, depth, &judgement, netlist), right);
        satisfiable += usize::from(judgement.satisfiable);
        all_runs[usize::from(judgement.satisfiable)] += usize::from(judgement.all_runs);
        breaking += judgement.breaking_runs;
        unknown += usize::from(judgement.all_runs && netlist.has_unknown_start());
    }
    let sheets = cases.len();
    for (name, has_shape) in shapes {
        let count = cases.iter().filter(|case| has_shape(case)).count();
        tally.check((name, count), 10 * count >= sheets);
    }
    tally.check(("satisfiable", satisfiable), 4 * satisfiable >= sheets);
    tally.check(
        ("unsatisfiable", satisfiable),
        4 * (sheets - satisfiable) >= sheets,
    );
    let compared = all_runs[0] + all_runs[1];
    tally.check(
        ("sheets with all runs compared", compared),
        2 * compared >= sheets,
    );
    tally.remark = format!(
        " ({satisfiable} satisfiable, {} not; all runs compared on {} and {} of them, {breaking} breaking; {unknown} of these sheets have an unknown start)",
        sheets - satisfiable,
        all_runs[1],
        all_runs[0],
    );
    unknown
}
