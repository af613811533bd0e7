//! Times each call of the archive and of the twin on the same inputs, and prints a table. Where it is
//! linked to an earlier version's archive too, that one is timed beside them.

mod face;
mod inputs;

use std::hint::black_box;
use std::time::{Duration, Instant};

use face::{Calls, Now};
use inputs::Input;
use twin::{marks, question, record};

/// Rounds of each side; the median counts.
const ROUNDS: usize = 101;
/// A round lasts at least this long.
const ROUND: Duration = Duration::from_millis(5);
/// Bytes of the buffer that is written into.
const BUFFER: usize = 128;

/// One pass over the inputs.
type Pass = fn(&[Input]);

/// The passes of one call: the archive's, the twin's, and the earlier archive's if there is one.
macro_rules! sides {
    ($archive:ident, $twin:ident) => {
        &[
            $archive::<Now> as Pass,
            $twin,
            #[cfg(before)]
            $archive::<face::Before>,
        ]
    };
}

fn main() {
    let earlier =
        if cfg!(before) { format!("{:>10}{:>8}", "before", "ratio") } else { String::new() };
    println!("{:<32}{:>10}{:>10}{:>8}{earlier}", "call", "archive", "twin", "ratio");
    let ships = inputs::ships();
    row("marks", &ships, sides!(archive_marks, twin_marks));
    let timber = inputs::timber_ships();
    row("marks with timber", &timber, sides!(archive_marks, twin_marks));
    row("read", &ships, sides!(archive_read, twin_read));
    row("write", &ships, sides!(archive_write, twin_write));
    let hits = inputs::early_hits();
    row("question, answer 1 to 10 dm", &hits, sides!(archive_question, twin_question));
    let searches = inputs::full_searches();
    row("question, refusal 16 at 365 m", &searches, sides!(archive_question, twin_question));
}

/// Times all sides, and prints the mean over the inputs in the median round. An earlier version may
/// have other answers.
fn row(call: &str, inputs: &[Input], sides: &[Pass]) {
    assert!(inputs.iter().all(agree), "the two sides do not agree");
    let passes = sides.iter().map(|&side| passes(inputs, side)).max().unwrap_or(1);
    let mut times = vec![Vec::new(); sides.len()];
    for round in 0..ROUNDS {
        // The sides take turns, and take turns at going first.
        for turn in 0..sides.len() {
            let side = (round + turn) % sides.len();
            let time = time(inputs, sides[side], passes);
            times[side].push(time.as_nanos() as f64 / (passes * inputs.len()) as f64);
        }
    }
    let times: Vec<f64> = times.into_iter().map(median).collect();
    let (archive, twin) = (times[0], times[1]);
    print!("{call:<32}{:>10}{:>10}{:>8.2}", shown(archive), shown(twin), archive / twin);
    for &before in &times[2..] {
        print!("{:>10}{:>8.2}", shown(before), before / twin);
    }
    println!();
}

/// Times of different work would say nothing.
fn agree(input: &Input) -> bool {
    let marks = record::read(&input.record).and_then(|ship| marks::marks(&ship));
    let timber = marks.ok().and_then(|marks| marks.timber).unwrap_or_default();
    let poop = question::shortest_poop(&input.record, input.height, input.wish);
    let mut buffer = [0; BUFFER];
    let written = Now::write(&mut buffer, &input.flat).bytes as usize;
    let given = Now::marks(&input.record);
    given.s == marks.map_or(0, |marks| marks.summer)
        && (given.ls, given.ltf) == (timber.summer, timber.tropical_fresh)
        && Now::shortest_poop(&input.record, input.height, input.wish).decimetres as i64
            == poop.unwrap_or(0)
        && Now::read(&input.record).ship.kind == input.raw.kind
        && Now::read(&input.record).ship.timber == u64::from(input.raw.timber)
        && Now::read(&input.record).ship.length == input.raw.length
        && Now::read(&input.record).ship.houses[0].beam == input.raw.houses[0].beam
        && buffer[..written] == input.record
}

/// Passes that fill a round; this also warms up.
fn passes(inputs: &[Input], pass: Pass) -> usize {
    let mut passes = 1;
    while time(inputs, pass, passes) < ROUND {
        passes *= 2;
    }
    passes
}

fn time(inputs: &[Input], pass: Pass, passes: usize) -> Duration {
    let start = Instant::now();
    for _ in 0..passes {
        pass(black_box(inputs));
    }
    start.elapsed()
}

fn median(mut times: Vec<f64>) -> f64 {
    times.sort_by(f64::total_cmp);
    times[times.len() / 2]
}

/// Nanoseconds in a unit that suits them.
fn shown(ns: f64) -> String {
    match ns {
        ..10_000.0 => format!("{ns:.0} ns"),
        _ => format!("{:.0} us", ns / 1000.0),
    }
}

fn archive_marks<A: Calls>(inputs: &[Input]) {
    for input in inputs {
        black_box(&A::marks(&input.record));
    }
}

fn twin_marks(inputs: &[Input]) {
    for input in inputs {
        black_box(&record::read(&input.record).and_then(|ship| marks::marks(&ship)));
    }
}

fn archive_read<A: Calls>(inputs: &[Input]) {
    for input in inputs {
        black_box(&A::read(&input.record));
    }
}

fn twin_read(inputs: &[Input]) {
    for input in inputs {
        black_box(&record::read(&input.record));
    }
}

fn archive_write<A: Calls>(inputs: &[Input]) {
    let mut buffer = [0; BUFFER];
    for input in inputs {
        black_box(&A::write(&mut buffer, &input.flat));
        black_box(&mut buffer);
    }
}

fn twin_write(inputs: &[Input]) {
    let mut buffer = [0; BUFFER];
    for input in inputs {
        black_box(&record::write(&mut buffer, &input.raw));
        black_box(&mut buffer);
    }
}

fn archive_question<A: Calls>(inputs: &[Input]) {
    for input in inputs {
        black_box(&A::shortest_poop(&input.record, input.height, input.wish));
    }
}

fn twin_question(inputs: &[Input]) {
    for input in inputs {
        black_box(&question::shortest_poop(&input.record, input.height, input.wish));
    }
}
