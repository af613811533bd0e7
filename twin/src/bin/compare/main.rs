//! The archive's calls against the twin: `compare SEED COUNT [sheer] PROGRAM...`.
//!
//! The program is answer.c, linked to the archive. It gets COUNT inputs drawn from SEED, in batches;
//! with `sheer` they are all around the borders of regulation 38. The first answer that differs from
//! the twin's ends the run.

mod border;
mod fine;
mod flat;
mod frame;
mod heads;
mod input;
mod judge;
mod lists;
mod sheer;
mod sides;
mod tally;
mod timber;

use std::io::{Read, Write};
use std::process::{Child, ChildStdin, Command, ExitCode, Stdio};
use std::sync::mpsc::{self, Receiver, SyncSender};
use std::thread;

use frame::{Answer, ANSWER, BATCH};
use input::Input;
use tally::Tally;
use twin::random::Random;

const USAGE: &str = "usage: compare SEED COUNT [sheer] PROGRAM...";
/// Batches drawn ahead of the one that is judged.
const AHEAD: usize = 4;
/// So many inputs show every refusal.
const ENOUGH: u64 = 1_000_000;

/// What is asked for.
#[derive(Clone, Copy)]
struct Run {
    seed: u64,
    count: u64,
    /// All inputs around the borders of sheer.
    sheer: bool,
}

fn main() -> ExitCode {
    let arguments: Vec<String> = std::env::args().skip(1).collect();
    let Some((run, program)) = parsed(&arguments) else {
        eprintln!("{USAGE}");
        return ExitCode::from(2);
    };
    match compare(run, program) {
        Ok(tally) => {
            println!("{tally}");
            match tally.unseen() {
                // Not every refusal comes of ships about sheer.
                Some(refusal) if run.count >= ENOUGH && !run.sheer => {
                    eprintln!("refusal {refusal} was never seen");
                    ExitCode::FAILURE
                }
                _ => ExitCode::SUCCESS,
            }
        }
        Err(why) => {
            println!("seed {}, {why}", run.seed);
            ExitCode::FAILURE
        }
    }
}

fn parsed(arguments: &[String]) -> Option<(Run, &[String])> {
    let [seed, count, rest @ ..] = arguments else { return None };
    let (sheer, program) = match rest {
        [first, program @ ..] if first == "sheer" => (true, program),
        program => (false, program),
    };
    let run = Run { seed: seed.parse().ok()?, count: count.parse().ok()?, sheer };
    (!program.is_empty()).then_some((run, program))
}

fn compare(run: Run, program: &[String]) -> Result<Tally, String> {
    let mut child = Command::new(&program[0])
        .args(&program[1..])
        .stdin(Stdio::piped())
        .stdout(Stdio::piped())
        .spawn()
        .map_err(|error| format!("{}: {error}", program[0]))?;
    let requests = child.stdin.take().expect("a pipe was asked for");
    let (sender, batches) = mpsc::sync_channel(AHEAD);
    // Feeding and reading at once, lest the two programs wait for each other with full pipes.
    let feeder = thread::spawn(move || feed(run, requests, sender));
    let result = judge_all(&mut child, batches, Tally::new(run.sheer));
    if result.is_err() {
        // It may have ended by itself; the difference is what matters.
        let _ = child.kill();
    }
    let _ = feeder.join();
    let status = child.wait().map_err(|error| error.to_string())?;
    match result {
        Ok(_) if !status.success() => Err(format!("{}: {status}", program[0])),
        result => result,
    }
}

/// Draws the inputs and sends them, a batch to the judge first and then to the program.
fn feed(run: Run, mut requests: ChildStdin, sender: SyncSender<Vec<Input>>) {
    let draw = if run.sheer { Input::draw_sheer } else { Input::draw };
    let mut random = Random::new(run.seed);
    let mut left = run.count;
    while left > 0 {
        let size = left.min(BATCH as u64);
        let inputs: Vec<Input> = (0..size).map(|_| draw(&mut random)).collect();
        let bytes = frame::batch(&inputs);
        // Either fails only when the other side has ended, which is told there.
        if sender.send(inputs).is_err() || requests.write_all(&bytes).is_err() {
            return;
        }
        left -= size;
    }
}

/// Reads each batch's answers and compares them with the twin's.
fn judge_all(
    child: &mut Child,
    batches: Receiver<Vec<Input>>,
    mut tally: Tally,
) -> Result<Tally, String> {
    let mut answers = child.stdout.take().expect("a pipe was asked for");
    let mut bytes = vec![0; BATCH * ANSWER];
    for inputs in batches {
        let bytes = &mut bytes[..inputs.len() * ANSWER];
        let first = tally.inputs + 1;
        answers.read_exact(bytes).map_err(|error| {
            format!("input {first} to {}: no answer: {error}", tally.inputs + inputs.len() as u64)
        })?;
        for (input, bytes) in inputs.iter().zip(bytes.chunks_exact(ANSWER)) {
            let twin = judge::worked(input);
            if let Some(how) = judge::difference(input, &Answer::from_bytes(bytes), &twin) {
                return Err(format!("input {} ({}): {how}", tally.inputs + 1, input.kind));
            }
            tally.add(input, &twin);
        }
    }
    Ok(tally)
}

#[cfg(test)]
mod tests {
    use super::*;

    #[test]
    fn arguments() {
        let of = |line: &str| {
            let words: Vec<String> = line.split(' ').map(String::from).collect();
            parsed(&words).map(|(run, program)| (run.seed, run.count, run.sheer, program.join(" ")))
        };
        assert_eq!(of("1 20 answer"), Some((1, 20, false, "answer".into())));
        assert_eq!(of("1 20 sheer run answer"), Some((1, 20, true, "run answer".into())));
        assert_eq!(of("1 20 run sheer"), Some((1, 20, false, "run sheer".into())));
        for line in ["1 20", "1 20 sheer", "1 sheer answer"] {
            assert_eq!(of(line), None, "{line}");
        }
    }
}
