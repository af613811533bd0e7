//! A program's marks against the exact value in fractions: `against PROGRAM COUNT SEED`.
//!
//! Each random ship's record goes to the program's standard input. Its line must be the one worked here, and its S
//! must be at least the exact summer freeboard and less than 1.1 mm above it. So must LS, where it is given.

use std::io::{self, Write};
use std::process::{Command, ExitCode, Stdio};

use twin::big::{over, whole, Fraction};
use twin::random::Random;
use twin::record::{self, Ship, Version};
use twin::{exact, marks};

const USAGE: &str = "usage: against PROGRAM COUNT SEED";

fn main() -> ExitCode {
    let arguments: Vec<String> = std::env::args().skip(1).collect();
    let [program, count, seed] = arguments.as_slice() else {
        eprintln!("{USAGE}");
        return ExitCode::from(2);
    };
    let (Ok(count), Ok(seed)) = (count.parse(), seed.parse()) else {
        eprintln!("{USAGE}");
        return ExitCode::from(2);
    };
    match compare(program, count, seed) {
        Ok(line) => {
            println!("{line}");
            ExitCode::SUCCESS
        }
        Err(line) => {
            eprintln!("{line}");
            ExitCode::FAILURE
        }
    }
}

/// Ships with marks, by sort.
#[derive(Default)]
struct Given {
    all: u64,
    kinds: [u64; 5],
    set_in: u64,
    reduced: u64,
    /// With the flag, and those of them whose LS is at or above D.
    timber: u64,
    none: u64,
}

impl Given {
    fn add(&mut self, ship: &Ship) {
        self.all += 1;
        self.kinds[ship.kind as usize] += 1;
        self.set_in += u64::from(record::any_set_in(&ship.houses));
        let steps = marks::steps(ship);
        self.reduced += u64::from(steps.depth_reduction > 0);
        self.timber += u64::from(ship.timber);
        let beyond = ship.timber && marks::timber_steps(ship, &steps).summer >= ship.depth;
        self.none += u64::from(beyond);
    }
}

fn compare(program: &str, count: u64, seed: u64) -> Result<String, String> {
    let mut random = Random::new(seed);
    let (mut ships, mut given, mut most) = (0, Given::default(), [0.0f64; 2]);
    while ships < count {
        let n = random.between(0, 8) as usize;
        let Ok(ship) = random.any_ship_or_timber(n).check() else { continue };
        let raw = ship.raw();
        let version = Version::lowest(&raw);
        let mut record = vec![0; version.record_bytes(ship.houses.len())];
        record::pack_as(version, &mut record, &raw);
        let line = run(program, &record).map_err(|error| format!("{program}: {error}"))?;
        ships += 1;
        if line.starts_with('S') {
            given.add(&ship);
        }
        let costs = judge(&ship, &line).map_err(|why| format!("{why}: {}", hex(&record)))?;
        most = [0, 1].map(|i| most[i].max(costs[i]));
    }
    let Given { all, kinds: [a, b, b60, b100, covers], set_in, reduced, timber, none } = given;
    Ok(format!(
        "{ships} ships, {all} with marks (A {a}, B {b}, B-60 {b60}, B-100 {b100}, \
         portable covers {covers}), {set_in} of them with houses that are set in, \
         {reduced} with a reduction for depth, {timber} with timber, {none} of these all zero, \
         S above exact by at most {:.3} um, LS by at most {:.3} um",
        most[0], most[1]
    ))
}

fn run(program: &str, record: &[u8]) -> io::Result<String> {
    let mut child = Command::new(program).stdin(Stdio::piped()).stdout(Stdio::piped()).spawn()?;
    child.stdin.take().expect("a pipe was asked for").write_all(record)?;
    let output = child.wait_with_output()?;
    Ok(String::from_utf8_lossy(&output.stdout).trim_end().to_string())
}

/// What the roundings cost S and LS in um, or why the line is wrong.
fn judge(ship: &Ship, line: &str) -> Result<[f64; 2], String> {
    let ours = marks::marks(ship).map_or_else(|refusal| refusal.to_string(), |m| m.to_string());
    if line != ours {
        return Err(format!("the program has `{line}`, the papers `{ours}`"));
    }
    let Some(mark) = number(line, "S") else { return Ok([0.0; 2]) };
    let summer = bounded("S", mark, exact::exact(ship).summer)?;
    // LWNA is never zero but where all six are.
    match (number(line, "LS"), number(line, "LWNA")) {
        (Some(mark), Some(1..)) => Ok([summer, bounded("LS", mark, exact::timber(ship))?]),
        _ => Ok([summer, 0.0]),
    }
}

/// The number behind a mark's name.
fn number(line: &str, name: &str) -> Option<i64> {
    let mut words = line.split(' ').skip_while(|&word| word != name);
    words.nth(1)?.parse().ok()
}

/// How far the mark stands above the exact value, um, if it is at least that and less than 1.1 mm above it.
fn bounded(name: &str, mark: i64, exact: Fraction) -> Result<f64, String> {
    let value = whole(mark);
    if exact <= value && value < &exact + over(11, 10) {
        Ok(((value - exact) * whole(1000)).to_f64())
    } else {
        Err(format!("{name} {mark} is out of bound"))
    }
}

fn hex(bytes: &[u8]) -> String {
    bytes.iter().map(|byte| format!("{byte:02x}")).collect()
}
