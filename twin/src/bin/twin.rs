//! The marks from a record on standard input.

use std::io::{self, Read};
use std::process::ExitCode;

use twin::random::Random;
use twin::record::{self, Ship};
use twin::refusal::Refusal;
use twin::report::{self, Trial};
use twin::{exact, marks, question};

const USAGE: &str = "\
usage: twin read | marks | exact | write | question HEIGHT WISH | check COUNT SEED
read, marks, exact and question take a ship record, write a trial of a write, on standard input";

fn main() -> ExitCode {
    let arguments: Vec<String> = std::env::args().skip(1).collect();
    let words: Vec<&str> = arguments.iter().map(String::as_str).collect();
    match answer(&words) {
        Some(line) => {
            println!("{line}");
            ExitCode::SUCCESS
        }
        None => {
            eprintln!("{USAGE}");
            ExitCode::from(2)
        }
    }
}

fn answer(words: &[&str]) -> Option<String> {
    match words {
        ["read"] => Some(report::record_line(&input()?)),
        ["marks"] => Some(or_refusal(record::read(&input()?).and_then(|s| marks::marks(&s)))),
        ["exact"] => Some(or_refusal(record::read(&input()?).map(|s| exact_lines(&s)))),
        ["write"] => Some(Trial::from_bytes(&input()?)?.line()),
        ["question", height, wish] => {
            let (height, wish) = (height.parse().ok()?, wish.parse().ok()?);
            let poop = question::shortest_poop(&input()?, height, wish);
            Some(or_refusal(poop.map(|k| format!("poop {k}"))))
        }
        ["check", count, seed] => Some(check(count.parse().ok()?, seed.parse().ok()?)),
        _ => None,
    }
}

fn input() -> Option<Vec<u8>> {
    let mut bytes = Vec::new();
    io::stdin().lock().read_to_end(&mut bytes).ok()?;
    Some(bytes)
}

fn or_refusal<T: ToString>(result: Result<T, Refusal>) -> String {
    result.map_or_else(|refusal| refusal.to_string(), |value| value.to_string())
}

fn exact_lines(ship: &Ship) -> String {
    let exact = exact::exact(ship).summer;
    let cost = exact::cost(ship);
    let lines = format!(
        "exact {exact} mm, about {:.6}\n\
         S {}, above it by {:.3} um; before the round-up to mm by {:.3} um\n\
         bound {}",
        exact.to_f64(),
        marks::steps(ship).summer,
        cost.mark,
        cost.summer,
        holds(exact::bound_holds(ship))
    );
    if ship.timber {
        format!("{lines}\n{}", timber_lines(ship))
    } else {
        lines
    }
}

/// The same of LS, be it at or above D.
fn timber_lines(ship: &Ship) -> String {
    let exact = exact::timber(ship);
    let (mark, before) = exact::timber_cost(ship);
    format!(
        "timber exact {exact} mm, about {:.6}\n\
         LS {}, above it by {mark:.3} um; before the round-up to mm by {before:.3} um\n\
         bound {}",
        exact.to_f64(),
        marks::timber_steps(ship, &marks::steps(ship)).summer,
        holds(exact::timber_bound_holds(ship))
    )
}

fn holds(bound: bool) -> &'static str {
    if bound {
        "holds"
    } else {
        "BROKEN"
    }
}

/// What is counted over random ships.
#[derive(Default)]
struct Check {
    kinds: [u64; 5],
    set_in: u64,
    reduced: u64,
    floor: u64,
    broken: u64,
    /// The most that a mark stands above its exact value, and before the round-up; um.
    mark: f64,
    before: f64,
    /// Ships with the flag, those whose LS is below zero, and those whose LS is at or above D.
    timber: [u64; 3],
    timber_broken: u64,
    /// The same of LS.
    timber_mark: f64,
    timber_before: f64,
}

impl Check {
    fn add(&mut self, ship: &Ship) {
        let cost = exact::cost(ship);
        let above = [cost.mark, cost.summer, cost.corrected, cost.bow].iter().all(|&um| um >= 0.0);
        self.kinds[ship.kind as usize] += 1;
        let steps = marks::steps(ship);
        self.set_in += u64::from(record::any_set_in(&ship.houses));
        self.reduced += u64::from(steps.depth_reduction > 0);
        self.floor += u64::from(steps.summer == marks::floor(ship.kind));
        self.broken += u64::from(!above || !exact::bound_holds(ship));
        self.mark = self.mark.max(cost.mark);
        self.before = self.before.max(cost.summer);
        if ship.timber {
            self.add_timber(ship, marks::timber_steps(ship, &steps).summer);
        }
    }

    fn add_timber(&mut self, ship: &Ship, mark: i64) {
        let (cost, before) = exact::timber_cost(ship);
        let sorts = [true, mark < 0, mark >= ship.depth];
        for (count, holds) in self.timber.iter_mut().zip(sorts) {
            *count += u64::from(holds);
        }
        self.timber_broken += u64::from(before < 0.0 || !exact::timber_bound_holds(ship));
        self.timber_mark = self.timber_mark.max(cost);
        self.timber_before = self.timber_before.max(before);
    }
}

/// The bounds on both summer marks over random ships, and the largest costs seen.
fn check(count: u64, seed: u64) -> String {
    let mut random = Random::new(seed);
    let mut all = Check::default();
    for _ in 0..count {
        let n = random.between(0, 8) as usize;
        if let Ok(ship) = random.any_ship_or_timber(n).check() {
            all.add(&ship);
        }
    }
    let [a, b, b60, b100, covers] = all.kinds;
    let Check { set_in, reduced, floor, broken, mark, before, .. } = all;
    let ships: u64 = all.kinds.iter().sum();
    let [timber, below, beyond] = all.timber;
    format!(
        "{ships} ships (A {a}, B {b}, B-60 {b60}, B-100 {b100}, portable covers {covers}), \
         {set_in} with houses that are set in, {reduced} with a reduction for depth, \
         {floor} at the floor, {broken} broken, \
         mark above exact by at most {mark:.3} um, \
         before the round-up by at most {before:.3} um; \
         {timber} with timber, {below} with LS below zero, {beyond} at or above D, \
         {} broken, LS above exact by at most {:.3} um, before the round-up by at most {:.3} um",
        all.timber_broken, all.timber_mark, all.timber_before
    )
}
