//! Random ships: some for each number of houses, and some for each slip that few cases tell.

use super::{Cases, LEAST};
use crate::ships::{self, decked, KINDS};
use crate::slips::{tells, Slip, SLIPS};
use twin::marks;
use twin::random::Random;
use twin::record::{House, RawShip, Ship};

/// Ships of both types for each number of houses.
pub fn every_count(all: &mut Cases) {
    let mut random = Random::new(1988);
    for n in 0..=8 {
        for (kind, letter) in KINDS {
            // Both types at the ends, in turn between.
            if n % 8 != 0 && n as u64 % 2 != kind {
                continue;
            }
            let raw = loop {
                let raw = RawShip { kind, ..random.ship(n) };
                if corrected_decides(&raw) {
                    break raw;
                }
            };
            all.marks(&format!("{letter}-random-houses-{n}"), &raw);
        }
    }
}

/// Ships with marks above the floor that come from regulations 28 to 38.
fn corrected_decides(raw: &RawShip) -> bool {
    raw.check().is_ok_and(|ship| {
        let steps = marks::steps(&ship);
        steps.corrected > steps.bow && steps.summer > 50 && marks::marks(&ship).is_ok()
    })
}

/// Random ships until each of these slips changes enough cases.
pub fn for_each_slip(all: &mut Cases, of_these: impl Fn(Slip) -> bool) {
    for (seed, &(slip, ..)) in (1..).zip(SLIPS).filter(|(_, &(slip, ..))| of_these(slip)) {
        let mut random = Random::new(seed);
        for count in all.told_by(slip).len()..LEAST {
            let raw = search(&mut random, slip);
            all.marks(&format!("tells{}-{}", kebab(slip), count + 1), &raw);
        }
    }
}

/// `-mean-to-zero` for `MeanToZero`.
fn kebab(slip: Slip) -> String {
    let mut name = String::new();
    for letter in format!("{slip:?}").chars() {
        if letter.is_ascii_uppercase() {
            name.push('-');
        }
        name.push(letter.to_ascii_lowercase());
    }
    name
}

fn search(random: &mut Random, slip: Slip) -> RawShip {
    let good = |ship: &Ship| tells(ship, slip) && marks::marks(ship).is_ok();
    loop {
        let n = random.between(0, 8) as usize;
        let raw = match slip {
            Slip::EffectiveUp | Slip::EffectiveEach | Slip::EffectiveFirst | Slip::ShortDown => {
                short_and_low(random)
            }
            Slip::EffectiveTogether | Slip::DeckUp => {
                let mut raw = short_and_low(random);
                raw.houses[0].quarterdeck = true;
                raw
            }
            _ if in_reduction(slip) => random.low_ship(n),
            _ => random.ship(n),
        };
        if raw.check().is_ok_and(|ship| good(&ship)) {
            return raw;
        }
    }
}

/// The slips in the reduction for depth and about it.
pub fn in_reduction(slip: Slip) -> bool {
    (Slip::ReductionNever as usize..=Slip::SheerFloor as usize).contains(&(slip as usize))
}

/// The slips in a shorter working of sheer and those about the five types, set-in sides and timber, the last
/// ones. Cases made by hand are enough for them.
pub fn by_hand(slip: Slip) -> bool {
    slip as usize > Slip::SheerFloor as usize
}

/// A short type B ship with seven low houses and a forecastle: E is worth most to it.
fn short_and_low(random: &mut Random) -> RawShip {
    let length = random.between(24_000, 30_000);
    let mut raw = decked(1, length as u64, &[House::default(); 7]);
    let step = length / 9;
    for (i, house) in (0..).zip(&mut raw.houses[..7]) {
        let fore = step * i + random.between(1_000, step);
        *house = ships::house(step * i, fore, random.between(300, 1_799) as u64);
    }
    raw.cb = random.between(6_000, 9_000) as u64;
    raw.depth += random.between(0, 900) as u64;
    raw
}
