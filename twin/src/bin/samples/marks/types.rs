//! Regulations 27, 37 and 40 for the five types: their lines, their floors, and what they share.

use super::{fuller, telling, varied, Cases};
use crate::ships::{bulk, decked, forecastle, house, k2, plain, quarterdeck, sheer, with, TYPES};
use crate::slips::Slip;
use twin::marks;
use twin::record::{House, RawShip};

pub fn groups(all: &mut Cases) {
    all.group("types-figures", figures);
    all.group("types-reduced", reduced);
    all.group("types-covers", covers);
    all.group("types-fullness", fullness);
    all.group("types-short", short);
    all.group("types-forecastles", forecastles);
    all.group("types-floors", floors);
}

/// The stated figures.
fn figures(all: &mut Cases) {
    for (kind, name) in (0..).zip(TYPES) {
        all.marks(&format!("{name}-120-m"), &RawShip { kind, ..bulk() });
    }
    let full = RawShip { kind: 4, cb: 8_000, ..bulk() };
    all.marks("covers-120-m-cb-8000", &full);
    all.marks("covers-k2", &RawShip { kind: 4, ..k2() });
}

/// B-60 and B-100 from 100.001 m on. The line of B-60 is whole where L is whole fifths of a m, or else
/// has a fraction that shows where the freeboard is one um above a whole mm.
fn reduced(all: &mut Cases) {
    for (length, slip) in [
        (100_001, Slip::ReducedDown),
        (100_003, Slip::ReducedNearest),
        (131_003, Slip::ReducedNearest),
        (144_444, Slip::ReducedDown),
        (200_004, Slip::ReducedDown),
        (287_501, Slip::ReducedNearest),
        (364_999, Slip::ReducedDown),
        (100_005, Slip::ReducedNever),
        (113_500, Slip::ReducedRows),
        (177_250, Slip::ReducedRows),
        (240_000, Slip::ReducedForty),
        (365_000, Slip::ReducedForty),
    ] {
        let raw = telling(slip, varied(decked(2, length, &[house(1, 20_000, 2_300)])));
        all.marks(&format!("b60-at-{length}"), &raw);
    }
    for length in [100_001, 112_345, 166_500, 200_001, 365_000] {
        let raw = decked(3, length, &[house(1, 20_000, 2_300)]);
        all.marks(&format!("b100-at-{length}"), &raw);
    }
}

/// Table 27.1: flat to 108 m, then linear between rows.
fn covers(all: &mut Cases) {
    for length in [
        24_000, 61_500, 100_000, 100_001, 107_000, 107_999, 108_000, 108_001, 108_499, 108_500,
        108_999, 109_000, 120_000, 125_750, 139_500, 150_250, 163_500, 199_500, 199_999, 200_000,
    ] {
        let l = length as i64;
        let raw = decked(4, length, &[house(1, l / 4, 2_300)]);
        let raw = match length {
            108_001 | 199_999 => telling(Slip::CoversRowBelow, varied(raw)),
            108_499 => telling(Slip::CoversMm, varied(raw)),
            _ => raw,
        };
        all.marks(&format!("covers-at-{length}"), &raw);
    }
    // The bow decides, and has no increase.
    let bow = RawShip { kind: 4, cwf: 7_000, ..plain(4, 110_000) };
    all.marks("covers-bow-decides", &bow);
}

/// Regulation 30 multiplies the whole line.
fn fullness(all: &mut Cases) {
    for kind in 2..=4 {
        let name = TYPES[kind as usize];
        for cb in [6_800, 6_801, 8_500, 10_000, 12_000] {
            let length = [0, 0, 133_300, 211_100, 155_500][kind as usize];
            let raw = RawShip { cb, ..decked(kind, length, &[house(1, 20_000, 2_500)]) };
            all.marks(&format!("{name}-cb-{cb}"), &raw);
        }
    }
    let low = RawShip { cb: 9_000, ..decked(4, 60_000, &[]) };
    all.marks("covers-cb-9000-at-60-m", &low);
}

/// Regulation 29 is for portable covers too.
fn short(all: &mut Cases) {
    for length in [24_000, 70_000, 99_000] {
        let raw = decked(4, length, &[]);
        all.marks(&format!("covers-short-houses-at-{length}"), &raw);
    }
    let long = decked(4, 60_000, &[house(1, 40_000, 2_000)]);
    all.marks("covers-long-houses-at-60-m", &long);
    for (kind, name) in [(2, "b60"), (3, "b100"), (4, "covers")] {
        let raw = decked(kind, 100_500, &[]);
        all.marks(&format!("{name}-short-houses-at-100500"), &raw);
    }
}

/// 37(3) is for every type but A: a forecastle of 0.07 L, one 1 mm shorter, and none.
fn forecastles(all: &mut Cases) {
    let poop = house(0, 40_000, 2_200);
    let of =
        |kind, houses: &[House]| with(RawShip { moulded: 4_000, ..plain(kind, 110_000) }, houses);
    for (kind, name) in (0..).zip(TYPES) {
        all.marks(&format!("{name}-no-forecastle"), &of(kind, &[poop]));
        for mm in [7_699, 7_700] {
            let houses = [poop, house(110_000 - mm, 110_000, 2_500)];
            all.marks(&format!("{name}-forecastle-of-{mm}-at-110-m"), &of(kind, &houses));
        }
    }
    // Effective 7699.95 and 7700.4 mm: standard height 2150.
    for kind in 2..=4 {
        let name = TYPES[kind as usize];
        for (sort, aft) in [("below", 99_900), ("above", 99_899)] {
            let houses = [poop, house(aft, 110_000, 1_639)];
            all.marks(&format!("{name}-low-forecastle-just-{sort}"), &of(kind, &houses));
        }
    }
    // Nothing to deduct: A and B-100 have the same marks.
    for (kind, name) in [(0, "a"), (3, "b100")] {
        all.marks(&format!("{name}-no-house-at-110-m"), &of(kind, &[]));
    }
}

/// The floor of each type, for S and for T.
fn floors(all: &mut Cases) {
    let low = |kind: u64, length: u64, depth: u64| {
        let raw = RawShip { depth, moulded: 2_000, cwf: 10_000, cb: 6_800, ..plain(kind, length) };
        with(raw, &[house(0, length as i64, 8_000)])
    };
    for (kind, length) in [(2, 110_000), (3, 110_000), (4, 24_000), (4, 110_000)] {
        let name = format!("{}-floor-at-{length}", TYPES[kind as usize]);
        all.marks(&name, &low(kind, length, length / 20));
    }
    // A deeper ship has a greater S; here without the floor.
    let before = |raw: &RawShip| {
        let steps = marks::steps(&raw.check().expect("a valid ship"));
        (steps.corrected.max(steps.bow) + 999).div_euclid(1000)
    };
    let first = |kind, length: u64, least: i64, tropical: bool| {
        (1_000..60_000)
            .map(|depth| low(kind, length, depth))
            .find(|raw| {
                let s = before(raw);
                let d = raw.depth as i64 - s.max(marks::floor(twin::record::Kind::Covers));
                s - i64::from(tropical) * d.div_euclid(48) >= least
            })
            .expect("some depth is enough")
    };
    for (kind, length) in [(1, 60_000), (2, 105_000), (3, 120_000), (4, 60_000), (4, 120_000)] {
        let name = TYPES[kind as usize];
        let about = match kind {
            2 | 3 => [50, 51, 150],
            _ => [149, 150, 151],
        };
        for mm in about {
            let raw = first(kind, length, mm, false);
            all.marks(&format!("{name}-{length}-s-{mm}-before-the-floor"), &raw);
        }
    }
    for (length, mm) in [(60_000, 149), (60_000, 150), (120_000, 150), (120_000, 151)] {
        let raw = first(4, length, mm, true);
        all.marks(&format!("covers-{length}-t-{mm}-before-the-floor"), &raw);
    }
    // F and TF have none, certified or not.
    let deep = first(4, 70_000, 151, true);
    all.marks("covers-f-and-tf-below-150", &deep);
    let heavy = RawShip { displacement: 9_000, immersion: 900, ..deep };
    all.marks("covers-f-and-tf-negative", &heavy);
    let excess = RawShip { sheer: sheer(80_000, 250), ..low(4, 80_000, 5_000) };
    all.marks("covers-floor-far-below", &excess);
    let decks = [quarterdeck(0, 70_000, 1_600), forecastle(105_000)];
    let raw = with(RawShip { depth: 1_500, ..low(2, 105_000, 1_000) }, &decks);
    all.marks("b60-low-quarterdeck", &telling(Slip::ReducedNever, fuller(raw)));
}
