//! Regulation 31(2) and (3): D below L/15, and a house from 0.2 L to 0.8 L.

use super::{fuller, telling, Cases};
use crate::ships::{decked, house, open, plain, quarterdeck, sheer, with, KINDS};
use crate::slips::Slip;
use twin::record::{House, RawShip};

pub fn groups(all: &mut Cases) {
    all.group("low-figures", figures);
    all.group("low-ends", ends);
    all.group("low-depths", depths);
    all.group("low-rates", rates);
    all.group("low-heights", heights);
    all.group("low-houses", which);
    all.group("low-below-zero", below_zero);
}

/// A ship of this depth with these houses and a forecastle. The bow height does not decide.
fn low(kind: u64, length: u64, depth: u64, houses: &[House]) -> RawShip {
    RawShip { depth, moulded: 2_000, ..decked(kind, length, houses) }
}

/// The same with no forecastle.
fn bare(kind: u64, length: u64, depth: u64, houses: &[House]) -> RawShip {
    with(RawShip { depth, moulded: 2_000, ..plain(kind, length) }, houses)
}

fn letter(kind: u64) -> char {
    KINDS[kind as usize].1
}

/// The stated figures: 97734 um; 250000, 125000, 0, 0 and 250.
fn figures(all: &mut Cases) {
    let long = bare(0, 90_212, 5_000, &[house(18_000, 90_112, 1_001)]);
    all.marks("a-low-90212-house-of-1001", &telling(Slip::ReductionUp, fuller(long)));
    for (kind, name, depth, aft, height) in [
        (0, "whole", 7_000, 24_000, 2_250),
        (1, "whole", 7_000, 24_000, 2_250),
        (0, "half-the-height", 7_000, 24_000, 1_125),
        (1, "half-the-height", 7_000, 24_000, 1_125),
        (0, "from-24001", 7_000, 24_001, 2_250),
        (1, "depth-8000", 8_000, 24_000, 2_250),
        (0, "depth-7999", 7_999, 24_000, 2_250),
        (1, "depth-7999", 7_999, 24_000, 2_250),
    ] {
        let raw = low(kind, 120_000, depth, &[house(aft, 96_000, height)]);
        let raw = match depth {
            7_999 => telling(Slip::ReductionNever, fuller(raw)),
            _ => raw,
        };
        all.marks(&format!("{}-low-120-m-{name}", letter(kind)), &raw);
    }
}

/// Both ends of the house at the border, and 1 mm to each side.
fn ends(all: &mut Cases) {
    // 0.2 L and 0.8 L are 20000 and 80000; 20000.2 and 80000.8; 20000.8 and 80003.2; 11400.6 and 45602.4.
    for (length, last, first) in [
        (100_000, 20_000, 80_000),
        (100_001, 20_000, 80_001),
        (100_004, 20_000, 80_004),
        (57_003, 11_400, 45_603),
    ] {
        let depth = length / 15 * 9 / 10;
        let mut put = |kind: u64, aft: i64, fore: i64| {
            let raw = low(kind, length, depth, &[house(aft, fore, 2_000)]);
            let letter = letter(kind);
            all.marks(&format!("{letter}-low-{length}-house-{aft}-to-{fore}"), &raw);
        };
        put(0, last, first);
        put(1, last + 1, first);
        put(0, last, first - 1);
        if length == 100_000 {
            put(1, last, first);
            put(0, last - 1, first);
            put(1, last, first + 1);
            put(0, last + 1, first + 20);
            put(1, last - 20, first - 1);
        }
    }
    for kind in [0, 1] {
        let raw = low(kind, 75_000, 4_500, &[house(15_000, 60_000, 1_300)]);
        all.marks(&format!("{}-low-75-m-both-ends-at-the-border", letter(kind)), &raw);
    }
}

/// D about L/15, with a house amidships.
fn depths(all: &mut Cases) {
    for (length, kind) in [(90_000, 0), (90_000, 1), (150_000, 1)] {
        for (name, mm) in [("less-1", -1), ("", 0), ("and-1", 1)] {
            let depth = (length as i64 / 15 + mm) as u64;
            let raw = low(kind, length, depth, &[house(10_000, length as i64 * 17 / 20, 2_000)]);
            let raw = match mm {
                -1 => telling(Slip::ReductionNever, fuller(raw)),
                1 => telling(Slip::ReductionAbove, fuller(raw)),
                _ => raw,
            };
            let name = format!("{}-low-depth-fifteenth-of-{length}-{name}", letter(kind));
            all.marks(name.trim_end_matches('-'), &raw);
        }
    }
    // L/15 is 6666 2/3 and 6666.6 mm.
    for (length, kind) in [(100_000, 1), (99_999, 0)] {
        for (depth, slip) in [(6_666, Slip::ReductionFifteenth), (6_667, Slip::ReductionAbove)] {
            let raw = low(kind, length, depth, &[house(0, 85_000, 2_300)]);
            let raw = telling(slip, fuller(raw));
            all.marks(&format!("{}-low-depth-{depth}-at-{length}", letter(kind)), &raw);
        }
    }
    // M is on the other side of L/15.
    let deep = RawShip { moulded: 9_000, ..low(0, 120_000, 7_000, &[house(0, 100_000, 2_300)]) };
    all.marks("a-low-moulded-depth-greater", &deep);
    let shallow = RawShip { depth: 9_000, ..low(1, 120_000, 0, &[house(0, 100_000, 2_300)]) };
    all.marks("b-moulded-depth-low", &shallow);
}

/// R about 120 m and far from it.
fn rates(all: &mut Cases) {
    for (length, slip) in [
        (119_999, Slip::Reduction250),
        (120_000, Slip::ReductionNever),
        (120_001, Slip::ReductionSlope),
    ] {
        let fore = length as i64 * 17 / 20;
        let raw = low(1, length, 6_000, &[house(1, fore, 2_400)]);
        all.marks(&format!("b-low-at-{length}"), &telling(slip, fuller(raw)));
        let raw = low(0, length, 6_000, &[quarterdeck(0, fore, 2_000)]);
        all.marks(&format!("a-low-quarterdeck-at-{length}"), &telling(slip, fuller(raw)));
    }
    for (length, depth) in [(24_000, 1_400), (40_000, 2_000), (62_000, 3_600)] {
        let raw = bare(1, length, depth, &[house(1_000, length as i64 * 9 / 10, 1_700)]);
        all.marks(&format!("b-low-at-{length}"), &RawShip { moulded: 1_000, ..raw });
    }
    for (kind, length, depth) in [(0, 250_000, 14_000), (1, 365_000, 20_000)] {
        let raw = low(kind, length, depth, &[house(5_000, length as i64 * 9 / 10, 2_300)]);
        all.marks(&format!("{}-low-at-{length}", letter(kind)), &raw);
    }
}

/// The house about its standard height, and lower.
fn heights(all: &mut Cases) {
    // At 100 m 2050 mm, for a quarterdeck 1500; at 105.001 m 2100.01 and 1560.012.
    let mut put = |kind: u64, length: u64, slip: Slip, house: House| {
        let raw = telling(slip, fuller(low(kind, length, 5_500, &[house])));
        let deck = if house.quarterdeck { "quarterdeck" } else { "house" };
        let name = format!("{}-low-{deck}-of-{}-at-{length}", letter(kind), house.height);
        all.marks(&name, &raw);
    };
    let bridge = |height| house(10_000, 86_000, height);
    let deck = |height| quarterdeck(-1_000, 86_000, height);
    for (kind, height, slip) in [
        (0, 2_049, Slip::ReductionWhole),
        (1, 2_050, Slip::ReductionNever),
        (0, 2_051, Slip::ReductionHigh),
        (1, 2_051, Slip::ReductionHigh),
        (1, 1_338, Slip::ReductionTwice),
        (0, 708, Slip::ReductionTwice),
        (0, 1, Slip::ReductionNever),
    ] {
        put(kind, 100_000, slip, bridge(height));
    }
    for (kind, height, slip) in [
        (1, 1_499, Slip::ReductionWhole),
        (0, 1_500, Slip::ReductionNever),
        (1, 1_501, Slip::ReductionHigh),
        (0, 1_700, Slip::ReductionDeckAsHouse),
        (1, 706, Slip::ReductionTwice),
        (0, 1_111, Slip::ReductionUp),
    ] {
        put(kind, 100_000, slip, deck(height));
    }
    put(0, 105_001, Slip::ReductionHeightMm, bridge(2_100));
    put(1, 105_001, Slip::ReductionHeightMm, bridge(1_500));
    put(0, 105_001, Slip::ReductionHeightMm, deck(1_560));
}

/// Which house it is.
fn which(all: &mut Cases) {
    let mut put = |name: &str, kind: u64, houses: &[House]| {
        let raw = low(kind, 100_000, 5_500, houses);
        all.marks(&format!("{}-low-{name}", letter(kind)), &raw);
    };
    let of = |aft, fore| house(aft, fore, 2_100);
    for kind in [0, 1] {
        put("two-houses-touching", kind, &[of(10_000, 50_000), of(50_000, 90_000)]);
        put("open-house", kind, &[open(of(10_000, 85_000))]);
        put("second-house", kind, &[of(0, 8_000), of(8_000, 85_000)]);
        put("house-5000-to-70000", kind, &[of(5_000, 70_000)]);
    }
    put("two-houses-touching-at-20000", 0, &[of(0, 20_000), of(20_000, 80_000)]);
    put("two-houses-touching-at-20001", 1, &[of(0, 20_001), of(20_001, 80_000)]);
    put("two-houses-touching-at-80000", 1, &[of(20_000, 80_000), of(80_000, 90_000)]);
    put("open-and-enclosed-touching", 0, &[open(of(10_000, 50_000)), of(50_000, 90_000)]);
    put("house-after-an-open-one", 1, &[open(of(0, 9_000)), of(10_000, 85_000)]);
    put("bridge-at-half", 1, &[of(40_000, 60_000)]);
    put("two-long-houses", 0, &[of(0, 40_000), of(45_000, 85_000)]);
    put("house-of-1200", 1, &[house(10_000, 85_000, 1_200)]);
    let mut put = |name: &str, kind: u64, house: House| {
        let raw = bare(kind, 100_000, 5_500, &[house]);
        all.marks(&format!("{}-low-{name}", letter(kind)), &raw);
    };
    put("house-beyond-both-ends", 0, house(-20_000, 120_000, 2_100));
    put("house-beyond-both-ends", 1, house(-20_000, 120_000, 2_100));
    put("quarterdeck-of-all-but-1-mm", 1, quarterdeck(-20_000, 99_999, 1_400));
    put("house-1-mm-short-of-fp", 1, house(100, 99_999, 2_100));
    all.marks("b-low-no-house", &bare(1, 100_000, 5_500, &[]));
}

/// The reduction leaves less than nothing.
fn below_zero(all: &mut Cases) {
    let of = |kind, depth| low(kind, 300_000, depth, &[house(0, 260_000, 2_400)]);
    all.marks("a-low-floor", &of(0, 2_500));
    all.marks("a-low-least-depth-floor", &of(0, 1_000));
    let longest = bare(0, 365_000, 1_000, &[house(0, 365_000, 2_300)]);
    let great = RawShip { sheer: [8_191; 6], cb: 6_800, ..longest };
    all.marks("a-low-least-corrected-value", &great);
    // The bow decides.
    let bow = bare(0, 300_000, 3_000, &[house(0, 260_000, 2_400)]);
    let bow = RawShip { moulded: 12_000, sheer: sheer(300_000, 60), ..bow };
    all.marks("a-low-bow-decides", &bow);
    all.marks("b-low-bow-decides", &RawShip { kind: 1, ..bow });
    // Below zero before the sheer, which adds more than that.
    for (kind, depth, ordinate) in [(0, 3_000, -8_192), (1, 2_500, -5_000), (0, 5_000, -8_192)] {
        let raw = RawShip { sheer: [ordinate; 6], ..of(kind, depth) };
        let name = format!("{}-low-depth-{depth}-little-sheer", letter(kind));
        all.marks(&name, &raw);
    }
}
