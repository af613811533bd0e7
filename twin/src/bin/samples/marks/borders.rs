//! Regulations 28 to 31 and 37 about their borders.

use super::{deeper, fuller, telling, Cases};
use crate::ships::{decked, house, plain, quarterdeck, with, KINDS};
use crate::slips::Slip;
use twin::record::RawShip;

/// Each length where a rule changes, with low houses so that the standard heights count.
pub fn lengths(all: &mut Cases) {
    for metres in [24, 75, 85, 100, 120, 122, 125, 365] {
        for length in [1000 * metres - 1, 1000 * metres, 1000 * metres + 1] {
            for (kind, letter) in KINDS {
                // 31 or 37 alone, or a refusal: alike for both types.
                if matches!((length, kind), (84_999..=85_001 | ..24_000 | 365_001.., 1))
                    || matches!((length, kind), (119_999..=122_001, 0))
                {
                    continue;
                }
                let end = length as i64 / 4;
                let poop = match kind {
                    0 => quarterdeck(0, end, 850),
                    _ => house(0, end, 1_650),
                };
                let raw = decked(kind, length, &[poop, house(end + 5, end + 3_000, 1_234)]);
                let name = format!("{letter}-length-{length}");
                match length {
                    24_000..=365_000 => all.marks(&name, &raw),
                    _ => all.refused(&name, 7, 1, &raw),
                }
            }
        }
    }
}

/// Rows that a scan damaged, two at a time, 0.5 m beyond the first.
pub fn rows(all: &mut Cases) {
    const A: [u64; 5] = [113, 117, 166, 179, 240];
    const B: [u64; 14] = [52, 58, 60, 62, 65, 96, 99, 105, 137, 139, 143, 147, 200, 321];
    for (rows, (kind, letter)) in [&A[..], &B].into_iter().zip(KINDS) {
        for row in rows {
            let length = 1000 * row + 500;
            let end = length as i64 / 3;
            let raw = decked(kind, length, &[house(0, end, 2_400)]);
            all.marks(&format!("{letter}-rows-{row}-and-{}", row + 1), &raw);
        }
    }
    // k7: the tables part at 62 m.
    for (kind, letter) in KINDS {
        all.marks(&format!("{letter}-length-61500"), &decked(kind, 61_500, &[]));
    }
}

/// Regulation 30.
pub fn fullness(all: &mut Cases) {
    for (kind, letter) in KINDS {
        let length = [231_000, 83_210][kind as usize];
        let of = |cb| RawShip { cb, ..decked(kind, length, &[house(0, 20_000, 2_500)]) };
        let border = [6_800, 10_000][kind as usize];
        for cb in [border - 1, border, border + 1] {
            let slip = match cb {
                6_799 => Slip::FullnessBelow,
                10_001 => Slip::FullnessUnlimited,
                6_800 => Slip::OtherTable,
                _ => Slip::FullnessNever,
            };
            all.marks(&format!("{letter}-cb-{cb}"), &telling(slip, deeper(of(cb))));
        }
    }
    // The addition of 29 is multiplied, that of 31 is not.
    let both = RawShip { cb: 9_000, depth: 9_000, ..plain(1, 40_000) };
    all.marks("b-fullness-of-the-short-addition", &both);
    let deep = RawShip { cb: 9_000, depth: 30_000, ..decked(0, 300_000, &[]) };
    all.marks("a-fullness-and-great-depth", &deep);
}

/// Regulation 37: E/L at each tenth, and 1 mm to each side. One house reaches to FP.
pub fn tenths(all: &mut Cases) {
    // Between rows that a scan damaged.
    const LENGTHS: [i64; 10] =
        [54_470, 57_600, 68_880, 115_550, 94_470, 177_210, 141_110, 181_330, 290_070, 287_490];
    for (tenth, length) in (1..=10).zip(LENGTHS) {
        let (kind, letter) = KINDS[tenth as usize % 2];
        for (name, mm) in [("less-1", -1), ("", 0), ("and-1", 1)] {
            let aft = length - tenth * length / 10 - mm;
            if aft < 0 {
                continue; // more than L
            }
            let raw = with(plain(kind, length as u64), &[house(aft, length, 3_300)]);
            let name = format!("{letter}-tenths-{tenth}-{name}");
            let raw = match mm {
                -1 => telling(Slip::DeductSteps, deeper(raw)),
                _ => raw,
            };
            all.marks(name.trim_end_matches('-'), &raw);
        }
    }
    // About half way between two tenths, in two houses.
    for (tenth, length) in [(3, 103_300), (6, 156_600), (8, 311_400)] {
        let (kind, letter) = KINDS[(tenth as usize + 1) % 2];
        let poop = house(0, length * (10 * tenth + 3) / 100 - length / 10 + 1_111, 2_290);
        let raw = decked(kind, length as u64, &[poop]);
        all.marks(&format!("{letter}-between-tenths-{tenth}"), &raw);
    }
}

/// Regulation 29: E about 0.35 L, L about 100 m.
pub fn short_b(all: &mut Cases) {
    for mm in [20_999, 21_000, 21_001] {
        let raw = with(plain(1, 60_000), &[house(60_000 - mm, 60_000, 3_000)]);
        let raw = match mm {
            20_999 => telling(Slip::ShortNever, fuller(raw)),
            21_001 => telling(Slip::ShortLongHouses, fuller(raw)),
            _ => raw,
        };
        all.marks(&format!("b-e-{mm}-at-60-m"), &raw);
    }
    for (kind, letter) in KINDS {
        let none = RawShip { sheer: [0; 6], moulded: 1_000, cwf: 10_000, ..plain(kind, 24_000) };
        all.marks(&format!("{letter}-shortest-no-house"), &none);
    }
    all.marks("b-110-m-short-houses", &decked(1, 110_000, &[]));
    all.marks("b-long-houses-at-40-m", &decked(1, 40_000, &[house(0, 25_000, 2_000)]));
    // S is above 0.35 L, E below.
    all.marks("b-low-houses-at-50-m", &decked(1, 50_000, &[house(0, 20_000, 700)]));
    let near = telling(Slip::ShortNever, deeper(decked(1, 99_900, &[])));
    all.marks("b-99-900-short-houses", &near);
}

/// Regulation 31: D about L/15.
pub fn depth(all: &mut Cases) {
    for (length, kind) in [(90_000, 1), (119_985, 0), (150_000, 1)] {
        let fifteenth = length / 15;
        for (name, depth) in [("less-1", fifteenth - 1), ("", fifteenth), ("and-1", fifteenth + 1)]
        {
            let raw = RawShip { depth, cb: 6_900, ..decked(kind, length, &[]) };
            let raw = match depth > fifteenth {
                true => telling(Slip::DepthNever, fuller(raw)),
                false if depth < fifteenth => telling(Slip::DepthBelow, fuller(raw)),
                false => raw,
            };
            let letter = KINDS[kind as usize].1;
            let name = format!("{letter}-depth-fifteenth-of-{length}-{name}");
            all.marks(name.trim_end_matches('-'), &raw);
        }
    }
    // L/15 is 6666 2/3 mm.
    for depth in [6_666, 6_667] {
        let raw = RawShip { depth, ..decked(1, 100_000, &[]) };
        all.marks(&format!("b-depth-{depth}-at-100-m"), &raw);
    }
    for (length, kind) in [(119_999, 1), (120_000, 0), (240_000, 1)] {
        let raw = RawShip { depth: length / 6, ..decked(kind, length, &[]) };
        all.marks(&format!("{}-deep-at-{length}", KINDS[kind as usize].1), &raw);
    }
    let shallow = RawShip { depth: 4_000, moulded: 9_000, ..decked(0, 180_000, &[]) };
    all.marks("a-shallow", &shallow);
    all.marks("a-moulded-depth-greater", &RawShip { depth: 13_000, moulded: 17_000, ..shallow });
}
