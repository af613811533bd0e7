//! Regulation 45: the timber marks beside the ordinary ones.

use super::{deeper, telling, varied, Cases};
use crate::ships::{bulk, decked, house, k1, k2, plain, sheer, with, TYPES};
use crate::slips::Slip;
use crate::timber::flagged;
use twin::marks;
use twin::record::{House, RawShip};

pub fn groups(all: &mut Cases) {
    all.group("timber-figures", figures);
    all.group("timber-tenths", tenths);
    all.group("timber-roundings", roundings);
    all.group("timber-lines", lines);
    all.group("timber-steps", steps);
    all.group("timber-forecastles", forecastles);
    all.group("timber-bow", bow);
    all.group("timber-below-zero", below_zero);
    all.group("timber-others", others);
    all.group("timber-fresh", fresh);
    all.group("timber-winter", winter);
    all.group("timber-atlantic", atlantic);
    all.group("timber-at-depth", at_depth);
    all.group("timber-refused", refused);
}

/// LS of the ship, be it at or above D.
fn summer(raw: &RawShip) -> i64 {
    let ship = raw.check().expect("a valid ship");
    marks::timber_steps(&ship, &marks::steps(&ship)).summer
}

/// A ship with one house of all its length, and a bow that asks for little.
fn full(kind: u64, length: u64, depth: u64) -> RawShip {
    let raw = RawShip { depth, moulded: 2_000, cwf: 10_000, cb: 6_800, ..plain(kind, length) };
    flagged(&with(raw, &[house(0, length as i64, 8_000)]))
}

/// The stated figures.
fn figures(all: &mut Cases) {
    all.marks("timber-k1", &flagged(&k1()));
    all.marks("timber-k2", &flagged(&k2()));
    all.marks("timber-covers-k2", &RawShip { kind: 4, ..flagged(&k2()) });
    for (kind, name) in (1..).zip(&TYPES[1..]) {
        all.marks(&format!("timber-{name}-120-m"), &RawShip { kind, ..flagged(&bulk()) });
        let full = RawShip { kind, cb: 8_000, ..flagged(&bulk()) };
        all.marks(&format!("timber-{name}-120-m-cb-8000"), &full);
    }
    let low = RawShip { length: 80_000, depth: 4_200, ..flagged(&k1()) };
    let low = with(low, &[house(0, 80_000, 2_400)]);
    all.marks("timber-b-80-m", &RawShip { sheer: sheer(80_000, 130), ..low.clone() });
    all.marks("timber-covers-80-m", &RawShip { kind: 4, ..low });
}

/// E/L at every tenth and between; the rest of E is a house of part of the length.
fn tenths(all: &mut Cases) {
    let length = 110_000;
    for tenth in 1..10 {
        for mm in [0, 5_500] {
            let first = 11_000 * tenth + mm;
            let houses = match first - 11_000 {
                ..=0 => vec![],
                rest => vec![house(1_000, 1_000 + rest, 2_300)],
            };
            let fore = house(length - first.min(11_000), length, 3_500);
            let raw =
                with(plain(1 + tenth as u64 % 4, length as u64), &[&houses[..], &[fore]].concat());
            let name = format!("timber-houses-of-{first}-at-110-m");
            all.marks(&name, &flagged(&raw));
        }
    }
    // Below a tenth: 0.07 L is 7700.
    for mm in [7_700, 8_000, 9_500] {
        let raw = with(plain(1, 110_000), &[house(length - mm, length, 3_500)]);
        all.marks(&format!("timber-houses-of-{mm}-at-110-m"), &flagged(&raw));
    }
    for kind in [1, 4] {
        let name = TYPES[kind as usize];
        all.marks(&format!("timber-{name}-all-of-90-m"), &full(kind, 90_000, 7_000));
    }
}

/// A um of the share, of the product and of LS itself; a whole mm.
fn roundings(all: &mut Cases) {
    for (name, slip) in [
        ("share", Slip::TimberShareUp),
        ("product", Slip::TimberProductUp),
        ("ls", Slip::TimberNearest),
    ] {
        for (kind, length) in [(1, 61_500), (2, 131_003), (3, 200_004), (4, 90_212)] {
            let l = length as i64;
            let raw = decked(kind, length, &[house(1, l / 3 + 7, 1_700)]);
            let raw = telling(slip, varied(flagged(&raw)));
            all.marks(&format!("timber-{name}-{}-{length}", TYPES[kind as usize]), &raw);
        }
    }
    for kind in 1..=4 {
        let raw = flagged(&decked(kind, 120_000, &[house(1, 30_000, 2_300)]));
        let whole = varied(raw).find(|raw| {
            let ship = raw.check().expect("a valid ship");
            marks::timber_steps(&ship, &marks::steps(&ship)).corrected % 1000 == 0
        });
        let whole = whole.expect("some fullness gives a whole mm");
        all.marks(&format!("timber-{}-whole-mm", TYPES[kind as usize]), &whole);
    }
}

/// 45(6): the line of B for a reduced ship, through 30; the own one with portable covers.
fn lines(all: &mut Cases) {
    for length in [100_001, 113_500, 166_667, 240_000, 365_000] {
        for kind in [2, 3] {
            let raw = flagged(&decked(kind, length, &[house(1, 20_000, 2_300)]));
            all.marks(&format!("timber-{}-at-{length}", TYPES[kind as usize]), &raw);
        }
    }
    for (kind, cb) in [(2, 6_800), (2, 9_000), (3, 6_700), (3, 12_000), (4, 9_500)] {
        let raw = RawShip { cb, ..flagged(&decked(kind, 150_000, &[])) };
        all.marks(&format!("timber-{}-cb-{cb}", TYPES[kind as usize]), &raw);
    }
    for length in [24_000, 108_000, 108_500, 163_500, 200_000] {
        let raw = flagged(&decked(4, length, &[house(1, length as i64 / 4, 2_300)]));
        all.marks(&format!("timber-covers-at-{length}"), &raw);
    }
}

/// 29, 30, 31 and 38 are in LS.
fn steps(all: &mut Cases) {
    for (kind, length) in [(1, 24_000), (1, 70_000), (4, 60_000), (4, 99_999)] {
        let name = TYPES[kind as usize];
        all.marks(
            &format!("timber-{name}-short-at-{length}"),
            &flagged(&decked(kind, length, &[])),
        );
    }
    for (kind, length) in [(1, 150_000), (2, 119_999), (3, 120_000), (4, 80_000)] {
        let name = TYPES[kind as usize];
        let aft = [house(1, length as i64 / 2, 2_300)];
        let of = |depth| RawShip { depth, ..flagged(&decked(kind, length, &aft)) };
        all.marks(&format!("timber-{name}-deep-at-{length}"), &of(length / 10));
        let middle = [house(0, length as i64 * 17 / 20, 1_700)];
        let low = RawShip { depth: length / 17, moulded: 2_500, ..decked(kind, length, &middle) };
        all.marks(&format!("timber-{name}-low-at-{length}"), &flagged(&low));
        for (sort, per_cent) in [("no", 0), ("half", 50), ("more", 140)] {
            let raw = RawShip { sheer: sheer(length, per_cent), ..of(length / 14) };
            all.marks(&format!("timber-{name}-{sort}-sheer-at-{length}"), &raw);
        }
    }
}

/// 37(3) stands: a forecastle of 0.07 L, one 1 mm shorter, and none.
fn forecastles(all: &mut Cases) {
    let poop = house(0, 40_000, 2_200);
    for (kind, name) in (1..).zip(&TYPES[1..]) {
        let of = |houses: &[House]| {
            flagged(&with(RawShip { moulded: 4_000, ..plain(kind, 110_000) }, houses))
        };
        all.marks(&format!("timber-{name}-no-house"), &of(&[]));
        all.marks(&format!("timber-{name}-no-forecastle"), &of(&[poop]));
        for mm in [7_699, 7_700] {
            let houses = [poop, house(110_000 - mm, 110_000, 2_500)];
            all.marks(&format!("timber-{name}-forecastle-of-{mm}"), &of(&houses));
        }
    }
}

/// 39(1): no bow height in LS, though it decides S.
fn bow(all: &mut Cases) {
    for (kind, length) in [(1, 90_000), (2, 110_000), (3, 150_000), (4, 60_000)] {
        let name = TYPES[kind as usize];
        let raw = RawShip { cwf: 7_000, ..flagged(&plain(kind, length)) };
        all.marks(&format!("timber-{name}-bow-decides"), &raw);
        let fore = [house(length as i64 * 9 / 10, length as i64, 1_000)];
        let raw = RawShip { cwf: 7_500, ..flagged(&with(plain(kind, length), &fore)) };
        all.marks(&format!("timber-{name}-bow-decides-forecastle"), &raw);
    }
}

/// LS and LT have no floor: far below zero, about 50 and 150, and about zero.
fn below_zero(all: &mut Cases) {
    for (kind, length, depth) in [
        (1, 80_000, 4_200),
        (1, 24_000, 1_100),
        (2, 110_000, 5_000),
        (3, 200_000, 9_000),
        (4, 24_000, 1_200),
    ] {
        let name = TYPES[kind as usize];
        all.marks(&format!("timber-{name}-below-zero-at-{length}"), &full(kind, length, depth));
    }
    for (kind, length) in [(1, 60_000), (2, 105_000), (3, 120_000), (4, 60_000)] {
        let name = TYPES[kind as usize];
        for mm in [-1, 0, 1, 50, 149] {
            let raw = (1_000..60_000)
                .map(|depth| full(kind, length, depth))
                .find(|raw| summer(raw) >= mm)
                .expect("some depth is enough");
            all.marks(&format!("timber-{name}-{length}-ls-{mm}"), &raw);
        }
        // Below zero, and not a whole mm.
        let low = full(kind, length, length / 26);
        all.marks(&format!("timber-{name}-up-below-zero"), &telling(Slip::TimberAway, deeper(low)));
    }
}

/// d = D - LS by parts: a whole number of them, one more and one less.
fn others(all: &mut Cases) {
    for (parts, slip) in [(48, Slip::TimberTropicalUp), (36, Slip::TimberWinterDown)] {
        for rest in [0, 1, parts - 1] {
            for kind in [1, 2, 4] {
                let name = TYPES[kind as usize];
                let raw = flagged(&decked(kind, 120_000, &[house(1, 40_000, 2_300)]));
                let raw = deeper(raw)
                    .find(|raw| (raw.depth as i64 - summer(raw)) % parts == rest)
                    .expect("some depth has this rest");
                let ship = raw.check().expect("a valid ship");
                assert_eq!(crate::slips::tells(&ship, slip), rest != 0, "{slip:?}");
                all.marks(&format!("timber-{name}-rest-{rest}-of-{parts}"), &raw);
            }
        }
    }
    let deep = RawShip { moulded: 4_000, ..flagged(&decked(1, 100_000, &[])) };
    all.marks("timber-b-m-below-d", &deep);
}

/// 45(5): LF and LTF by d/48, certified or not.
fn fresh(all: &mut Cases) {
    for (displacement, immersion) in [(5_000, 1_200), (9_000, 900), (1, 60_000)] {
        for kind in [1, 3, 4] {
            let name = TYPES[kind as usize];
            let raw = flagged(&decked(kind, 110_000, &[house(1, 30_000, 2_300)]));
            let raw = RawShip { displacement, immersion, ..raw };
            all.marks(&format!("timber-{name}-certified-{displacement}-{immersion}"), &raw);
        }
    }
    let below = RawShip { displacement: 3_000, immersion: 500, ..full(4, 60_000, 3_300) };
    all.marks("timber-covers-certified-below-zero", &below);
}

/// 45(7): W limits LW of B-60 and B-100, and of no other.
fn winter(all: &mut Cases) {
    let over = |raw: &RawShip| {
        let ship = raw.check().expect("a valid ship");
        let (ls, s) = (summer(raw), marks::steps(&ship).summer);
        let part = |mark: i64, parts: i64| (ship.depth - mark + parts - 1).div_euclid(parts);
        ls + part(ls, 36) - s - part(s, 48)
    };
    for (kind, length) in [(2, 150_000), (2, 155_000), (3, 120_000), (3, 125_000)] {
        let name = TYPES[kind as usize];
        let l = length as i64;
        let of = |fore| {
            let raw = decked(kind, length, &[house(1, fore, 2_400)]);
            flagged(&RawShip { moulded: 2_500, ..raw })
        };
        for mm in [-1, 0, 1] {
            // Up to 0.4 L a longer house lowers LS by more than S.
            let raw = (1_000..l * 3 / 10)
                .step_by(50)
                .flat_map(|fore| deeper(of(fore)).take(5))
                .find(|raw| over(raw) == mm)
                .expect("some house brings LW to W");
            all.marks(&format!("timber-{name}-{length}-lw-over-w-by-{mm}"), &raw);
        }
        all.marks(&format!("timber-{name}-{length}-lw-far-above-w"), &of(l * 3 / 4));
        all.marks(&format!("timber-{name}-{length}-lw-far-below-w"), &of(l * 3 / 10));
    }
    // Nothing is deducted, so that LW is above W.
    for (kind, length) in [(1, 90_000), (1, 120_000), (4, 90_000), (4, 120_000)] {
        let name = TYPES[kind as usize];
        let raw = RawShip { moulded: 2_500, cwf: 9_900, ..flagged(&plain(kind, length)) };
        assert!(over(&raw) > 0);
        all.marks(&format!("timber-{name}-{length}-lw-above-w"), &raw);
    }
}

/// 45(3): LWNA is WNA, on both sides of 100 m, be LW above it.
fn atlantic(all: &mut Cases) {
    for (kind, name) in [(1, "b"), (4, "covers")] {
        for length in [99_999, 100_000, 100_001] {
            all.marks(&format!("timber-{name}-at-{length}"), &flagged(&decked(kind, length, &[])));
        }
        for (length, depth) in [(100_000, 40_000), (100_001, 14_000), (160_000, 30_000)] {
            let raw = RawShip { moulded: 2_500, cwf: 9_900, depth, ..plain(kind, length) };
            all.marks(&format!("timber-{name}-lw-above-wna-at-{length}"), &flagged(&raw));
        }
    }
}

/// LS at D and about it, S below it: B-60 and B-100 with no deduction.
fn at_depth(all: &mut Cases) {
    for (kind, length) in [(2, 120_000), (2, 250_000), (3, 110_000), (3, 300_000)] {
        let name = TYPES[kind as usize];
        let of = |depth| {
            let raw = RawShip { moulded: 2_000, cwf: 10_000, cb: 7_000, ..plain(kind, length) };
            flagged(&RawShip { depth, ..raw })
        };
        let ls = summer(&of(1_000)) as u64;
        for (sort, depth) in
            [("1-above", ls + 1), ("at", ls), ("1-below", ls - 1), ("20-below", ls - 20)]
        {
            all.marks(&format!("timber-{name}-{length}-d-{sort}-ls"), &of(depth));
        }
        let heavy = RawShip { displacement: 1, immersion: 20, ..of(ls) };
        all.marks(&format!("timber-{name}-{length}-d-at-ls-certified"), &heavy);
    }
}

/// 12 and 13 by S and its draught, whatever LS is.
fn refused(all: &mut Cases) {
    for (kind, length) in [(1, 60_000), (1, 110_000), (4, 60_000), (2, 120_000)] {
        let name = TYPES[kind as usize];
        // The bow height decides S; LS is far below.
        let of =
            |depth| flagged(&RawShip { cwf: 5_000, moulded: 8_000, depth, ..plain(kind, length) });
        let s = marks::steps(&of(1_000).check().expect("a valid ship")).summer as u64;
        all.refused(&format!("timber-{name}-{length}-12-at-s"), 12, 0, &of(s));
        all.refused(&format!("timber-{name}-{length}-12-far-below"), 12, 0, &of(s * 4 / 5));
        all.marks(&format!("timber-{name}-{length}-1-above-12"), &of(s + 1));
        let heavy = RawShip { displacement: 48, immersion: 4, ..of(s + 299) };
        all.refused(&format!("timber-{name}-{length}-13"), 13, 0, &heavy);
        let border = RawShip { displacement: 48, immersion: 4, ..of(s + 300) };
        all.marks(&format!("timber-{name}-{length}-1-above-13"), &border);
    }
    // The allowance is above the timber draught, not above the draught.
    for (kind, length) in [(2, 200_000), (3, 110_000), (3, 300_000)] {
        let name = TYPES[kind as usize];
        let raw = RawShip { moulded: 2_000, cwf: 10_000, cb: 7_000, ..plain(kind, length) };
        let ls = summer(&flagged(&RawShip { depth: 1_000, ..raw.clone() })) as u64;
        for more in [0, 10] {
            let raw = RawShip { depth: ls + more, displacement: 11, immersion: 20, ..raw.clone() };
            all.marks(&format!("timber-{name}-{length}-draught-{more}"), &flagged(&raw));
        }
    }
}
