//! Regulation 35(2): houses that are set in, their roundings, and the steps that their breadths are not in.

use super::{fuller, telling, varied, Cases};
use crate::ships::{
    decked, forecastle, house, k2, open, plain, quarterdeck, set_in, sheer, with, TYPES,
};
use crate::sides;
use crate::slips::{self, Slip};
use twin::record::{House, RawShip};

pub fn groups(all: &mut Cases) {
    all.group("sides-figures", figures);
    all.group("sides-ratios", ratios);
    all.group("sides-sums", sums);
    all.group("sides-quarterdecks", quarterdecks);
    all.group("sides-forecastles", forecastles);
    all.group("sides-sheer", sheer_line);
    all.group("sides-low", low);
}

fn name_of(kind: u64) -> &'static str {
    TYPES[kind as usize]
}

/// The stated figures: S 1028 and 1031; E 12196584 whichever of the three has equal breadths.
fn figures(all: &mut Cases) {
    for breadth in [9_500, 9_200, 10_000] {
        let raw = sides::forecastle(breadth, 10_000);
        all.marks(&format!("k2-set-in-{breadth}-of-10000"), &raw);
    }
    all.marks("k2-full-breadth", &k2());
    for place in 0..3 {
        let ends = [(0, 10_001), (20_000, 30_002), (95_000, 100_000)];
        let mut houses = ends.map(|(aft, fore)| house(aft, fore, 1_000));
        houses[place] = set_in(houses[place], 10_000, 10_000);
        let raw = with(plain(0, 100_000), &houses);
        all.marks(&format!("a-equal-breadths-of-house-{place}"), &raw);
    }
}

/// A long house by its breadths, low or not, beside a forecastle of full breadth.
fn ratios(all: &mut Cases) {
    for (kind, length, height, breadth, beam) in [
        (0, 90_000, 2_500, 9_359, 10_000),
        (1, 90_000, 2_500, 13_999, 15_000),
        (1, 61_500, 1_100, 8_300, 9_000),
        (2, 130_000, 2_400, 20_240, 22_000),
        (3, 110_001, 1_234, 17_001, 18_001),
        (4, 99_999, 1_700, 60_293, 65_535),
        (4, 180_000, 2_300, 65_535, 65_535),
        (0, 24_000, 1_799, 1, 1),
        (1, 365_000, 2_300, 46, 50),
    ] {
        let long = set_in(house(1, length as i64 / 2, height), breadth, beam);
        let raw = decked(kind, length, &[long]);
        all.marks(&format!("{}-{breadth}-of-{beam}-at-{length}", name_of(kind)), &raw);
    }
    // 1/10000 do not hold the ratio.
    for (kind, length, breadth, beam) in
        [(1, 30_000, 12, 13), (0, 70_000, 28_000, 30_011), (4, 45_000, 29, 30)]
    {
        let long = set_in(house(1, length as i64 / 2, 1_500), breadth, beam);
        let raw = telling(Slip::SidesTenThousandths, fuller(decked(kind, length, &[long])));
        all.marks(&format!("{}-{breadth}-of-{beam}-at-{length}", name_of(kind)), &raw);
    }
    // Each house by its own breadths; an open one's do not count.
    for (kind, length) in [(0, 88_000), (1, 77_000), (4, 66_000)] {
        let l = length as i64;
        let [aft, fore] =
            [(1, l / 4), (l / 2, 3 * l / 4)].map(|(aft, fore)| house(aft, fore, 2_000));
        let both = [set_in(aft, 9_250, 10_000), set_in(fore, 9_900, 10_000)];
        let name = name_of(kind);
        all.marks(&format!("{name}-two-set-in-at-{length}"), &decked(kind, length, &both));
        let houses = [open(both[0]), fore];
        all.marks(&format!("{name}-open-set-in-at-{length}"), &decked(kind, length, &houses));
    }
}

/// A short ship with seven low houses and a forecastle: E is worth most to it.
fn short(kind: u64, length: u64, breadths: [(u64, u64); 7]) -> RawShip {
    let (step, more) = (length as i64 / 9, length as i64 % 89);
    let of = |(i, (breadth, beam)): (i64, (u64, u64))| {
        let fore = step * i + 1_101 + 53 * i + more;
        set_in(house(step * i, fore, 701 + 113 * i as u64), breadth, beam)
    };
    let houses: Vec<House> = (0..).zip(breadths).map(of).collect();
    decked(kind, length, &houses)
}

/// The first ship of some greater length whose freeboard the slip changes, so full that its mark tells.
fn longer(slip: Slip, length: u64, of: impl Fn(u64) -> RawShip) -> RawShip {
    let changed = |raw: &RawShip| raw.check().is_ok_and(|ship| slips::changes(&ship, slip));
    let raw = (length..length + 1_000).map(of).find(changed);
    telling(slip, varied(raw.expect("a slip in E shows at some length")))
}

/// Every house with breadths is rounded down by itself, those of full breadth once over their sum.
fn sums(all: &mut Cases) {
    let (full, one, other) = ((0, 0), (4_801, 5_003), (4_700, 4_999));
    for (name, breadths, slip) in [
        ("all-set-in", [one, other, one, other, one, other, one], Slip::SidesUp),
        ("all-set-in-sum", [one; 7], Slip::SidesSum),
        ("all-set-in-twice", [one, other, one, other, one, other, one], Slip::SidesTwice),
        ("some-set-in", [full, one, full, other, full, full, one], Slip::SidesTogether),
        ("first-set-in", [one, full, full, full, full, full, full], Slip::SidesTogether),
        ("half-set-in", [one, full, other, full, one, full, full], Slip::SidesEach),
        ("last-set-in", [full, full, full, full, full, full, one], Slip::SidesEach),
        (
            "some-equal",
            [(5_003, 5_003), full, full, (1, 1), full, full, full],
            Slip::SidesEqualFull,
        ),
        ("all-equal", [(5_003, 5_003); 7], Slip::SidesEqualFull),
    ] {
        for (kind, length) in [(1, 24_007), (4, 26_111)] {
            let raw = longer(slip, length, |length| short(kind, length, breadths));
            all.marks(&format!("{}-{name}-at-{}", name_of(kind), raw.length), &raw);
        }
    }
    // Other houses and lengths, and whole mm.
    for (kind, length, slip) in [
        (0, 30_000, Slip::SidesUp),
        (1, 48_000, Slip::SidesTwice),
        (1, 33_333, Slip::SidesMm),
        (2, 101_000, Slip::SidesMm),
        (0, 120_000, Slip::SidesMm),
    ] {
        let breadths = [one, full, other, one, full, other, one];
        let raw = longer(slip, length, |length| short(kind, length, breadths));
        all.marks(&format!("{}-some-set-in-at-{}", name_of(kind), raw.length), &raw);
    }
}

/// A raised quarterdeck has its limit of 0.6 L before the ratio of breadths, and its own floor.
fn quarterdecks(all: &mut Cases) {
    for (kind, length, fore, height) in [
        (0, 90_000, 75_000, 2_000),
        (1, 60_000, 50_000, 900),
        (4, 110_000, 88_000, 1_700),
        (1, 90_000, 54_000, 1_380),
        (0, 75_000, 30_000, 1_000),
    ] {
        let deck = set_in(quarterdeck(-100, fore, height), 9_300, 10_000);
        let raw = decked(kind, length, &[deck]);
        all.marks(&format!("{}-quarterdeck-set-in-to-{fore}-at-{length}", name_of(kind)), &raw);
    }
    for (kind, length) in [(1, 24_500), (4, 29_000)] {
        let (deck, low) = (quarterdeck(0, 4_001, 701), house(9_000, 16_003, 811));
        let houses = [set_in(deck, 5_003, 5_003), low];
        let raw = longer(Slip::SidesUp, length, |length| decked(kind, length, &houses));
        all.marks(&format!("{}-low-quarterdeck-set-in-at-{}", name_of(kind), raw.length), &raw);
    }
}

/// 0.07 L: 37(3) with the ratio of breadths, 39(2) without; nor is it in the forecastle's height.
fn forecastles(all: &mut Cases) {
    // 14/15 of 7500 mm are 7000, of 8250 are 7700.
    for (kind, length, mm) in [(1, 100_000, 7_500), (2, 110_000, 8_250), (4, 110_000, 8_250)] {
        for (sort, breadth) in [("at", 14_000), ("below", 13_999), ("above", 14_001)] {
            let fore = house(length as i64 - mm, length as i64, 3_500);
            let houses = [house(1, 30_000, 2_300), set_in(fore, breadth, 15_000)];
            let name = format!("{}-set-in-forecastle-{sort}-7-hundredths", name_of(kind));
            all.marks(&name, &with(plain(kind, length), &houses));
        }
    }
    // A type A ship needs no forecastle.
    let fore = set_in(house(92_500, 100_000, 3_500), 13_999, 15_000);
    all.marks("a-set-in-forecastle-below-7-hundredths", &with(plain(0, 100_000), &[fore]));
    // The bow decides: plainly 0.07 L, whatever the breadths are.
    for (kind, length, height) in [(0, 90_000, 1_950), (1, 90_000, 1_950), (4, 120_000, 2_600)] {
        let l = length as i64;
        let fore = set_in(house(l * 93 / 100, l + 500, height), 9_300, 10_000);
        let raw = RawShip { cwf: 7_000, ..plain(kind, length) };
        let name = name_of(kind);
        all.marks(
            &format!("{name}-set-in-forecastle-of-7-hundredths"),
            &with(raw.clone(), &[fore]),
        );
        let long = set_in(forecastle(length), 9_700, 10_000);
        let long = with(raw, &[House { height: 1_200, ..long }]);
        all.marks(&format!("{name}-set-in-forecastle-bow-decides"), &long);
    }
}

/// S and the cover of 38 are without the ratio of breadths.
fn sheer_line(all: &mut Cases) {
    for (kind, length, per_cent) in
        [(0, 90_000, 70), (1, 80_000, 60), (4, 110_000, 120), (0, 90_000, 112), (1, 70_000, 125)]
    {
        let l = length as i64;
        let bridge = set_in(house(l * 3 / 10, l * 55 / 100, 2_200), 9_250, 10_000);
        let raw = RawShip { sheer: sheer(length, per_cent), ..decked(kind, length, &[bridge]) };
        all.marks(&format!("{}-set-in-bridge-sheer-{per_cent}-at-{length}", name_of(kind)), &raw);
    }
}

/// The reduction for depth is without the ratio of breadths.
fn low(all: &mut Cases) {
    for (kind, length, height) in
        [(0, 120_000, 2_250), (1, 100_000, 1_500), (2, 140_000, 2_400), (4, 75_000, 900)]
    {
        let l = length as i64;
        let middle = set_in(house(l / 5, l * 4 / 5, height), 9_200, 10_000);
        let raw = RawShip { depth: length / 17, moulded: 2_000, ..decked(kind, length, &[middle]) };
        all.marks(&format!("{}-low-set-in-house-at-{length}", name_of(kind)), &raw);
    }
}
