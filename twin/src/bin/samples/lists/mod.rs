//! Lists of houses about refusals 11 and 18, to be given to every call; L is 90000. Each says the
//! refusal, its place and its overlap.

pub mod slips;

use crate::ships::{house, open, quarterdeck};
use crate::{overlap, refused, Expected};
use twin::record::{House, MAX_HOUSES};

pub struct Case {
    pub name: String,
    pub expected: Expected,
    pub houses: Vec<House>,
}

struct Cases(Vec<Case>);

impl Cases {
    fn houses(&mut self, name: &str, expected: Expected, houses: &[House]) {
        let name = format!("list-{name}");
        self.0.push(Case { name, expected, houses: houses.to_vec() });
    }

    /// Enclosed houses with these ends.
    fn ends(&mut self, name: &str, expected: Expected, ends: &[(i64, i64)]) {
        self.houses(name, expected, &row(ends));
    }
}

fn row(ends: &[(i64, i64)]) -> Vec<House> {
    ends.iter().map(|&(aft, fore)| house(aft, fore, 2_000)).collect()
}

pub fn cases() -> Vec<Case> {
    let mut all = Cases(Vec::new());
    figures(&mut all);
    ends(&mut all);
    mixed(&mut all);
    alike(&mut all);
    eight(&mut all);
    open_houses(&mut all);
    beyond_the_ends(&mut all);
    priorities(&mut all);
    all.0
}

/// A list for either refusal, its number first.
pub fn either() -> [(u8, Expected, Vec<House>); 2] {
    [
        (11, overlap(1, 2_000), row(&[(1, 20_000), (6_000, 8_000)])),
        (18, refused(18, 1), row(&[(6_001, 20_000), (6_000, 8_000)])),
    ]
}

/// The figures that are stated.
fn figures(all: &mut Cases) {
    all.ends("equal-aft-ends", overlap(1, 5_000), &[(0, 20_000), (0, 5_000)]);
    all.ends("overlap-of-1", overlap(1, 1), &[(0, 20_001), (20_000, 30_000)]);
    all.ends("within", overlap(1, 2_000), &[(0, 20_000), (6_000, 8_000)]);
    all.ends("order-by-1-longer", refused(18, 1), &[(20_000, 25_000), (19_999, 30_000)]);
    all.ends("order", refused(18, 1), &[(20_000, 25_000), (0, 10_000)]);
    all.ends("order-by-1-shorter", refused(18, 1), &[(10_000, 20_000), (9_999, 15_000)]);
    all.ends("touching", None, &[(0, 20_000), (20_000, 30_000)]);
}

/// A house beside one from 10000 to 20000: ends that are equal, or 1 mm apart.
fn ends(all: &mut Cases) {
    for (aft, fore, expected) in [
        (9_999, 19_999, refused(18, 1)),
        (9_999, 20_000, refused(18, 1)),
        (9_999, 20_001, refused(18, 1)),
        (10_000, 19_999, overlap(1, 9_999)),
        (10_000, 20_000, overlap(1, 10_000)),
        (10_000, 20_001, overlap(1, 10_000)),
        (10_001, 19_999, overlap(1, 9_998)),
        (10_001, 20_000, overlap(1, 9_999)),
        (10_001, 20_001, overlap(1, 9_999)),
        (10_000, 10_001, overlap(1, 1)),
        (19_999, 20_000, overlap(1, 1)),
        (19_999, 20_001, overlap(1, 1)),
        (20_000, 20_001, None),
        (20_001, 30_000, None),
        (5_000, 9_999, refused(18, 1)),
        (5_000, 10_000, refused(18, 1)),
        (5_000, 10_001, refused(18, 1)),
    ] {
        all.ends(&format!("{aft}-to-{fore}"), expected, &[(10_000, 20_000), (aft, fore)]);
    }
    all.ends("1-mm-twice", overlap(1, 1), &[(10_000, 10_001), (10_000, 10_001)]);
}

/// Both kinds of trouble in one list: the first bad house decides.
fn mixed(all: &mut Cases) {
    let first = (0, 10_000);
    let ends = [first, (9_000, 20_000), (5_000, 8_000)];
    all.ends("overlap-then-order", overlap(1, 1_000), &ends);
    let ends = [(20_000, 30_000), (10_000, 15_000), (14_000, 18_000)];
    all.ends("order-then-overlap", refused(18, 1), &ends);
    let ends = [(0, 20_000), (6_000, 8_000), (5_999, 30_000)];
    all.ends("within-then-order-by-1", overlap(1, 2_000), &ends);
    let ends = [(10_000, 20_000), (9_999, 15_000), (9_999, 15_000)];
    all.ends("order-by-1-then-twice", refused(18, 1), &ends);
    let ends = [first, (9_000, 20_000), (5_000, 8_000), (6_000, 7_500)];
    all.ends("overlap-order-overlap", overlap(1, 1_000), &ends);
    let ends = [first, (20_000, 30_000), (29_000, 40_000), (25_000, 28_000)];
    all.ends("overlap-at-house-2-then-order", overlap(2, 1_000), &ends);
    let ends = [first, (20_000, 30_000), (12_000, 15_000), (14_000, 18_000)];
    all.ends("order-at-house-2-then-overlap", refused(18, 2), &ends);
}

/// Several bad houses of one kind, or a sound one before or after.
fn alike(all: &mut Cases) {
    let first = (0, 10_000);
    let ends = [first, (9_999, 20_000), (19_998, 30_000), (29_997, 40_000)];
    all.ends("overlaps-of-1-2-and-3", overlap(1, 1), &ends);
    let ends = [first, (9_000, 20_000), (17_000, 30_000)];
    all.ends("greater-overlap-later", overlap(1, 1_000), &ends);
    let ends = [first, (7_000, 20_000), (19_000, 30_000)];
    all.ends("lesser-overlap-later", overlap(1, 3_000), &ends);
    let ends = [(50_000, 60_000), (30_000, 40_000), (10_000, 20_000)];
    all.ends("order-twice", refused(18, 1), &ends);
    let ends = [first, (20_000, 30_000), (12_000, 18_000)];
    all.ends("order-at-house-2-alone", refused(18, 2), &ends);
    let ends = [(20_000, 30_000), (10_000, 15_000), (40_000, 50_000)];
    all.ends("order-then-none", refused(18, 1), &ends);
}

fn eight(all: &mut Cases) {
    let ends: Vec<(i64, i64)> = (0..8).map(|i| (10_000 * i, 10_000 * i + 10_000)).collect();
    let last_from = |aft| [&ends[..7], &[(aft, 80_000)]].concat();
    all.ends("eight-touching", None, &ends);
    all.ends("overlap-at-house-7", overlap(7, 1), &last_from(69_999));
    all.ends("order-at-house-7", refused(18, 7), &last_from(59_999));
    let from_forward: Vec<(i64, i64)> = ends.iter().rev().copied().collect();
    all.ends("eight-from-forward", refused(18, 1), &from_forward);
    all.houses("eight-alike", overlap(1, 9_000), &[house(500, 9_500, 2_000); MAX_HOUSES]);
}

/// A house is compared with the one just before, enclosed or not.
fn open_houses(all: &mut Cases) {
    let of = |aft, fore| house(aft, fore, 2_000);
    let not = |aft, fore| open(of(aft, fore));
    all.houses("within-open", overlap(1, 2_000), &[not(0, 20_000), of(6_000, 8_000)]);
    all.houses("open-within", overlap(1, 2_000), &[of(0, 20_000), not(6_000, 8_000)]);
    all.houses("open-order", refused(18, 1), &[not(20_000, 25_000), not(0, 10_000)]);
    let between = [of(0, 10_000), not(20_000, 40_000), of(30_000, 50_000)];
    all.houses("overlap-with-open", overlap(2, 10_000), &between);
    let between = [of(0, 10_000), not(20_000, 40_000), of(12_000, 18_000)];
    all.houses("order-by-open", refused(18, 2), &between);
    // By the enclosed house it would be an overlap of 2000.
    let between = [of(10_000, 20_000), not(20_000, 25_000), of(18_000, 30_000)];
    all.houses("order-by-open-not-overlap", refused(18, 2), &between);
    let mixed = [of(0, 10_000), not(9_000, 20_000), of(5_000, 8_000)];
    all.houses("overlap-of-open-then-order", overlap(1, 1_000), &mixed);
    let mixed = [of(20_000, 30_000), not(10_000, 15_000), of(14_000, 18_000)];
    all.houses("order-of-open-then-overlap", refused(18, 1), &mixed);
    let deck = quarterdeck(-1_000, 9_000, 1_200);
    all.houses("overlap-with-quarterdeck", overlap(1, 1_000), &[deck, of(8_000, 20_000)]);
    all.houses("quarterdeck-twice", overlap(1, 10_000), &[deck, deck]);
    all.houses("quarterdeck-order", refused(18, 1), &[of(-999, 5_000), deck]);
}

/// Beyond a perpendicular a mm counts as any other.
fn beyond_the_ends(all: &mut Cases) {
    all.ends("abaft-ap", overlap(1, 4_000), &[(-5_000, 1_000), (-3_000, 2_000)]);
    all.ends("abaft-ap-order", refused(18, 1), &[(-3_000, 1_000), (-5_000, 2_000)]);
    all.ends("abaft-ap-order-by-1", refused(18, 1), &[(-19_999, 1), (-20_000, 1)]);
    all.ends("abaft-ap-twice", overlap(1, 20_001), &[(-20_000, 1), (-20_000, 1)]);
    all.ends("before-fp", overlap(1, 5_001), &[(80_000, 95_000), (89_999, 110_000)]);
    all.ends("before-fp-within", overlap(1, 15_000), &[(80_000, 110_000), (85_000, 100_000)]);
    all.ends("before-fp-order-by-1", refused(18, 1), &[(89_999, 110_000), (89_998, 110_000)]);
    all.ends("greatest-overlap", overlap(1, 130_000), &[(-20_000, 110_000), (-20_000, 110_000)]);
    all.ends("overlap-of-65536", overlap(1, 65_536), &[(0, 70_000), (4_464, 90_000)]);
    all.ends("overlap-of-75000", overlap(1, 75_000), &[(0, 90_000), (10_000, 85_000)]);
}

/// 9 and 10 come first, wherever they are, and with no overlap beside them.
fn priorities(all: &mut Cases) {
    for (number, last) in
        [(9, house(40_000, 40_000, 2_000)), (10, quarterdeck(40_000, 50_000, 1_200))]
    {
        for (later, ends) in
            [(11, [(0, 20_000), (6_000, 8_000)]), (18, [(20_000, 25_000), (0, 10_000)])]
        {
            let houses = row(&ends);
            let spoilt = |place: usize| {
                let mut houses = houses.clone();
                match number {
                    9 => houses[place].height = 0,
                    _ => houses[place] = open(House { quarterdeck: true, ..houses[place] }),
                }
                houses
            };
            let name = |place| format!("{number}-at-house-{place}-before-{later}");
            all.houses(&name(0), refused(number, 0), &spoilt(0));
            all.houses(&name(1), refused(number, 1), &spoilt(1));
            all.houses(&name(2), refused(number, 2), &[&houses[..], &[last]].concat());
        }
    }
}
