//! The figures k1 to k12, E of three houses, the reduction for depth, and the figures that go with the
//! readings of open points.

mod common;

use common::{house, k1, k2, packed, ship, with};
use twin::marks::{self, marks, steps};
use twin::question::{shortest_poop, summer_with_poop};
use twin::record::{House, Kind, RawShip};
use twin::refusal::Refusal;
use twin::table28;

#[test]
fn k1_marks() {
    let ship = ship(&k1());
    let steps = steps(&ship);
    assert_eq!(steps.corrected, 1_101_250);
    assert_eq!(steps.bow_height, 4_029_337);
    let line = marks(&ship).unwrap().to_string();
    assert_eq!(line, "S 2030 T 1948 W 2113 WNA 2163 F 1948 TF 1866");
}

#[test]
fn k2_marks() {
    let ship = ship(&k2());
    assert_eq!(steps(&ship).deduction, 69_095);
    let line = marks(&ship).unwrap().to_string();
    assert_eq!(line, "S 1024 T 921 W 1128 WNA 1178 F 921 TF 818");
}

#[test]
fn k3_to_k6_shortest_poop() {
    let record = packed(&k2());
    assert_eq!(shortest_poop(&record, 1_950, 1_000), Ok(31));
    assert_eq!(summer_with_poop(&ship(&k2()), 1_950, 30), Ok(1_001));
    assert_eq!(shortest_poop(&record, 1_950, 1_024), Ok(0));
    assert_eq!(shortest_poop(&record, 1_950, 187), Ok(800));
    assert_eq!(shortest_poop(&record, 1_950, 50), Err(Refusal::at(16, 0)));
}

#[test]
fn k7_table_between_rows() {
    assert_eq!(marks::tabular(Kind::A, 61_500), 593_500);
    assert_eq!(marks::tabular(Kind::B, 61_500), 594_000);
    assert_eq!(marks::tabular(Kind::A, 24_000), 200_000);
    assert_eq!(marks::tabular(Kind::B, 365_000), 5_303_000);
}

#[test]
fn k8_depth() {
    assert_eq!(marks::depth_addition(100_000, 6_666), 0);
    assert_eq!(marks::depth_addition(100_000, 6_667), 70);
    assert_eq!(marks::depth_addition(100_000, 8_000), 277_778);
    assert_eq!(marks::depth_addition(120_000, 8_001), 250);
}

/// The reduction for depth of k1 with this length, depth and one house.
fn reduction(length: u64, depth: u64, house: House) -> i64 {
    steps(&ship(&with(RawShip { length, depth, ..k1() }, &[house]))).depth_reduction
}

/// Rounded once, after the ratio of heights.
#[test]
fn reduction_by_a_low_house() {
    assert_eq!(reduction(90_212, 5_000, house(18_000, 90_112, 1_001)), 97_734);
}

#[test]
fn reduction_at_120_m() {
    let of = |depth, aft, height| reduction(120_000, depth, house(aft, 96_000, height));
    assert_eq!(of(7_000, 24_000, 2_250), 250_000);
    assert_eq!(of(7_000, 24_000, 1_125), 125_000);
    assert_eq!(of(7_000, 24_001, 2_250), 0);
    assert_eq!(of(8_000, 24_000, 2_250), 0);
    assert_eq!(of(7_999, 24_000, 2_250), 250);
}

/// L 120 m, D and M 7 m, a forecastle: the poop earns the reduction from 0.8 L on.
#[test]
fn reduction_by_a_poop() {
    let hex = "14401d4c01b581b586a41f40138822b023011811589c4000000000835b601d4c047e00";
    let digits = (0..hex.len()).step_by(2).map(|i| u8::from_str_radix(&hex[i..i + 2], 16));
    let record: Vec<u8> = digits.collect::<Result<_, _>>().unwrap();
    let ship = twin::record::read(&record).unwrap();
    assert_eq!((ship.length, ship.depth, ship.moulded), (120_000, 7_000, 7_000));
    let mark = |k| summer_with_poop(&ship, 2_300, k).unwrap();
    assert_eq!([959, 960].map(mark), [785, 534]);
    for (wish, k) in [(785, 959), (784, 960), (534, 960), (533, 961)] {
        assert_eq!(shortest_poop(&record, 2_300, wish), Ok(k));
    }
}

#[test]
fn k9_standard_heights() {
    let height = |quarterdeck, length| {
        let (upper, lower) = marks::standard_height(quarterdeck, length);
        assert_eq!(upper % lower, 0);
        upper / lower
    };
    assert_eq!(height(false, 100_000), 2_050);
    assert_eq!(height(true, 100_000), 1_500);
    let ends = [24_000, 30_000, 75_000, 125_000, 365_000];
    assert_eq!(ends.map(|l| height(false, l)), [1_800, 1_800, 1_800, 2_300, 2_300]);
    assert_eq!(ends.map(|l| height(true, l)), [900, 900, 1_200, 1_800, 1_800]);
}

/// k10 is E of a list of one house; three are added first and rounded once.
#[test]
fn k10_effective_lengths() {
    let effective = |houses: &[House]| {
        steps(&ship(&with(RawShip { length: 100_000, ..k1() }, houses))).effective
    };
    assert_eq!(effective(&[house(0, 10_000, 1_000)]), 4_878_048);
    let three = [(0, 10_001), (20_000, 30_002), (95_000, 100_000)];
    assert_eq!(effective(&three.map(|(aft, fore)| house(aft, fore, 1_000))), 12_196_585);
}

#[test]
fn k11_k12_sheer() {
    let flat = RawShip { sheer: [0; 6], ..k1() };
    assert_eq!(steps(&ship(&flat)).sheer_added, 375_188);
    let doubled = RawShip { sheer: k1().sheer.map(|mm| 2 * mm), ..k1() };
    assert_eq!(steps(&ship(&doubled)).sheer_deducted, 0);
    let covered = with(doubled, &[house(36_000, 54_000, 2_000)]);
    assert_eq!(steps(&ship(&covered)).sheer_deducted, 112_500);
}

#[test]
fn figures_of_the_open_points() {
    let summer = |raw: &RawShip| steps(&ship(raw)).summer;
    assert_eq!(summer(&RawShip { moulded: 5_900, ..k1() }), 2_014);
    assert_eq!(summer(&RawShip { depth: 5_900, ..k1() }), 2_030);

    let sheer = k1().sheer.map(|mm| (12 * mm + 5) / 10);
    let houses = [house(36_000, 54_000, 975), house(80_000, 90_000, 2_000)];
    assert_eq!(summer(&with(RawShip { sheer, ..k1() }, &houses)), 895);

    assert_eq!(summer(&with(k1(), &[house(80_000, 90_000, 900)])), 1_130);

    let forward = |sixth, perpendicular| RawShip {
        sheer: [1000, 444, 112, 224, sixth, perpendicular],
        ..k1()
    };
    assert_eq!(summer(&forward(10, -500)), 4_530);
    assert_eq!(summer(&forward(0, -500)), 4_030);
}

#[test]
fn a_longer_poop_can_raise_the_mark() {
    let raw = RawShip {
        kind: 1,
        length: 120_000,
        depth: 8_000,
        moulded: 8_000,
        cb: 6_800,
        cwf: 9_500,
        sheer: [1562, 693, 175, 350, 1387, 3125],
        ..RawShip::default()
    };
    let mark = |k| summer_with_poop(&ship(&raw), 2_250, k).unwrap();
    assert!((0..=599).all(|k| mark(k) == 1_690));
    assert_eq!([600, 719, 1_199, 1_200].map(mark), [1_651, 1_620, 1_651, 593]);
    assert!((720..=1_199).all(|k| mark(k) >= mark(k - 1)));
    assert_eq!(shortest_poop(&packed(&raw), 2_250, 1_620), Ok(719));
    assert_eq!(shortest_poop(&packed(&raw), 2_250, 1_619), Ok(1_200));
}

#[test]
fn tables_rise_and_b_is_never_below_a() {
    for table in [table28::TYPE_A, table28::TYPE_B] {
        assert!(table.windows(2).all(|rows| rows[0] < rows[1]));
    }
    assert!(table28::TYPE_A.iter().zip(&table28::TYPE_B).all(|(a, b)| a <= b));
}

#[test]
fn rows_that_the_scan_damaged() {
    let a = [
        (114, 1359),
        (116, 1392),
        (117, 1409),
        (118, 1426),
        (177, 2357),
        (178, 2369),
        (179, 2381),
        (180, 2393),
        (241, 2953),
        (242, 2959),
        (243, 2966),
    ];
    for (metres, mm) in a {
        assert_eq!(table28::TYPE_A[metres - table28::FIRST], mm);
    }
    assert_eq!(table28::TYPE_B[138 - table28::FIRST], 2065);
}
