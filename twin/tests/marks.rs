//! Steps and marks away from the stated figures.

mod common;

use common::{house, k1, k2, ship, with};
use twin::big::{whole, Fraction};
use twin::exact::{bound_holds, exact};
use twin::marks::{marks, steps, Marks};
use twin::random::Random;
use twin::record::{House, Houses, RawShip, Ship};
use twin::refusal::Refusal;

/// S is the number of whole mm of L that some enclosed house covers.
#[test]
fn covered_length_is_a_count() {
    let mut random = Random::new(34);
    for _ in 0..200 {
        let n = random.between(0, 8) as usize;
        let ship = ship(&random.ship(n));
        let covers =
            |mm: i64| ship.houses.iter().any(|h: &House| h.enclosed && h.aft <= mm && mm < h.fore);
        let count = (0..ship.length).filter(|&mm| covers(mm)).count();
        assert_eq!(steps(&ship).covered, count as i64);
    }
}

#[test]
fn summer_mark_at_or_above_depth() {
    let at = RawShip { depth: 2_030, ..k1() };
    assert_eq!(marks(&ship(&at)), Err(Refusal::at(12, 0)));
    let below = RawShip { depth: 2_031, ..k1() };
    assert_eq!(marks(&ship(&below)).unwrap().summer, 2_030);
}

/// The draught of k2 is 4976 mm.
#[test]
fn fresh_allowance_above_draught() {
    let certified = |displacement| RawShip { displacement, immersion: 25, ..k2() };
    let Marks { fresh, tropical_fresh, .. } = marks(&ship(&certified(4_976))).unwrap();
    assert_eq!((fresh, tropical_fresh), (1_024 - 4_976, 921 - 4_976));
    assert_eq!(marks(&ship(&certified(4_977))), Err(Refusal::at(13, 0)));
}

#[test]
fn fresh_allowance_is_rounded_down() {
    let certified = RawShip { displacement: 7_000, immersion: 1_800, ..k2() };
    assert_eq!(marks(&ship(&certified)).unwrap().fresh, 1_024 - 97); // 97.2
}

/// Type A, full house: the floor of 50 mm holds for S and for T.
#[test]
fn floor_of_fifty() {
    let low = with(
        RawShip { kind: 0, length: 60_000, depth: 4_000, moulded: 2_000, cwf: 10_000, ..k1() },
        &[house(0, 60_000, 8_000)],
    );
    let marks = marks(&ship(&low)).unwrap();
    assert_eq!(marks.to_string(), "S 50 T 50 W 133 WNA 183 F -32 TF -32");
}

#[test]
fn winter_north_atlantic_ends_at_100_m() {
    let of = |length| {
        let Marks { winter, winter_north_atlantic, .. } =
            marks(&ship(&RawShip { length, ..k1() })).unwrap();
        winter_north_atlantic - winter
    };
    assert_eq!((of(100_000), of(100_001)), (50, 0));
}

/// 0.07 L is made on the effective length for the deduction, on the plain one for the bow.
#[test]
fn seven_hundredths() {
    let fore = |aft, height| steps(&ship(&with(k1(), &[house(aft, 90_000, height)])));
    // 0.07 L is 6300 mm, the standard height 1950.
    assert!(fore(83_700, 1_950).deduction > 0);
    assert_eq!(fore(83_701, 1_950).deduction, 0);
    assert_eq!(fore(83_700, 1_949).deduction, 0);
    assert_eq!(fore(83_700, 1_949).bow, 4_029_337 - 2_000_000 - 1_949_000);
    assert_eq!(fore(83_701, 1_949).bow, 4_029_337 - 2_000_000);
    // At half the height 12600 mm have just 6300.
    assert!(fore(77_400, 975).deduction > 0);
    assert_eq!(fore(77_401, 975).deduction, 0);
    // A type A ship needs no forecastle.
    let poop = with(RawShip { kind: 0, ..k1() }, &[house(0, 10_000, 2_000)]);
    assert_eq!(steps(&ship(&poop)).deduction, 69_095);
}

/// The limit of 0.6 L touches the effective length of a raised quarterdeck, not S.
#[test]
fn long_quarterdeck() {
    let deck = House { quarterdeck: true, ..house(-1_000, 80_000, 8_000) };
    let of = |deck| steps(&ship(&with(k1(), &[deck])));
    assert_eq!((of(deck).covered, of(deck).effective), (80_000, 54_000_000));
    let low = House { height: 690, ..deck };
    assert_eq!(of(low).effective, 27_000_000); // standard height at 90 m: 1380 mm
}

/// The ordinary houses are rounded down once over their sum, a raised quarterdeck by itself.
#[test]
fn effective_lengths_are_added_first() {
    let effective = |houses: &[House]| {
        steps(&ship(&with(RawShip { length: 100_000, ..k1() }, houses))).effective
    };
    let deck = |fore| House { quarterdeck: true, ..house(0, fore, 1_000) };
    let low = |aft, fore| house(aft, fore, 1_000);
    // Standard heights 2050 and 1500: 41 mm are 20000 um, 3 mm of quarterdeck 2000 um.
    assert_eq!(effective(&[low(0, 40), low(100, 101)]), 20_000);
    assert_eq!(effective(&[low(0, 40), low(100, 100 + 40)]), 39_024); // 19512.2 twice
    assert_eq!(effective(&[low(0, 2), low(100, 102)]), 1_951); // 975.6 twice
    assert_eq!(effective(&[deck(2), low(100, 102)]), 1_333 + 975); // 1333.3 and 975.6
    assert_eq!(effective(&[deck(1), low(100, 102)]), 666 + 975); // 666.7 and 975.6
    assert_eq!(effective(&[deck(1), low(100, 102), low(200, 202)]), 666 + 1_951);
    // One of standard height has no part of a um, and an open one is not added.
    assert_eq!(effective(&[low(0, 2), house(100, 102, 2_050), low(200, 202)]), 3_951);
    let open = House { enclosed: false, ..low(100, 102) };
    assert_eq!(effective(&[low(0, 2), open, low(200, 202)]), 1_951);
    // Quarterdeck 6667333.3, the others 7318048.8.
    assert_eq!(effective(&[deck(10_001), low(20_000, 30_002), low(95_000, 100_000)]), 13_985_381);
}

/// E is the exact sum of the ordinary houses, down, and the exact length of the quarterdeck, down.
#[test]
fn effective_length_is_near_the_exact_one() {
    let short =
        |ship: &Ship| exact(ship).effective * whole(1_000_000) - whole(steps(ship).effective);
    let mut random = Random::new(35);
    let mut by_one_or_more = 0;
    for i in 0..900 {
        let ship = ship(&random.ship(i % 9));
        let (decks, others): (Vec<House>, Vec<House>) =
            ship.houses.iter().partition(|house| house.quarterdeck);
        let parts = [decks, others].map(|part| Ship { houses: Houses::of(&part), ..ship.clone() });
        let sum: i64 = parts.iter().map(|part| steps(part).effective).sum();
        assert_eq!(steps(&ship).effective, sum, "{ship:?}");
        let less_than_one = |um: Fraction| um >= whole(0) && um < whole(1);
        assert!(parts.iter().all(|part| less_than_one(short(part))), "{ship:?}");
        let um = short(&ship);
        assert!(um >= whole(0) && um < whole(2), "{ship:?}");
        by_one_or_more += i32::from(um >= whole(1));
    }
    assert!(by_one_or_more > 0);
}

/// Two houses that touch amidships both count; two that touch elsewhere do not join.
#[test]
fn cover_amidships() {
    let reach = |houses: &[House]| steps(&ship(&with(k1(), houses))).cover_reach;
    assert_eq!(reach(&[house(36_000, 45_000, 1), house(45_000, 54_000, 1)]), 180_000);
    assert_eq!(reach(&[house(36_000, 46_000, 1), house(46_000, 54_000, 1)]), 100_000);
    assert_eq!(reach(&[house(36_000, 44_999, 1)]), 0);
    assert_eq!(reach(&[House { enclosed: false, ..house(36_000, 54_000, 1) }]), 0);
    assert_eq!(reach(&[house(0, 90_000, 1)]), 180_000);
}

/// k1 of this length with these houses, and D as little below L/15 as can be.
fn low(length: u64, houses: &[House]) -> RawShip {
    with(RawShip { length, depth: (length - 1) / 15, ..k1() }, houses)
}

fn reduction(raw: &RawShip) -> i64 {
    steps(&ship(raw)).depth_reduction
}

/// 0.2 L and 0.8 L as they are, with no rounding to mm.
#[test]
fn ends_of_the_house_amidships() {
    for (length, last, first) in
        [(100_000, 20_000, 80_000), (100_001, 20_000, 80_001), (100_004, 20_000, 80_004)]
    {
        let earns = |aft, fore| reduction(&low(length, &[house(aft, fore, 2_300)])) > 0;
        assert!(earns(last, first) && earns(last - 1, first) && earns(last, first + 1));
        assert!(!earns(last + 1, first) && !earns(last, first - 1));
        assert!(earns(-20_000, length as i64 + 20_000));
    }
}

/// One enclosed house, wherever it stands in the list; those that touch do not join.
#[test]
fn one_house_amidships() {
    let of = |houses: &[House]| reduction(&low(120_000, houses));
    let all = of(&[house(0, 120_000, 2_250)]);
    assert_eq!(all, 250);
    let middle = house(20_000, 100_000, 2_250);
    assert_eq!(of(&[house(0, 20_000, 1), middle, house(100_000, 120_000, 1)]), all);
    assert_eq!(of(&[House { enclosed: false, ..middle }]), 0);
    assert_eq!(of(&[house(0, 60_000, 2_250), house(60_000, 120_000, 2_250)]), 0);
    assert_eq!(of(&[house(0, 24_001, 2_250), house(24_001, 120_000, 2_250)]), 0);
    assert_eq!(of(&[]), 0);
}

/// The ratio of heights by the house's own standard height: 2250 mm at 120 m, 1740 for a quarterdeck.
#[test]
fn height_of_the_house_amidships() {
    let of = |house| reduction(&RawShip { depth: 1_000, ..low(120_000, &[house]) });
    let ordinary = |height| of(house(0, 100_000, height));
    let deck = |height| of(House { quarterdeck: true, ..house(0, 100_000, height) });
    assert_eq!([2_249, 2_250, 8_191].map(ordinary), [1_749_222, 1_750_000, 1_750_000]);
    assert_eq!([1_739, 1_740, 8_191].map(deck), [1_748_994, 1_750_000, 1_750_000]);
    assert_eq!((ordinary(1_740), ordinary(1), deck(1)), (1_353_333, 777, 1_005));
}

/// Added above L/15, taken below it, neither at it.
#[test]
fn depth_about_a_fifteenth() {
    let of = |length, depth| {
        let raw = RawShip { length, depth, ..k1() };
        let steps = steps(&ship(&with(raw, &[house(0, length as i64, 2_300)])));
        (steps.depth, steps.depth_reduction)
    };
    assert_eq!([5_999, 6_000, 6_001].map(|d| of(90_000, d)), [(0, 187), (0, 0), (188, 0)]);
    assert_eq!([9_999, 10_000, 10_001].map(|d| of(150_000, d)), [(0, 250), (0, 0), (250, 0)]);
    // L/15 is 6666 2/3 mm.
    assert_eq!([6_666, 6_667].map(|d| of(100_000, d)), [(0, 138), (70, 0)]);
    // R is L/0.48 below 120 m: 249.998 at 119.999 m.
    assert_eq!([119_999, 120_000, 120_001].map(|l| of(l, 6_000).1), [499_979, 500_000, 500_016]);
}

/// The reduction comes off the freeboard after 30, however little is left.
#[test]
fn freeboard_below_zero() {
    let of = |depth| {
        let raw = RawShip { kind: 0, length: 300_000, depth, cb: 9_000, ..k1() };
        steps(&ship(&with(raw, &[house(0, 300_000, 2_300)])))
    };
    let (none, low) = (of(20_000), of(1_000));
    assert_eq!((none.depth_reduction, low.depth_reduction), (0, 4_750_000));
    assert_eq!(none.corrected - low.corrected, 4_750_000);
    assert!(none.corrected > 0 && low.corrected < 0);
}

/// The mean is rounded toward minus infinity. Standard sums at 90 m: 2668 and 5336 mm.
#[test]
fn sheer_halves() {
    let mean = |after, forward| {
        let sheer = [after, 0, 0, 0, 0, forward];
        steps(&ship(&RawShip { sheer, ..k1() })).sheer_mean
    };
    assert_eq!(mean(2_668, 5_336), 0);
    assert_eq!(mean(2_668, 5_336 + 16), 1_000);
    // After excess counts nothing: -1/16 mm forward.
    assert_eq!(mean(2_669, 5_335), -63);
    // A forward excess of 1/2 mm in the mean, whole at 75% of the after sum, nothing at 50%.
    assert_eq!(mean(2_001, 5_344), -41_188); // -41687.5 + 500
    assert_eq!(mean(1_334, 5_344), -83_375);
    assert_eq!(mean(0, 5_344), -166_750);
    assert_eq!(mean(1_667, 5_344), -62_313); // -62562.5 + 500 x 1332/2668
}

/// The greatest product of the reduction, on both sides of 120 m.
#[test]
fn greatest_reductions_fit() {
    for (length, height) in [(24_000, 1_799), (119_999, 2_249), (124_999, 2_299), (365_000, 8_191)]
    {
        for quarterdeck in [false, true] {
            let middle = House { quarterdeck, ..house(0, length - 1, height) };
            let raw = RawShip { length: length as u64, depth: 1_000, ..k1() };
            assert!(bound_holds(&ship(&with(raw, &[middle]))), "{length}");
        }
    }
}

/// Ships at the ends of every range: a product that does not fit ends the test.
#[test]
fn greatest_products_fit() {
    for ends in 0..1 << 6 {
        let end = |place: u32, least, most| if ends >> place & 1 == 0 { least } else { most };
        let (after, forward) = (end(0, -8_192, 8_191), end(1, -8_192, 8_191));
        let length = end(2, 24_000, 365_000);
        let raw = RawShip {
            kind: end(3, 0, 1) as u64,
            length: length as u64,
            depth: 60_000,
            moulded: end(4, 1_000, 60_000) as u64,
            cb: end(5, 1, 12_000) as u64,
            cwf: end(5, 10_000, 1) as u64,
            sheer: [after, after, after, forward, forward, forward],
            ..k1()
        };
        // None, the whole cover with as little as can be of L under it, and all of L.
        let cover = house(2 * length / 5, 3 * length / 5, 1);
        for houses in [&[][..], &[cover], &[house(0, length, 8_191)]] {
            assert!(bound_holds(&ship(&with(raw.clone(), houses))), "{raw:?}");
        }
    }
}
