//! The exact value, and the bound on the mark.

mod common;

use common::{house, k1, k2, ship, with};
use twin::big::{over, whole};
use twin::exact::{bound_holds, cost, exact};
use twin::marks::steps;
use twin::random::Random;
use twin::record::{House, RawShip};

/// k1 before the bow height is exact in um; its bow height is worked by hand.
#[test]
fn exact_k1() {
    let exact = exact(&ship(&k1()));
    assert_eq!(exact.corrected, over(1_101_250, 1_000));
    // b1 = 5467.5 - 1518.75 + 145.8 and b2 = 2.08 + 0.41412 - 1.2824 - 0.0129 x 90 / 5.1.
    let b1 = over(409_455, 100);
    let b2 = over(121_172, 100_000) - over(1_161, 5_100);
    assert_eq!(exact.bow, b1 * b2 - whole(2_000));
    assert_eq!(exact.summer, exact.bow);
}

/// k2: deduction 888.378.. x 0.0777..
#[test]
fn exact_k2() {
    let full = over(860, 1) + over(210 * 5, 37);
    let exact = exact(&ship(&k2()));
    let addition = over(75, 1) * (over(35, 100) - over(1, 9));
    assert_eq!(exact.corrected, whole(1_075) + addition - full * over(7, 90));
    assert_eq!(exact.summer, exact.corrected);
}

/// D below L/15: (L/15 - D) R, times the ratio of heights.
#[test]
fn exact_reduction() {
    let of = |depth, house| {
        let raw = RawShip { kind: 0, length: 90_212, depth, ..k1() };
        exact(&ship(&with(raw, &[house]))).corrected
    };
    let low = house(18_000, 90_112, 1_001);
    let lack = over(90_212, 15_000);
    let r = over(90_212, 480);
    // Standard height 1952.12 mm. Above L/15 the same is added, whatever the height.
    let taken = (&lack - whole(5)) * &r * over(100_100, 195_212);
    let added = (whole(7) - &lack) * &r;
    assert_eq!(of(7_000, low) - of(5_000, low), added + &taken);
    assert!(taken > over(97_734, 1_000) && taken < over(97_735, 1_000));
    // 1 mm too short.
    let short = House { aft: 18_043, ..low };
    assert_eq!(of(7_000, short) - of(5_000, short), (whole(7) - lack) * r);
}

/// The least corrected value: table 3433 mm, 23 1/3 m x 250 below L/15, the full deduction of 1070 and the
/// limit of 1.25 L for sheer.
#[test]
fn least_corrected_value() {
    let raw =
        RawShip { kind: 0, length: 365_000, depth: 1_000, cb: 6_800, sheer: [8_191; 6], ..k1() };
    let least = ship(&with(raw, &[house(0, 365_000, 2_300)]));
    let parts = whole(3_433) - over(70 * 250, 3) - whole(1_070) - over(45_625, 100);
    assert_eq!(exact(&least).corrected, parts);
    assert_eq!(steps(&least).corrected, -3_926_583);
    assert_eq!(exact(&least).summer, whole(50));
    assert!(bound_holds(&least));
}

#[test]
fn floor_of_fifty() {
    let low = with(
        RawShip { kind: 0, length: 60_000, depth: 4_000, moulded: 2_000, cwf: 10_000, ..k1() },
        &[house(0, 60_000, 8_000)],
    );
    assert_eq!(exact(&ship(&low)).summer, whole(50));
    assert!(bound_holds(&ship(&low)));
}

#[test]
fn bound_over_random_ships() {
    let mut random = Random::new(7);
    for i in 0..3_000 {
        let n = i % 9;
        let ship = ship(&if i < 2_000 { random.ship(n) } else { random.low_ship(n) });
        assert!(bound_holds(&ship), "{ship:?}");
        let cost = cost(&ship);
        assert!(cost.corrected >= 0.0 && cost.corrected < 8.5, "{ship:?}");
        assert!(cost.bow >= 0.0 && cost.bow < 13.0, "{ship:?}");
    }
}
