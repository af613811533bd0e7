//! Stated figures; regulations 39 and 40; refusals 12 and 13.

use super::{telling, Cases};
use crate::ships::{decked, house, k1, k2, plain, quarterdeck, sheer, with, KINDS};
use crate::slips::Slip;
use twin::marks;
use twin::record::RawShip;

/// k1, k2, k11, k12, and the figures that go with the readings.
pub fn figures(all: &mut Cases) {
    all.marks("k1", &k1());
    all.marks("k2", &k2());
    all.marks("k2-type-a", &RawShip { kind: 0, ..k2() });
    all.marks("k11-no-sheer", &RawShip { sheer: [0; 6], ..k1() });
    let doubled = RawShip { sheer: k1().sheer.map(|mm| 2 * mm), ..k1() };
    let bridge = house(36_000, 54_000, 2_000);
    all.marks("k12-double-sheer", &doubled);
    all.marks("k12-double-sheer-bridge", &with(doubled, &[bridge]));
    all.marks("k1-moulded-depth-5900", &RawShip { moulded: 5_900, ..k1() });
    let sheer = k1().sheer.map(|mm| (12 * mm + 5) / 10);
    let houses = [house(36_000, 54_000, 975), house(80_000, 90_000, 2_000)];
    all.marks("k1-low-bridge-excess-sheer", &with(RawShip { sheer, ..k1() }, &houses));
    all.marks("k1-forecastle-of-900", &with(k1(), &[house(80_000, 90_000, 900)]));
    for (name, sixth) in [("10", 10), ("0", 0)] {
        let sheer = [1_000, 444, 112, 224, sixth, -500];
        all.marks(&format!("k1-fp-minus-500-sixth-{name}"), &RawShip { sheer, ..k1() });
    }
}

/// Regulation 39.
pub fn bow(all: &mut Cases) {
    for (kind, letter) in KINDS {
        // Deciding, without a forecastle.
        let of = |length| RawShip { cwf: 7_000, ..plain(kind, length) };
        for length in [&[24_000][..], &[165_000, 365_000]][kind as usize] {
            let raw = RawShip { sheer: [0; 6], ..of(*length) };
            all.marks(&format!("{letter}-bow-decides-at-{length}"), &raw);
        }
        let extremes = [&[1, 6_799][..], &[10_000, 10_001, 12_000]];
        for &cb in extremes[kind as usize] {
            all.marks(&format!("{letter}-bow-cb-{cb}"), &RawShip { cb, ..of(95_000) });
        }
    }
    // b2 below zero, and the sheer at FP far below the deck.
    let negative = RawShip {
        depth: 14_000,
        moulded: 1_200,
        cwf: 10_000,
        sheer: [1_000, 444, 112, 224, 1, -8_192],
        ..plain(0, 90_000)
    };
    all.marks("a-b2-negative-decides", &negative);
    for (kind, length, moulded) in [(0, 150_000, 1_600), (1, 180_000, 2_000), (1, 222_221, 2_500)] {
        let raw = RawShip { kind, length, moulded, ..negative.clone() };
        let raw = telling(Slip::BowHeightUp, longer(raw));
        let letter = KINDS[kind as usize].1;
        all.marks(&format!("{letter}-b2-negative-decides-at-{}", raw.length), &raw);
    }
    let high = RawShip { kind: 1, sheer: sheer(90_000, 100), ..negative };
    all.marks("b-b2-negative-does-not-decide", &high);
    // The sheer at FP counts by the ordinate at L/6 from it.
    for (kind, name, sixth) in [(0, "minus-1", -1), (0, "0", 0), (1, "0", 0), (1, "1", 1)] {
        let sheer = [1_200, 500, 120, 240, sixth, 2_100];
        let raw = RawShip { sheer, ..plain(kind, 100_000) };
        all.marks(&format!("{}-bow-fp-2100-sixth-{name}", KINDS[kind as usize].1), &raw);
    }
    // b2 is 0.89112 less 0.0129 L / (0.85 M): zero at M 1135.4 mm.
    for moulded in [1_135, 1_136] {
        let sheer = [1_000, 444, 112, 224, 1, -3_000];
        let near = RawShip { moulded, cb: 6_800, cwf: 10_000, sheer, ..plain(1, 66_666) };
        all.marks(&format!("b-b2-about-zero-{moulded}"), &near);
    }
    let shallow = RawShip { cwf: 8_000, ..plain(0, 140_000) };
    all.marks("a-bow-small-moulded-depth", &RawShip { moulded: 6_000, ..shallow.clone() });
    all.marks("a-bow-great-moulded-depth", &RawShip { moulded: 20_000, ..shallow.clone() });
    // The bow decides by as little as can be, and does not.
    let balance = |moulded| RawShip { moulded, ..decked(0, 140_000, &[]) };
    let low = |mut raw: RawShip| {
        raw.houses[0].height = 1_500;
        raw.cwf = 6_500;
        raw.sheer[5] = 2_000;
        raw
    };
    let at = (1_000..60_000)
        .find(|&moulded| telling_bow(&low(balance(moulded))))
        .expect("some depth makes the bow decide");
    for moulded in [at - 1, at] {
        all.marks(&format!("a-bow-balance-moulded-depth-{moulded}"), &low(balance(moulded)));
    }
    all.marks("a-cwf-least", &RawShip { cwf: 1, ..shallow });
}

/// The ship longer and longer.
fn longer(raw: RawShip) -> impl Iterator<Item = RawShip> {
    (0..40_000).map(move |mm| RawShip { length: raw.length + mm, ..raw.clone() })
}

/// Whether the bow height raises the summer mark.
fn telling_bow(raw: &RawShip) -> bool {
    let ship = raw.check().expect("a valid ship");
    let steps = marks::steps(&ship);
    steps.bow > 1000 * (steps.corrected + 999).div_euclid(1000)
}

/// Regulation 40(2) and (4).
pub fn floors(all: &mut Cases) {
    let low = |length: u64, depth: u64, height| {
        let raw = RawShip { depth, moulded: 2_000, cwf: 10_000, cb: 6_800, ..plain(0, length) };
        with(raw, &[house(0, length as i64, height)])
    };
    for length in [24_000, 50_000] {
        all.marks(&format!("a-floor-at-{length}"), &low(length, length / 15, 8_000));
    }
    let lowest =
        RawShip { sheer: sheer(86_000, 300).map(|mm| mm.min(8_191)), ..low(86_000, 5_000, 3_000) };
    all.marks("b-floor-far-below", &RawShip { kind: 1, ..lowest });
    // S about 50, then T about 50: a deeper ship has a greater S.
    let summer = |raw: &RawShip| marks::steps(&raw.check().expect("a valid ship")).summer;
    let first_above = |least: i64, length: u64| {
        (length / 15..).find(|&depth| summer(&low(length, depth, 8_000)) >= least).unwrap_or(0)
    };
    let at = first_above(51, 60_000);
    for depth in [at - 1, at] {
        let raw = low(60_000, depth, 8_000);
        all.marks(&format!("a-60-m-s-{}", summer(&raw)), &raw);
    }
    for tropical in [49, 50, 51] {
        let of = |depth| low(70_000, depth, 8_000);
        let before_floor = |depth: u64| {
            let s = summer(&of(depth));
            s - (depth as i64 - s).div_euclid(48)
        };
        let depth = (4_667..).find(|&depth| before_floor(depth) >= tropical).unwrap_or(0);
        all.marks(&format!("a-t-{}-before-the-floor", before_floor(depth)), &of(depth));
    }
}

/// Regulation 40(7) and (8).
pub fn fresh(all: &mut Cases) {
    let of = |kind, displacement, immersion| {
        let raw = decked(kind, 130_000, &[quarterdeck(0, 30_000, 1_700)]);
        RawShip { displacement, immersion, ..raw }
    };
    for (kind, name, displacement, immersion) in [
        (0, "not-certified", 0, 0),
        (0, "larger-than-a-48th", 22_000, 2_350),
        (1, "smaller-than-a-48th", 22_000, 4_950),
        (1, "whole", 20_000, 2_500),
        (1, "just-below-whole", 19_999, 2_500),
        (1, "just-above-whole", 20_001, 2_500),
        (0, "nothing", 1, 65_535),
        (1, "f-negative", 60_000, 500),
    ] {
        let letter = KINDS[kind as usize].1;
        all.marks(&format!("{letter}-fresh-{name}"), &of(kind, displacement, immersion));
    }
    // F and TF are below zero without a certificate.
    let low = RawShip { depth: 12_000, moulded: 2_000, cwf: 10_000, cb: 6_800, ..plain(0, 90_000) };
    let low = with(low, &[house(0, 90_000, 8_000)]);
    all.marks("a-f-and-tf-small", &low);
    let deep = RawShip { depth: 5_900, sheer: sheer(90_000, 250), ..low };
    all.marks("a-f-and-tf-negative", &deep);
    all.marks(
        "a-f-and-tf-negative-certified",
        &RawShip { displacement: 9_000, immersion: 1_500, ..deep },
    );
}

/// Refusal 12: D below L/15 leaves S as it is, so that S can be met.
pub fn summer_at_deck(all: &mut Cases) {
    for (name, ship) in [("a-corrected", decked(0, 180_000, &[])), ("b-bow", k1())] {
        let of = |depth| RawShip { depth, ..ship.clone() };
        let summer = marks::steps(&of(1_000).check().expect("a valid ship")).summer as u64;
        all.refused(&format!("{name}-depth-below-s-{summer}"), 12, 0, &of(summer - 1));
        all.refused(&format!("{name}-depth-at-s-{summer}"), 12, 0, &of(summer));
        all.marks(&format!("{name}-depth-above-s-{summer}"), &of(summer + 1));
    }
    // S is above L/15, so that it rises with D, though more slowly.
    let bent = |depth| RawShip { length: 100_000, depth, sheer: [-8_192; 6], ..k1() };
    let summer = |depth| marks::steps(&bent(depth).check().expect("a valid ship")).summer;
    let above = (6_667..).find(|&depth| summer(depth) < depth as i64).unwrap_or(0);
    assert_eq!(summer(above - 1), above as i64 - 1);
    all.refused("b-rising-s-depth-at-s", 12, 0, &bent(above - 1));
    all.marks("b-rising-s-depth-above-s", &bent(above));
    let both = RawShip { depth: 1_000, displacement: 1_048_575, immersion: 1, ..k1() };
    all.refused("12-before-13", 12, 0, &both);
    let deepest = RawShip { sheer: [-8_192; 6], ..plain(1, 365_000) };
    all.refused("b-sheer-least-longest", 12, 0, &RawShip { depth: 10_000, ..deepest });
}

/// Refusal 13: with 25 as immersion the allowance is the displacement.
pub fn allowance_above_draught(all: &mut Cases) {
    for (kind, letter) in KINDS {
        let plain = decked(kind, 70_000, &[house(0, 9_000, 2_000)]);
        let summer = marks::steps(&plain.check().expect("a valid ship")).summer;
        let draught = plain.depth - summer as u64;
        let of = |displacement, immersion| RawShip { displacement, immersion, ..plain.clone() };
        all.marks(&format!("{letter}-allowance-at-draught"), &of(draught, 25));
        all.refused(&format!("{letter}-allowance-1-above-draught"), 13, 0, &of(draught + 1, 25));
        // With 50 it is half: d + 1/2 rounds down to d.
        let half = of(2 * draught + 1, 50);
        all.marks(&format!("{letter}-allowance-half-above-draught"), &half);
    }
    let below = RawShip { displacement: 4_975, immersion: 25, ..k2() };
    all.marks("allowance-1-below-draught", &below);
    let heavy = RawShip { displacement: 1_048_575, immersion: 1, ..k2() };
    all.refused("allowance-greatest", 13, 0, &heavy);
    // The draught of k2 is 4976 mm: two thirds above it.
    let thirds = RawShip { displacement: 14_930, immersion: 75, ..k2() };
    all.marks("allowance-two-thirds-above-draught", &thirds);
}
