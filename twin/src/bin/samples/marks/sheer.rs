//! Regulation 38.

use super::{deeper, telling, varied, Cases};
use crate::ships::{decked, forecastle, house, open, plain, sheer, with, KINDS};
use crate::slips::Slip;
use twin::marks::steps;
use twin::record::RawShip;

/// A ship of 90 m whose whole middle is covered. Standard sums: 2668 and 5336 mm.
fn bridged(kind: u64, sheer: [i64; 6]) -> RawShip {
    RawShip { sheer, ..decked(kind, 90_000, &[house(36_000, 54_000, 2_000)]) }
}

/// One half against the other.
pub fn halves(all: &mut Cases) {
    // Forward excess: all of it at 2001 mm after, nothing at 1334 mm.
    for (kind, name, ap, sixth, slip) in [
        (0, "at-75", 501, 400, Slip::ForwardNone),
        (0, "below-75", 500, 400, Slip::ForwardWhole),
        (0, "above-75", 502, 400, Slip::ForwardNone),
        (1, "at-50", 434, 200, Slip::ForwardWhole),
        (1, "below-50", 433, 200, Slip::ForwardWhole),
        (1, "above-50", 435, 200, Slip::ForwardNone),
        (0, "at-60", 401, 300, Slip::ForwardSteps),
    ] {
        let raw = telling(slip, deeper(bridged(kind, [ap, sixth, 100, 300, 1_100, 2_600])));
        all.marks(&format!("{}-after-sheer-{name}-per-cent", KINDS[kind as usize].1), &raw);
    }
    for (kind, letter) in KINDS {
        all.marks(
            &format!("{letter}-after-excess-forward-deficiency"),
            &bridged(kind, [2_000, 900, 300, 150, 700, 1_800]),
        );
    }
    // Ordinates as large as can be: the credit is worth 5 mm a mm.
    for (name, ap) in [("below-50", 433), ("above-50", 435), ("near-52", 490)] {
        let raw = bridged(1, [ap, 200, 100, 8_191, 8_191, 8_191]);
        all.marks(&format!("b-after-sheer-{name}-great-excess"), &raw);
    }
    let great = bridged(1, [8_191, 8_191, 8_191, 224, 888, 1_990]);
    all.marks("b-great-after-excess-forward-deficiency", &great);
    // 1 mm about both standard sums.
    for (name, ap, fp) in [
        ("after-more-forward-less", 1_001, 1_999),
        ("after-less-forward-more", 999, 2_001),
        ("after-standard-forward-less", 1_000, 1_999),
    ] {
        all.marks(&format!("a-1-mm-{name}"), &bridged(0, [ap, 444, 112, 224, 888, fp]));
    }
    // 75% of the after sum at 100 m is 2167.75 mm, 50% is 1445 1/6 mm.
    for (name, ap) in [("just-below-75", 667), ("just-above-75", 668)] {
        let raw = RawShip {
            sheer: [ap, 400, 100, 300, 1_200, 2_800],
            ..decked(0, 100_000, &[house(40_000, 60_000, 2_000)])
        };
        all.marks(&format!("a-after-sheer-{name}-per-cent-at-100-m"), &raw);
    }
    for (name, ap) in [("just-below-50", 245), ("just-above-50", 246)] {
        let raw = RawShip {
            sheer: [ap, 300, 100, 8_000, 8_000, 8_000],
            ..decked(1, 100_000, &[house(40_000, 60_000, 2_000)])
        };
        all.marks(&format!("b-after-sheer-{name}-per-cent-at-100-m"), &raw);
    }
}

/// Both halves alike.
pub fn whole(all: &mut Cases) {
    for (kind, letter) in KINDS {
        let houses = [house(0, 30_000, 2_000), house(36_000, 54_000, 2_000)];
        for (name, ordinates) in [
            ("zero", [0; 6]),
            ("least", [-8_192; 6]),
            ("negative", [-300, -100, -20, -50, -200, -700]),
            ("standard", sheer(90_000, 100)),
            ("doubled", sheer(90_000, 200)),
            ("1-2-fold", sheer(90_000, 120)),
        ] {
            let raw = RawShip { sheer: ordinates, depth: 30_000, ..plain(kind, 90_000) };
            // High enough for the bow whatever the sheer.
            let fore = house(81_000, 90_000, 8_191);
            let (middle, houses) = match kind {
                0 => ("open", &[fore][..]),
                _ => ("covered", &[houses[0], houses[1], fore][..]),
            };
            let name = format!("{letter}-sheer-{name}-middle-{middle}");
            all.marks(&name, &with(raw, houses));
        }
    }
    // The limit of 1.25 L, and the same below it: half the cover.
    let long = |fore| {
        let houses = [house(161_000, fore, 2_300), forecastle(322_000)];
        with(RawShip { sheer: sheer(322_000, 118), ..plain(1, 322_000) }, &houses)
    };
    all.marks("b-sheer-under-the-limit", &long(171_000));
    all.marks(
        "b-sheer-at-the-limit-half-cover",
        &RawShip { sheer: sheer(322_000, 160).map(|mm| mm.min(8_191)), ..long(193_200) },
    );
    let flush = RawShip { sheer: sheer(365_000, 70), ..plain(0, 365_000) };
    all.marks("a-longest-little-sheer", &RawShip { moulded: 5_000, ..flush });
}

/// Ordinates that come to these sums, in the proportions of the standard ones where they can.
fn summed(after: i64, forward: i64) -> [i64; 6] {
    let half = |sum: i64| {
        let inner = (sum * 139 / 667).max((sum - 8_189) / 3);
        let sixth = inner * 111 / 139;
        [sum - 3 * inner, sixth, inner - sixth]
    };
    let ([ap, ap_sixth, ap_third], [fp, fp_sixth, fp_third]) = (half(after), half(forward));
    [ap, ap_sixth, ap_third, fp_third, fp_sixth, fp]
}

/// A ship with a house from 0.4 L to 0.6 L, or from 0.4 L to just short of amidships.
fn middled(kind: u64, length: u64, reaches: bool, sheer: [i64; 6]) -> RawShip {
    let l = length as i64;
    let fore = if reaches { l * 3 / 5 + 1 } else { (l - 1) / 2 };
    RawShip { sheer, ..decked(kind, length, &[house(l * 2 / 5, fore, 2_000)]) }
}

/// The first of these ships for which the freeboard is a whole mm, and not for the bow's sake.
fn whole_mm(raw: RawShip) -> RawShip {
    let whole = |raw: &RawShip| {
        let steps = steps(&raw.check().expect("a valid ship"));
        steps.corrected > steps.bow && steps.corrected % 1000 == 0
    };
    varied(raw).find(whole).expect("a freeboard of whole mm")
}

/// The mean next to zero, where its sign decides, and its rounding with every sort of credit.
pub fn mean(all: &mut Cases) {
    let mut put = |kind: u64, length: u64, after: i64, forward: i64, slip: Option<Slip>| {
        let reaches = (after + forward) % 2 == 0;
        let raw = middled(kind, length, reaches, summed(after, forward));
        let raw = match slip {
            Some(slip) => telling(slip, varied(raw)),
            None => whole_mm(raw),
        };
        let letter = KINDS[kind as usize].1;
        all.marks(&format!("{letter}-sheer-sums-{after}-{forward}-at-{length}"), &raw);
    };
    // Standard sums at 94.003 m: 2757 and 5514 mm, and 1/30000 and 2/30000 more. The mean is -1/160
    // um, or -1/240 where the after half has excess.
    let below = Some(Slip::MeanAboveMinusOne);
    for (kind, after, forward) in [
        (0, 2_757, 5_514),
        (1, 2_657, 5_614),
        (0, 2_068, 6_203),
        (1, 2_800, 5_514),
        (0, 2_801, 5_514),
    ] {
        put(kind, 94_003, after, forward, below);
    }
    // Forward excess that counts in part makes up for nearly all that is lacking after.
    for (kind, length, after, forward) in [
        (0, 90_000, 1_887, 6_278),
        (1, 90_000, 1_413, 15_932),
        (1, 120_000, 2_223, 8_339),
        (0, 60_000, 1_201, 5_998),
    ] {
        put(kind, length, after, forward, below);
    }
    // Or for all of it. At 25.997 m both halves stand just above standard, or one makes up for the
    // other with whole credit: the mean is 1/160 um.
    for (kind, length, after, forward) in [
        (1, 90_000, 1_863, 6_351),
        (0, 90_000, 1_380, 24_012),
        (0, 120_000, 2_001, 10_005),
        (1, 60_000, 1_265, 5_394),
        (0, 25_997, 1_245, 2_490),
        (1, 25_997, 1_045, 2_690),
    ] {
        put(kind, length, after, forward, None);
    }
    // A deficiency with whole credit, with none, with no excess that counts; and with part of the credit.
    let (whole, part) = (Some(Slip::MeanToZeroWhole), Some(Slip::MeanToZeroPart));
    for (kind, length, after, forward, slip) in [
        (0, 101_000, 2_250, 5_900, whole),
        (1, 101_000, 2_251, 5_900, whole),
        (1, 100_000, 1_302, 7_001, whole),
        (0, 100_000, 1_300, 5_002, whole),
        (1, 100_000, 2_900, 5_107, whole),
        (1, 100_000, 1_700, 6_500, part),
        (0, 100_000, 1_800, 6_301, part),
        (1, 100_000, 2_101, 6_003, part),
    ] {
        put(kind, length, after, forward, slip);
    }
    // Just inside 50 and 75 per cent: 1334 and 2001 mm at 90 m, 1445 1/6 and 2167 3/4 mm at 100 m.
    let inside = Some(Slip::ForwardAboveHalf);
    for (kind, length, after, forward) in [
        (0, 90_000, 1_335, 6_103),
        (1, 90_000, 2_000, 9_000),
        (1, 100_000, 1_446, 6_200),
        (0, 100_000, 2_167, 9_001),
    ] {
        put(kind, length, after, forward, inside);
    }
}

/// Excess, deficiency and neither, with a house that reaches amidships and with none.
pub fn signs(all: &mut Cases) {
    let with_ends = |aft, fore, per_cent| RawShip {
        sheer: sheer(90_000, per_cent),
        ..decked(1, 90_000, &[house(aft, fore, 2_000)])
    };
    for (name, per_cent) in [("little", 80), ("standard", 100), ("great", 120)] {
        for (fore, reach) in [
            (44_999, "1-mm-short-of-amidships"),
            (45_000, "to-amidships"),
            (45_001, "1-mm-beyond-amidships"),
        ] {
            let raw = with_ends(44_000, fore, per_cent);
            all.marks(&format!("b-sheer-{name}-house-{reach}"), &raw);
        }
    }
    // A house of 1 mm that ends or begins amidships.
    for (aft, end) in [(44_999, "abaft"), (45_000, "before")] {
        let raw = telling(Slip::CoverStrict, varied(with_ends(aft, aft + 1, 150)));
        all.marks(&format!("b-sheer-great-house-of-1-mm-{end}-amidships"), &raw);
    }
    for (kind, letter) in KINDS {
        let bare = RawShip { sheer: sheer(90_000, 80), ..plain(kind, 90_000) };
        let deep = RawShip { depth: 9_000, moulded: 2_000, ..bare };
        all.marks(&format!("{letter}-sheer-little-no-house"), &deep);
        let raw = with(deep, &[open(house(36_000, 54_000, 2_000)), forecastle(90_000)]);
        all.marks(&format!("{letter}-sheer-little-house-open"), &raw);
    }
}
