//! Regulations 33 to 35, the forecastle's 0.07 L, and the cover amidships of 38.

use super::{deeper, fuller, shorter, telling, Cases};
use crate::ships::{decked, forecastle, house, open, plain, quarterdeck, sheer, with, KINDS};
use crate::slips::Slip;
use twin::record::{House, RawShip};

/// Regulation 38(16): excess sheer with houses about amidships, and a forecastle.
pub fn cover(all: &mut Cases) {
    let mut put = |name: &str, kind: u64, length: u64, houses: &[House]| {
        let raw = RawShip { sheer: sheer(length, 120), ..decked(kind, length, houses) };
        all.marks(&format!("{}-cover-{name}", KINDS[kind as usize].1), &raw);
    };
    let bridge = |aft, fore| house(aft, fore, 2_000);
    put("whole", 1, 90_000, &[bridge(36_000, 54_000)]);
    put("aft-reach-less-1", 1, 90_000, &[bridge(36_001, 54_000)]);
    put("long-abaft", 1, 90_000, &[bridge(20_000, 46_000)]);
    put("long-before", 0, 90_000, &[bridge(44_000, 70_000)]);
    put("touching-at-half", 0, 90_000, &[bridge(36_000, 45_000), bridge(45_000, 54_000)]);
    put("touching-1-abaft-half", 1, 90_000, &[bridge(36_000, 44_999), bridge(44_999, 54_000)]);
    put("touching-elsewhere", 0, 90_000, &[bridge(37_000, 47_000), bridge(47_000, 54_000)]);
    put("gap-at-half", 0, 90_000, &[bridge(36_000, 44_999), bridge(45_001, 54_000)]);
    put("ends-at-half", 0, 90_000, &[bridge(36_000, 45_000)]);
    put("ends-at-half", 1, 90_000, &[bridge(36_000, 45_000)]);
    put("ends-1-short", 1, 90_000, &[bridge(36_000, 44_999)]);
    put("ends-1-beyond", 0, 90_000, &[bridge(36_000, 45_001)]);
    put("begins-at-half", 0, 90_000, &[bridge(45_000, 54_000)]);
    put("begins-1-beyond", 1, 90_000, &[bridge(45_001, 54_000)]);
    // Half of 90001 is 45000.5: houses cannot touch there.
    put("odd-ends-below-half", 0, 90_001, &[bridge(36_000, 45_000)]);
    put("odd-ends-above-half", 1, 90_001, &[bridge(36_000, 45_001)]);
    put("odd-begins-below-half", 0, 90_001, &[bridge(45_000, 54_000)]);
    put("odd-touching-above", 0, 90_001, &[bridge(36_000, 45_001), bridge(45_001, 54_000)]);
    put("open", 1, 90_000, &[open(bridge(36_000, 54_000))]);
    put("open-touching", 0, 90_000, &[open(bridge(36_000, 45_000)), bridge(45_000, 54_000)]);
    put("quarterdeck", 0, 90_000, &[quarterdeck(-100, 50_000, 1_500)]);
    put("quarterdeck-long", 1, 90_000, &[quarterdeck(0, 62_000, 1_500)]);
    put("low", 1, 90_000, &[house(36_000, 54_000, 975)]);
    let all_over = RawShip { sheer: sheer(200_000, 120), ..plain(0, 200_000) };
    let whole_length = with(all_over, &[house(-20_000, 220_000, 2_300)]);
    all.marks("a-cover-house-beyond-both-ends", &whole_length);
}

/// Regulations 33 and 35(4): raised quarterdecks.
pub fn quarterdecks(all: &mut Cases) {
    let mut put = |name: &str, kind: u64, length: u64, percent: i64, deck: House| {
        let raw = RawShip { sheer: sheer(length, percent), ..decked(kind, length, &[deck]) };
        all.marks(&format!("{}-quarterdeck-{name}", KINDS[kind as usize].1), &raw);
    };
    // Standard height at 90 m: 1380 mm. 0.6 L is 54000 mm.
    put("long-high", 1, 90_000, 90, quarterdeck(0, 75_000, 4_000));
    put("long-low", 0, 90_000, 90, quarterdeck(0, 80_000, 1_000));
    put("long-low", 1, 90_000, 90, quarterdeck(0, 60_000, 600));
    put("over-the-stern", 0, 90_000, 85, quarterdeck(-9_000, 50_000, 1_200));
    for (kind, fore) in [(1, 53_999), (0, 54_000), (1, 54_001)] {
        put(&format!("of-{fore}"), kind, 90_000, 100, quarterdeck(0, fore, 1_379));
    }
    for (kind, height) in [(1, 1_379), (0, 1_380), (1, 1_381)] {
        put(&format!("height-{height}"), kind, 90_000, 100, quarterdeck(0, 54_000, height));
    }
    for (kind, length) in [(0, 29_999), (1, 30_000), (0, 30_001), (1, 33_333)] {
        put(&format!("low-at-{length}"), kind, length, 80, quarterdeck(0, 15_000, 800));
    }
    for (kind, length, height) in
        [(0, 24_000, 899), (1, 52_500, 1_000), (0, 74_000, 1_100), (1, 110_000, 1_500)]
    {
        let fore = length as i64 / 2;
        put(&format!("low-at-{length}"), kind, length, 80, quarterdeck(0, fore, height));
    }
    let whole = with(plain(0, 60_000), &[quarterdeck(-20_000, 59_999, 1_101)]);
    all.marks("a-quarterdeck-of-all-but-1-mm", &whole);
}

/// Regulations 33 and 35: houses about their standard height, and lower.
pub fn heights(all: &mut Cases) {
    for (kind, length, standard) in [(0, 60_000, 1_800), (1, 100_000, 2_050)] {
        let letter = KINDS[kind as usize].1;
        for height in [standard - 1, standard, standard + 1] {
            let fore = length as i64 / 2 - 1_000;
            let raw = decked(kind, length, &[house(0, fore, height)]);
            let raw = match height < standard {
                true => telling(Slip::LowWhole, deeper(raw)),
                false if height > standard => telling(Slip::HighMore, deeper(raw)),
                false => raw,
            };
            all.marks(&format!("{letter}-height-{height}-at-{length}"), &raw);
        }
    }
    // The standard height is not a whole number of mm: 2100.01.
    let near = decked(0, 105_001, &[house(0, 52_000, 2_100)]);
    all.marks("a-height-just-below-standard", &telling(Slip::HeightRounded, fuller(near)));
    for (kind, length) in [(0, 88_888), (1, 111_111)] {
        let row: Vec<House> =
            (0..6).map(|i| house(i * 11_003, i * 11_003 + 9_000, 401 + 97 * i as u64)).collect();
        let raw = decked(kind, length, &row);
        all.marks(&format!("{}-six-low-houses", KINDS[kind as usize].1), &raw);
    }
    // k10: 4878048 um.
    all.marks("a-height-1000-at-100-m", &with(plain(0, 100_000), &[house(0, 10_000, 1_000)]));
}

/// Regulation 35: ordinary houses are rounded down once, after the sum, and a quarterdeck by itself.
pub fn sums(all: &mut Cases) {
    let mut put = |name: &str, kind: u64, length: u64, first: House, slip: Slip| {
        let fp = length as i64;
        let houses = [first, house(20_000, 30_002, 1_000), house(fp - 5_000, fp, 1_000)];
        let raw = telling(slip, deeper(with(plain(kind, length), &houses)));
        all.marks(&format!("{}-{name}-at-{length}", KINDS[kind as usize].1), &raw);
    };
    // At 100 m 4878536.6, 4879024.4 and 2439024.4 um, in all 12196585.4. No line there shows one um
    // of E; at the other lengths it does.
    for (kind, length, slip) in [
        (0, 100_000, Slip::LowWhole),
        (0, 100_444, Slip::EffectiveEach),
        (1, 97_161, Slip::EffectiveEach),
        (0, 100_030, Slip::EffectiveUp),
        (1, 95_525, Slip::EffectiveUp),
        (0, 100_797, Slip::EffectiveFirst),
        (1, 90_181, Slip::EffectiveFirst),
    ] {
        put("three-low-houses", kind, length, house(0, 10_001, 1_000), slip);
    }
    // At 100 m the quarterdeck has 6667333.3 um, the others 7318048.8: together 13985382.1.
    for (kind, length, slip) in [
        (0, 100_000, Slip::LowWhole),
        (0, 100_254, Slip::EffectiveTogether),
        (0, 100_400, Slip::EffectiveTogether),
        (1, 98_045, Slip::EffectiveTogether),
        (1, 95_374, Slip::DeckUp),
        (0, 100_056, Slip::EffectiveEach),
        (1, 91_470, Slip::EffectiveEach),
    ] {
        put("quarterdeck-and-two-low-houses", kind, length, quarterdeck(0, 10_001, 1_000), slip);
    }
}

/// Only an enclosed house counts.
pub fn not_enclosed(all: &mut Cases) {
    for (kind, letter) in KINDS {
        let poop = house(0, 30_000, 2_100);
        let fore = forecastle(110_000);
        let put = |all: &mut Cases, name: &str, houses: &[House]| {
            all.marks(&format!("{letter}-open-{name}"), &with(plain(kind, 110_000), houses));
        };
        put(all, "poop", &[open(poop), fore]);
        put(all, "forecastle", &[poop, open(fore)]);
    }
}

/// Stations beyond the perpendiculars, and S counted once.
pub fn beyond_the_ends(all: &mut Cases) {
    let mut put = |name: &str, kind: u64, houses: &[House]| {
        let raw = RawShip { sheer: sheer(80_000, 70), ..plain(kind, 80_000) };
        all.marks(&format!("{}-{name}", KINDS[kind as usize].1), &with(raw, houses));
    };
    let ends = [house(-20_000, 8_000, 2_500), house(73_000, 100_000, 2_500)];
    put("both-ends-over", 0, &ends);
    put("both-ends-over", 1, &ends);
    put("beyond-both-ends", 0, &[house(-7, 80_009, 2_500)]);
    put("beyond-both-ends", 1, &[house(-7, 80_009, 2_500)]);
    put("across-amidships-little-sheer", 0, &[house(20_000, 60_000, 2_500), ends[1]]);
    let last = house(72_000, 80_000, 2_500);
    put("last-house-1-mm-short-of-fp", 1, &[House { fore: 79_999, ..last }]);
    put("last-house-1-mm-short-of-fp", 0, &[House { fore: 79_999, ..last }]);
    put("last-house-at-fp", 1, &[last]);
    put("last-house-1-mm-beyond-fp", 1, &[House { fore: 80_001, ..last }]);
}

/// 0.07 L: 37(3) on the effective length, 39(2) on the plain one.
pub fn forecastles(all: &mut Cases) {
    // The bow decides or not, by the moulded depth.
    let mut put = |name: &str, kind: u64, length: u64, moulded: u64, house: House| {
        let raw = with(RawShip { cwf: 8_000, moulded, ..plain(kind, length) }, &[house]);
        all.marks(&format!("{}-forecastle-{name}", KINDS[kind as usize].1), &raw);
    };
    // At 90 m: 6300 mm, standard height 1950.
    for (kind, _) in KINDS {
        for mm in [6_299, 6_300, 6_301] {
            put(&format!("of-{mm}"), kind, 90_000, 7_000, house(90_000 - mm, 90_000, 1_950));
        }
    }
    let low = 2_000;
    for mm in [6_299, 6_300] {
        put(&format!("of-{mm}-shallow"), 1, 90_000, low, house(90_000 - mm, 90_000, 1_950));
    }
    for height in [1_949, 1_951] {
        let name = format!("of-6300-height-{height}");
        put(&name, 1, 90_000, low, house(83_700, 90_400, height));
    }
    // 0.07 L is 6303.5 mm.
    for mm in [6_303, 6_304] {
        let name = format!("of-{mm}-about-6303-and-a-half");
        put(&name, 1, 90_050, 7_000, house(90_050 - mm, 90_050, 2_500));
    }
    // Low: effective length about 0.07 L.
    let exact = house(77_400, 90_000, 975);
    put("low-effective-6300", 1, 90_000, low, exact);
    put("low-effective-6299-and-a-half", 1, 90_000, low, shorter(exact, 1));
    put("low-effective-6300-and-a-half", 1, 90_000, low, shorter(exact, -1));
    // 6299.67 and 6299.6; then 6303.77 and 6303.51 where 0.07 L is 6303.5.
    put("low-effective-just-below-6300", 1, 90_000, low, house(71_101, 90_000, 650));
    put("lower-effective-just-below-6300", 1, 90_000, low, house(74_251, 90_000, 780));
    put("low-effective-just-above-6303-5", 1, 90_050, low, house(76_046, 90_050, 878));
    put("lower-effective-just-above-6303-5", 1, 90_050, low, house(65_460, 90_050, 500));
    put("higher-effective-just-above-6303-5", 1, 90_050, low, house(77_755, 90_050, 1_000));
    put("very-low", 0, 90_000, 7_000, house(80_000, 90_000, 1));
    put("short-and-high", 1, 250_000, 17_000, house(232_501, 250_000, 8_191));
    put("of-7-hundredths-and-high", 1, 250_000, 17_000, house(232_500, 250_000, 8_191));
}
