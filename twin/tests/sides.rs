//! Set-in sides: the ratio of breadths and its own floor, refusal 23, version 3 of the record, and what a
//! house that is set in further does to E and S.

mod common;

use common::{bulk, house, k1, k2, packed, packed_as, set_in, ship, with};
use twin::big::{over, whole, Fraction};
use twin::exact::{bound_holds, cost, exact};
use twin::marks::{marks, steps, Steps};
use twin::question::{shortest_poop, summer_with_poop};
use twin::random::Random;
use twin::record::{check_houses, read, write, House, RawShip, Ship, Version, MOST_BYTES};
use twin::refusal::Refusal;
use twin::report::record_line;

fn refused<T>(number: u8, place: usize) -> Result<T, Refusal> {
    Err(Refusal::at(number, place))
}

/// k2 with breadths of its forecastle.
fn forecastle(breadth: u64, beam: u64) -> RawShip {
    with(k1(), &[set_in(k2().houses[0], breadth, beam)])
}

/// What reader, writer, marks and question say of the ship; all the same if it is refused.
fn judged(raw: &RawShip) -> Result<(), Refusal> {
    let record = packed(raw);
    let all = [
        read(&record).map(|_| ()),
        write(&mut [0; 128], raw).map(|_| ()),
        read(&record).and_then(|ship| marks(&ship)).map(|_| ()),
        shortest_poop(&record, 1_950, 60_000).map(|_| ()),
    ];
    assert!(all.iter().all(|result| *result == all[0]), "{all:?}");
    all[0]
}

#[test]
fn figures_of_k2() {
    let of = |breadth| steps(&ship(&forecastle(breadth, 10_000)));
    let set_in = of(9_500);
    assert_eq!((set_in.effective, set_in.deduction, set_in.summer), (9_500_000, 65_640, 1_028));
    assert_eq!((of(9_200).summer, of(10_000).summer), (1_031, 1_024));
    assert_eq!(judged(&forecastle(9_200, 10_000)), Ok(()));
    assert_eq!(judged(&forecastle(9_199, 10_000)), refused(23, 0));
}

/// Whichever of the three houses have equal breadths, each of them has a floor of its own.
#[test]
fn equal_breadths_have_a_floor_of_their_own() {
    let three = [(0, 10_001), (20_000, 30_002), (95_000, 100_000)];
    for set in 0..8 {
        let houses = [0, 1, 2].map(|place| {
            let (aft, fore) = three[place];
            let breadth = if set >> place & 1 == 1 { 10_000 } else { 0 };
            common::set_in(house(aft, fore, 1_000), breadth, breadth)
        });
        let raw = with(RawShip { length: 100_000, ..k1() }, &houses);
        let expected = if set == 0 { 12_196_585 } else { 12_196_584 };
        assert_eq!(steps(&ship(&raw)).effective, expected, "{set:03b}");
    }
}

/// k2 with 9500 of 10000, in version 3: the eight bytes as before, then the breadths.
#[test]
fn bytes_of_version_3() {
    let record = packed(&forecastle(9_500, 10_000));
    let second = packed_as(Version::Two, &k2());
    assert_eq!(record.len(), 39);
    assert_eq!(record[0], 0x32);
    assert_eq!((record[0] & 15, &record[1..35]), (second[0] & 15, &second[1..35]));
    assert_eq!(record[35..], [0x25, 0x1c, 0x27, 0x10]);
    assert!(record_line(&record).ends_with(" [1 0 80000 90000 2000 9500 10000] back"));
    let eight: Vec<House> =
        (0..8).map(|i| set_in(house(1 + i, 2 + i, 1), 65_535, 65_535)).collect();
    let longest = packed(&with(k1(), &eight));
    assert_eq!((longest.len(), MOST_BYTES), (123, 123));
    assert_eq!(longest[27 + 12 * 7 + 8..], [0xff; 4]);
    assert!(record_line(&longest).ends_with(" back"));
}

/// Version 3 with no breadth is read, and written back as version 1 or 2.
#[test]
fn version_3_without_breadths() {
    for (raw, lowest) in [(k2(), 1), (RawShip { kind: 2, ..bulk() }, 2)] {
        let third = packed_as(Version::Three, &raw);
        assert_eq!((third.len(), third[0] >> 4), (39, 3));
        let ship = read(&third).unwrap();
        assert_eq!(Ok(&ship), raw.check().as_ref());
        let mut buffer = [0xa5; 39];
        assert_eq!(write(&mut buffer, &ship.raw()), Ok(35));
        assert_eq!((buffer[0] >> 4, &buffer[35..]), (lowest, &[0xa5; 4][..]));
        assert_eq!(read(&buffer[..35]), Ok(ship));
    }
}

/// 27+12n bytes in versions 3 and 4, 27+8n in the others.
#[test]
fn lengths_of_records() {
    for n in 0..=8 {
        let houses: Vec<House> = (0..n).map(|i| house(1 + i as i64, 2 + i as i64, 1)).collect();
        let raw = with(k1(), &houses);
        for version in Version::ALL {
            let record = packed_as(version, &raw);
            let bytes = 27 + if version as u8 > 2 { 12 } else { 8 } * n;
            for length in 27..=MOST_BYTES + 13 {
                let mut other = record.clone();
                other.resize(length, 0);
                let expected = if length == bytes { raw.check() } else { refused(5, 0) };
                assert_eq!(read(&other), expected, "{version:?} {n} {length}");
            }
        }
    }
}

/// Refusal 23 by its words, in fractions.
fn taken(breadth: u64, beam: u64) -> bool {
    if breadth == 0 || beam == 0 {
        return breadth != beam;
    }
    let inside = (whole(beam) - whole(breadth)) / whole(2);
    breadth > beam || inside > over(4, 100) * whole(beam) || breadth.max(beam) > 65_535
}

fn takes(breadth: u64, beam: u64) -> bool {
    let result = check_houses(90_000, &[set_in(k2().houses[0], breadth, beam)]);
    assert!(result == Ok(()) || result == refused(23, 0), "{result:?}");
    result.is_err()
}

#[test]
fn every_small_breadth() {
    for breadth in 0..=130 {
        for beam in 0..=130 {
            assert_eq!(takes(breadth, beam), taken(breadth, beam), "{breadth} {beam}");
        }
    }
}

/// About 0.92 of every ship's breadth that 16 bits hold, and about itself; then beyond 16 bits.
#[test]
fn every_border() {
    for beam in 1..=65_535_u64 {
        let least = beam - 2 * beam / 25;
        let passes: Vec<bool> = (least.saturating_sub(2)..least + 2)
            .map(|breadth| (25 * breadth >= 23 * beam && breadth <= beam, breadth))
            .map(|(passes, breadth)| {
                assert_eq!(takes(breadth, beam), !passes, "{breadth} {beam}");
                passes
            })
            .collect();
        assert!(passes.iter().any(|&passes| passes));
        assert!(!takes(beam, beam) && takes(beam + 1, beam) && takes(0, beam) && takes(beam, 0));
    }
    let wraps = u64::MAX / 23 + 1;
    for (breadth, beam) in [
        (65_536, 65_536),
        (65_535, 65_536),
        (75_036, 75_536),
        (9_500, 75_536),
        (75_036, 10_000),
        (1, wraps),
        (wraps, wraps),
        (65_535, 2 * wraps),
        (u64::MAX, u64::MAX),
        (u64::MAX, 1),
        (1, u64::MAX),
    ] {
        assert!(takes(breadth, beam) && taken(breadth, beam), "{breadth} {beam}");
    }
}

/// Open houses and quarterdecks too; the first such house is the place.
#[test]
fn houses_that_23_takes() {
    let sound = house(10_000, 20_000, 2_000);
    let bad = |house| set_in(house, 9_199, 10_000);
    let open = House { enclosed: false, ..sound };
    let deck = House { quarterdeck: true, ..house(0, 9_000, 1_200) };
    let of = |houses: &[House]| judged(&with(k1(), houses));
    assert_eq!(of(&[bad(open), k2().houses[0]]), refused(23, 0));
    assert_eq!(of(&[bad(deck), sound]), refused(23, 0));
    assert_eq!(of(&[sound, bad(k2().houses[0])]), refused(23, 1));
    assert_eq!(of(&[bad(sound), bad(k2().houses[0])]), refused(23, 0));
    // What stands beyond n does not matter.
    let mut raw = with(k1(), &[sound, bad(k2().houses[0])]);
    raw.n = 1;
    assert_eq!(judged(&raw), Ok(()));
    assert_eq!(write(&mut [0; 35], &raw), Ok(35));
}

/// 23 stands after 6, 7, 22, 8 and 9, and before 10, 11, 18 and what each call judges later.
#[test]
fn place_of_23() {
    let bad = forecastle(9_199, 10_000);
    let mut bytes = packed(&bad);
    bytes[1] |= 1;
    assert_eq!(read(&bytes), refused(6, 0));
    bytes[1] &= !1;
    bytes[34] |= 1;
    assert_eq!(read(&bytes), refused(6, 0));
    assert_eq!(judged(&RawShip { cwf: 0, ..bad.clone() }), refused(7, 5));
    assert_eq!(judged(&RawShip { kind: 2, ..bad.clone() }), refused(22, 0));
    assert_eq!(judged(&RawShip { immersion: 1, ..bad.clone() }), refused(8, 0));
    let [first, fore] = [house(10_000, 20_000, 2_000), k2().houses[0]];
    let of = |houses: &[House]| judged(&with(k1(), houses));
    let narrow = |house| set_in(house, 9_199, 10_000);
    assert_eq!(of(&[narrow(first), House { height: 0, ..fore }]), refused(9, 1));
    assert_eq!(of(&[narrow(House { height: 0, ..first })]), refused(9, 0));
    let deck = House { quarterdeck: true, ..first };
    assert_eq!(of(&[deck, narrow(fore)]), refused(23, 1));
    assert_eq!(of(&[narrow(deck)]), refused(23, 0));
    assert_eq!(of(&[first, first, narrow(fore)]), refused(23, 2));
    assert_eq!(of(&[fore, narrow(first)]), refused(23, 1));
    // 12 to 17.
    assert_eq!(judged(&RawShip { depth: 1_000, ..bad.clone() }), refused(23, 0));
    let heavy = RawShip { displacement: 1 << 19, immersion: 1, ..bad.clone() };
    assert_eq!(judged(&heavy), refused(23, 0));
    for (height, wish) in [(0, 1_000), (1_950, 49), (1_950, 50)] {
        assert_eq!(shortest_poop(&packed(&bad), height, wish), refused(23, 0));
    }
    assert_eq!(of(&[house(0, 9_000, 2_000), narrow(fore)]), refused(23, 1));
    assert_eq!(write(&mut [], &bad), refused(23, 0));
}

/// 17 is judged on the length in the lowest version.
#[test]
fn buffers() {
    let two = with(k1(), &[house(10_000, 20_000, 2_000), k2().houses[0]]);
    let mut third = two.clone();
    third.houses[1] = set_in(third.houses[1], 10_000, 10_000);
    for (raw, bytes) in [(two, 43), (third, 51)] {
        for length in 0..=64 {
            let mut buffer = vec![0xa5; length];
            let expected = if length < bytes { refused(17, 0) } else { Ok(bytes) };
            assert_eq!(write(&mut buffer, &raw), expected, "{length}");
            let written = if length < bytes { 0 } else { bytes };
            assert!(buffer[written..].iter().all(|&byte| byte == 0xa5));
            assert_eq!(buffer[..written], packed(&raw)[..written]);
        }
    }
}

/// The ratio is in E and in 37's test; no other step has it.
#[test]
fn steps_without_the_ratio() {
    let mut random = Random::new(35);
    let mut seen = [0; 5];
    for i in 0..8_000 {
        let mut raw = random.any_ship(i % 9);
        raw.houses.iter_mut().for_each(|house| (house.breadth, house.beam) = (0, 0));
        let full = steps(&ship(&raw));
        random.set_in(&mut raw.houses[..i % 9]);
        let other = steps(&ship(&raw));
        let same = Steps {
            effective: full.effective,
            short_b: full.short_b,
            fullness: full.fullness,
            deduction: full.deduction,
            corrected: full.corrected,
            summer: full.summer,
            ..other
        };
        assert_eq!(same, full, "{raw:?}");
        for (count, holds) in seen.iter_mut().zip([
            other.effective < full.effective,
            other.short_b > full.short_b,
            other.deduction < full.deduction,
            other.deduction == 0 && full.deduction > 0,
            other.summer > full.summer,
        ]) {
            *count += i32::from(holds);
        }
    }
    assert!(seen.iter().all(|&count| count > 20), "{seen:?}");
}

/// 37's 0.07 L on the fraction with its ratio: 14/15 of 7500 mm at 100 m. The bow's is on the length.
#[test]
fn seven_hundredths() {
    let of = |aft, breadth, beam| {
        let fore = set_in(house(aft, 100_000, 2_050), breadth, beam);
        steps(&ship(&with(RawShip { length: 100_000, ..k1() }, &[fore])))
    };
    assert_eq!(of(92_500, 14_000, 15_000).effective, 7_000_000);
    assert!(of(92_500, 14_000, 15_000).deduction > 0);
    assert_eq!(of(92_500, 13_999, 15_000).deduction, 0);
    // 7.6 um below it.
    assert_eq!(of(92_500, 61_165, 65_534).deduction, 0);
    assert_eq!(of(92_500, 61_166, 65_535).effective, 7_000_000);
    assert!(of(92_500, 61_166, 65_535).deduction > 0);
    let bow = |aft, breadth| of(aft, breadth, 10_000).bow;
    assert_eq!(bow(93_000, 9_200), of(93_000, 0, 0).bow);
    assert_eq!(bow(93_001, 10_000) - bow(93_000, 10_000), 2_050_000);
}

/// 0.6 L first, then the ratio: the standard height at 90 m is 1380 mm, 0.6 L 54000.
#[test]
fn quarterdecks() {
    let of = |fore, height, breadth| {
        let deck = House { quarterdeck: true, ..house(-1_000, fore, height) };
        steps(&ship(&with(k1(), &[set_in(deck, breadth, 10_000)])))
    };
    assert_eq!(of(80_000, 8_000, 9_500).effective, 51_300_000);
    assert_eq!(of(80_000, 690, 9_500).effective, 25_650_000);
    assert_eq!(of(80_000, 8_000, 9_500).covered, 80_000);
    assert_eq!(of(10_000, 1_380, 9_200).effective, 9_200_000);
}

/// Houses alone, so that each has a floor of its own by that.
fn alone(ship: &Ship, house: &House) -> Ship {
    Ship { houses: twin::record::Houses::of(&[*house]), ..ship.clone() }
}

/// E is the floors of the houses with breadths, and what E is of the others.
#[test]
fn effective_length_is_a_sum_of_floors() {
    let short =
        |ship: &Ship| exact(ship).effective * whole(1_000_000) - whole(steps(ship).effective);
    let less_than = |um: &Fraction, most: usize| *um >= whole(0) && *um < whole(most.max(1) as i64);
    let mut random = Random::new(36);
    let mut by_three = 0;
    for i in 0..900 {
        let mut raw = random.ship(i % 9);
        random.set_in(&mut raw.houses[..i % 9]);
        let ship = ship(&raw);
        let (full, set_in): (Vec<House>, Vec<House>) =
            ship.houses.iter().partition(|house| house.has_full_breadth());
        let rest = Ship { houses: twin::record::Houses::of(&full), ..ship.clone() };
        let each = set_in.iter().map(|house| alone(&ship, house));
        let sum: i64 = each.clone().map(|ship| steps(&ship).effective).sum();
        assert_eq!(steps(&ship).effective, steps(&rest).effective + sum, "{ship:?}");
        assert!(each.into_iter().all(|ship| less_than(&short(&ship), 1)), "{ship:?}");
        let um = short(&ship);
        assert!(less_than(&um, set_in.len() + 2), "{ship:?}");
        by_three += i32::from(um >= whole(3));
    }
    assert!(by_three > 0);
}

/// k2 with 9500 of 10000, with no rounding.
#[test]
fn exact_value() {
    let exact = exact(&ship(&forecastle(9_500, 10_000)));
    let effective = over(95, 10);
    let full = over(860, 1) + over(210 * 5, 37);
    let addition = over(75, 1) * (over(35, 100) - &effective / whole(90));
    let share = over(7, 100) + over(7, 100) * (&effective / whole(9) - whole(1));
    assert_eq!(exact.effective, effective);
    assert_eq!(exact.corrected, whole(1_075) + addition - full * share);
}

/// The bound, and what the roundings before the last cost, with up to eight houses that are set in: 12 um
/// is the most that is proved possible, and 9.75 a narrower limit, which these ships keep.
#[test]
fn bound_over_set_in_ships() {
    let mut random = Random::new(92);
    for i in 0..2_000 {
        let mut raw = random.any_ship(i % 9);
        random.set_in(&mut raw.houses[..i % 9]);
        let ship = ship(&raw);
        assert!(bound_holds(&ship), "{ship:?}");
        let cost = cost(&ship);
        assert!(cost.corrected >= 0.0 && cost.corrected < 9.75, "{ship:?}");
    }
}

/// The greatest products: low houses of the greatest breadth at every length where a height changes.
#[test]
fn greatest_products_fit() {
    for length in [24_000, 74_999, 75_000, 99_999, 124_999, 125_000, 365_000] {
        for (quarterdeck, fore) in [(true, length - 1), (false, length)] {
            for height in [1, 1_199, 1_799, 2_299, 8_191] {
                let deck = House { quarterdeck, ..house(-20_000, fore, height) };
                let raw = RawShip { length: length as u64, ..k1() };
                let raw = with(raw, &[set_in(deck, 65_534, 65_535)]);
                let um = exact(&ship(&raw)).effective * whole(1_000_000);
                let effective = whole(steps(&ship(&raw)).effective);
                assert!(effective <= um && um < effective + whole(1), "{raw:?}");
                assert!(bound_holds(&ship(&raw)));
            }
        }
    }
}

/// The poop has full breadth, and the others keep theirs.
#[test]
fn poop_of_full_breadth() {
    let mut random = Random::new(37);
    let mut compared = 0;
    for i in 0..4_000 {
        let mut raw = random.ship_of(i as u64 % 5, i % 8);
        random.set_in(&mut raw.houses[..i % 8]);
        let (length, height) = (raw.length as i64, random.between(1, 3_000) as u64);
        let room = raw.houses[..i % 8].first().map_or(length, |house| house.aft);
        if room < 100 {
            continue;
        }
        let k = random.between(1, room / 100);
        let houses = [&[house(0, 100 * k, height)][..], &raw.houses[..i % 8]].concat();
        let longer = marks(&ship(&with(raw.clone(), &houses))).map(|marks| marks.summer);
        assert_eq!(summer_with_poop(&ship(&raw), height, k), longer);
        compared += 1;
    }
    assert!(compared > 1_000, "{compared}");
}

/// Breadths that are no further out than the house's: of a lesser or equal ratio.
fn further(random: &mut Random, house: &House) -> (u64, u64) {
    let own = (house.breadth, house.beam);
    loop {
        let (breadth, beam) = match random.between(1, 3) {
            1 => (own.0 - random.between(0, own.0.min(20) as i64) as u64, own.1),
            2 => (own.0, (own.1 + random.between(0, 20) as u64).min(65_535)),
            _ => random.breadths(),
        };
        let no_further_out = house.has_full_breadth() || breadth * own.1 <= own.0 * beam;
        if !taken(breadth, beam) && no_further_out {
            return (breadth, beam);
        }
    }
}

/// Setting a house in further, or equal breadths in place of full breadth, never raises E and never
/// lowers S.
#[test]
fn further_in_is_never_better() {
    let mut random = Random::new(6);
    let mut seen = [0; 5];
    for i in 0..150_000 {
        let n = 1 + i % 8;
        let raw = random.any_ship(n);
        let mut other = raw.clone();
        for _ in 0..random.between(1, 2) {
            let place = random.between(0, n as i64 - 1) as usize;
            let breadths = further(&mut random, &other.houses[place]);
            (other.houses[place].breadth, other.houses[place].beam) = breadths;
        }
        let (before, after) = (steps(&ship(&raw)), steps(&ship(&other)));
        assert!(after.effective <= before.effective, "{raw:?} {other:?}");
        assert!(after.summer >= before.summer, "{raw:?} {other:?}");
        // The exact value takes long.
        if i % 100 == 0 {
            let (was, is) = (exact(&ship(&raw)), exact(&ship(&other)));
            assert!(is.effective <= was.effective && is.summer >= was.summer, "{raw:?} {other:?}");
        }
        for (count, holds) in seen.iter_mut().zip([
            after.effective < before.effective,
            after.effective == before.effective - 1,
            after.summer > before.summer,
            after.summer > before.summer + 20,
            marks(&ship(&raw)).is_ok() && marks(&ship(&other)).is_ok(),
        ]) {
            *count += i32::from(holds);
        }
    }
    assert!(seen.iter().all(|&count| count > 500), "{seen:?}");
}
