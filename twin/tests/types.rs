//! The five types: their lines, marks and floors, refusal 22, the versions of the record, and the order
//! between the types.

mod common;

use common::{bulk, house, k1, k2, packed, packed_as, ship, with};
use twin::exact::{bound_holds, cost};
use twin::marks::{floor, increase, marks, steps, tabular};
use twin::question::shortest_poop;
use twin::random::Random;
use twin::record::{read, write, House, Kind, RawShip, Ship, Version};
use twin::refusal::Refusal;
use twin::report::{hex, record_line};
use twin::table27;

fn of(kind: Kind, raw: &RawShip) -> RawShip {
    RawShip { kind: kind as u64, ..raw.clone() }
}

fn refused<T>(number: u8, place: usize) -> Result<T, Refusal> {
    Err(Refusal::at(number, place))
}

#[test]
fn table_27_1() {
    let lengths = [24_000, 108_000, 108_500, 120_000, 199_500, 200_000];
    assert_eq!(lengths.map(increase), [50_000, 50_000, 51_000, 84_000, 357_500, 358_000]);
    assert_eq!(
        [107_999, 108_001, 108_999, 109_000].map(increase),
        [50_000, 50_002, 51_998, 52_000]
    );
    assert_eq!(table27::INCREASE.len(), 93);
    assert!(table27::INCREASE.windows(2).all(|rows| rows[0] < rows[1]));
}

#[test]
fn lines_at_120_m() {
    let lines = Kind::ALL.map(|kind| tabular(kind, 120_000));
    assert_eq!(lines, [1_459_000, 1_690_000, 1_551_400, 1_459_000, 1_774_000]);
}

/// B-60 is up, by less than a um; the others are exact.
#[test]
fn line_of_b60_is_up() {
    let mut fractions = [0; 5];
    for length in 100_001..=365_000 {
        let [a, b, b60, b100, _] = Kind::ALL.map(|kind| tabular(kind, length));
        // B - 60% of (B - A), in hundredths.
        let exact = 100 * b - 60 * (b - a);
        assert!(100 * b60 >= exact && 100 * (b60 - 1) < exact, "{length}");
        assert_eq!(b100, a);
        fractions[(exact % 100 / 20) as usize] += 1;
    }
    assert!(fractions.iter().all(|&count| count > 1_000), "{fractions:?}");
}

#[test]
fn marks_of_the_ship_of_120_m() {
    let summer = |raw: &RawShip| marks(&ship(raw)).unwrap().summer;
    let marks = Kind::ALL.map(|kind| summer(&of(kind, &bulk())));
    assert_eq!(marks, [1_398, 1_629, 1_490, 1_398, 1_713]);
    let full = RawShip { cb: 8_000, ..of(Kind::Covers, &bulk()) };
    assert_eq!(summer(&full), 1_869);
}

#[test]
fn marks_of_k2_with_portable_covers() {
    let line = marks(&ship(&of(Kind::Covers, &k2()))).unwrap().to_string();
    assert_eq!(line, "S 1074 T 972 W 1177 WNA 1227 F 972 TF 870");
}

/// A full house: S and T stand at the type's floor, F and TF have none.
#[test]
fn floors() {
    let low = |kind| {
        let raw = RawShip {
            length: 110_000,
            depth: 5_000,
            moulded: 2_000,
            cwf: 10_000,
            sheer: [8_191; 6],
            ..k1()
        };
        marks(&ship(&of(kind, &with(raw, &[house(0, 110_000, 8_000)])))).unwrap()
    };
    for kind in Kind::ALL {
        let marks = low(kind);
        let least = if kind == Kind::Covers { 150 } else { 50 };
        assert_eq!(floor(kind), least);
        assert_eq!((marks.summer, marks.tropical), (least, least));
        let d = (5_000 - least) / 48;
        assert_eq!((marks.fresh, marks.tropical_fresh), (least - d, least - d));
        assert_eq!(marks.winter, least + (5_000 - least + 47) / 48);
    }
}

/// 29 and 37(3) are for every type but A.
#[test]
fn all_but_a_are_type_b() {
    let short = RawShip { length: 90_000, ..k1() };
    assert_eq!(steps(&ship(&of(Kind::A, &short))).short_b, 0);
    assert!(steps(&ship(&of(Kind::B, &short))).short_b > 0);
    assert_eq!(
        steps(&ship(&of(Kind::B, &short))).short_b,
        steps(&ship(&of(Kind::Covers, &short))).short_b
    );
    let poop = with(RawShip { length: 110_000, ..k1() }, &[house(0, 40_000, 2_300)]);
    for kind in Kind::ALL {
        let deducted = steps(&ship(&of(kind, &poop))).deduction > 0;
        assert_eq!(deducted, kind == Kind::A, "{kind:?}");
    }
}

/// The four kinds of type B differ in the line and the floor alone.
#[test]
fn kinds_of_b_differ_in_line_and_floor() {
    let mut random = Random::new(27);
    let mut compared = 0;
    for i in 0..4_000 {
        let raw = random.any_ship(i % 9);
        let Ok(plain) = of(Kind::B, &raw).check() else { continue };
        let b = steps(&plain);
        for (kind, least) in [(Kind::B60, 50), (Kind::B100, 50), (Kind::Covers, 150)] {
            let Ok(other) = of(kind, &raw).check() else { continue };
            // The kind's line with B's own addition, through 30; the rest is B's.
            let line = tabular(kind, other.length) + b.short_b;
            let full = match other.cb.min(10_000) {
                ..=6_800 => line,
                cb => up(line * (cb + 6_800), 13_600),
            };
            let corrected = full + (b.corrected - b.fullness);
            let summer = up(corrected.max(b.bow), 1_000).max(least);
            assert_eq!(steps(&other).summer, summer, "{raw:?}");
            let Ok(given) = marks(&other) else { continue };
            let tropical = (summer - (other.depth - summer) / 48).max(least);
            assert_eq!((given.summer, given.tropical), (summer, tropical), "{raw:?}");
            compared += 1;
        }
    }
    assert!(compared > 4_000, "{compared}");
}

fn up(value: i64, by: i64) -> i64 {
    -(-value).div_euclid(by)
}

/// A = B-100 <= B-60 <= B <= B with portable covers, the last up to 200 m.
#[test]
fn order_of_the_lines() {
    for length in (24_000..=365_000).step_by(7).chain([100_000, 100_001, 108_000, 200_000]) {
        let [a, b, b60, b100, covers] = Kind::ALL.map(|kind| tabular(kind, length));
        assert!(a == b100 && b100 <= b60 && b60 <= b, "{length}");
        assert!(length > 200_000 || b <= covers, "{length}");
    }
}

/// The summer mark of the ship as this type, where it gets one.
fn mark(kind: Kind, raw: &RawShip) -> Option<i64> {
    marks(&of(kind, raw).check().ok()?).ok().map(|marks| marks.summer)
}

/// Ships that differ in type alone: A <= B-100 <= B-60 <= B <= portable covers, where they get marks.
#[test]
fn order_of_the_marks() {
    let order = [Kind::A, Kind::B100, Kind::B60, Kind::B, Kind::Covers];
    let mut random = Random::new(5);
    let (mut pairs, mut equal) = ([0; 4], [0; 4]);
    for i in 0..20_000 {
        let raw = random.any_ship(i % 9);
        let marks: Vec<Option<i64>> = order.iter().map(|&kind| mark(kind, &raw)).collect();
        for (place, pair) in marks.windows(2).enumerate() {
            if let [Some(less), Some(more)] = pair {
                assert!(less <= more, "{raw:?}");
                pairs[place] += 1;
                equal[place] += i32::from(less == more);
            }
        }
        // Over a type that has none, too.
        let given: Vec<i64> = marks.into_iter().flatten().collect();
        assert!(given.is_sorted(), "{raw:?}");
    }
    assert!(pairs.iter().all(|&count| count > 3_000), "{pairs:?}");
    assert!(equal.iter().zip(pairs).all(|(&equal, all)| equal > 0 && equal < all), "{equal:?}");
}

fn forecastle(ship: &Ship) -> Option<&House> {
    ship.houses.iter().find(|house| house.enclosed && house.fore >= ship.length)
}

/// A and B-100 have the same marks where the effective forecastle is 0.07 L or where there is nothing
/// to deduct. Elsewhere 37(3) makes that of B-100 greater, unless the bow height or the floor decides.
#[test]
fn marks_of_a_and_b100() {
    let mut random = Random::new(100);
    let mut seen = [0; 4];
    for i in 0..20_000 {
        let mut raw = random.any_ship(i % 9);
        raw.kind = 3;
        let Ok(b100) = raw.check() else { continue };
        let a = ship(&of(Kind::A, &raw));
        let long = forecastle(&b100).is_some_and(|house| {
            let alone = with(raw.clone(), &[*house]);
            steps(&ship(&alone)).effective >= 70 * b100.length
        });
        let nothing = steps(&a).deduction == 0;
        let (of_a, of_b100) = (steps(&a), steps(&b100));
        if long || nothing {
            assert_eq!(of_a, of_b100, "{raw:?}");
            assert_eq!(marks(&a), marks(&b100), "{raw:?}");
        } else {
            assert_eq!(of_b100.corrected - of_a.corrected, of_a.deduction, "{raw:?}");
            assert!(of_a.summer <= of_b100.summer);
        }
        let differ = of_a.summer < of_b100.summer;
        for (count, holds) in seen.iter_mut().zip([long, nothing, differ, !differ && !long]) {
            *count += i32::from(holds);
        }
    }
    assert!(seen.iter().all(|&count| count > 100), "{seen:?}");
}

/// 110 m, a poop of 20 m, and a forecastle of 6 m where 0.07 L is 7.7 m: A gets a deduction, B-100 none.
#[test]
fn a_and_b100_with_a_short_forecastle() {
    let raw = RawShip {
        length: 110_000,
        depth: 8_000,
        moulded: 8_000,
        cwf: 9_500,
        sheer: [1_167, 518, 131, 261, 1_036, 2_333],
        ..k1()
    };
    let poop = house(0, 20_000, 2_300);
    let with_forecastle = |aft| with(raw.clone(), &[poop, house(aft, 110_000, 2_300)]);
    let both = |raw: &RawShip| [Kind::A, Kind::B100].map(|kind| mark(kind, raw).unwrap());
    let short = with_forecastle(104_000);
    assert_eq!(both(&short), [1_281, 1_446]);
    assert_eq!(
        [Kind::A, Kind::B100].map(|kind| hex(&packed(&of(kind, &short)))),
        [
            "10801adb01f401f406a4251c123c206020c105103091d00000000080000004e2047e00832c801adb047e00",
            "26401adb01f401f406a4251c123c206020c105103091d00000000080000004e2047e00832c801adb047e00",
        ]
    );
    // One of 0.07 L makes them alike.
    assert_eq!(both(&with_forecastle(102_301)), [1_270, 1_446]);
    assert_eq!(both(&with_forecastle(102_300)), [1_270, 1_270]);
}

/// The bound for each of the five types.
#[test]
fn bound_over_all_types() {
    let mut random = Random::new(11);
    let mut seen = [0; 5];
    for i in 0..2_000 {
        let raw = random.any_ship(i % 9);
        for kind in Kind::ALL {
            let Ok(ship) = of(kind, &raw).check() else { continue };
            assert!(bound_holds(&ship), "{ship:?}");
            let cost = cost(&ship);
            // The line of B-60 costs up to a um, times 1.24 by 30.
            let most = if kind == Kind::B60 { 9.75 } else { 8.5 };
            assert!(cost.corrected >= 0.0 && cost.corrected < most, "{ship:?}");
            assert!(cost.bow >= 0.0 && cost.bow < 13.0, "{ship:?}");
            seen[kind as usize] += 1;
        }
    }
    assert!(seen.iter().all(|&count| count > 800), "{seen:?}");
}

/// Refusal 22 in every call, from both sides.
#[test]
fn lengths_of_the_types() {
    let all = |kind, length| {
        let raw = of(kind, &RawShip { length, ..k1() });
        let record = packed(&raw);
        let mut buffer = [0; 64];
        let results = [
            read(&record).map(|_| ()),
            write(&mut buffer, &raw).map(|_| ()),
            read(&record).and_then(|ship| marks(&ship)).map(|_| ()),
            shortest_poop(&record, 2_000, 60_000).map(|_| ()),
        ];
        assert!(results.iter().all(|result| *result == results[0]), "{results:?}");
        results[0]
    };
    for kind in [Kind::B60, Kind::B100] {
        assert_eq!(all(kind, 24_000), refused(22, 0));
        assert_eq!(all(kind, 100_000), refused(22, 0));
        assert_eq!(all(kind, 100_001), Ok(()));
        assert!(read(&packed(&of(kind, &RawShip { length: 365_000, ..k1() }))).is_ok());
    }
    assert_eq!(all(Kind::Covers, 24_000), Ok(()));
    assert!(read(&packed(&of(Kind::Covers, &RawShip { length: 200_000, ..k1() }))).is_ok());
    for length in [200_001, 365_000] {
        assert_eq!(all(Kind::Covers, length), refused(22, 0));
    }
}

/// 22 stands after 7 and before 8 in every call.
#[test]
fn place_of_22() {
    let check = |raw: &RawShip| {
        let refusal = raw.check().map(|_| ());
        assert_eq!(read(&packed(raw)).map(|_| ()), refusal);
        assert_eq!(write(&mut [], raw).map(|_| ()), refusal);
        assert_eq!(read(&packed(raw)).and_then(|ship| marks(&ship)).map(|_| ()), refusal);
        assert_eq!(shortest_poop(&packed(raw), 0, 0).map(|_| ()), refusal);
        refusal
    };
    for (kind, length) in [(2, 100_000), (3, 100_000), (4, 200_001)] {
        let raw = RawShip { kind, length, ..k1() };
        assert_eq!(check(&raw), refused(22, 0));
        assert_eq!(check(&RawShip { cwf: 0, ..raw.clone() }), refused(7, 5));
        assert_eq!(check(&RawShip { immersion: 1, ..raw.clone() }), refused(22, 0));
        let flat = house(30_000, 30_000, 2_000);
        assert_eq!(check(&with(raw.clone(), &[flat])), refused(22, 0));
        assert_eq!(check(&with(raw.clone(), &[k2().houses[0]; 2])), refused(22, 0));
        // Ships that 12 and 13 would take, as they do of type B.
        let shallow = RawShip { depth: 1_000, ..raw.clone() };
        let light = RawShip { depth: 30_000, displacement: 1_048_575, immersion: 1, ..raw };
        for (ship_of, number) in [(shallow, 12), (light, 13)] {
            assert_eq!(marks(&ship(&of(Kind::B, &ship_of))), refused(number, 0));
            assert_eq!(check(&ship_of), refused(22, 0));
        }
    }
    assert_eq!(check(&RawShip { kind: 2, length: 23_999, ..k1() }), refused(7, 1));
    assert_eq!(check(&RawShip { kind: 4, length: 365_001, ..k1() }), refused(7, 1));
    let raw = RawShip { kind: 5, n: 9, length: 0, ..k1() };
    assert_eq!(write(&mut [], &raw), refused(3, 0));
    let raw = RawShip { kind: 2, n: 9, length: 0, ..k1() };
    assert_eq!(write(&mut [], &raw), refused(4, 0));
}

/// Every version, type and flag that the two bytes of a head can state.
#[test]
fn every_head() {
    let mut seen = [0; 7];
    for head in 0..=u16::MAX {
        let n = if head >> 12 == 1 { head >> 6 & 15 } else { head >> 5 & 15 };
        // As many bytes as the houses need, but 27 for 9 or more of them.
        let houses = vec![house(0, 1, 1); 8];
        let raw = RawShip { length: 150_000, ..k1() };
        let raw = with(raw, &houses[..usize::from(if n > 8 { 0 } else { n })]);
        let mut bytes = packed_as(Version::of(u64::from(head >> 12)).unwrap_or(Version::One), &raw);
        bytes[..2].copy_from_slice(&head.to_be_bytes());
        let number = read(&bytes).map_or_else(|refusal| refusal.number, |_| 0);
        let (version, first, second) = (head >> 12, head >> 10 & 3, head >> 9 & 7);
        let (kind, last, spare) = match version {
            1 => (first, 1, head & 63),
            2 | 3 => (second, 4, head & 31),
            4 => (second, 4, head & 15),
            _ => {
                assert_eq!(number, 2);
                seen[2] += 1;
                continue;
            }
        };
        let flag = version == 4 && head >> 4 & 1 == 1;
        let expected = match (kind > last, n > 8, spare != 0) {
            (true, ..) => 3,
            _ if flag && kind == 0 => 24,
            (_, true, _) => 4,
            (.., true) => 6,
            // The houses stand on one another.
            _ if n > 1 => 11,
            _ => 0,
        };
        assert_eq!(number, expected, "{head:016b}");
        seen[if expected == 24 { 6 } else { usize::from(expected).min(5) }] += 1;
    }
    assert!([0, 2, 3, 4, 5, 6].iter().all(|&place| seen[place] > 0), "{seen:?}");
}

/// k1 in version 2 is read and written back as version 1.
#[test]
fn k1_in_version_2() {
    let second = packed_as(Version::Two, &k1());
    assert_eq!(second[..2], [0b0010_0010, 0]);
    let ship = read(&second).unwrap();
    assert_eq!(Ok(&ship), read(&packed(&k1())).as_ref());
    let mut buffer = [0; 27];
    assert_eq!(write(&mut buffer, &ship.raw()), Ok(27));
    assert_eq!(buffer[..], packed(&k1()));
    assert!(record_line(&second).ends_with(&format!(" as {}", hex(&buffer))));
    assert!(record_line(&buffer).ends_with(" back"));
}

/// Round trips: the lowest version comes back as it is, another one as a record that reads alike.
#[test]
fn round_trips_over_all_versions() {
    let mut random = Random::new(12);
    let mut seen = [[0; 4]; 4];
    for i in 0..6_000 {
        let mut raw = random.any_ship(i % 9);
        random.flag_at_times(&mut raw);
        let lowest = Version::lowest(&raw);
        for version in Version::ALL {
            let record = packed_as(version, &raw);
            assert_eq!(record.len(), 27 + if version as u8 > 2 { 12 } else { 8 } * (i % 9));
            // A lower one drops what it does not hold.
            if (version as u8) < lowest as u8 {
                assert_ne!(read(&record), raw.check());
                continue;
            }
            let ship = read(&record).unwrap();
            assert_eq!(Ok(ship.clone()), raw.check());
            let mut buffer = [0xa5; 128];
            let length = write(&mut buffer, &ship.raw()).unwrap();
            assert_eq!(length, lowest.record_bytes(i % 9));
            assert!(buffer[length..].iter().all(|&byte| byte == 0xa5));
            assert_eq!(buffer[..length] == record, version == lowest);
            assert_eq!(buffer[0] >> 4, lowest as u8);
            assert_eq!(read(&buffer[..length]), Ok(ship));
            seen[lowest as usize - 1][version as usize - 1] += 1;
        }
    }
    let held = seen.iter().enumerate().flat_map(|(lowest, seen)| &seen[lowest..]);
    assert!(held.into_iter().all(|&count| count > 800), "{seen:?}");
}

/// The lowest version goes by the flag, by the breadths of the first n houses and by the type.
#[test]
fn lowest_version() {
    let mut random = Random::new(13);
    for i in 0..6_000 {
        let mut raw = random.any_ship(i % 9);
        random.set_in(&mut raw.houses[i % 9..]);
        raw.timber = random.once_in(3);
        let set_in = raw.houses[..i % 9].iter().any(|house| house.breadth > 0);
        let expected = match (raw.timber, set_in, raw.kind > 1) {
            (true, ..) => Version::Four,
            (_, true, _) => Version::Three,
            (.., true) => Version::Two,
            _ => Version::One,
        };
        assert_eq!(Version::lowest(&raw), expected, "{raw:?}");
    }
}

/// Any bits of the head changed: what is read is written in its lowest version and reads as the same ship.
#[test]
fn damaged_heads() {
    let mut random = Random::new(4);
    let mut read_again = 0;
    for i in 0..20_000 {
        let mut raw = random.any_ship(i % 9);
        random.flag_at_times(&mut raw);
        let mut bytes = packed_as(random.pick(&Version::ALL), &raw);
        for _ in 0..random.between(1, 2) {
            let bit = random.between(0, 15) as usize;
            bytes[bit / 8] ^= 0x80 >> (bit % 8);
        }
        match read(&bytes) {
            Ok(ship) => {
                assert_eq!(read(&packed(&ship.raw())), Ok(ship));
                read_again += 1;
            }
            Err(refusal) => assert!(matches!(refusal.number, 2..=6 | 22 | 24), "{refusal}"),
        }
    }
    assert!(read_again > 500, "{read_again}");
}

/// A wish below 150 on a ship with portable covers is in range, and nothing fits.
#[test]
fn wishes_about_the_floor() {
    let low = RawShip {
        length: 40_000,
        depth: 2_600,
        moulded: 2_000,
        cwf: 10_000,
        sheer: [583, 259, 65, 131, 518, 1167],
        ..k1()
    };
    let raw = with(low, &[house(36_000, 40_000, 3_500)]);
    let asked = |kind, wish| shortest_poop(&packed(&of(kind, &raw)), 2_000, wish);
    assert_eq!(asked(Kind::Covers, 49), refused(14, 0));
    for wish in [50, 149] {
        assert_eq!(asked(Kind::Covers, wish), refused(16, 0));
    }
    assert!(asked(Kind::Covers, 150).is_ok_and(|k| k > 0));
    assert!(asked(Kind::B, 149).is_ok_and(|k| k > 0));
}

/// The question asks by the ship's own type.
#[test]
fn question_by_type() {
    for kind in Kind::ALL {
        let record = packed(&of(kind, &bulk()));
        let own = mark(kind, &bulk()).unwrap() as u64;
        assert_eq!(shortest_poop(&record, 2_300, own), Ok(0), "{kind:?}");
        assert!(shortest_poop(&record, 2_300, own - 1).is_ok_and(|k| k > 0), "{kind:?}");
    }
}
