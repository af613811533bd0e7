//! Timber freeboards: the figures, what LS has and has not, the other five marks, refusal 24, version 4 of the
//! record, and what the flag does not touch.

mod common;

use common::{bulk, house, k1, k2, packed, packed_as, set_in, ship, with};
use twin::big::{over, whole};
use twin::exact::{self, timber_bound_holds, timber_cost};
use twin::marks::{marks, steps, tabular, timber_steps, Marks, Timber, TimberSteps};
use twin::question::{shortest_poop, summer_with_poop};
use twin::random::Random;
use twin::record::{read, write, House, Kind, RawShip, Ship, Version};
use twin::refusal::Refusal;
use twin::report::{record_line, ship_line, Trial};

fn refused<T>(number: u8, place: usize) -> Result<T, Refusal> {
    Err(Refusal::at(number, place))
}

fn flagged(raw: &RawShip) -> RawShip {
    RawShip { timber: true, ..raw.clone() }
}

fn of(kind: u64, raw: &RawShip) -> RawShip {
    RawShip { kind, ..flagged(raw) }
}

/// The line with the flag. What stands before the timber marks is the line without it.
fn line(raw: &RawShip) -> String {
    let line = marks(&ship(&flagged(raw))).unwrap().to_string();
    let plain = marks(&ship(&RawShip { timber: false, ..raw.clone() })).unwrap().to_string();
    assert!(line.strip_prefix(&plain).is_some_and(|rest| rest.starts_with(" LS ")), "{line}");
    line
}

fn timber_of(raw: &RawShip) -> Timber {
    marks(&ship(&flagged(raw))).unwrap().timber.unwrap()
}

fn steps_of(raw: &RawShip) -> TimberSteps {
    let ship = ship(&flagged(raw));
    timber_steps(&ship, &steps(&ship))
}

#[test]
fn figures_of_k1_and_k2() {
    assert_eq!(timber_of(&k1()).summer, 1_102);
    assert_eq!(
        line(&k2()),
        "S 1024 T 921 W 1128 WNA 1178 F 921 TF 818 LS 807 LT 699 LW 952 LWNA 1178 LF 699 LTF 591"
    );
    let covers = line(&of(4, &k2()));
    assert!(covers.ends_with(" LS 857 LT 750 LW 1000 LWNA 1227 LF 750 LTF 643"), "{covers}");
}

#[test]
fn figures_of_the_ship_of_120_m() {
    let line = line(&of(3, &bulk()));
    assert!(line.ends_with(" LS 1382 LT 1245 LW 1536 LWNA 1536 LF 1245 LTF 1108"), "{line}");
    // LW would be 1566.
    assert_eq!(1_382 + (8_000 - 1_382 + 35) / 36, 1_566);
}

/// L 80 m, D 4.2 m, a house of all the length. Standard sheer at 90 m; and 1.3 times that at 80 m.
#[test]
fn figures_below_zero() {
    let low = RawShip { length: 80_000, depth: 4_200, ..k1() };
    let full = |raw: &RawShip| with(raw.clone(), &[house(0, 80_000, 2_400)]);
    let sheer = [1_192, 529, 133, 267, 1_058, 2_383];
    let b = timber_of(&full(&RawShip { sheer, ..low.clone() }));
    assert_eq!((b.summer, b.tropical, b.winter), (-154, -244, -33));
    let covers = marks(&ship(&of(4, &full(&low)))).unwrap();
    let timber = covers.timber.unwrap();
    assert_eq!((covers.summer, timber.summer, timber.tropical_fresh), (150, -80, -258));
    assert_eq!((covers.tropical, timber.tropical, timber.winter), (150, -169, 39));
}

/// k2's LS worked by hand: the share is 31% + 11% / 9 of the full 888378 um.
#[test]
fn steps_of_k2() {
    let (ordinary, timber) = (steps(&ship(&k2())), steps_of(&k2()));
    assert_eq!((timber.table, timber.fullness), (ordinary.table, ordinary.fullness));
    assert_eq!(timber.deduction, 888_378 * 322_222 / 1_000_000);
    assert_eq!(timber.corrected, ordinary.corrected + ordinary.deduction - timber.deduction);
    assert_eq!(timber.summer, 807);
    let full = over(860, 1) + over(210 * 5, 37);
    let addition = over(75, 1) * (over(35, 100) - over(1, 9));
    let share = over(31, 100) + over(11, 900);
    assert_eq!(exact::timber(&ship(&flagged(&k2()))), whole(1_075) + addition - full * share);
}

/// The percentages at every tenth, in millionths, and half-way between two.
#[test]
fn percentages() {
    let row = [20, 31, 42, 53, 64, 70, 76, 82, 88, 94, 100];
    let share = |mm: i64| {
        let fore = house(120_000 - mm.min(12_000), 120_000, 2_300);
        let houses = [house(0, mm - 12_000, 2_300), fore];
        let houses = if mm > 12_000 { &houses[..] } else { &houses[1..] };
        let steps = steps_of(&with(bulk(), houses));
        // The full deduction at 120 m, um.
        (steps.deduction, 860_000 + 210 * 35_000 / 37)
    };
    for (tenth, per_cent) in (0..).zip(row) {
        if tenth > 0 {
            let (um, full) = share(12_000 * tenth);
            assert_eq!(um, full * per_cent / 100, "{tenth}");
        }
        if let (1.., Some(next)) = (tenth, row.get(tenth as usize + 1)) {
            let (um, full) = share(12_000 * tenth + 6_000);
            assert_eq!(um, full * (per_cent + next) / 200, "{tenth}");
        }
    }
    // 0.07 L and 0.08 L: 27.7 and 28.8 per cent.
    for (mm, mille) in [(8_400, 277), (9_600, 288)] {
        let (um, full) = share(mm);
        assert_eq!(um, full * mille / 1_000, "{mm}");
    }
}

/// 37(3) stands: without a forecastle of 0.07 L nothing is deducted, be there houses.
#[test]
fn forecastles() {
    let of = |mm: i64| {
        let houses = [house(10_000, 60_000, 2_300), house(120_000 - mm, 120_000, 2_300)];
        steps_of(&with(bulk(), &houses)).deduction
    };
    assert_eq!((of(8_399), steps_of(&with(bulk(), &[])).deduction), (0, 0));
    assert!(of(8_400) > 0);
    // Of a lesser breadth it is too short.
    let fore = set_in(house(111_600, 120_000, 2_300), 9_999, 10_000);
    assert_eq!(steps_of(&with(bulk(), &[fore])).deduction, 0);
}

/// B-60 and B-100 have the line of B, through 30; portable covers keep their own.
#[test]
fn lines() {
    for cb in [6_800, 9_000] {
        let raw = RawShip { cb, ..bulk() };
        let [b, b60, b100, covers] = [1, 2, 3, 4].map(|kind| steps_of(&of(kind, &raw)));
        assert_eq!((&b60, &b100), (&b, &b), "{cb}");
        assert_eq!((b.table, covers.table), (1_690_000, 1_774_000));
        assert_eq!(covers.table, tabular(Kind::Covers, 120_000));
        assert!(covers.summer > b.summer);
    }
}

/// LS is up to whole mm, below zero too, and has no floor and no bow height.
#[test]
fn rounding_of_the_summer_timber_mark() {
    let mut random = Random::new(45);
    let mut seen = [0; 5];
    for i in 0..20_000 {
        let raw = random.timber_ship(i % 9);
        let TimberSteps { corrected, summer, .. } = steps_of(&raw);
        assert!(1_000 * summer >= corrected && 1_000 * (summer - 1) < corrected, "{raw:?}");
        for (count, holds) in seen.iter_mut().zip([
            corrected < 0 && corrected % 1_000 != 0,
            corrected < 0 && corrected % 1_000 == 0,
            -1_000 < corrected && corrected <= 0,
            corrected > 0 && corrected % 1_000 == 0,
            summer < steps(&ship(&raw)).bow / 1_000,
        ]) {
            *count += i32::from(holds);
        }
    }
    assert!(seen.iter().all(|&count| count >= 5), "{seen:?}");
}

/// The five others by their words, the limit of 45(7) and the zero case.
#[test]
fn other_marks() {
    let mut random = Random::new(7);
    let mut seen = [0; 6];
    for i in 0..20_000 {
        let raw = random.timber_ship(i % 9);
        let Ok(Marks { winter, winter_north_atlantic, timber, .. }) = marks(&ship(&raw)) else {
            continue;
        };
        let (timber, ls) = (timber.unwrap(), steps_of(&raw).summer);
        let d = raw.depth as i64 - ls;
        if d <= 0 {
            assert_eq!(timber, Timber::default());
            assert!(matches!(raw.kind, 2 | 3), "{raw:?}");
            seen[usize::from(d == 0)] += 1;
            continue;
        }
        let own = ls + (d + 35) / 36;
        let reduced = matches!(raw.kind, 2 | 3);
        let expected = Timber {
            summer: ls,
            tropical: ls - d / 48,
            winter: if reduced { own.min(winter) } else { own },
            winter_north_atlantic,
            fresh: ls - d / 48,
            tropical_fresh: ls - d / 48 - d / 48,
        };
        assert_eq!(timber, expected, "{raw:?}");
        seen[2] += i32::from(reduced && own > winter);
        seen[3] += i32::from(reduced && own == winter);
        seen[4] += i32::from(!reduced && own > winter);
        seen[5] += i32::from(raw.immersion > 0);
    }
    assert!(seen.iter().all(|&count| count >= 20), "{seen:?}");
}

/// LT <= LS <= LW, but for a reduced ship whose LW is W only LT <= LS; LS <= S for types 1 and 4.
#[test]
fn order_of_the_marks() {
    let mut random = Random::new(3);
    let (mut compared, mut below) = (0, 0);
    for i in 0..40_000 {
        let mut raw = random.any_ship(i % 9);
        raw.timber = raw.kind != 0;
        if !raw.timber {
            continue;
        }
        let raw = if i % 4 == 0 { random.timber_ship(i % 9) } else { raw };
        let ship = ship(&raw);
        let plain = matches!(raw.kind, 1 | 4);
        let ls = steps_of(&raw).summer;
        assert!(!plain || ls <= steps(&ship).summer, "{raw:?}");
        let Ok(Marks { winter, timber, .. }) = marks(&ship) else { continue };
        let timber = timber.unwrap();
        assert!(timber.tropical <= timber.summer, "{raw:?}");
        let limited = !plain && timber.winter == winter;
        assert!(timber.summer <= timber.winter || limited, "{raw:?}");
        compared += 1;
        below += i32::from(timber.summer > timber.winter);
    }
    assert!(compared > 10_000 && below > 20, "{compared} {below}");
}

/// d/48 for LF and LTF, whatever is certified.
#[test]
fn certified_displacement() {
    let plain = timber_of(&k2());
    for (displacement, immersion) in [(7_000, 1_800), (4_976, 25), (1, 65_535)] {
        let raw = RawShip { displacement, immersion, ..k2() };
        assert_eq!(timber_of(&raw), plain);
        assert_ne!(marks(&ship(&raw)).unwrap().fresh, marks(&ship(&k2())).unwrap().fresh);
    }
}

/// B-100 of 120 m without a house: LS 1690 by the line of B, S 1459.
#[test]
fn summer_timber_mark_at_depth() {
    let raw = |depth| {
        let raw = RawShip { moulded: 2_000, cwf: 10_000, depth, ..with(bulk(), &[]) };
        of(3, &raw)
    };
    let zeros = " LS 0 LT 0 LW 0 LWNA 0 LF 0 LTF 0";
    for depth in [1_460, 1_500, 1_689, 1_690] {
        let line = line(&raw(depth));
        assert!(line.starts_with("S 1459 ") && line.ends_with(zeros), "{line}");
    }
    // LW is W, which is below LS.
    let above = line(&raw(1_691));
    assert!(above.ends_with(" LS 1690 LT 1690 LW 1464 LWNA 1464 LF 1690 LTF 1690"), "{above}");
    assert_eq!(marks(&ship(&raw(1_459))), refused(12, 0));
}

/// Ordinary marks and every refusal but 24 are as without the flag.
#[test]
fn flag_changes_nothing_else() {
    let mut random = Random::new(9);
    let mut seen = [0; 4];
    for i in 0..20_000 {
        let mut raw = if i % 2 == 0 { random.any_ship(i % 9) } else { random.timber_ship(i % 9) };
        if raw.kind == 0 {
            continue;
        }
        if random.once_in(4) {
            random.spoil(&mut raw.houses[..(i % 9).max(1)], raw.length as i64);
        }
        let plain = RawShip { timber: false, ..raw.clone() };
        let bare = |raw: &RawShip| {
            raw.check().and_then(|ship| marks(&ship)).map(|marks| Marks { timber: None, ..marks })
        };
        let (with_flag, without) = (bare(&flagged(&raw)), bare(&plain));
        assert_eq!(with_flag, without, "{raw:?}");
        let number = without.map_or_else(|refusal| refusal.number, |_| 0);
        for (count, holds) in seen.iter_mut().zip([
            number == 0,
            number == 12,
            number == 13,
            (9..12).contains(&number),
        ]) {
            *count += i32::from(holds);
        }
        let timber = plain.check().and_then(|ship| marks(&ship)).ok().and_then(|m| m.timber);
        assert_eq!(timber, None);
    }
    assert!(seen.iter().all(|&count| count >= 20), "{seen:?}");
}

/// LS against the exact value, which may be negative or beyond D.
#[test]
fn bound_over_timber_ships() {
    let mut random = Random::new(11);
    let mut seen = [0; 5];
    for i in 0..1_500 {
        let mut raw = if i % 3 == 0 { random.timber_ship(i % 9) } else { random.any_ship(i % 9) };
        for kind in 1..=4 {
            raw.kind = kind;
            let Ok(ship) = flagged(&raw).check() else { continue };
            assert!(timber_bound_holds(&ship), "{ship:?}");
            let (mark, before) = timber_cost(&ship);
            assert!((0.0..1_012.0).contains(&mark) && (0.0..12.0).contains(&before), "{ship:?}");
            seen[kind as usize] += 1;
            seen[0] += i32::from(exact::timber(&ship) < whole(0));
        }
    }
    assert!(seen[0] > 50 && seen[1..].iter().all(|&count| count > 500), "{seen:?}");
}

/// The greatest and the least that is possible fit.
#[test]
fn extreme_ships() {
    for length in [24_000, 99_999, 100_001, 119_999, 120_000, 199_999, 365_000] {
        for (depth, sheer) in [(1_000, 8_191), (60_000, -8_192), (1_000, -8_192), (60_000, 8_191)] {
            for kind in 1..=4 {
                for houses in [&[][..], &[house(0, length as i64, 8_191)]] {
                    let raw =
                        RawShip { kind, length, depth, cb: 12_000, sheer: [sheer; 6], ..k1() };
                    let Ok(ship) = flagged(&with(raw, houses)).check() else { continue };
                    assert!(timber_bound_holds(&ship), "{ship:?}");
                }
            }
        }
    }
}

/// What reader, writer, marks and question say of the ship; all the same if it is refused.
fn judged(raw: &RawShip) -> Result<(), Refusal> {
    let record = packed(raw);
    let mut buffer = [0xa5; 128];
    let all = [
        read(&record).map(|_| ()),
        write(&mut buffer, raw).map(|_| ()),
        read(&record).and_then(|ship| marks(&ship)).map(|_| ()),
        shortest_poop(&record, 1_950, 60_000).map(|_| ()),
    ];
    assert!(all.iter().all(|result| *result == all[0]), "{all:?}");
    assert!(all[0].is_ok() || buffer == [0xa5; 128]);
    all[0]
}

/// 24 is for type A alone, in every call.
#[test]
fn no_timber_for_type_a() {
    for kind in 1..=4 {
        assert_eq!(judged(&of(kind, &bulk())), Ok(()), "{kind}");
    }
    for raw in [k1(), k2(), bulk()] {
        assert_eq!(judged(&of(0, &raw)), refused(24, 0));
        assert_eq!(judged(&RawShip { kind: 0, ..raw }), Ok(()));
    }
    assert_eq!(
        judged(&of(0, &with(k1(), &[set_in(k2().houses[0], 9_500, 10_000)]))),
        refused(24, 0)
    );
}

/// 24 stands after 3 and before 4 and all that follows.
#[test]
fn place_of_24() {
    let a = of(0, &k2());
    for kind in 5..=7 {
        assert_eq!(judged(&of(kind, &bulk())), refused(3, 0));
        assert_eq!(judged(&RawShip { n: 9, ..of(kind, &bulk()) }), refused(3, 0));
    }
    assert_eq!(write(&mut [], &of(u64::MAX, &k2())), refused(3, 0));
    assert_eq!(write(&mut [], &of(1 << 32, &k2())), refused(3, 0));
    assert_eq!(judged(&RawShip { n: 9, ..a.clone() }), refused(24, 0));
    assert_eq!(judged(&RawShip { cwf: 0, ..a.clone() }), refused(24, 0));
    assert_eq!(judged(&RawShip { immersion: 1, ..a.clone() }), refused(24, 0));
    let [first, fore] = [house(10_000, 20_000, 2_000), k2().houses[0]];
    for houses in [
        [House { height: 0, ..first }, fore],
        [first, set_in(fore, 9_199, 10_000)],
        [House { quarterdeck: true, ..first }, fore],
        [first, first],
        [fore, first],
    ] {
        assert_eq!(judged(&with(a.clone(), &houses)), refused(24, 0));
        let number = with(flagged(&k1()), &houses).check().unwrap_err().number;
        assert!(matches!(number, 9 | 10 | 11 | 18 | 23), "{number}");
    }
}

/// 5, 6 and 12 to 17 stand after 24.
#[test]
fn what_follows_24() {
    let a = of(0, &k2());
    let record = packed(&a);
    assert_eq!(read(&record[..38]), refused(24, 0));
    for bit in 0..4 {
        let mut spare = record.clone();
        spare[1] |= 1 << bit;
        assert_eq!(read(&spare), refused(24, 0));
    }
    assert_eq!(judged(&RawShip { depth: 1_000, ..a.clone() }), refused(24, 0));
    assert_eq!(
        judged(&RawShip { displacement: 1 << 19, immersion: 1, ..a.clone() }),
        refused(24, 0)
    );
    for (height, wish) in [(0, 1_000), (1_950, 49), (1_950, 50)] {
        assert_eq!(shortest_poop(&record, height, wish), refused(24, 0));
    }
    assert_eq!(write(&mut [], &a), refused(24, 0));
}

/// Version 4 is version 3 with the flag in bit 11.
#[test]
fn bytes_of_version_4() {
    let raw = with(k1(), &[set_in(k2().houses[0], 9_500, 10_000)]);
    let (third, fourth) = (packed(&raw), packed(&flagged(&raw)));
    assert_eq!((third.len(), fourth.len()), (39, 39));
    assert_eq!(third[..2], [0b0011_0010, 0b0010_0000]);
    assert_eq!(fourth[..2], [0b0100_0010, 0b0011_0000]);
    assert_eq!(third[2..], fourth[2..]);
    let line = record_line(&fourth);
    assert!(line.starts_with("type 1 timber L 90000 D 6000 ") && line.ends_with(" back"), "{line}");
    // Without breadths a house has 12 bytes too.
    assert_eq!(packed(&flagged(&k2())).len(), 39);
    assert_eq!(packed(&flagged(&k1())).len(), 27);
}

/// Version 4 without the flag is read, and written back in a lower version.
#[test]
fn version_4_without_the_flag() {
    let set_in = with(k1(), &[set_in(k2().houses[0], 9_500, 10_000)]);
    for (raw, lowest) in [(k2(), 1), (RawShip { kind: 2, ..bulk() }, 2), (set_in, 3)] {
        let fourth = packed_as(Version::Four, &raw);
        let ship = read(&fourth).unwrap();
        assert_eq!(Ok(&ship), raw.check().as_ref());
        assert!(!ship_line(&ship).contains("timber"));
        let mut buffer = [0xa5; 39];
        let length = write(&mut buffer, &ship.raw()).unwrap();
        assert_eq!((buffer[0] >> 4, read(&buffer[..length])), (lowest, Ok(ship)));
    }
}

/// The bit is a spare one in versions 1 to 3, and the four behind it are in version 4.
#[test]
fn spare_bits() {
    let bit = |version, bit: usize| {
        let mut record = packed_as(version, &k2());
        record[bit / 8] |= 0x80 >> (bit % 8);
        read(&record).map(|ship| ship.timber)
    };
    for version in [Version::One, Version::Two, Version::Three] {
        for at in 11..16 {
            assert_eq!(bit(version, at), refused(6, 0));
        }
    }
    assert_eq!(bit(Version::Four, 11), Ok(true));
    for at in 12..16 {
        assert_eq!(bit(Version::Four, at), refused(6, 0));
    }
}

/// 17 by the length of version 4.
#[test]
fn buffers() {
    for length in 0..=64 {
        let mut buffer = vec![0xa5; length];
        let expected = if length < 39 { refused(17, 0) } else { Ok(39) };
        assert_eq!(write(&mut buffer, &flagged(&k2())), expected, "{length}");
        let written = if length < 39 { 0 } else { 39 };
        assert!(buffer[written..].iter().all(|&byte| byte == 0xa5));
        assert_eq!(buffer[..written], packed(&flagged(&k2()))[..written]);
    }
}

/// A trial of a write has one number more with the flag.
#[test]
fn trials() {
    let trial = |ship| Trial { buffer: 64, ship };
    let (plain, with_flag) = (trial(k2()).to_bytes(), trial(flagged(&k2())).to_bytes());
    assert_eq!((plain.len(), with_flag.len()), (8 * 72, 8 * 73));
    assert_eq!(with_flag, [&plain[..], &1_u64.to_be_bytes()].concat());
    assert!(Trial::from_bytes(&plain).is_some_and(|trial| !trial.ship.timber));
    assert!(Trial::from_bytes(&with_flag).is_some_and(|trial| trial.ship.timber));
    for last in [0_u64, 2] {
        let bytes = [&plain[..], &last.to_be_bytes()].concat();
        assert!(Trial::from_bytes(&bytes).is_none());
    }
}

/// The question's answer is that of the ship without the flag.
#[test]
fn question_without_timber() {
    let mut random = Random::new(33);
    let mut answers = [0; 3];
    while answers.iter().sum::<i32>() < 150 {
        let n = random.between(0, 7) as usize;
        let raw = random.timber_ship(n);
        let Ok(ship) = raw.check() else { continue };
        let plain = Ship { timber: false, ..ship.clone() };
        let height = random.between(1, 3_000) as u64;
        let k = random.between(0, 40);
        let mark = summer_with_poop(&ship, height, k);
        assert_eq!(mark, summer_with_poop(&plain, height, k));
        let wish = mark.map_or(60_000, |mark| mark as u64).max(50);
        let answer = shortest_poop(&packed(&raw), height, wish);
        assert_eq!(answer, shortest_poop(&packed(&plain.raw()), height, wish), "{raw:?}");
        answers[answer.map_or(2, |k| usize::from(k > 0))] += 1;
    }
    assert!(answers.iter().all(|&count| count > 0), "{answers:?}");
    // LS of k2 is 807, and a poop of 31 dm gives S 1000.
    let record = packed(&flagged(&k2()));
    assert_eq!(shortest_poop(&record, 1_950, 1_000), Ok(31));
    assert_eq!(shortest_poop(&record, 1_950, 50), refused(16, 0));
}
