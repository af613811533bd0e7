//! Lists of houses that overlap or are out of order: refusals 11 and 18 in every call.

mod common;

use common::{house, k1, packed, with};
use twin::marks::marks;
use twin::question::shortest_poop;
use twin::random::Random;
use twin::record::{check_houses, read, write, House, RawShip};
use twin::refusal::Refusal;

/// Enclosed houses with these ends.
fn row(ends: &[(i64, i64)]) -> Vec<House> {
    ends.iter().map(|&(aft, fore)| house(aft, fore, 2_000)).collect()
}

/// What reader, writer, marks and question refuse the ship for.
fn refusals(raw: &RawShip) -> [Option<Refusal>; 4] {
    let record = packed(raw);
    let mut buffer = [0xa5; 128];
    let written = write(&mut buffer, raw);
    assert!(written.is_ok() || buffer == [0xa5; 128]);
    [
        read(&record).err(),
        written.err(),
        read(&record).and_then(|ship| marks(&ship)).err(),
        shortest_poop(&record, 1_950, 60_000).err(),
    ]
}

/// The line that every call gives for k1 with these houses.
fn line(houses: &[House]) -> String {
    let all = refusals(&with(k1(), houses));
    assert!(all.iter().all(|&refusal| refusal == all[0]), "{all:?}");
    all[0].map_or("accepted".into(), |refusal| refusal.to_string())
}

#[test]
fn figures() {
    let of = |first, second| line(&row(&[first, second]));
    assert_eq!(of((0, 20_000), (0, 5_000)), "refused 11 1 5000");
    assert_eq!(of((0, 20_001), (20_000, 30_000)), "refused 11 1 1");
    assert_eq!(of((0, 20_000), (6_000, 8_000)), "refused 11 1 2000");
    assert_eq!(of((20_000, 25_000), (19_999, 30_000)), "refused 18 1");
    assert_eq!(of((20_000, 25_000), (0, 10_000)), "refused 18 1");
    assert_eq!(of((10_000, 20_000), (9_999, 15_000)), "refused 18 1");
    assert_eq!(of((1, 20_000), (20_000, 30_000)), "accepted");
}

#[test]
fn ends_about_each_other() {
    let of = |aft, fore| line(&row(&[(10_000, 20_000), (aft, fore)]));
    // The same house twice, and each end 1 mm off.
    assert_eq!(of(10_000, 20_000), "refused 11 1 10000");
    assert_eq!(of(10_000, 20_001), "refused 11 1 10000");
    assert_eq!(of(10_000, 19_999), "refused 11 1 9999");
    assert_eq!(of(10_001, 20_000), "refused 11 1 9999");
    assert_eq!(of(9_999, 20_000), "refused 18 1");
    // Out of order is out of order, whether a mm lies in both houses or not.
    assert_eq!(of(5_000, 10_001), "refused 18 1");
    assert_eq!(of(5_000, 10_000), "refused 18 1");
    assert_eq!(of(5_000, 30_000), "refused 18 1");
    // Touching, and the least overlap.
    assert_eq!(of(20_000, 20_001), "accepted");
    assert_eq!(of(19_999, 20_000), "refused 11 1 1");
    // A mm beyond a perpendicular counts as any other; there are more than 16 bits hold.
    assert_eq!(line(&row(&[(-5_000, 1_000), (-3_000, 2_000)])), "refused 11 1 4000");
    assert_eq!(line(&row(&[(-20_000, 110_000), (-20_000, 110_000)])), "refused 11 1 130000");
}

/// The first bad house decides, beside the one just before it.
#[test]
fn first_bad_house() {
    let of = |ends: &[(i64, i64)]| line(&row(ends));
    assert_eq!(of(&[(0, 10_000), (9_000, 20_000), (5_000, 8_000)]), "refused 11 1 1000");
    assert_eq!(of(&[(20_000, 30_000), (10_000, 15_000), (14_000, 18_000)]), "refused 18 1");
    assert_eq!(of(&[(0, 10_000), (9_000, 20_000), (17_000, 30_000)]), "refused 11 1 1000");
    assert_eq!(of(&[(0, 10_000), (20_000, 30_000), (12_000, 18_000)]), "refused 18 2");
    assert_eq!(of(&[(0, 10_000), (20_000, 30_000), (29_000, 40_000)]), "refused 11 2 1000");
    let mut houses = row(&[(10_000, 20_000), (20_000, 25_000), (18_000, 30_000)]);
    houses[1].enclosed = false;
    assert_eq!(line(&houses), "refused 18 2");
}

/// 18 stands where 11 does: after 10, and before 12 to 17.
#[test]
fn order_of_refusals() {
    for (ends, expected) in [
        ([(1, 20_000), (6_000, 8_000)], Refusal::overlapping(1, 2_000)),
        ([(6_001, 20_000), (6_000, 8_000)], Refusal::at(18, 1)),
    ] {
        let houses = row(&ends);
        let raw = with(k1(), &houses);
        let all = |raw: &RawShip| refusals(raw).map(Option::unwrap);
        assert_eq!(all(&RawShip { cwf: 0, ..raw.clone() }), [Refusal::at(7, 5); 4]);
        assert_eq!(all(&RawShip { immersion: 1, ..raw.clone() }), [Refusal::at(8, 0); 4]);
        let flat = [&houses[..], &row(&[(40_000, 40_000)])].concat();
        assert_eq!(all(&with(k1(), &flat)), [Refusal::at(9, 2); 4]);
        let deck = House { quarterdeck: true, ..house(40_000, 50_000, 1_200) };
        let decked = [&houses[..], &[deck]].concat();
        assert_eq!(all(&with(k1(), &decked)), [Refusal::at(10, 2); 4]);
        // 12 and 13.
        assert_eq!(all(&RawShip { depth: 1_000, ..raw.clone() }), [expected; 4]);
        let heavy = RawShip { displacement: 1 << 19, immersion: 1, ..raw.clone() };
        assert_eq!(all(&heavy), [expected; 4]);
        // 14 and 16, then 15: a house at the stern, or eight of them.
        for (height, wish) in [(0, 1_000), (1_950, 49), (1_950, 50)] {
            assert_eq!(shortest_poop(&packed(&raw), height, wish), Err(expected));
        }
        let stern = with(k1(), &[&row(&[(0, 1)]), &houses[..]].concat());
        let later = Refusal { place: 2, ..expected };
        assert_eq!(shortest_poop(&packed(&stern), 1_950, 60_000), Err(later));
        let eight = with(k1(), &[houses.clone(), row(&[(50_000, 60_000); 6])].concat());
        assert_eq!(shortest_poop(&packed(&eight), 1_950, 60_000), Err(expected));
        // 17.
        assert_eq!(write(&mut [], &raw), Err(expected));
        assert_eq!(write(&mut [0; 42], &raw), Err(expected));
    }
}

/// Refusal 9, clause by clause.
fn refused_9(house: &House, length: i64) -> bool {
    house.fore <= house.aft
        || house.fore <= 0
        || house.aft >= length
        || house.aft < -20_000
        || house.fore > length + 20_000
        || house.height < 1
        || house.height > 8_191
}

/// Refusal 10, clause by clause.
fn refused_10(house: &House, length: i64) -> bool {
    house.quarterdeck && (!house.enclosed || house.aft > 0 || house.fore >= length)
}

/// Refusal 23, clause by clause.
fn refused_23(house: &House, _: i64) -> bool {
    let (breadth, beam) = (house.breadth, house.beam);
    (breadth == 0) != (beam == 0)
        || breadth > beam
        || u128::from(beam) * 4 < u128::from(beam.saturating_sub(breadth)) * 50
        || breadth.max(beam) > 65_535
}

/// A length and a list for it.
fn drawn(random: &mut Random, n: usize) -> (i64, Vec<House>) {
    let longest = random.pick(&[30_000, 120_000, 365_000]);
    let length = random.between(24_000, longest);
    let mut houses = vec![House::default(); n];
    random.put_list(&mut houses, length);
    random.set_in_at_times(&mut houses);
    if n > 0 && random.once_in(6) {
        random.spoil(&mut houses, length);
    }
    (length, houses)
}

/// 11 or 18 is given exactly where 9, 23 and 10 pass and some house begins abaft the previous one's fore
/// end; its place is the first such house, and the overlap is what a count of the mm gives.
#[test]
fn overlap_is_a_count() {
    let mut random = Random::new(11);
    let mut seen = [0; 24];
    for i in 0..20_000 {
        let (length, houses) = drawn(&mut random, i % 9);
        let first = |test: fn(&House, i64) -> bool| houses.iter().position(|h| test(h, length));
        let bad = (1..houses.len()).find(|&i| houses[i].aft < houses[i - 1].fore);
        let expected = match (first(refused_9), first(refused_23), first(refused_10), bad) {
            (Some(place), ..) => Err(Refusal::at(9, place)),
            (_, Some(place), ..) => Err(Refusal::at(23, place)),
            (.., Some(place), _) => Err(Refusal::at(10, place)),
            (.., None) => Ok(()),
            (.., Some(place)) => {
                let (previous, house) = (houses[place - 1], houses[place]);
                let in_both = |mm: &i64| previous.aft <= *mm && *mm < previous.fore;
                let count = (house.aft..house.fore).filter(in_both).count() as u64;
                match house.aft < previous.aft {
                    true => Err(Refusal::at(18, place)),
                    false => Err(Refusal::overlapping(place, count)),
                }
            }
        };
        let checked = check_houses(length, &houses);
        assert_eq!(checked, expected, "{length} {houses:?}");
        let number = checked.map_or_else(|refusal| refusal.number, |()| 0);
        let overlap = checked.map_or_else(|refusal| refusal.overlap, |()| 0);
        assert_eq!(number == 11, overlap > 0, "{length} {houses:?}");
        seen[number as usize] += 1;
    }
    assert!([0, 9, 10, 11, 18, 23].iter().all(|&number| seen[number] >= 400), "{seen:?}");
}

/// In order of their aft ends houses are never out of order. Those that do not overlap pass when they
/// are sorted, and are never refused for an overlap before.
#[test]
fn sorted_lists() {
    let mut random = Random::new(18);
    let mut seen = [0; 3];
    for i in 0..20_000 {
        let (length, houses) = drawn(&mut random, i % 9);
        let mut sorted = houses.clone();
        sorted.sort_by_key(|house| house.aft);
        let number =
            |houses: &[House]| check_houses(length, houses).map_or_else(|r| r.number, |()| 0);
        assert_ne!(number(&sorted), 18, "{length} {sorted:?}");
        if number(&sorted) == 0 {
            let mut shuffled = sorted.clone();
            for place in 1..shuffled.len() {
                shuffled.swap(place, random.between(0, place as i64) as usize);
            }
            let expected = if shuffled == sorted { 0 } else { 18 };
            assert_eq!(number(&shuffled), expected, "{length} {shuffled:?}");
            seen[usize::from(expected == 18)] += 1;
        }
        seen[2] += u32::from(number(&sorted) == 11 && number(&houses) == 18);
    }
    assert!(seen.iter().all(|&count| count >= 500), "{seen:?}");
}

/// Every call gives the same refusal for the same list.
#[test]
fn every_call_alike() {
    let mut random = Random::new(2);
    let mut seen = [0; 24];
    for i in 0..4_000 {
        let (length, houses) = drawn(&mut random, i % 9);
        let raw = with(RawShip { length: length as u64, ..k1() }, &houses);
        let Err(expected) = check_houses(length, &houses) else { continue };
        assert_eq!(refusals(&raw), [Some(expected); 4], "{raw:?}");
        assert_eq!(write(&mut [], &raw), Err(expected));
        assert_eq!(shortest_poop(&packed(&raw), 0, u64::MAX), Err(expected));
        seen[expected.number as usize] += 1;
    }
    assert!([9, 10, 11, 18, 23].iter().all(|&number| seen[number] >= 80), "{seen:?}");
}
