//! The shortest poop.

mod common;

use common::{house, k1, k2, packed, ship, with};
use twin::marks::marks;
use twin::question::{shortest_poop, summer_with_poop};
use twin::random::Random;
use twin::record::{read, RawShip};
use twin::refusal::Refusal;

fn refused(number: u8, place: usize) -> Result<i64, Refusal> {
    Err(Refusal::at(number, place))
}

#[test]
fn refusals_in_order() {
    let poop = with(k1(), &[house(0, 10_000, 2_000)]);
    let overlapping = with(k1(), &[house(0, 10_000, 2_000), house(9_999, 20_000, 2_000)]);
    assert_eq!(shortest_poop(&[], 0, 0), refused(1, 0));
    let overlap = Err(Refusal::overlapping(1, 1));
    assert_eq!(shortest_poop(&packed(&overlapping), 0, 0), overlap);
    for (height, wish) in [(0, 1_000), (8_192, 1_000), (1_950, 49), (1_950, 60_001)] {
        assert_eq!(shortest_poop(&packed(&poop), height, wish), refused(14, 0));
    }
    assert_eq!(shortest_poop(&packed(&poop), 1_950, 60_000), refused(15, 0));
    let open = with(k1(), &[twin::record::House { enclosed: false, ..poop.houses[0] }]);
    assert_eq!(shortest_poop(&packed(&open), 1_950, 60_000), refused(15, 0));
    assert_eq!(shortest_poop(&packed(&k1()), 8_191, 50), refused(16, 0));
}

#[test]
fn eight_houses_leave_no_room() {
    let row: Vec<_> = (1..=8).map(|i| house(10_000 * i, 10_000 * i + 5_000, 2_000)).collect();
    assert_eq!(shortest_poop(&packed(&with(k1(), &row)), 1_950, 60_000), refused(15, 0));
    assert_eq!(shortest_poop(&packed(&with(k1(), &row[1..])), 1_950, 60_000), Ok(0));
}

/// The fresh allowance is above the draught: unfit at every k, and no other refusal.
#[test]
fn unfit_ships_only_make_a_length_unfit() {
    let heavy = RawShip { displacement: 1_048_575, immersion: 1, ..k2() };
    assert_eq!(marks(&ship(&heavy)), Err(Refusal::at(13, 0)));
    assert_eq!(shortest_poop(&packed(&heavy), 1_950, 60_000), refused(16, 0));
    let shallow = RawShip { depth: 1_000, ..k2() };
    assert_eq!(marks(&ship(&shallow)), Err(Refusal::at(12, 0)));
    assert!(shortest_poop(&packed(&shallow), 1_950, 60_000).is_ok_and(|k| k > 0));
}

/// A poop that reaches beyond the first house's aft end overlaps it, which only makes that length unfit.
#[test]
fn poop_into_the_first_house() {
    let raw = with(k1(), &[house(30_000, 31_000, 2_000), house(80_000, 90_000, 2_000)]);
    let of = |k| summer_with_poop(&ship(&raw), 1_950, k);
    assert!(of(300).is_ok());
    let overlap = |mm| Err(Refusal::overlapping(1, mm));
    assert_eq!([301, 309, 310, 900].map(of), [100, 900, 1_000, 1_000].map(overlap));
    assert_eq!(shortest_poop(&packed(&raw), 1_950, 50), refused(16, 0));
}

/// The poop is the house amidships from 100k = 0.8 L on, at its own height.
#[test]
fn poop_amidships() {
    let of = |length, height| {
        let raw = RawShip { kind: 0, length, depth: 6_000, moulded: 1_000, ..k1() };
        (0..=length as i64 / 100).map(move |k| summer_with_poop(&ship(&raw), height, k).unwrap())
    };
    for (length, first) in [(120_000, 960), (119_999, 960), (120_001, 961), (120_124, 961)] {
        let (whole, half): (Vec<_>, Vec<_>) =
            (of(length, 2_300).collect(), of(length, 1_125).collect());
        let drop = |marks: &[i64], k: usize| marks[k - 1] - marks[k];
        assert!((490..=505).contains(&drop(&whole, first)), "{length}");
        assert!((245..=255).contains(&drop(&half, first)), "{length}");
        // Nowhere else.
        let others = (1..whole.len()).filter(|&k| k != first);
        assert!(others.into_iter().all(|k| drop(&whole, k) < 5 && drop(&half, k) < 5), "{length}");
    }
}

/// Against a search that writes each longer ship out as a record and reads it anew.
#[test]
fn agrees_with_a_search_over_records() {
    let mut random = Random::new(33);
    let mut answers = [0; 3];
    // Answers beyond 0.8 L where D is below L/15.
    let mut amidships = 0;
    while answers.iter().sum::<i32>() < 120 {
        let n = random.between(0, 3) as usize;
        let raw = random.any_ship(n);
        if raw.length > 110_000 || raw.houses[..n].first().is_some_and(|house| house.aft <= 0) {
            continue;
        }
        let height = random.between(1, 3_000) as u64;
        let with_poop = |k: i64| {
            let mut houses = raw.houses[..n].to_vec();
            if k > 0 {
                houses.insert(0, house(0, 100 * k, height));
            }
            let ship = read(&packed(&with(raw.clone(), &houses))).ok()?;
            marks(&ship).ok().map(|marks| marks.summer)
        };
        let lengths = 0..=raw.length as i64 / 100;
        let all: Vec<Option<i64>> = lengths.map(with_poop).collect();
        let least = all.iter().flatten().min().copied().unwrap_or(1_000);
        for wish in [least - 1, least, least + random.between(1, 100)] {
            let wish = wish.clamp(50, 60_000);
            let found = all.iter().position(|mark| mark.is_some_and(|mark| mark <= wish));
            let answer = shortest_poop(&packed(&raw), height, wish as u64);
            match found {
                Some(k) => assert_eq!(answer, Ok(k as i64)),
                None => assert_eq!(answer, refused(16, 0)),
            }
            answers[found.map_or(2, |k| (k > 0) as usize)] += 1;
            let reaches = found.is_some_and(|k| 500 * k as u64 >= 4 * raw.length);
            amidships += i32::from(reaches && 15 * raw.depth < raw.length);
        }
    }
    assert!(amidships > 0);
    assert!(answers.iter().all(|&count| count > 0), "{answers:?}");
}
