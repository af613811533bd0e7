//! What is drawn of ships below L/15, of the five types, of houses that are set in, and of the timber flag.

mod common;

use common::ship;
use twin::marks::{floor, marks, standard_height, steps};
use twin::random::Random;
use twin::record::{any_set_in, check_houses, House, Kind, Ship};

/// The house that covers 0.2 L to 0.8 L, with `mm` more or less at each end.
fn amidships(ship: &Ship, mm: i64) -> Option<&House> {
    let l = ship.length;
    ship.houses.iter().find(|h| 5 * (h.aft - mm) <= l && 5 * (h.fore + mm) >= 4 * l)
}

fn is_low(house: &House, length: i64) -> bool {
    let (standard, parts) = standard_height(house.quarterdeck, length);
    (house.height as i64) * parts < standard
}

/// Every sort of ship that the reduction tells from others.
#[test]
fn low_ships() {
    let mut random = Random::new(31);
    let mut seen = [0; 10];
    for i in 0..20_000 {
        let ship = ship(&random.low_ship(i % 9));
        let l = ship.length;
        let steps = steps(&ship);
        let earns = steps.depth_reduction > 0;
        let house = amidships(&ship, 0).copied().unwrap_or_default();
        let touching = ship.houses.windows(2).any(|pair| {
            let whole = House { fore: pair[1].fore, ..pair[0] };
            let covers = 5 * whole.aft <= l && 5 * whole.fore >= 4 * l;
            covers && pair[0].fore == pair[1].aft && pair.iter().all(|house| house.enclosed)
        });
        for (count, holds) in seen.iter_mut().zip([
            earns && steps.corrected > steps.bow && steps.corrected > 50_000,
            earns && steps.corrected < 0,
            earns && !house.quarterdeck && is_low(&house, l),
            earns && house.quarterdeck && is_low(&house, l),
            earns && house.quarterdeck && !is_low(&house, l),
            earns && (5 * house.aft == l || 5 * house.fore == 4 * l),
            !earns && amidships(&ship, 0).is_none() && amidships(&ship, 1).is_some(),
            !earns && touching,
            !earns && 15 * ship.depth < l && house.height > 0 && !house.enclosed,
            15 * ship.depth == l && house.enclosed,
        ]) {
            *count += i32::from(holds);
        }
    }
    assert!(seen.iter().all(|&count| count >= 20), "{seen:?}");
}

/// Among ships of all sorts they are many, and the others stay.
#[test]
fn share_of_low_ships() {
    let mut random = Random::new(15);
    let ships: Vec<_> = (0..9_000).map(|i| ship(&random.any_ship(i % 9))).collect();
    let reduced = ships.iter().filter(|ship| steps(ship).depth_reduction > 0).count();
    let deep = ships.iter().filter(|ship| steps(ship).depth > 0).count();
    assert!((1_000..3_000).contains(&reduced), "{reduced}");
    assert!(deep > 3_000, "{deep}");
}

/// Breadths that pass and that do not, each at its border too.
#[test]
fn breadths() {
    let mut random = Random::new(92);
    let check = |(breadth, beam)| {
        let house = House { aft: 1, fore: 2, height: 1, breadth, beam, ..House::default() };
        check_houses(24_000, &[house]).map_err(|refusal| refusal.number)
    };
    let mut seen = [0; 7];
    for _ in 0..20_000 {
        let (good, bad) = (random.breadths(), random.bad_breadths());
        assert_eq!((check(good), check(bad)), (Ok(()), Err(23)), "{good:?} {bad:?}");
        assert!(good.1 > 0 && bad.0.max(bad.1) <= 65_535);
        for (count, holds) in seen.iter_mut().zip([
            23 * good.1 == 25 * good.0,
            good.0 == good.1,
            good.1 == 65_535,
            bad.0 == 0,
            bad.1 == 0,
            bad.0 == bad.1 + 1,
            bad.0 < bad.1 && check((bad.0 + 1, bad.1)).is_ok(),
        ]) {
            *count += i32::from(holds);
        }
    }
    assert!(seen.iter().all(|&count| count >= 50), "{seen:?}");
}

/// Among ships of all sorts some have houses that are set in: all, several beside others, or one alone.
#[test]
fn share_of_set_in_houses() {
    let mut random = Random::new(35);
    let ships: Vec<_> = (0..9_000).map(|i| ship(&random.any_ship(i % 9))).collect();
    let set_in = ships.iter().filter(|ship| any_set_in(&ship.houses)).count();
    assert!((1_500..3_500).contains(&set_in), "{set_in}");
    let counts = |ship: &Ship| {
        let all = ship.houses.len();
        (all, ship.houses.iter().filter(|house| !house.has_full_breadth()).count())
    };
    for sort in [
        |all, some| all == some && all > 2,
        |all, some| some > 1 && all > some,
        |_, some| some == 1,
    ] as [fn(usize, usize) -> bool; 3]
    {
        let seen = ships.iter().map(counts).filter(|&(all, some)| sort(all, some)).count();
        assert!(seen >= 200, "{seen}");
    }
}

/// The flag is on about a third of the type B ships, on all that are about timber, and never on
/// one of type A.
#[test]
fn share_of_timber() {
    let mut random = Random::new(45);
    let mut seen = [[0_i32; 2]; 5];
    for i in 0..9_000 {
        let mut raw = random.any_ship(i % 9);
        random.flag_at_times(&mut raw);
        let ship = ship(&raw);
        seen[ship.kind as usize][usize::from(ship.timber)] += 1;
    }
    assert_eq!(seen[0][1], 0);
    assert!(seen[1..].iter().all(|[no, yes]| (2 * yes - no).abs() < no / 4), "{seen:?}");
    let ships = (0..9_000).map(|i| ship(&random.any_ship_or_timber(i % 9)));
    let timber = ships.filter(|ship| ship.timber).count();
    assert!((3_500..4_500).contains(&timber), "{timber}");
    assert!((0..900).all(|i| ship(&random.timber_ship(i % 9)).timber));
}

/// Every type at the borders of its line, on both sides of Cb 0.68, and about both floors.
#[test]
fn types_at_their_borders() {
    let mut random = Random::new(27);
    let mut seen = [[0; 6]; 5];
    let mut covers = [0; 6];
    let mut reduced = [0; 2];
    let mut floors = [[0; 4]; 5];
    for i in 0..60_000 {
        let ship = ship(&random.any_ship(i % 9));
        let (l, kind) = (ship.length, ship.kind as usize);
        let count = |counts: &mut [i32], holds: &[bool]| {
            for (count, &holds) in counts.iter_mut().zip(holds) {
                *count += i32::from(holds);
            }
        };
        let sorts = [
            l % 1000 == 0,
            (108_001..109_000).contains(&l),
            l % 1000 != 0,
            ship.cb <= 6_800,
            ship.cb > 6_800,
            ship.cb > 10_000,
        ];
        count(&mut seen[kind], &sorts);
        match ship.kind {
            Kind::Covers => count(
                &mut covers,
                &[100_000, 107_999, 108_000, 109_000, 199_999, 200_000].map(|at| l == at),
            ),
            Kind::B60 | Kind::B100 => {
                count(&mut reduced, &[l == 100_001, l > 200_000]);
            }
            _ => {}
        }
        let Ok(marks) = marks(&ship) else { continue };
        let least = floor(ship.kind);
        let near = |mark: i64| mark > least && mark <= least + 2;
        let at = [marks.summer == least, near(marks.summer), marks.tropical == least];
        count(&mut floors[kind], &[at[0], at[1], at[2] && !at[0], near(marks.tropical)]);
    }
    assert!(seen.as_flattened().iter().all(|&n| n >= 50), "{seen:?}");
    assert!(covers.iter().chain(&reduced).all(|&n| n >= 50), "{covers:?} {reduced:?}");
    assert!(floors.as_flattened().iter().all(|&n| n >= 20), "{floors:?}");
}
