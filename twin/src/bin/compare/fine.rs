//! Ships with low houses whose freeboard stands at a whole mm or one um above it: there one um of a
//! step may show in the mark. Other ships hardly ever show a um of E, of the reduction for depth or of
//! the line of B-60.

use twin::marks::{self, standard_height, Steps};
use twin::random::Random;
use twin::record::{House, RawShip, Ship, MAX_HOUSES};

/// Depths and fullnesses tried on one ship; one in 500 will do.
const TRIES: usize = 2_000;

/// The ship with `n` houses, or with a poop besides: then also the height and the mark to ask for.
/// One in three is below L/15 with a house amidships, which may be the poop.
pub fn ship(random: &mut Random, n: usize) -> (RawShip, Option<(u64, u64)>) {
    let kind = random.kind();
    // B-60 and B-100 are never short: no poop is the house amidships.
    let long = matches!(kind, 2 | 3);
    let shallow = random.once_in(3) && (n > 0 || !long);
    // E is worth most to a short ship.
    let longest = if long { 365_000 } else { random.pick(&[30_000, 365_000]) };
    loop {
        let mut raw =
            if shallow { random.low_ship_of(Some(kind), n) } else { random.ship_of(kind, n) };
        if raw.length > longest {
            continue;
        }
        put_low_houses(random, &mut raw);
        let Ok(ship) = raw.check() else { continue };
        let poop = poop(random, &ship, shallow);
        if let Some(fine) = tuned(random, with(&ship, poop), shallow) {
            (raw.depth, raw.cb) = (fine.depth as u64, fine.cb as u64);
            let mark = marks::steps(&fine).summer as u64;
            return (raw, poop.map(|poop| (poop.height, mark)));
        }
    }
}

/// Makes every house lower than standard, and the first one a raised quarterdeck at times. In every
/// other ship some are set in, so that one of several roundings of E may show.
fn put_low_houses(random: &mut Random, raw: &mut RawShip) {
    let length = raw.length as i64;
    let houses = &mut raw.houses[..raw.n as usize];
    if let Some(first) = houses.first_mut() {
        if first.fore < length && random.once_in(3) {
            *first =
                House { enclosed: true, quarterdeck: true, aft: -random.between(0, 99), ..*first };
        }
    }
    for house in houses.iter_mut() {
        house.height = low(random, house.quarterdeck, length);
    }
    if random.once_in(2) {
        random.set_in(houses);
    }
}

/// A height from half the standard one up to just below it.
fn low(random: &mut Random, quarterdeck: bool, length: i64) -> u64 {
    let (standard, parts) = standard_height(quarterdeck, length);
    random.between(standard / parts / 2, standard / parts - 1) as u64
}

/// At times a poop that leads to a short search, if there is room for one. On a shallow ship it may
/// reach 0.8 L; that search is short enough on a short ship.
pub fn poop(random: &mut Random, ship: &Ship, shallow: bool) -> Option<House> {
    let room = ship.houses.first().map_or(ship.length, |first| first.aft) / 100;
    let reach = shortest_amidships(ship.length) + random.between(0, 2);
    let amidships = shallow && ship.length <= 30_000 && reach <= room;
    let fore = match amidships {
        true => 100 * reach,
        false => 100 * random.between(1, 20.min(room.max(1))),
    };
    let height = low(random, false, ship.length);
    let fits = ship.houses.len() < MAX_HOUSES && room > 0 && (amidships || random.once_in(2));
    fits.then_some(House { enclosed: true, fore, height, ..House::default() })
}

/// The shortest poop that reaches 0.8 L, dm.
pub fn shortest_amidships(length: i64) -> i64 {
    (4 * length + 499) / 500
}

/// The ship with the poop, if there is one.
pub fn with(ship: &Ship, poop: Option<House>) -> Ship {
    let houses = poop.map_or(ship.houses, |poop| ship.houses.after(poop));
    Ship { houses, ..ship.clone() }
}

/// The ship with a depth and a fullness for which the freeboard is as wanted.
fn tuned(random: &mut Random, mut ship: Ship, shallow: bool) -> Option<Ship> {
    let fifteenth = ship.length / 15;
    let (least, most) = match shallow {
        true => (fifteenth * 2 / 3, (ship.length - 1) / 15),
        false => (fifteenth, 2 * fifteenth),
    };
    // A ship that does not show it at the least depth is not worth the tries.
    ship.depth = least.max(1_000);
    if shallow && !reduction_shows(&marks::steps(&ship)) {
        return None;
    }
    let fine = (0..TRIES).any(|_| {
        ship.depth = random.between(least, most).clamp(1_000, 60_000);
        ship.cb = random.between(6_800, 10_000);
        let steps = marks::steps(&ship);
        at_whole_mm(steps.corrected.max(steps.bow))
            && (!shallow || reduction_shows(&steps))
            && marks::marks(&ship).is_ok()
    });
    fine.then_some(ship)
}

/// At a whole mm or one um above it, where no type's floor decides.
pub fn at_whole_mm(freeboard: i64) -> bool {
    freeboard > 150_000 && freeboard % 1000 <= 1
}

/// The reduction for depth is there, and the bow height does not hide it.
fn reduction_shows(steps: &Steps) -> bool {
    steps.depth_reduction > 0 && steps.corrected > steps.bow
}

#[cfg(test)]
mod tests {
    use super::*;
    use twin::record::Kind;

    /// Ships with houses that are set in, with more than one rounding of E, where it is worth most too.
    #[test]
    fn set_in_houses_show() {
        let mut random = Random::new(35);
        let mut seen = [0; 4];
        for i in 0..4_000 {
            let ship = ship(&mut random, i % 9).0.check().expect("a valid ship");
            let enclosed: Vec<House> = ship.houses.iter().filter(|h| h.enclosed).copied().collect();
            let steps = marks::steps(&ship);
            let shown = steps.corrected > steps.bow && !enclosed.is_empty();
            let full = enclosed.iter().filter(|house| house.has_full_breadth()).count();
            let set_in = enclosed.len() - full;
            let cut = enclosed.iter().any(|house| house.breadth < house.beam);
            for (count, holds) in seen.iter_mut().zip([
                set_in > 0 && full > 0,
                set_in > 1,
                set_in > 0 && !cut,
                set_in > 0 && ship.length <= 30_000,
            ]) {
                *count += u32::from(holds && shown);
            }
        }
        assert!(seen.iter().all(|&n| n >= 100), "{seen:?}");
    }

    /// Ships of every type, and B-60 where the rounding of its line shows: with a line that is not whole um,
    /// one um above a whole mm.
    #[test]
    fn lines_show() {
        let mut random = Random::new(60);
        let mut seen = [0; 5];
        let mut shows = 0;
        for i in 0..4_000 {
            let (raw, question) = ship(&mut random, i % 9);
            let ship = raw.check().expect("a valid ship");
            seen[ship.kind as usize] += 1;
            let steps = marks::steps(&ship);
            let [a, b] = [Kind::A, Kind::B].map(|kind| marks::tabular(kind, ship.length));
            let fraction = (2 * b + 3 * a) % 5 > 0;
            let at_one = steps.corrected > steps.bow && steps.corrected % 1000 == 1;
            let reduced = ship.kind == Kind::B60 && question.is_none();
            shows += u32::from(reduced && fraction && at_one);
        }
        assert!(seen.iter().all(|&n| n >= 100), "{seen:?}");
        assert!(shows >= 100, "{shows}");
    }
}
