//! The question: the shortest poop that brings the summer mark down to a wish.

use crate::marks;
use crate::record::{self, House, Ship, MAX_HOUSES};
use crate::refusal::Refusal;

/// The shortest poop in dm, from a record: refusals 1 to 11, 18 and 22 to 24, then 14, 15, 16. Of the
/// timber flag nothing but 24 matters: the wish is for the ordinary summer mark.
pub fn shortest_poop(bytes: &[u8], height: u64, wish: u64) -> Result<i64, Refusal> {
    shortest_poop_of(&record::read(bytes)?, height, wish)
}

/// The same for a ship, which keeps its type with every poop: refusals 14, 15, 16. The range of the
/// wish is that of every type, though no mark with portable covers is below 150.
pub fn shortest_poop_of(ship: &Ship, height: u64, wish: u64) -> Result<i64, Refusal> {
    let asked_well = (1..=8_191).contains(&height) && (50..=60_000).contains(&wish);
    Refusal::unless(asked_well, Refusal::ASKED)?;
    let full = ship.houses.len() == MAX_HOUSES;
    let taken = ship.houses.first().is_some_and(|house| house.aft <= 0);
    Refusal::unless(!full && !taken, Refusal::NO_ROOM)?;
    let fits = |ship: &Ship| summer(ship).is_ok_and(|mark| mark <= wish as i64);
    if fits(ship) {
        return Ok(0);
    }
    // A longer poop can raise the mark, so every length is tried.
    let mut longer = with_poop(ship, height, 1);
    (1..=ship.length / 100)
        .find(|&k| {
            longer.houses[0].fore = 100 * k;
            fits(&longer)
        })
        .ok_or(Refusal::at(Refusal::NOTHING_FITS, 0))
}

/// The summer mark with a poop of k dm before the other houses, or one of refusals 9 to 13, 18 and 23.
pub fn summer_with_poop(ship: &Ship, height: u64, k: i64) -> Result<i64, Refusal> {
    match k {
        0 => summer(ship),
        _ => summer(&with_poop(ship, height, k)),
    }
}

/// The poop has full breadth.
fn with_poop(ship: &Ship, height: u64, k: i64) -> Ship {
    let poop = House { enclosed: true, fore: 100 * k, height, ..House::default() };
    Ship { houses: ship.houses.after(poop), ..ship.clone() }
}

fn summer(ship: &Ship) -> Result<i64, Refusal> {
    record::check_houses(ship.length, &ship.houses)?;
    marks::summer(ship)
}
