//! A ship as a row of numbers in the order of include/loadline.h, signed ones in two's complement.

use twin::record::{House, RawShip, MAX_HOUSES};

/// Numbers before the houses.
pub const HEADER: usize = 16;
/// Numbers of a house.
const HOUSE: usize = 7;
pub const SHIP: usize = HEADER + HOUSE * MAX_HOUSES;

/// The ship's numbers; a flag that is set is stated as `yes`.
pub fn numbers(raw: &RawShip, yes: u64) -> [u64; SHIP] {
    let flag = |set: bool| if set { yes } else { 0 };
    let head = [raw.kind, raw.n, flag(raw.timber)];
    let fields = [raw.length, raw.depth, raw.moulded, raw.cb, raw.cwf];
    let sheer = raw.sheer.map(|ordinate| ordinate as u64);
    let certified = [raw.displacement, raw.immersion];
    let houses = raw.houses.iter().flat_map(|h| {
        let (aft, fore) = (h.aft as u64, h.fore as u64);
        [flag(h.enclosed), flag(h.quarterdeck), aft, fore, h.height, h.breadth, h.beam]
    });
    let mut all = head.into_iter().chain(fields).chain(sheer).chain(certified).chain(houses);
    std::array::from_fn(|_| all.next().unwrap_or_default())
}

/// The ship that the numbers state; a flag is set unless it is 0.
pub fn ship(numbers: &[u64; SHIP]) -> RawShip {
    let mut rest = numbers.iter().copied();
    let mut next = || rest.next().unwrap_or_default();
    RawShip {
        kind: next(),
        n: next(),
        timber: next() != 0,
        length: next(),
        depth: next(),
        moulded: next(),
        cb: next(),
        cwf: next(),
        sheer: std::array::from_fn(|_| next() as i64),
        displacement: next(),
        immersion: next(),
        houses: std::array::from_fn(|_| House {
            enclosed: next() != 0,
            quarterdeck: next() != 0,
            aft: next() as i64,
            fore: next() as i64,
            height: next(),
            breadth: next(),
            beam: next(),
        }),
    }
}

#[cfg(test)]
mod tests {
    use super::*;

    #[test]
    fn every_number_has_its_place() {
        let mut all: [u64; SHIP] = std::array::from_fn(|place| 100 + place as u64);
        all[2] = 7;
        for house in all[HEADER..].chunks_exact_mut(HOUSE) {
            house[..2].fill(7);
        }
        assert_eq!(numbers(&ship(&all), 7), all);
    }
}
