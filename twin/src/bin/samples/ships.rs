//! Ships that the cases start from.

use twin::record::{House, RawShip};

pub fn house(aft: i64, fore: i64, height: u64) -> House {
    House { enclosed: true, aft, fore, height, ..House::default() }
}

pub fn with(mut raw: RawShip, houses: &[House]) -> RawShip {
    raw.n = houses.len() as u64;
    raw.houses[..houses.len()].copy_from_slice(houses);
    raw
}

/// k1: type B, 90 m, standard sheer, no house.
pub fn k1() -> RawShip {
    RawShip {
        kind: 1,
        length: 90_000,
        depth: 6_000,
        moulded: 6_000,
        cb: 6_800,
        cwf: 8_000,
        sheer: [1000, 444, 112, 224, 888, 2000],
        ..RawShip::default()
    }
}

/// k2: k1 with a forecastle.
pub fn k2() -> RawShip {
    with(k1(), &[house(80_000, 90_000, 2_000)])
}

/// Type B, 120 m, with a forecastle: the ship that the figures of all five types are stated for.
pub fn bulk() -> RawShip {
    let raw = RawShip {
        kind: 1,
        length: 120_000,
        depth: 8_000,
        moulded: 8_000,
        cb: 6_800,
        cwf: 8_000,
        sheer: [1250, 555, 140, 280, 1110, 2500],
        ..RawShip::default()
    };
    with(raw, &[house(110_000, 120_000, 2_300)])
}

/// k1 with a raised quarterdeck, an open bridge and a forecastle, and certified.
pub fn three_houses() -> RawShip {
    let houses = [
        House { quarterdeck: true, ..house(-1_500, 25_000, 1_300) },
        House { enclosed: false, ..house(36_000, 54_000, 2_400) },
        house(82_500, 91_250, 2_100),
    ];
    with(RawShip { displacement: 5_321, immersion: 1_177, ..k1() }, &houses)
}

/// The longest ship, eight houses from the least to the greatest station, all numbers at an end.
pub fn extremes() -> RawShip {
    let houses = [
        House { quarterdeck: true, ..house(-20_000, 1, 8_191) },
        House { enclosed: false, ..house(1, 2, 1) },
        house(2, 182_500, 8_191),
        house(182_500, 262_143, 1),
        House { enclosed: false, ..house(262_143, 262_144, 4_096) },
        house(262_144, 364_998, 4_095),
        house(364_998, 364_999, 1),
        house(364_999, 385_000, 8_191),
    ];
    let ship = RawShip {
        kind: 0,
        length: 365_000,
        depth: 60_000,
        moulded: 60_000,
        cb: 12_000,
        cwf: 10_000,
        sheer: [-8_192, 8_191, -1, 0, 8_191, -8_192],
        displacement: (1 << 20) - 1,
        immersion: (1 << 16) - 1,
        ..RawShip::default()
    };
    with(ship, &houses)
}

pub const KINDS: [(u64, char); 2] = [(0, 'a'), (1, 'b')];
/// All five, by their number.
pub const TYPES: [&str; 5] = ["a", "b", "b60", "b100", "covers"];

/// Not enclosed.
pub fn open(house: House) -> House {
    House { enclosed: false, ..house }
}

/// With its own breadth and the ship's.
pub fn set_in(house: House, breadth: u64, beam: u64) -> House {
    House { breadth, beam, ..house }
}

pub fn quarterdeck(aft: i64, fore: i64, height: u64) -> House {
    House { quarterdeck: true, ..house(aft, fore, height) }
}

/// Regulation 38: standard ordinates to the nearest mm, times a percentage.
pub fn sheer(length: u64, per_cent: i64) -> [i64; 6] {
    let third = length as i64 + 30_000; // 3000 (L/3 + 10)
    [250, 111, 28, 56, 222, 500].map(|tenths| (tenths * third * per_cent / 100 + 15_000) / 30_000)
}

/// No house, standard sheer, full and deep enough for regulations 30 and 31.
pub fn plain(kind: u64, length: u64) -> RawShip {
    let depth = length / 15 + 1_000;
    RawShip {
        kind,
        length,
        depth,
        moulded: depth,
        cb: 7_500,
        cwf: 9_500,
        sheer: sheer(length, 100),
        ..RawShip::default()
    }
}

/// A forecastle of 0.1 L, so high that the bow height does not decide.
pub fn forecastle(length: u64) -> House {
    let length = length as i64;
    house(length * 9 / 10, length, 3_500)
}

/// `plain` with these houses and then a forecastle.
pub fn decked(kind: u64, length: u64, houses: &[House]) -> RawShip {
    with(plain(kind, length), &[houses, &[forecastle(length)]].concat())
}
