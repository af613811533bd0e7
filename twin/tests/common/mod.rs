//! Ships that the figures are stated for.
#![allow(dead_code)]

use twin::record::{self, House, RawShip, Ship, Version};

pub fn house(aft: i64, fore: i64, height: u64) -> House {
    House { enclosed: true, aft, fore, height, ..House::default() }
}

/// The house with its own breadth and the ship's.
pub fn set_in(house: House, breadth: u64, beam: u64) -> House {
    House { breadth, beam, ..house }
}

/// k1: no house, standard sheer for 90 m.
pub fn k1() -> RawShip {
    RawShip {
        kind: 1,
        length: 90_000,
        depth: 6_000,
        moulded: 6_000,
        cb: 6_800,
        cwf: 8_000,
        sheer: [1000, 444, 112, 224, 888, 2000],
        ..RawShip::default()
    }
}

/// The ship with these houses.
pub fn with(mut raw: RawShip, houses: &[House]) -> RawShip {
    raw.n = houses.len() as u64;
    raw.houses[..houses.len()].copy_from_slice(houses);
    raw
}

/// k2: k1 with a forecastle.
pub fn k2() -> RawShip {
    with(k1(), &[house(80_000, 90_000, 2_000)])
}

pub fn ship(raw: &RawShip) -> Ship {
    raw.check().expect("a valid ship")
}

/// Type B, 120 m, with a forecastle: the ship that the figures of all five types are stated for.
pub fn bulk() -> RawShip {
    let hex = "14401d4c01f401f406a41f40138822b023011811589c4000000000835b601d4c047e00";
    let digits = (0..hex.len()).step_by(2).map(|i| u8::from_str_radix(&hex[i..i + 2], 16));
    let record: Vec<u8> = digits.collect::<Result<_, _>>().expect("a record in hex");
    record::read(&record).expect("a sound record").raw()
}

/// The record as bytes, checked or not, in the lowest version that holds the ship.
pub fn packed(raw: &RawShip) -> Vec<u8> {
    packed_as(Version::lowest(raw), raw)
}

pub fn packed_as(version: Version, raw: &RawShip) -> Vec<u8> {
    let mut bytes = vec![0; version.record_bytes(raw.n.min(8) as usize)];
    record::pack_as(version, &mut bytes, raw);
    bytes
}
