//! Records as bytes, whole or damaged.

use twin::bits;
use twin::record::{self, RawShip, Version};

/// First bit of the fields that are changed in place, in version 1.
pub const VERSION: usize = 0;
pub const KIND: usize = 4;
pub const COUNT: usize = 6;
pub const SPARE: usize = 10;
/// Spare bits of a house, from the start of its eight bytes.
pub const HOUSE_SPARE: usize = 57;

/// In the lowest version that holds the ship.
pub fn packed(raw: &RawShip) -> Vec<u8> {
    packed_as(Version::lowest(raw), raw)
}

pub fn packed_as(version: Version, raw: &RawShip) -> Vec<u8> {
    let mut bytes = vec![0; version.record_bytes(raw.n as usize)];
    record::pack_as(version, &mut bytes, raw);
    bytes
}

/// The bytes with a field put over.
pub fn over(mut bytes: Vec<u8>, at: usize, width: usize, number: u64) -> Vec<u8> {
    bits::put_over(&mut bytes, at, width, number);
    bytes
}

/// The bytes cut or filled up with zeros.
pub fn resized(mut bytes: Vec<u8>, length: usize) -> Vec<u8> {
    bytes.resize(length, 0);
    bytes
}
