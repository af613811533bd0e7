//! Ships with a number at a border of its range, just beyond it, or anywhere.

use twin::random::Random;
use twin::record::{RawShip, MAX_HOUSES};

use crate::flat::{HEADER, SHIP};

/// Numbers of types, and others whose low bits are those of one.
const KINDS: [u64; 15] = [0, 1, 2, 3, 4, 5, 6, 7, 8, 9, 12, 256, 1 << 32, (1 << 32) + 1, u64::MAX];

/// Puts one of the ship's numbers at a border or one beyond.
pub fn put(random: &mut Random, raw: &mut RawShip) {
    match random.between(1, 17) {
        1 if random.once_in(2) => {
            raw.length = random.pick(&[100_000, 100_001, 200_000, 200_001]);
        }
        1 => raw.length = random.pick(&[23_999, 24_000, 365_000, 365_001]),
        2 => raw.depth = random.pick(&[999, 1_000, 60_000, 60_001]),
        3 => raw.moulded = random.pick(&[999, 1_000, 60_000, 60_001]),
        4 => raw.cb = random.pick(&[0, 1, 12_000, 12_001]),
        5 => raw.cwf = random.pick(&[0, 1, 10_000, 10_001]),
        6 => {
            let place = random.between(0, 5) as usize;
            raw.sheer[place] = random.pick(&[-8_193, -8_192, 8_191, 8_192]);
        }
        7 => raw.displacement = random.pick(&[0, 1, (1 << 20) - 1, 1 << 20]),
        8 => raw.immersion = random.pick(&[0, 1, (1 << 16) - 1, 1 << 16]),
        9 => raw.kind = random.pick(&KINDS),
        10 => raw.n = random.pick(&[0, 7, 8, 9, 15]),
        11 => raw.timber ^= true,
        _ => put_house(random, raw),
    }
}

/// Puts a number of one of the ship's houses at a border or one beyond.
fn put_house(random: &mut Random, raw: &mut RawShip) {
    let n = raw.n.min(MAX_HOUSES as u64) as i64;
    if n == 0 {
        return;
    }
    let place = random.between(0, n - 1) as usize;
    let length = raw.length as i64;
    let previous = raw.houses[place.saturating_sub(1)];
    let house = &mut raw.houses[place];
    match random.between(1, 8) {
        1 => house.aft = random.pick(&[-20_000, 0, length]) + random.between(-1, 1),
        2 => house.fore = random.pick(&[0, length, length + 20_000]) + random.between(-1, 1),
        3 => house.height = random.pick(&[0, 1, 8_191, 8_192]),
        4 => house.aft = previous.fore + random.between(-1, 1),
        5 => house.fore = house.aft + random.between(-1, 1),
        6 => (house.breadth, house.beam) = random.bad_breadths(),
        7 => (house.breadth, house.beam) = random.breadths(),
        _ => {
            house.quarterdeck = true;
            house.enclosed = random.once_in(2);
        }
    }
}

/// Puts any number in some place, or leaves the low bits as they are and sets a high one.
pub fn put_any(random: &mut Random, numbers: &mut [u64; SHIP]) {
    const EXTREMES: [u64; 9] =
        [0, 2, 9, 1 << 32, (1 << 63) - 1, 1 << 63, (1 << 63) + 1, u64::MAX - 1, u64::MAX];
    let end = random.pick(&[HEADER, SHIP]) as i64;
    let place = random.between(0, end - 1) as usize;
    numbers[place] = match random.between(1, 3) {
        1 => random.pick(&EXTREMES),
        2 => numbers[place] ^ 1 << random.between(13, 63),
        _ => random.number(),
    };
}
