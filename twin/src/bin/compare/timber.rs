//! Ships and records about timber freeboards: refusal 24, the flag, and records whose bytes are those of
//! another version.

use twin::bits;
use twin::random::Random;
use twin::record::{RawShip, Version, HEADER_BYTES};

use crate::border;

/// A ship with the flag and `n` houses, one in four of type A. At times something else is wrong as well.
pub fn ship(random: &mut Random, n: usize) -> RawShip {
    let mut raw = random.timber_ship(n);
    if random.once_in(4) {
        raw.kind = 0;
    }
    match random.between(1, 12) {
        1 => raw.kind = random.pick(&[5, 6, 7]),
        2 => raw.n = random.pick(&[9, 15]),
        3 => raw.cwf = random.pick(&[0, 10_001]),
        4 => raw.immersion ^= 1,
        5 => border::put(random, &mut raw),
        _ => {}
    }
    raw
}

/// Every other time puts another version, flag or spare bit over a record's head, or gives it another
/// length.
pub fn damage(random: &mut Random, record: &mut [u8], length: &mut usize) {
    let version = Version::of(u64::from(record[0] >> 4)).unwrap_or(Version::Four);
    let n = (*length - HEADER_BYTES) / version.house_bytes();
    match random.between(1, 16) {
        // The head is as in versions 2 and 3 but for the flag.
        1 => bits::put_over(record, 0, 4, random.pick(&[0, 1, 2, 3, 5, 8, 12])),
        2 => bits::put_over(record, 0, 4, random.pick(&[2, 3])),
        3 => bits::put_over(record, 11, 1, 0),
        4 => record[1] ^= 1 << random.between(0, 3),
        5 => {
            bits::put_over(record, 4, 3, 0);
            record[1] ^= 1 << random.between(0, 4);
        }
        6 => *length = Version::Two.record_bytes(n),
        7 => {
            *length = (*length as i64 + random.pick(&[-12, -8, -4, -1, 1, 4, 12])).max(26) as usize
        }
        8 if n > 0 => {
            let place = random.between(0, n as i64 - 1) as usize;
            record[version.record_bytes(place) + 7] ^= 1 << random.between(0, 6);
        }
        _ => {}
    }
}

#[cfg(test)]
mod tests {
    use super::*;
    use crate::flat;
    use crate::input::Input;
    use twin::marks::{self, Timber};
    use twin::record;

    fn count<const N: usize>(seen: &mut [u32; N], holds: [bool; N]) {
        for (count, holds) in seen.iter_mut().zip(holds) {
            *count += u32::from(holds);
        }
    }

    fn number(raw: &RawShip) -> u8 {
        raw.check().map_or_else(|refusal| refusal.number, |_| 0)
    }

    /// 24 alone, beside 3, 4, 7, 8 and a bad house; and the flag with what each of them takes without 24.
    #[test]
    fn ships() {
        let mut random = Random::new(24);
        let mut seen = [0; 8];
        for i in 0..20_000 {
            let raw = ship(&mut random, i % 9);
            let other = number(&RawShip { timber: false, ..raw.clone() });
            let (said, a) = (number(&raw), raw.kind == 0);
            let holds = [
                said == 24 && other == 0,
                said == 24 && other == 4,
                said == 24 && other == 7,
                said == 24 && other == 8,
                said == 24 && other >= 9,
                said == 3,
                said == 4 && !a,
                said == 0,
            ];
            count(&mut seen, holds);
        }
        assert!(seen.iter().all(|&n| n >= 20), "{seen:?}");
    }

    /// What records and stated ships with the flag come to.
    #[test]
    fn inputs() {
        let mut random = Random::new(45);
        let mut seen = [0; 12];
        for _ in 0..40_000 {
            let input = Input::draw(&mut random);
            let bytes = input.record();
            if bytes.len() < HEADER_BYTES {
                continue;
            }
            let head = u16::from_be_bytes([bytes[0], bytes[1]]);
            let (version, flag) = (head >> 12, head >> 4 & 1 == 1);
            let (kind, n) = (head >> 9 & 7, usize::from(head >> 5 & 15));
            let said = record::read(bytes).map_or_else(|refusal| refusal.number, |_| 0);
            let stated = flat::ship(&input.ship);
            let holds = [
                version == 4 && flag && said == 0,
                version == 4 && !flag && said == 0,
                version == 4 && said == 24,
                version == 4 && said == 24 && n > 8,
                version == 4 && said == 24 && head & 15 != 0,
                version == 4 && kind > 4 && flag && said == 3,
                version == 4 && bytes.len() == 27 + 8 * n && n > 0 && said == 5,
                version == 4 && flag && head & 15 != 0 && said == 6,
                matches!(version, 2 | 3) && flag && said == 6,
                version == 5 && flag && said == 2,
                stated.timber && number(&stated) == 24,
                stated.timber && number(&stated) == 0,
            ];
            count(&mut seen, holds);
        }
        assert!(seen.iter().all(|&n| n >= 20), "{seen:?}");
    }

    /// Where the timber marks lie, for each type that may have them.
    #[test]
    fn borders() {
        let mut random = Random::new(9);
        let mut seen = [[0; 6]; 5];
        for i in 0..30_000 {
            let raw = random.timber_ship(i % 9);
            let ship = raw.check().expect("a valid ship");
            let Ok(given) = marks::marks(&ship) else { continue };
            let timber = given.timber.expect("the flag is set");
            let steps = marks::timber_steps(&ship, &marks::steps(&ship));
            let none = timber == Timber::default();
            let reduced = matches!(raw.kind, 2 | 3);
            let whole = steps.corrected.rem_euclid(1000) <= 1;
            let near_depth = (ship.depth - steps.summer).abs() <= 1;
            let holds = [
                timber.summer < -2,
                timber.summer.abs() <= 2 && !none,
                whole && !none,
                none || !reduced,
                near_depth || !reduced,
                (timber.winter - given.winter).abs() <= 1 || !reduced,
            ];
            count(&mut seen[raw.kind as usize], holds);
        }
        assert!(seen[1..].as_flattened().iter().all(|&n| n >= 50), "{seen:?}");
    }
}
