//! Records and ships about refusals 2, 3, 5, 6 and 22: types, versions, and lengths where one of them ends.
//! Some have the timber flag.

use twin::bits;
use twin::random::Random;
use twin::record::RawShip;

use crate::border;

/// A ship about refusal 22 with `n` houses. All else is sound, but for 7, 8 or a house at times.
pub fn ship(random: &mut Random, n: usize) -> RawShip {
    let kind = random.between(0, 4) as u64;
    let length = match random.between(1, 4) {
        1 | 2 => random.pick(&[100_000, 200_000]) + random.between(-1, 1),
        3 => random.between(24_000, 365_000),
        _ => random.length_of(kind),
    };
    let mut raw = RawShip { kind, ..random.ship_of_length(length.max(24_000), n) };
    random.set_in_at_times(&mut raw.houses[..n]);
    random.flag_at_times(&mut raw);
    match random.between(1, 12) {
        // Refusal 7 by another field, or by the length itself.
        1 => raw.cwf = random.pick(&[0, 10_001]),
        2 => raw.length = random.pick(&[23_999, 365_001]),
        3 => raw.immersion = 0,
        4 => raw.displacement = 0,
        5 => border::put(random, &mut raw),
        _ => {}
    }
    raw
}

/// Puts another version, type, number of houses or spare bit over a record's head, every other time.
pub fn damage(random: &mut Random, record: &mut [u8]) {
    for _ in 0..random.pick(&[0, 0, 1, 2]) {
        match random.between(1, 6) {
            1 => bits::put_over(record, 0, 4, random.between(0, 15) as u64),
            2 | 3 => bits::put_over(record, 4, 3, random.pick(&[0, 1, 2, 3, 4, 5, 5, 6, 6, 7, 7])),
            4 => bits::put_over(record, 7, 4, random.between(0, 15) as u64),
            5 => record[1] ^= 1 << random.between(0, 5),
            // A spare bit of the first house, or of the second with 8 or with 12 bytes a house; without
            // it, a byte behind the record.
            _ => record[random.pick(&[34, 42, 46])] ^= 1 << random.between(0, 6),
        }
    }
}

#[cfg(test)]
mod tests {
    use super::*;
    use crate::input::Input;
    use crate::judge;
    use twin::record::{self, Version};

    fn count<const N: usize>(seen: &mut [u32; N], holds: [bool; N]) {
        for (count, holds) in seen.iter_mut().zip(holds) {
            *count += u32::from(holds);
        }
    }

    /// Each type on both sides of its border, and 22 beside 7, 8 and a bad house.
    #[test]
    fn ships() {
        let mut random = Random::new(22);
        let mut seen = [0; 12];
        for i in 0..20_000 {
            let raw = ship(&mut random, i % 9);
            let (kind, length) = (raw.kind, raw.length);
            let number = raw.check().map_or_else(|refusal| refusal.number, |_| 0);
            let alone = RawShip { kind: 1, ..raw.clone() }.check();
            let other = alone.map_or_else(|refusal| refusal.number, |_| 0);
            let takes = matches!((kind, length), (2 | 3, ..=100_000) | (4, 200_001..));
            let holds = [
                kind == 2 && length == 100_000 && number == 22,
                kind == 3 && length == 100_000 && number == 22,
                kind == 4 && length == 200_001 && number == 22,
                kind == 2 && length == 100_001 && number == 0,
                kind == 3 && length == 100_001 && number == 0,
                kind == 4 && length == 200_000 && number == 0,
                kind == 4 && length == 100_000 && number == 0,
                kind < 2 && matches!(length, 100_000 | 200_001) && number == 0,
                takes && number == 7,
                takes && number == 22 && other == 8,
                takes && number == 22 && other >= 9,
                number == 8,
            ];
            count(&mut seen, holds);
        }
        assert!(seen.iter().all(|&n| n >= 30), "{seen:?}");
    }

    /// Inputs with a record that has a head.
    fn inputs(seed: u64) -> impl Iterator<Item = Input> {
        let mut random = Random::new(seed);
        (0..60_000)
            .map(move |_| Input::draw(&mut random))
            .filter(|input| input.record().len() >= record::HEADER_BYTES)
    }

    /// Every version, every type in each of the four, and every spare bit.
    #[test]
    fn heads() {
        let mut versions = [0; 16];
        let mut types = [[0; 8]; 4];
        let mut spare = [[0; 6]; 4];
        for input in inputs(2) {
            let bytes = input.record();
            let version = bytes[0] >> 4;
            versions[usize::from(version)] += 1;
            let number = record::read(bytes).map_or_else(|refusal| refusal.number, |_| 0);
            let head = u16::from_be_bytes([bytes[0], bytes[1]]);
            if let Some(version) = Version::of(version.into()) {
                let place = version as usize - 1;
                let (bits, _) = version.widths();
                types[place][usize::from(head << 4 >> (16 - bits))] += 1;
                for (bit, seen) in spare[place].iter_mut().enumerate() {
                    *seen += u32::from(number == 6 && head >> bit & 1 == 1);
                }
            }
        }
        assert!(versions.iter().all(|&n| n >= 80), "{versions:?}");
        let kinds = types[0][..4].iter().chain(types[1..].as_flattened());
        assert!(kinds.into_iter().all(|&n| n >= 60), "{types:?}");
        let later = spare[1][..5].iter().chain(&spare[2][..5]).chain(&spare[3][..4]);
        let bits = spare[0].iter().chain(later);
        assert!(bits.into_iter().all(|&n| n >= 20), "{spare:?}");
    }

    /// What each version comes to.
    #[test]
    fn versions() {
        let mut seen = [0; 11];
        for input in inputs(3) {
            let version = input.record[0] >> 4;
            let read = record::read(input.record());
            let number = read.as_ref().map_or_else(|refusal| refusal.number, |_| 0);
            let lowest = read.as_ref().is_ok_and(|ship| judge::in_lowest_version(&input, ship));
            let holds = [
                number == 0 && version == 1,
                number == 0 && version == 2 && lowest,
                number == 0 && version == 2 && !lowest,
                number == 0 && version == 3 && lowest,
                number == 0 && version == 3 && !lowest,
                number == 3 && version == 1,
                number == 3 && version == 2,
                number == 3 && version == 3,
                number == 0 && version == 4 && lowest,
                number == 0 && version == 4 && !lowest,
                number == 3 && version == 4,
            ];
            count(&mut seen, holds);
        }
        assert!(seen.iter().all(|&n| n >= 200), "{seen:?}");
    }

    /// Ships from C have types far beyond those of a record.
    #[test]
    fn types_beyond() {
        let mut random = Random::new(3);
        let kinds: Vec<u64> = (0..60_000)
            .map(|_| Input::draw(&mut random).ship[0])
            .filter(|&kind| kind > 4)
            .collect();
        for kind in [5, 6, 7, 8, 256, 1 << 32, (1 << 32) + 1, u64::MAX] {
            assert!(kinds.contains(&kind), "{kind}");
        }
        assert!(kinds.iter().filter(|&&kind| kind > 1 << 60).count() >= 100);
    }
}
