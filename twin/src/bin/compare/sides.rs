//! Ships and records about set-in sides: refusal 23, breadths beyond 16 bits, and records whose bytes
//! are those of another version.

use twin::bits;
use twin::random::Random;
use twin::record::{House, RawShip, Version, HEADER_BYTES, MAX_HOUSES};

use crate::border;

/// The first houses, which count.
fn counted(raw: &mut RawShip) -> &mut [House] {
    let n = raw.n.min(MAX_HOUSES as u64) as usize;
    &mut raw.houses[..n]
}

/// Sets houses in, every other time some with breadths that refusal 23 takes. At times something else is
/// wrong as well.
pub fn put(random: &mut Random, raw: &mut RawShip) {
    let length = raw.length as i64;
    // The places beyond n too: what stands there must not matter.
    random.set_in(&mut raw.houses);
    for _ in 0..random.pick(&[0, 0, 1, 2]) {
        let bad = random.bad_breadths();
        put_one(random, raw, bad);
    }
    match random.between(1, 12) {
        1 | 2 if raw.n > 0 => random.spoil(counted(raw), length),
        3 => {
            let breadths = raw.houses.map(|house| (house.breadth, house.beam));
            random.put_list(&mut raw.houses, length);
            for (house, breadths) in raw.houses.iter_mut().zip(breadths) {
                (house.breadth, house.beam) = breadths;
            }
        }
        4 => border::put(random, raw),
        _ => {}
    }
}

/// Gives these breadths to one of the houses, if there is one.
fn put_one(random: &mut Random, raw: &mut RawShip, breadths: (u64, u64)) {
    let houses = counted(raw);
    if let Some(last) = houses.len().checked_sub(1) {
        let house = &mut houses[random.between(0, last as i64) as usize];
        (house.breadth, house.beam) = breadths;
    }
}

/// Gives a house breadths that 16 bits do not hold, though their low bits might do.
pub fn put_wide(random: &mut Random, raw: &mut RawShip) {
    random.set_in_at_times(&mut raw.houses);
    let (breadth, beam) = random.breadths();
    let more = 1 << random.between(16, 63);
    // 23 times this one is 17 above 2^64, and 25 times the other 9.
    let (wraps_23, wraps_25) = (u64::MAX / 23 + 1, u64::MAX / 25 + 1);
    let breadths = match random.between(1, 12) {
        1 => (breadth + more, beam),
        2 => (breadth, beam + more),
        3 | 4 => (breadth + more, beam + more),
        5 => (more, more),
        6 => (more - 1, more),
        7 => (u64::MAX, u64::MAX - random.between(0, 1) as u64),
        8 => (random.pick(&[1, beam, wraps_23]), wraps_23),
        9 => (wraps_25, random.pick(&[1, beam, wraps_25, u64::MAX])),
        10 => (random.pick(&[0, 1, 65_535]), random.pick(&[65_536, u64::MAX])),
        11 => (random.pick(&[65_536, u64::MAX]), random.pick(&[0, 1, 65_535])),
        _ => (random.number(), random.number()),
    };
    put_one(random, raw, breadths);
}

/// Every other time makes a record of bytes that are another version's, or changes a breadth, a spare bit
/// or the length.
pub fn damage(random: &mut Random, record: &mut [u8], length: &mut usize) {
    let version = if record[0] >> 4 >= 3 { Version::Three } else { Version::Two };
    let n = (*length - HEADER_BYTES) / version.house_bytes();
    let place = HEADER_BYTES + version.house_bytes() * random.between(0, 7) as usize;
    match random.between(1, 14) {
        // As long as the houses of another version: 27+12n in version 1 or 2, 27+8n in version 3 or 4.
        1 => bits::put_over(record, 0, 4, random.between(2, 5) as u64),
        2 => {
            bits::put_over(record, 0, 4, 1);
            bits::put_over(record, 4, 2, random.between(0, 1) as u64);
            bits::put_over(record, 6, 10, (n as u64) << 6);
        }
        3 => *length = random.pick(&Version::ALL).record_bytes(n),
        // So many houses that the bytes are enough, though a house has others.
        4 => {
            let (other, bytes) = match version {
                Version::Three => (2, Version::Two.house_bytes()),
                _ => (3, Version::Three.house_bytes()),
            };
            bits::put_over(record, 0, 4, other);
            bits::put_over(record, 7, 4, ((*length - HEADER_BYTES) / bytes) as u64);
        }
        5 if place + 8 <= *length => record[place + 7] ^= 1 << random.between(0, 6),
        6 if place + 12 <= *length => {
            record[place + random.between(8, 11) as usize] ^= 1 << random.between(0, 7);
        }
        7 => *length += random.pick(&[1, 4, 8, 12]),
        8 => *length -= random.pick(&[1, 4, 8, 12]),
        _ => {}
    }
}

#[cfg(test)]
mod tests {
    use super::*;
    use crate::flat;
    use crate::input::Input;
    use twin::record::{self, RawShip};

    fn count<const N: usize>(seen: &mut [u32], holds: [bool; N]) {
        for (count, holds) in seen.iter_mut().zip(holds) {
            *count += u32::from(holds);
        }
    }

    fn number(raw: &RawShip) -> (u8, usize) {
        raw.check().map_or_else(|refusal| (refusal.number, refusal.place), |_| (0, 0))
    }

    /// Ships with such houses, and what is said of each.
    fn ships(seed: u64) -> impl Iterator<Item = (RawShip, (u8, usize))> {
        let mut random = Random::new(seed);
        (0..60_000).map(move |i| {
            let mut raw = random.any_ship(i % 9);
            put(&mut random, &mut raw);
            let said = number(&raw);
            (raw, said)
        })
    }

    /// Breadths that pass: at the border and next to it, equal, small and great, of open houses and
    /// quarterdecks, and none.
    #[test]
    fn breadths_that_pass() {
        let mut seen = [0; 8];
        for (mut raw, _) in ships(23).filter(|(_, said)| said.0 == 0) {
            for house in counted(&mut raw) {
                let (breadth, beam) = (house.breadth, house.beam);
                let holds = [
                    23 * beam == 25 * breadth,
                    23 * beam < 25 * breadth && 23 * beam + 25 > 25 * breadth,
                    breadth == beam,
                    beam == 65_535,
                    beam < 26,
                    !house.enclosed,
                    house.quarterdeck,
                ];
                count(&mut seen[..7], holds.map(|holds| holds && beam > 0));
                seen[7] += u32::from(beam == 0);
            }
        }
        assert!(seen.iter().all(|&n| n >= 100), "{seen:?}");
    }

    /// 23 by each of its clauses, at every place, of open houses and quarterdecks, and beside 10, 11, 18
    /// and nothing.
    #[test]
    fn breadths_that_do_not() {
        let mut seen = [0; 10];
        let mut places = [0; MAX_HOUSES];
        for (raw, (_, place)) in ships(24).filter(|(_, said)| said.0 == 23) {
            let house = raw.houses[place];
            let mut others = raw.clone();
            others.houses.iter_mut().for_each(|house| (house.breadth, house.beam) = (0, 0));
            let other = number(&others).0;
            let (breadth, beam) = (house.breadth, house.beam);
            places[place] += 1;
            let holds = [
                breadth == 0,
                beam == 0,
                beam > 0 && breadth == beam + 1,
                breadth < beam && 25 * (breadth + 1) >= 23 * beam,
                !house.enclosed,
                house.quarterdeck,
                other == 10,
                other == 11,
                other == 18,
                other == 0,
            ];
            count(&mut seen, holds);
        }
        assert!(seen.iter().all(|&n| n >= 100), "{seen:?}");
        assert!(places.iter().all(|&n| n >= 100), "{places:?}");
    }

    /// Ships from C: breadths beyond 16 bits whose low bits would do, and whose products would.
    #[test]
    fn wide_breadths() {
        let mut random = Random::new(16);
        let mut seen = [0; 5];
        for _ in 0..60_000 {
            let raw = flat::ship(&Input::draw(&mut random).ship);
            let (23, place) = number(&raw) else { continue };
            let house = raw.houses[place];
            let low = |number: u64| number & 0xffff;
            let mut cut = raw.clone();
            cut.houses[place].breadth = low(house.breadth);
            cut.houses[place].beam = low(house.beam);
            let (breadth, beam) = (u128::from(house.breadth), u128::from(house.beam));
            let products = 23 * beam <= 25 * breadth;
            let wrapped = house.beam.wrapping_mul(23) <= house.breadth.wrapping_mul(25);
            let holds = [
                number(&cut) != (23, place) && breadth > 65_535,
                number(&cut) != (23, place) && beam > 65_535,
                number(&cut) != (23, place) && breadth <= beam && products,
                breadth <= beam && !products && wrapped,
                house.beam == u64::MAX || house.breadth == u64::MAX,
            ];
            count(&mut seen, holds);
        }
        assert!(seen.iter().all(|&n| n >= 30), "{seen:?}");
    }

    /// Records with as many bytes as another version has, and with houses at another one's places.
    #[test]
    fn bytes_of_another_version() {
        let mut random = Random::new(12);
        let mut seen = [0; 8];
        for _ in 0..60_000 {
            let input = Input::draw(&mut random);
            let bytes = input.record();
            if bytes.len() < HEADER_BYTES {
                continue;
            }
            let head = u16::from_be_bytes([bytes[0], bytes[1]]);
            let version = head >> 12;
            let n = usize::from(if version == 1 { head >> 6 & 15 } else { head >> 5 & 15 });
            let is = |versions: &[u16]| n > 0 && versions.contains(&version);
            let number = record::read(bytes).map_or_else(|refusal| refusal.number, |_| 0);
            let (eight, twelve) = (bytes.len() == 27 + 8 * n, bytes.len() == 27 + 12 * n);
            let holds = [
                is(&[3]) && eight && number == 5,
                is(&[1]) && twelve && number == 5,
                is(&[2]) && twelve && number == 5,
                is(&[5]) && twelve && number == 2,
                is(&[3]) && number == 0,
                is(&[3]) && number == 6,
                is(&[3]) && number == 23,
                is(&[3]) && twelve && n > 1 && (number == 9 || number == 6),
            ];
            count(&mut seen, holds);
        }
        assert!(seen.iter().all(|&n| n >= 30), "{seen:?}");
    }
}
