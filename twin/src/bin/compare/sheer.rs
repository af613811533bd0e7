//! Ships around the borders of regulation 38: sums of sheer at 50, 75 and 100 per cent of the standard
//! or a mm beside it, ordinates at the ends of their range, means next to zero. In a good part of them
//! one um of the mean may show in the mark.

use twin::marks::{self, depth_addition, Steps};
use twin::random::Random;
use twin::record::{House, RawShip, Ship};

use crate::fine;

/// Ends of an ordinate, and the greatest sum of a half.
const LEAST: i64 = -8_192;
const MOST: i64 = 8_191;
const MOST_SUM: i64 = 7 * MOST;
/// The standard sums are whole in 1/30000 mm. One such part is 1/480 um of the mean.
const PARTS: i64 = 30_000;
/// Its product with 667 is 1 above a multiple of 30000.
const INVERSE: i64 = 4_003;

/// The standard after sum, in parts; the forward one is twice that.
pub fn standard(length: i64) -> i64 {
    667 * (length + 30_000)
}

/// The sum of a half: the ordinates at the perpendicular, at L/6 and at L/3.
pub fn sum([end, sixth, third]: [i64; 3]) -> i64 {
    end + 3 * sixth + 3 * third
}

/// A length, and whole mm that the halves' ordinates come to.
struct Sums {
    length: i64,
    after: i64,
    forward: i64,
}

/// The ship; at times also height and wish of a question that a short search answers.
pub fn ship(random: &mut Random) -> (RawShip, Option<(u64, u64)>) {
    loop {
        let mut raw = drawn(random);
        let Ok(ship) = raw.check() else { continue };
        let poop = if random.once_in(3) { poop(random, &ship) } else { None };
        let mut longer = fine::with(&ship, poop);
        if random.between(1, 5) <= 2 {
            if let Some(tuned) = tuned(random, longer.clone()) {
                (raw.depth, raw.cb) = (tuned.depth as u64, tuned.cb as u64);
                longer = tuned;
            }
        }
        let wish = |poop: House| Some((poop.height, marks::marks(&longer).ok()?.summer as u64));
        return (raw, poop.and_then(wish));
    }
}

fn drawn(random: &mut Random) -> RawShip {
    let Sums { length, after, forward } = match random.between(1, 4) {
        1 => near_zero(random),
        _ => at_border(random),
    };
    let [ap, ap_sixth, ap_third] = ordinates(random, after);
    let [fp, fp_sixth, fp_third] = ordinates(random, forward);
    let mut raw = random.ship(0);
    raw.length = length as u64;
    raw.kind = match random.kind() {
        2 | 3 if length <= 100_000 => 1,
        4 if length > 200_000 => 1,
        kind => kind,
    };
    raw.depth = depth(random, length) as u64;
    raw.sheer = match random.between(1, 30) {
        1 => std::array::from_fn(|_| random.pick(&[LEAST, MOST])),
        2 => [random.pick(&[LEAST, MOST]); 6],
        _ => [ap, ap_sixth, ap_third, fp_third, fp_sixth, fp],
    };
    if !random.once_in(8) {
        // Little bow height is asked for, lest it hide the sheer.
        raw.moulded = random.between(1_000, 2_500) as u64;
        raw.cwf = random.between(8_500, 10_000) as u64;
    }
    put_houses(random, &mut raw);
    raw
}

/// Most often above L/15, at times great enough for any freeboard.
fn depth(random: &mut Random, length: i64) -> i64 {
    let fifteenth = length / 15;
    let depth = match random.between(1, 6) {
        1 => fifteenth * random.between(60, 100) / 100,
        2 => fifteenth + random.between(0, 20_000),
        _ => fifteenth + random.between(0, fifteenth),
    };
    depth.max(1_000)
}

/// Sums about their borders, in every combination; often of a length for which the border is whole.
fn at_border(random: &mut Random) -> Sums {
    let quarters = random.between(2, 4);
    let length = match random.between(1, 8) {
        1..=3 => length_of(random, -30_000, 120_000 / quarters),
        4 => random.between(24_000, 40_000),
        _ => random.between(24_000, 365_000),
    };
    let standard = standard(length);
    let mm = standard / PARTS;
    let after = match random.between(1, 10) {
        1..=5 => about(random, quarters * standard, 4 * PARTS),
        6 | 7 => random.between(mm / 2, mm * 3 / 4 + 1),
        8 => random.between(0, mm / 2),
        9 => random.between(mm, 2 * mm),
        _ => random.between(7 * LEAST, MOST_SUM),
    };
    let forward = match random.between(1, 10) {
        1..=3 => about(random, 2 * standard, PARTS),
        4..=6 => random.between(2 * mm, 4 * mm),
        7 => random.between(4 * mm, MOST_SUM),
        8 | 9 => random.between(mm, 2 * mm),
        _ => random.between(7 * LEAST, 2 * mm),
    };
    Sums { length, after, forward }
}

/// The whole mm next to the fraction, or one further.
fn about(random: &mut Random, number: i64, parts: i64) -> i64 {
    let (low, high) = (number.div_euclid(parts), -(-number).div_euclid(parts));
    random.pick(&[low - 1, low, high, high + 1])
}

/// A length that leaves this remainder.
fn length_of(random: &mut Random, remainder: i64, divisor: i64) -> i64 {
    let first = 24_000 + (remainder - 24_000).rem_euclid(divisor);
    first + divisor * random.between(0, (365_000 - first) / divisor)
}

/// Sums whose mean is within 2 um of zero before it is rounded.
fn near_zero(random: &mut Random) -> Sums {
    match random.between(1, 5) {
        1 | 2 => both_near_zero(random),
        3 => forward_near_zero(random),
        _ => credit_near_zero(random),
    }
}

/// All of the forward excess counts: both sums come to both standard ones, but for 960 parts.
fn both_near_zero(random: &mut Random) -> Sums {
    let remainder = INVERSE * random.between(-320, 320);
    let length = length_of(random, remainder, 10_000);
    let standard = standard(length);
    let both = (3 * standard + PARTS / 2) / PARTS;
    let least = standard * 3 / (4 * PARTS) + 1;
    let after = random.between(least, standard / PARTS);
    Sums { length, after, forward: both - after }
}

/// The after half has excess, the forward one lacks up to 960 parts.
fn forward_near_zero(random: &mut Random) -> Sums {
    let remainder = INVERSE * random.between(1, 480);
    let length = length_of(random, remainder, 15_000);
    let standard = standard(length);
    let after = standard / PARTS + random.between(1, 200);
    Sums { length, after, forward: 2 * standard / PARTS }
}

/// Part of the forward excess counts, and makes up for what the after half lacks.
fn credit_near_zero(random: &mut Random) -> Sums {
    // 667 is 23 times 29: multiples of these may give a mean of zero where the standard sums are whole.
    let (length, factor) = match random.once_in(3) {
        true => (length_of(random, 0, 30_000), random.pick(&[23, 29])),
        false => (random.between(24_000, 365_000), 1),
    };
    let standard = standard(length);
    let (half, most) = (standard / (2 * PARTS), (3 * standard - 1) / (4 * PARTS));
    for _ in 0..24 {
        let after = factor * random.between(half / factor + 1, most / factor);
        let credit = 4 * PARTS * after - 2 * standard;
        let lacks = (standard - PARTS * after) * standard;
        // The nearest mm.
        let forward =
            (2 * standard * credit + lacks + PARTS * credit / 2).div_euclid(PARTS * credit);
        let mean = (PARTS * forward - 2 * standard) * credit - lacks;
        if forward <= MOST_SUM && mean.abs() <= 960 * standard {
            return Sums { length, after, forward };
        }
    }
    both_near_zero(random)
}

/// Ordinates at the perpendicular, at L/6 and at L/3 that come to the sum: most often in the
/// proportions of the standard ones, as far as their range allows.
fn ordinates(random: &mut Random, sum: i64) -> [i64; 3] {
    let odd = random.once_in(6);
    // The inner two together.
    let least = (sum - MOST + 2).div_euclid(3).max(2 * LEAST);
    let most = (sum - LEAST).div_euclid(3).min(2 * MOST);
    let inner = match odd {
        true => random.between(least, most),
        false => (sum * 139 / 667).clamp(least, most),
    };
    let (least, most) = ((inner - MOST).max(LEAST), (inner - LEAST).min(MOST));
    let sixth = match odd {
        true if random.once_in(2) => random.pick(&[least, most]),
        true => random.between(least, most),
        false => (inner * 111 / 139).clamp(least, most),
    };
    [sum - 3 * inner, sixth, inner - sixth]
}

/// Ends of a house amidships: often about L/2, or about 0.4 L and 0.6 L, or those of the ship.
fn amidships(random: &mut Random, length: i64) -> (i64, i64) {
    let (half, tenth) = (length / 2, length / 10);
    match random.between(1, 10) {
        1 => (random.between(1, half - 2), half + random.between(-1, 1)),
        2 => (half + random.between(-1, 2), random.between(half + 3, length)),
        3 => (random.between(1, half - tenth - 1), half - random.between(1, tenth)),
        4 | 5 => (half - random.between(0, tenth), half + random.between(1, tenth)),
        6 => (half - tenth + random.between(-2, 1), half + tenth + random.between(-1, 2)),
        7 => (length / 5, length * 4 / 5),
        8 => (-random.between(0, 1), length + random.between(-1, 1)),
        _ => (half - random.between(tenth, half), half + random.between(tenth, half)),
    }
}

/// Most often a house amidships and a forecastle, at times a poop.
fn put_houses(random: &mut Random, raw: &mut RawShip) {
    let length = raw.length as i64;
    let mut ends = [None; 3];
    if !random.once_in(6) {
        ends[1] = Some(amidships(random, length));
    }
    let (aft, fore) = ends[1].unwrap_or((length / 2, length / 2 + 1));
    if aft > 0 && random.once_in(3) {
        let end = if random.once_in(3) { aft } else { random.between(1, aft) };
        ends[0] = Some((-random.between(0, 100), end));
    }
    if fore < length && !random.once_in(6) {
        let start = match random.between(1, 4) {
            1 => fore,
            2 => random.between(fore, length - 1),
            _ => fore.max(length * 9 / 10),
        };
        ends[2] = Some((start, length));
    }
    let mut n = 0;
    for (aft, fore) in ends.into_iter().flatten() {
        raw.houses[n] = house(random, aft, fore, length);
        n += 1;
    }
    raw.n = n as u64;
    random.set_in_at_times(&mut raw.houses[..n]);
}

/// A forecastle is most often high, so that the bow height does not decide.
fn house(random: &mut Random, aft: i64, fore: i64, length: i64) -> House {
    let enclosed = !random.once_in(16);
    let quarterdeck = enclosed && aft <= 0 && fore < length && random.once_in(3);
    let height = match random.between(1, 4) {
        1 => random.between(1, 8_191),
        _ if fore >= length => random.between(2_300, 8_191),
        _ => random.between(1_500, 2_500),
    } as u64;
    House { enclosed, quarterdeck, aft, fore, height, ..House::default() }
}

/// At times a poop that leads to a short search; on a short ship it may reach amidships.
fn poop(random: &mut Random, ship: &Ship) -> Option<House> {
    let poop = fine::poop(random, ship, false)?;
    let room = ship.houses.first().map_or(ship.length, |first| first.aft);
    let fore = 100 * (ship.length / 200 + random.between(0, 3));
    let amidships = ship.length <= 40_000 && fore <= room;
    Some(if amidships { House { fore, ..poop } } else { poop })
}

/// The ship with a fullness and a depth for which the freeboard is at a whole mm or one um above it,
/// and neither floor nor bow height decides.
fn tuned(random: &mut Random, mut ship: Ship) -> Option<Ship> {
    let more = random.pick(&[ship.length / 15, 20_000]);
    ship.depth = (ship.length / 15 + random.between(1, more)).max(1_000);
    ship.cb = random.between(6_801, 9_000);
    let steps = marks::steps(&ship);
    // Above L/15 only two steps come of these two, and they need not be worked from the beginning.
    let rest = steps.corrected - steps.fullness - steps.depth;
    let table = steps.table + steps.short_b;
    let depths: [(i64, i64); 4] = std::array::from_fn(|i| {
        let depth = ship.depth + i as i64;
        (depth, rest + depth_addition(ship.length, depth))
    });
    (ship.cb, ship.depth) = (ship.cb..ship.cb + 1_000).find_map(|cb| {
        let fullness = (table * (cb + 6_800) + 13_599) / 13_600;
        let fits = |&&(_, others): &&(i64, i64)| fine::at_whole_mm(fullness + others);
        depths.iter().find(fits).map(|&(depth, _)| (cb, depth))
    })?;
    (shows(&marks::steps(&ship)) && marks::marks(&ship).is_ok()).then_some(ship)
}

/// One um of the corrected value may show in the mark.
pub fn shows(steps: &Steps) -> bool {
    steps.corrected > steps.bow && fine::at_whole_mm(steps.corrected)
}

#[cfg(test)]
mod tests {
    use super::*;
    use crate::input::Input;
    use crate::judge;
    use twin::record;

    fn ships(seed: u64, count: usize) -> impl Iterator<Item = Ship> {
        let mut random = Random::new(seed);
        (0..count).map(move |_| ship(&mut random).0.check().expect("a valid ship"))
    }

    /// After and forward sum.
    fn sums(ship: &Ship) -> (i64, i64) {
        let [ap, ap_sixth, ap_third, fp_third, fp_sixth, fp] = ship.sheer;
        (sum([ap, ap_sixth, ap_third]), sum([fp, fp_sixth, fp_third]))
    }

    /// What of the forward half counts, and the mean in 1/480 um; both times the standard after sum.
    fn exact_mean(ship: &Ship) -> (i64, i64) {
        let (standard, (after, forward)) = (standard(ship.length), sums(ship));
        let (after, forward) = (PARTS * after - standard, PARTS * forward - 2 * standard);
        match (after.signum(), forward.signum()) {
            (1, -1) => (standard, forward * standard),
            (-1, 1) => {
                let credit = (4 * after + 2 * standard).clamp(0, standard);
                (credit, after * standard + forward * credit)
            }
            _ => (standard, (after + forward) * standard),
        }
    }

    fn count<const N: usize>(seen: &mut [u32; N], holds: [bool; N]) {
        for (count, holds) in seen.iter_mut().zip(holds) {
            *count += u32::from(holds);
        }
    }

    /// Whether the sum is at the border or a mm beside it, the border being whole; else whether it is
    /// the whole mm below or above.
    fn at(sum: i64, number: i64, parts: i64) -> [bool; 5] {
        let (beside, whole) = (sum - number.div_euclid(parts), number % parts == 0);
        [
            whole && beside == -1,
            whole && beside == 0,
            whole && beside == 1,
            !whole && beside == 0,
            !whole && beside == 1,
        ]
    }

    /// All borders of both sums, and both ends of the ordinates.
    #[test]
    fn sums_at_their_borders() {
        let mut seen = [[0; 5]; 4];
        let mut ends = [0; 3];
        for ship in ships(38, 20_000) {
            let (standard, (after, forward)) = (standard(ship.length), sums(&ship));
            for (seen, quarters) in seen.iter_mut().zip(2..=4) {
                count(seen, at(after, quarters * standard, 4 * PARTS));
            }
            count(&mut seen[3], at(forward, 2 * standard, PARTS));
            let sheer = ship.sheer;
            let only_ends = sheer.iter().all(|ordinate| [LEAST, MOST].contains(ordinate));
            let alike = [sheer == [LEAST; 6], sheer == [MOST; 6]];
            count(&mut ends, [alike[0], alike[1], only_ends && alike == [false; 2]]);
        }
        assert!(seen.as_flattened().iter().all(|&n| n >= 100), "{seen:?}");
        assert!(ends.iter().all(|&n| n >= 100), "{ends:?}");
    }

    /// Means within 1 um of zero with whole credit, in part, and after excess that does not count;
    /// those below zero with a freeboard that shows it.
    #[test]
    fn means_next_to_zero() {
        let mut seen = [0; 10];
        for ship in ships(11, 20_000) {
            let (credit, mean) = exact_mean(&ship);
            let (um, whole) = (480 * standard(ship.length), credit == standard(ship.length));
            let steps = marks::steps(&ship);
            assert_eq!(steps.sheer_mean, mean.div_euclid(um));
            let (below, above) = (-um < mean && mean < 0, 0 < mean && mean < um);
            let after_excess = PARTS * sums(&ship).0 > standard(ship.length);
            let at_one = shows(&steps) && steps.corrected % 1000 == 1;
            count(
                &mut seen,
                [
                    whole && below,
                    whole && mean == 0,
                    whole && above,
                    after_excess && below,
                    !whole && below,
                    !whole && mean == 0,
                    !whole && above,
                    whole && below && at_one,
                    !whole && below && at_one,
                    mean % um == 0 && mean != 0 && shows(&steps),
                ],
            );
        }
        assert!(seen.iter().all(|&n| n >= 20), "{seen:?}");
    }

    /// Excess that counts not at all, in part and whole, deficiency beside it, S from nothing to L, and
    /// every length; in all of them a um shows.
    #[test]
    fn covers_and_lengths() {
        let mut seen = [0; 11];
        let mut fine = 0;
        for ship in ships(16, 20_000) {
            let steps = marks::steps(&ship);
            let (l, mean, reach) = (ship.length, steps.sheer_mean, steps.cover_reach);
            let shown = shows(&steps);
            fine += u32::from(shown);
            let holds = [
                mean > 0 && reach == 0,
                mean > 0 && 0 < reach && reach < 2 * l,
                mean > 0 && reach == 2 * l,
                mean > 0 && steps.sheer_deducted == 5 * l / 4,
                mean < 0 && reach == 0,
                mean < 0 && reach > 0,
                steps.covered == 0,
                steps.covered == l,
                2 * steps.covered < l && steps.covered > 0,
                l < 30_000,
                l > 350_000,
            ];
            count(&mut seen, holds.map(|holds| holds && shown));
        }
        assert!(seen.iter().all(|&n| n >= 50), "{seen:?}");
        assert!((5_000..8_000).contains(&fine), "{fine}");
    }

    /// Questions that are answered soon, some by a poop that reaches amidships.
    #[test]
    fn questions() {
        let mut random = Random::new(8);
        let mut seen = [0; 3];
        for _ in 0..20_000 {
            let input = Input::draw_sheer(&mut random);
            let ship = record::read(input.record()).expect("a valid ship");
            let [.., poop] = judge::worked(&input).poop;
            assert!(poop <= 210, "{poop}");
            let amidships = 200 * poop as i64 >= ship.length;
            count(&mut seen, [input.question.is_some(), poop > 0, amidships]);
        }
        let [asked, longer, amidships] = seen;
        assert!((1_500..3_000).contains(&asked), "{asked}");
        assert!(longer >= 1_000 && amidships >= 20, "{longer} {amidships}");
    }
}
