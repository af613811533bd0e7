//! Ships whose houses stand about one another, where refusals 11 and 18 are near each other.

use twin::random::Random;
use twin::record::{RawShip, MAX_HOUSES};

use crate::border;

/// Gives the ship another list of as many houses. At times something else is wrong as well, most
/// often another house.
pub fn put(random: &mut Random, raw: &mut RawShip) {
    let length = raw.length as i64;
    // The places beyond n too: what stands there must not matter.
    random.put_list(&mut raw.houses, length);
    random.set_in_at_times(&mut raw.houses);
    let n = raw.n.min(MAX_HOUSES as u64) as usize;
    match random.between(1, 12) {
        1..=3 if n > 0 => random.spoil(&mut raw.houses[..n], length),
        4 => border::put(random, raw),
        _ => {}
    }
}

#[cfg(test)]
mod tests {
    use super::*;
    use twin::record::House;
    use twin::refusal::Refusal;

    /// Ships of 0 to 8 houses with such lists.
    fn ships(seed: u64) -> impl Iterator<Item = RawShip> {
        let mut random = Random::new(seed);
        (0..40_000).map(move |i| {
            let mut raw = random.any_ship(i % 9);
            put(&mut random, &mut raw);
            raw
        })
    }

    fn houses(raw: &RawShip) -> &[House] {
        &raw.houses[..raw.n.min(MAX_HOUSES as u64) as usize]
    }

    /// The bad houses, each after the one before it.
    fn bad(houses: &[House]) -> Vec<[House; 2]> {
        let pairs = houses.windows(2).map(|pair| [pair[0], pair[1]]);
        pairs.filter(|[previous, house]| house.aft < previous.fore).collect()
    }

    fn count<const N: usize>(seen: &mut [u32; N], holds: [bool; N]) {
        for (count, holds) in seen.iter_mut().zip(holds) {
            *count += u32::from(holds);
        }
    }

    /// What both refusals are counted by: the bad house's ends beside the previous one's, and both
    /// houses beyond a perpendicular.
    fn sorts([previous, house]: [House; 2], length: i64) -> [bool; 7] {
        let (aft, fore) = (house.aft - previous.aft, house.fore - previous.fore);
        [
            aft.abs() == 1,
            fore.abs() == 1,
            fore == 0,
            fore < 0,
            fore > 0,
            house.aft.max(previous.aft) < 0,
            house.fore.min(previous.fore) > length,
        ]
    }

    /// Ends that are equal or 1 mm apart, and houses within houses, for either refusal.
    #[test]
    fn pairs_of_houses() {
        let (mut overlaps, mut orders) = ([0; 7], [0; 7]);
        let (mut overlap_only, mut order_only) = ([0; 4], [0; 3]);
        for raw in ships(11) {
            let (Err(refusal), Some(&pair)) = (raw.check(), bad(houses(&raw)).first()) else {
                continue;
            };
            let sorts = sorts(pair, raw.length as i64);
            let [previous, house] = pair;
            if refusal.number == Refusal::OVERLAP {
                let (overlap, equal) = (refusal.overlap, house.aft == previous.aft);
                let twice = equal && house.fore == previous.fore;
                count(&mut overlaps, sorts);
                count(&mut overlap_only, [overlap == 1, overlap > 65_535, twice, equal && !twice]);
            } else if refusal.number == Refusal::OUT_OF_ORDER {
                let apart = previous.aft - house.fore;
                count(&mut orders, sorts);
                count(&mut order_only, [apart > 0, apart == 0, apart == -1]);
            }
        }
        assert!(
            overlaps.iter().chain(&overlap_only).all(|&n| n >= 50),
            "{overlaps:?} {overlap_only:?}"
        );
        assert!(orders.iter().chain(&order_only).all(|&n| n >= 50), "{orders:?} {order_only:?}");
    }

    /// Bad houses of both kinds in one list, open ones among them, at every place; 9, 10 or 23 besides.
    #[test]
    fn lists_of_houses() {
        let mut seen = [0; 9];
        let mut places = [[0; 2]; MAX_HOUSES];
        for raw in ships(18) {
            let list = houses(&raw);
            let (all, checked) = (bad(list), raw.check());
            let out_of_order = |pair: &[House; 2]| pair[1].aft < pair[0].aft;
            let mixed = all.iter().any(|pair| out_of_order(pair) != out_of_order(&all[0]));
            let touching = list.windows(2).any(|pair| pair[1].aft == pair[0].fore);
            let (number, place) = checked.map_or_else(|r| (r.number, r.place), |_| (0, 0));
            let (overlap, order) = (number == Refusal::OVERLAP, number == Refusal::OUT_OF_ORDER);
            if overlap || order {
                count(&mut places[place], [overlap, order]);
            }
            let open = |i: usize| (overlap || order) && !all[0][i].enclosed;
            let holds = [
                overlap && mixed,
                order && mixed,
                open(0),
                open(1),
                number == 0 && touching,
                number == 0 && !bad(&raw.houses).is_empty(),
                number == Refusal::HOUSE && !all.is_empty(),
                number == Refusal::QUARTERDECK && !all.is_empty(),
                number == Refusal::BREADTHS && !all.is_empty(),
            ];
            count(&mut seen, holds);
        }
        assert!(seen.iter().all(|&n| n >= 200), "{seen:?}");
        assert!(places[1..].as_flattened().iter().all(|&n| n >= 20), "{places:?}");
    }
}
