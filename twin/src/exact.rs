//! The summer freeboard with no rounding anywhere: same steps, same tests, same floor. The summer timber
//! freeboard likewise, which has no floor.
//!
//! Written with the regulations' own units, metres for lengths and mm for freeboards, in
//! fractions, and apart from the rounded working.

use crate::big::{over, whole, Fraction};
use crate::marks;
use crate::record::{House, Kind, Ship};
use crate::{table27, table28};

/// The exact freeboards, mm, and E.
#[derive(Clone, Debug)]
pub struct Exact {
    /// E, m: the sum of effective lengths.
    pub effective: Fraction,
    /// After regulations 28 to 38.
    pub corrected: Fraction,
    /// From the bow height of regulation 39.
    pub bow: Fraction,
    /// The greater of the two, and at least 50, with portable covers 150 (40).
    pub summer: Fraction,
}

/// What rounding costs, um.
#[derive(Clone, Copy, Debug)]
pub struct Cost {
    /// The mark above the exact value, its round-up to mm included.
    pub mark: f64,
    /// The freeboard in um, before that round-up and before the floor.
    pub summer: f64,
    /// The corrected value alone.
    pub corrected: f64,
    /// The freeboard from the bow height alone.
    pub bow: f64,
}

/// Linear between the points, flat beyond the first and the last.
fn linear(x: &Fraction, points: &[(Fraction, Fraction)]) -> Fraction {
    let after = points.partition_point(|(at, _)| at < x);
    if after == 0 {
        return points[0].1.clone();
    }
    let (x0, y0) = &points[after - 1];
    match points.get(after) {
        Some((x1, y1)) => y0 + (y1 - y0) * (x - x0) / (x1 - x0),
        None => y0.clone(),
    }
}

/// 37: the percentages at each tenth of E/L, in tenths of a per cent.
const SHARES: [i64; 11] = [0, 70, 140, 210, 310, 410, 520, 630, 753, 877, 1000];
/// 45(1): those for timber, in per cent.
const TIMBER_SHARES: [i64; 11] = [20, 31, 42, 53, 64, 70, 76, 82, 88, 94, 100];

/// The exact summer freeboard and its two sources.
pub fn exact(ship: &Ship) -> Exact {
    let l = over(ship.length, 1000);
    let e: Fraction = enclosed(ship).map(|house| effective_length(house, &l)).sum();
    let corrected = corrected(ship, ship.kind, SHARES.map(|mille| over(mille, 1000)), &e);
    let bow = bow_freeboard(ship, &l);
    // 40
    let least = if ship.kind == Kind::Covers { whole(150) } else { whole(50) };
    let summer = corrected.clone().max(bow.clone()).max(least);
    Exact { effective: e, corrected, bow, summer }
}

/// 45: the exact summer timber freeboard of a type B ship, mm, be it negative or beyond D.
pub fn timber(ship: &Ship) -> Fraction {
    let l = over(ship.length, 1000);
    let e: Fraction = enclosed(ship).map(|house| effective_length(house, &l)).sum();
    let reduced = matches!(ship.kind, Kind::B60 | Kind::B100);
    let kind = if reduced { Kind::B } else { ship.kind };
    corrected(ship, kind, TIMBER_SHARES.map(|per_cent| over(per_cent, 100)), &e)
}

/// 28 to 38 with the line of this type and these shares of the deduction.
fn corrected(ship: &Ship, line: Kind, shares: [Fraction; 11], e: &Fraction) -> Fraction {
    let l = over(ship.length, 1000);
    let s: Fraction = enclosed(ship).map(|house| plain_length(house, &l)).sum();
    let full = (tabular(line, ship.length) + short_b_addition(ship, &l, e)) * fullness(ship);
    let deep = full + depth_correction(ship, &l);
    deep - houses_deduction(ship, &l, e, shares) - sheer_deduction(ship, &l, &s)
}

fn enclosed(ship: &Ship) -> impl Iterator<Item = &House> {
    ship.houses.iter().filter(|house| house.enclosed)
}

fn forecastle(ship: &Ship) -> Option<&House> {
    enclosed(ship).find(|house| house.fore >= ship.length)
}

/// 30: never above 1.0.
fn limited_cb(ship: &Ship) -> Fraction {
    over(ship.cb.min(10_000), 10_000)
}

/// 27 and 28: the type's line.
fn tabular(kind: Kind, length: i64) -> Fraction {
    let row = |rows: &[u16], first: usize| between_rows(length, rows, first);
    let a = row(&table28::TYPE_A, table28::FIRST);
    let b = row(&table28::TYPE_B, table28::FIRST);
    match kind {
        Kind::A => a,
        Kind::B => b,
        Kind::B60 => &b - over(60, 100) * (&b - &a),
        Kind::B100 => &b - over(100, 100) * (&b - &a),
        Kind::Covers => b + row(&table27::INCREASE, table27::FIRST),
    }
}

/// Linear between the rows about L; the first row counts for every shorter ship.
fn between_rows(mm: i64, rows: &[u16], first: usize) -> Fraction {
    let row = ((mm / 1000) as usize).saturating_sub(first);
    let points: Vec<_> = (row..rows.len().min(row + 2))
        .map(|i| (whole((first + i) as i64), whole(rows[i])))
        .collect();
    linear(&over(mm, 1000), &points)
}

/// 29
fn short_b_addition(ship: &Ship, l: &Fraction, e: &Fraction) -> Fraction {
    if ship.kind != Kind::A && *l < whole(100) && *e < over(35, 100) * l {
        over(75, 10) * (whole(100) - l) * (over(35, 100) - e / l)
    } else {
        whole(0)
    }
}

/// 30: what the sum so far is multiplied by.
fn fullness(ship: &Ship) -> Fraction {
    let cb = limited_cb(ship);
    if cb > over(68, 100) {
        (cb + over(68, 100)) / over(136, 100)
    } else {
        whole(1)
    }
}

/// 31: what is added, negative if the depth is below L/15 and a house amidships earns a reduction.
fn depth_correction(ship: &Ship, l: &Fraction) -> Fraction {
    let r = if *l < whole(120) { l / over(48, 100) } else { whole(250) };
    let correction = (over(ship.depth, 1000) - l / whole(15)) * r;
    if !correction.is_negative() {
        return correction;
    }
    let (from, to) = (over(2, 10) * l, over(8, 10) * l);
    enclosed(ship)
        .find(|house| over(house.aft, 1000) <= from && over(house.fore, 1000) >= to)
        .map_or(whole(0), |house| correction * ratio_of_heights(house, l))
}

/// 37, with the share of the full deduction at each tenth of E/L.
fn houses_deduction(ship: &Ship, l: &Fraction, e: &Fraction, shares: [Fraction; 11]) -> Fraction {
    let long_enough =
        forecastle(ship).is_some_and(|house| effective_length(house, l) >= over(7, 100) * l);
    if ship.kind != Kind::A && !long_enough {
        return whole(0);
    }
    let full = [(24, 350), (85, 860), (122, 1070)].map(|(at, mm)| (whole(at), whole(mm)));
    let shares: Vec<_> = (0..).zip(shares).map(|(tenth, share)| (over(tenth, 10), share)).collect();
    linear(l, &full) * linear(&(e / l), &shares)
}

/// 38(14) to (16): what is deducted, negative if the sheer is deficient.
fn sheer_deduction(ship: &Ship, l: &Fraction, s: &Fraction) -> Fraction {
    let mean = mean_excess_of_sheer(&ship.sheer, l);
    let by_factor = &mean * (over(3, 4) - s / (whole(2) * l));
    if mean.is_negative() {
        by_factor
    } else {
        (by_factor * cover(ship, l)).min(over(125, 100) * l)
    }
}

/// 39
fn bow_freeboard(ship: &Ship, l: &Fraction) -> Fraction {
    let x = l / whole(100);
    let b1 = whole(6075) * &x - whole(1875) * &x * &x + whole(200) * &x * &x * &x;
    let d1 = over(85, 100) * over(ship.moulded, 1000);
    let b2 = over(208, 100) + over(609, 1000) * limited_cb(ship)
        - over(1603, 1000) * over(ship.cwf, 10_000)
        - over(129, 10_000) * l / d1;
    let mut bow = b1 * b2;
    if ship.sheer[4] > 0 {
        bow = bow - whole(ship.sheer[5]);
    }
    if let Some(house) = forecastle(ship) {
        if plain_length(house, l) >= over(7, 100) * l {
            bow = bow - whole(house.height);
        }
    }
    bow
}

/// 34: the part between the perpendiculars, m.
fn plain_length(house: &House, l: &Fraction) -> Fraction {
    over(house.fore, 1000).min(l.clone()) - over(house.aft, 1000).max(whole(0))
}

/// 33: height over standard height, at most 1.
fn ratio_of_heights(house: &House, l: &Fraction) -> Fraction {
    let points: &[(i64, i64)] = match house.quarterdeck {
        true => &[(30, 900), (75, 1200), (125, 1800)],
        false => &[(75, 1800), (125, 2300)],
    };
    let points: Vec<_> = points.iter().map(|&(at, mm)| (whole(at), whole(mm))).collect();
    (whole(house.height) / linear(l, &points)).min(whole(1))
}

/// 35(2): the house's breadth over the ship's, 1 for full breadth.
fn ratio_of_breadths(house: &House) -> Fraction {
    match house.has_full_breadth() {
        true => whole(1),
        false => over(house.breadth, house.beam.into()),
    }
}

/// 35: effective length, m.
fn effective_length(house: &House, l: &Fraction) -> Fraction {
    let length = plain_length(house, l);
    let ratio = ratio_of_heights(house, l) * ratio_of_breadths(house);
    match house.quarterdeck {
        true => length.min(over(6, 10) * l) * ratio,
        false => length * ratio,
    }
}

/// 38(8) to (11): mean excess of sheer, mm.
fn mean_excess_of_sheer(sheer: &[i64; 6], l: &Fraction) -> Fraction {
    let u = l / whole(3) + whole(10);
    // Standard ordinates in tenths of u, and their multipliers; amidships is 0.
    let after = [(250, 1), (111, 3), (28, 3)];
    let forward = [(56, 3), (222, 3), (500, 1)];
    // Sums of the standard and of the actual ordinates, each times its multiplier.
    let sums = |half: &[(i64, i64); 3], ordinates: &[i64]| {
        let standard: i64 = half.iter().map(|(tenths, times)| tenths * times).sum();
        let actual: i64 = half.iter().zip(ordinates).map(|((_, times), mm)| times * mm).sum();
        (over(standard, 10) * &u, whole(actual))
    };
    let (after_standard, after_actual) = sums(&after, &sheer[..3]);
    let (forward_standard, forward_actual) = sums(&forward, &sheer[3..]);
    let mut after_excess = (&after_actual - &after_standard) / whole(8);
    let mut forward_excess = (forward_actual - forward_standard) / whole(8);
    let zero = whole(0);
    if after_excess > zero && forward_excess < zero {
        after_excess = zero;
    } else if after_excess < zero && forward_excess > zero {
        let credit = [(over(50, 100), whole(0)), (over(75, 100), whole(1))];
        forward_excess = forward_excess * linear(&(after_actual / after_standard), &credit);
    }
    (after_excess + forward_excess) / whole(2)
}

/// 38(16): cover amidships, 0 to 1.
fn cover(ship: &Ship, l: &Fraction) -> Fraction {
    let middle = l / whole(2);
    let most = l / whole(10);
    let reaches: Fraction = enclosed(ship)
        .map(|house| (over(house.aft, 1000), over(house.fore, 1000)))
        .filter(|(aft, fore)| *aft <= middle && *fore >= middle)
        .map(|(aft, fore)| (fore - &middle).min(most.clone()) + (&middle - aft).min(most.clone()))
        .sum();
    reaches / (over(2, 10) * l)
}

/// The promise on the summer mark: exact <= S < exact + 1.1 mm.
pub fn bound_holds(ship: &Ship) -> bool {
    let mark = whole(marks::steps(ship).summer);
    let exact = exact(ship).summer;
    exact <= mark && mark < exact + over(11, 10)
}

/// The same of LS, before it is compared with D.
pub fn timber_bound_holds(ship: &Ship) -> bool {
    let mark = whole(marks::timber_steps(ship, &marks::steps(ship)).summer);
    let exact = timber(ship);
    exact <= mark && mark < exact + over(11, 10)
}

/// What the roundings cost LS, um: its round-up to mm included, and before it.
pub fn timber_cost(ship: &Ship) -> (f64, f64) {
    let steps = marks::timber_steps(ship, &marks::steps(ship));
    let exact = timber(ship) * whole(1000);
    let above = |um: i64| (whole(um) - &exact).to_f64();
    (above(1000 * steps.summer), above(steps.corrected))
}

/// What the roundings cost on this ship.
pub fn cost(ship: &Ship) -> Cost {
    let steps = marks::steps(ship);
    let exact = exact(ship);
    let above = |um: i64, exact: &Fraction| (whole(um) - exact * whole(1000)).to_f64();
    Cost {
        mark: above(1000 * steps.summer, &exact.summer),
        summer: above(
            steps.corrected.max(steps.bow),
            &exact.corrected.clone().max(exact.bow.clone()),
        ),
        corrected: above(steps.corrected, &exact.corrected),
        bow: above(steps.bow, &exact.bow),
    }
}
