//! The six ordinary marks and the six timber marks, with the roundings that a mark is worked with.
//!
//! "Up" and "down" are toward plus and minus infinity, to whole um. Every product fits an i64; where
//! one comes near, its bound stands beside it.

use std::fmt;

use crate::record::{House, Kind, Ship};
use crate::refusal::Refusal;
use crate::{table27, table28};

/// The six marks, mm below the deck line. The two fresh water marks may be negative.
#[derive(Clone, Copy, Debug, PartialEq, Eq)]
pub struct Marks {
    pub summer: i64,
    pub tropical: i64,
    pub winter: i64,
    pub winter_north_atlantic: i64,
    pub fresh: i64,
    pub tropical_fresh: i64,
    /// If timber freeboards are asked for.
    pub timber: Option<Timber>,
}

/// The six timber marks, mm. Any but LWNA may be negative. All are zero where LS would be at or above D.
#[derive(Clone, Copy, Debug, Default, PartialEq, Eq)]
pub struct Timber {
    pub summer: i64,
    pub tropical: i64,
    pub winter: i64,
    pub winter_north_atlantic: i64,
    pub fresh: i64,
    pub tropical_fresh: i64,
}

impl fmt::Display for Marks {
    fn fmt(&self, f: &mut fmt::Formatter) -> fmt::Result {
        write!(
            f,
            "S {} T {} W {} WNA {} F {} TF {}",
            self.summer,
            self.tropical,
            self.winter,
            self.winter_north_atlantic,
            self.fresh,
            self.tropical_fresh
        )?;
        match &self.timber {
            Some(timber) => write!(f, " {timber}"),
            None => Ok(()),
        }
    }
}

impl fmt::Display for Timber {
    fn fmt(&self, f: &mut fmt::Formatter) -> fmt::Result {
        write!(
            f,
            "LS {} LT {} LW {} LWNA {} LF {} LTF {}",
            self.summer,
            self.tropical,
            self.winter,
            self.winter_north_atlantic,
            self.fresh,
            self.tropical_fresh
        )
    }
}

/// Every step on the way to the summer mark; um unless said otherwise.
#[derive(Clone, Debug, PartialEq, Eq)]
pub struct Steps {
    /// S, mm: length of the enclosed houses within L.
    pub covered: i64,
    /// E: effective length of the enclosed houses.
    pub effective: i64,
    /// The house that is the forecastle.
    pub forecastle: Option<usize>,
    /// Regulations 27 and 28: the type's line.
    pub table: i64,
    /// Regulation 29.
    pub short_b: i64,
    /// Table and addition for short B ships, after regulation 30.
    pub fullness: i64,
    /// Regulation 31(1).
    pub depth: i64,
    /// Regulation 31(2) and (3).
    pub depth_reduction: i64,
    /// Regulation 37.
    pub deduction: i64,
    /// Regulation 38: mean excess of sheer, negative if deficient.
    pub sheer_mean: i64,
    /// Tenths of mm that houses reach before and abaft amidships, at most 2 L in mm.
    pub cover_reach: i64,
    pub sheer_added: i64,
    pub sheer_deducted: i64,
    /// Freeboard after regulations 28 to 38.
    pub corrected: i64,
    /// Regulation 39: bow height asked for.
    pub bow_height: i64,
    /// Freeboard that gives this bow height.
    pub bow: i64,
    /// Regulation 40: the summer mark, mm.
    pub summer: i64,
}

/// The steps to the summer timber mark that are not those to the summer mark; um unless said otherwise.
#[derive(Clone, Debug, PartialEq, Eq)]
pub struct TimberSteps {
    /// Regulations 27 and 28: the type's line, B's for a reduced ship.
    pub table: i64,
    /// Table and addition for short B ships, after regulation 30.
    pub fullness: i64,
    /// Regulation 37 with the percentages of 45(1).
    pub deduction: i64,
    /// Freeboard after regulations 28 to 38.
    pub corrected: i64,
    /// LS, mm, be it at or above D.
    pub summer: i64,
}

/// Quotient rounded down; the divisor is above zero.
fn down(number: i64, divisor: i64) -> i64 {
    number.div_euclid(divisor)
}

/// Quotient rounded up; the divisor is above zero.
fn up(number: i64, divisor: i64) -> i64 {
    -down(-number, divisor)
}

/// The marks, or refusal 12 or 13.
pub fn marks(ship: &Ship) -> Result<Marks, Refusal> {
    let steps = steps(ship);
    let ordinary = ordinary(ship, steps.summer)?;
    let timber = ship.timber.then(|| timber(ship, &steps, &ordinary));
    Ok(Marks { timber, ..ordinary })
}

/// The summer mark alone, or refusal 12 or 13.
pub fn summer(ship: &Ship) -> Result<i64, Refusal> {
    ordinary(ship, steps(ship).summer).map(|marks| marks.summer)
}

/// The six ordinary marks, or refusal 12 or 13. The timber flag is not looked at.
fn ordinary(ship: &Ship, summer: i64) -> Result<Marks, Refusal> {
    let draught = ship.depth - summer;
    Refusal::unless(draught > 0, Refusal::MARK_AT_DECK)?;
    // 40(7), and 40(8) if not certified.
    let allowance = match ship.immersion {
        0 => down(draught, 48),
        immersion => down(25 * ship.displacement, immersion),
    };
    Refusal::unless(allowance <= draught, Refusal::FRESH_ALLOWANCE)?;
    let tropical = (summer - down(draught, 48)).max(floor(ship.kind)); // 40(3), 40(4)
    let winter = summer + up(draught, 48); // 40(5)
    Ok(Marks {
        summer,
        tropical,
        winter,
        winter_north_atlantic: if ship.length <= 100_000 { winter + 50 } else { winter }, // 40(6)
        fresh: summer - allowance,
        tropical_fresh: tropical - allowance,
        timber: None,
    })
}

/// Regulation 45: the timber marks of a type B ship with these steps and ordinary marks.
fn timber(ship: &Ship, steps: &Steps, ordinary: &Marks) -> Timber {
    let summer = timber_steps(ship, steps).summer;
    let draught = ship.depth - summer;
    if draught <= 0 {
        return Timber::default();
    }
    let part = down(draught, 48);
    let tropical = summer - part; // 45(4)
    let winter = summer + up(draught, 36); // 45(2)
    Timber {
        summer,
        tropical,
        winter: match ship.kind {
            Kind::B60 | Kind::B100 => winter.min(ordinary.winter), // 45(7)
            _ => winter,
        },
        winter_north_atlantic: ordinary.winter_north_atlantic, // 45(3)
        // 45(5) and 40(8): a displacement is certified at the summer load line, not at the timber one.
        fresh: summer - part,
        tropical_fresh: tropical - part,
    }
}

/// The steps to the summer timber mark, from those to the summer mark. No bow height is asked for (39(1)),
/// and there is no floor.
pub fn timber_steps(ship: &Ship, steps: &Steps) -> TimberSteps {
    let line = match ship.kind {
        Kind::B60 | Kind::B100 => Kind::B, // 45(6)
        kind => kind,
    };
    let table = tabular(line, ship.length);
    let fullness = after_fullness(ship, table + steps.short_b);
    let deduction = houses_deduction(ship, steps.effective, steps.forecastle, &TIMBER_PERCENTAGES);
    let corrected = fullness + steps.depth - steps.depth_reduction - deduction + steps.sheer_added
        - steps.sheer_deducted;
    TimberSteps { table, fullness, deduction, corrected, summer: up(corrected, 1000) }
}

/// The steps to the summer mark.
pub fn steps(ship: &Ship) -> Steps {
    let length = ship.length;
    let covered = enclosed(ship).map(|(_, house)| length_within(house, length)).sum();
    let effective = effective_sum(ship, length);
    let forecastle = enclosed(ship).find(|(_, h)| h.fore >= ship.length).map(|(i, _)| i);
    let table = tabular(ship.kind, length);
    let short_b = short_b_addition(ship.kind, length, effective);
    let fullness = after_fullness(ship, table + short_b);
    let depth = depth_addition(length, ship.depth);
    let depth_reduction = depth_reduction(ship, length);
    let deduction = houses_deduction(ship, effective, forecastle, &PERCENTAGES);
    let sheer_mean = mean_excess_of_sheer(&ship.sheer, length);
    let cover_reach = cover_reach(ship, length);
    let (sheer_added, sheer_deducted) = sheer_correction(sheer_mean, length, covered, cover_reach);
    let corrected = fullness + depth - depth_reduction - deduction + sheer_added - sheer_deducted;
    let bow_height = bow_height(ship, length);
    let bow = bow_height - bow_credit(ship, forecastle);
    let summer = up(corrected.max(bow), 1000).max(floor(ship.kind));
    Steps {
        covered,
        effective,
        forecastle,
        table,
        short_b,
        fullness,
        depth,
        depth_reduction,
        deduction,
        sheer_mean,
        cover_reach,
        sheer_added,
        sheer_deducted,
        corrected,
        bow_height,
        bow,
        summer,
    }
}

/// The enclosed houses with their places in the list; no other counts (35(5)).
fn enclosed(ship: &Ship) -> impl Iterator<Item = (usize, &House)> {
    ship.houses.iter().enumerate().filter(|(_, house)| house.enclosed)
}

/// Regulation 34: the part between the perpendiculars, mm.
fn length_within(house: &House, length: i64) -> i64 {
    house.fore.min(length) - house.aft.max(0)
}

/// Regulation 33: standard height in mm as a fraction, from L in mm.
pub fn standard_height(quarterdeck: bool, length: i64) -> (i64, i64) {
    match (quarterdeck, length) {
        (true, ..30_000) => (900, 1),
        (true, 30_000..75_000) => (length + 105_000, 150),
        (true, 75_000..125_000) => (3 * length + 75_000, 250),
        (true, 125_000..) => (1_800, 1),
        (false, ..75_000) => (1_800, 1),
        (false, 75_000..125_000) => (length + 105_000, 100),
        (false, 125_000..) => (2_300, 1),
    }
}

/// Regulation 35: effective length of a house, um, as a fraction over its standard height, and if it
/// has breadths over the ship's breadth too.
fn effective_length(house: &House, length: i64) -> (i64, i64) {
    let mut whole = 1000 * length_within(house, length);
    if house.quarterdeck {
        whole = whole.min(600 * length); // 35(4): 0.6 L
    }
    let (standard, parts) = standard_height(house.quarterdeck, length);
    let height = house.height as i64 * parts;
    let um = whole * height.min(standard);
    if house.has_full_breadth() {
        return (um, standard);
    }
    // 35(2). Greatest for a quarterdeck of 75 m at 125 m: 7.5e7 x 4.5e5 x 6.6e4, below 2.3e18.
    (um * house.breadth as i64, standard * house.beam as i64)
}

/// E: ordinary houses are added first and rounded down once, a raised quarterdeck by itself; so is
/// every house with breadths.
fn effective_sum(ship: &Ship, length: i64) -> i64 {
    let full = |quarterdeck: bool| {
        let alike = enclosed(ship)
            .filter(|(_, house)| house.has_full_breadth() && house.quarterdeck == quarterdeck);
        let sum = alike.map(|(_, house)| effective_length(house, length).0).sum();
        // They share one standard height.
        down(sum, standard_height(quarterdeck, length).0)
    };
    let set_in: i64 = enclosed(ship)
        .filter(|(_, house)| !house.has_full_breadth())
        .map(|(_, house)| effective_length(house, length))
        .map(|(um, parts)| down(um, parts))
        .sum();
    full(false) + full(true) + set_in
}

/// Regulation 40(2) and (4): the least summer and tropical mark, mm.
pub fn floor(kind: Kind) -> i64 {
    match kind {
        Kind::Covers => 150,
        _ => 50,
    }
}

/// Row value, linear between rows; exact. The first row's length is in m.
fn between_rows(rows: &[u16], first: usize, length: i64) -> i64 {
    let row = (length / 1000) as usize - first;
    let value = i64::from(rows[row]);
    let next = i64::from(rows[(row + 1).min(rows.len() - 1)]);
    1000 * value + (next - value) * (length % 1000)
}

/// Regulations 27 and 28: the type's line, exact but for B-60, which is rounded up.
pub fn tabular(kind: Kind, length: i64) -> i64 {
    let a = || between_rows(&table28::TYPE_A, table28::FIRST, length);
    let b = || between_rows(&table28::TYPE_B, table28::FIRST, length);
    match kind {
        Kind::A | Kind::B100 => a(),
        Kind::B => b(),
        Kind::B60 => up(2 * b() + 3 * a(), 5), // B - 60% of (B - A)
        Kind::Covers => b() + increase(length),
    }
}

/// Regulation 27(6): table 27.1, the same up to 108 m, linear between rows; exact. No ship that comes
/// here is beyond the last row.
pub fn increase(length: i64) -> i64 {
    let length = length.clamp(1000 * table27::FIRST as i64, 1000 * table27::LAST as i64);
    between_rows(&table27::INCREASE, table27::FIRST, length)
}

/// Regulation 29: 7.5 (100 - L) (0.35 - E/L), up.
fn short_b_addition(kind: Kind, length: i64, effective: i64) -> i64 {
    if !kind.is_a() && length < 100_000 && effective < 350 * length {
        up(3 * (100_000 - length) * (350 * length - effective), 400 * length)
    } else {
        0
    }
}

/// Cb in 1/10000, never above 1.0 (30).
fn limited_cb(ship: &Ship) -> i64 {
    ship.cb.min(10_000)
}

/// Regulation 30: times (Cb + 0.68) / 1.36 above 0.68, up.
fn after_fullness(ship: &Ship, freeboard: i64) -> i64 {
    match limited_cb(ship) {
        ..=6_800 => freeboard,
        cb => up(freeboard * (cb + 6_800), 13_600),
    }
}

/// Regulation 31(1): (D - L/15) R, up, where D is above L/15.
pub fn depth_addition(length: i64, depth: i64) -> i64 {
    let excess = (15 * depth - length).max(0); // fifteenths of a mm
    if length < 120_000 {
        up(excess * length, 7_200)
    } else {
        up(excess * 50, 3)
    }
}

/// Regulation 31(2) and (3): (L/15 - D) R, where D is below L/15 and one enclosed house covers all
/// of 0.2 L to 0.8 L; in the ratio of heights if that house is low; down.
fn depth_reduction(ship: &Ship, length: i64) -> i64 {
    let lack = length - 15 * ship.depth; // fifteenths of a mm
    if lack <= 0 {
        return 0;
    }
    let amidships = |house: &House| 5 * house.aft <= length && 5 * house.fore >= 4 * length;
    let Some((_, house)) = enclosed(ship).find(|(_, house)| amidships(house)) else {
        return 0;
    };
    let (standard, parts) = standard_height(house.quarterdeck, length);
    let height = (house.height as i64 * parts).min(standard);
    if length < 120_000 {
        // 1.1e5 x 1.2e5 x 4.4e5: below 5.9e15.
        down(lack * length * height, 7_200 * standard)
    } else {
        down(lack * 50 * height, 3 * standard)
    }
}

/// Regulation 37: the percentages at each tenth of E/L, in tenths of a per cent.
const PERCENTAGES: [i64; 11] = [0, 70, 140, 210, 310, 410, 520, 630, 753, 877, 1000];

/// Regulation 45(1): those that stand in their place for timber.
const TIMBER_PERCENTAGES: [i64; 11] = [200, 310, 420, 530, 640, 700, 760, 820, 880, 940, 1000];

/// Regulation 37(1): deduction where E is L, down.
fn full_deduction(length: i64) -> i64 {
    match length {
        ..85_000 => 350_000 + down(510 * (length - 24_000), 61),
        85_000..122_000 => 860_000 + down(210 * (length - 85_000), 37),
        122_000.. => 1_070_000,
    }
}

/// Regulation 37(2): the share of the full deduction in millionths, down.
fn deduction_share(length: i64, effective: i64, percentages: &[i64; 11]) -> i64 {
    let tenth = 100 * length; // 0.1 L in um
    let (below, beyond) = (effective / tenth, effective % tenth);
    match percentages[below as usize..] {
        [low, high, ..] => 1000 * low + down(1000 * (high - low) * beyond, tenth),
        _ => 1_000_000,
    }
}

/// Regulation 37: what the houses take off with these percentages, down.
fn houses_deduction(
    ship: &Ship,
    effective: i64,
    forecastle: Option<usize>,
    percentages: &[i64; 11],
) -> i64 {
    let length = ship.length;
    // 37(3), on the fraction itself.
    let long_enough = forecastle.is_some_and(|place| {
        let (um, parts) = effective_length(&ship.houses[place], length);
        um >= 70 * length * parts
    });
    if ship.kind.is_a() || long_enough {
        let share = deduction_share(length, effective, percentages);
        down(full_deduction(length) * share, 1_000_000)
    } else {
        0
    }
}

/// Regulation 38(8) to (11): mean excess of sheer over both halves, down.
fn mean_excess_of_sheer(sheer: &[i64; 6], length: i64) -> i64 {
    let [ap, ap_sixth, ap_third, fp_third, fp_sixth, fp] = *sheer;
    // Sums are in 1/30000 mm: the standard after sum is 66.7 (L/3 + 10), the forward twice that.
    let standard = 667 * (length + 30_000);
    let after_sum = 30_000 * (ap + 3 * ap_sixth + 3 * ap_third);
    let forward_sum = 30_000 * (3 * fp_third + 3 * fp_sixth + fp);
    let mut after = after_sum - standard;
    let mut forward = forward_sum - 2 * standard;
    // What of the forward half counts, in parts of `standard`.
    let mut credit = standard;
    if after > 0 && forward < 0 {
        after = 0; // 38(10)
    } else if forward > 0 && after < 0 {
        // 38(11): none at 50% of the standard after sum, all at 75%.
        credit = (4 * after_sum - 2 * standard).clamp(0, standard);
    }
    // `standard` is below 2.7e8, either half below 2.3e9: the sum of the products is below 1.3e18.
    forward *= credit;
    after *= standard;
    // 1/30000 mm is 1/30 um; an eighth of each sum, and half of the two.
    down(after + forward, 30 * 8 * 2 * standard)
}

/// Regulation 38(16): tenths of mm that enclosed houses reach before and abaft amidships, each
/// reach limited to 0.1 L.
fn cover_reach(ship: &Ship, length: i64) -> i64 {
    enclosed(ship)
        .map(|(_, house)| {
            let before = 10 * house.fore - 5 * length;
            let abaft = 5 * length - 10 * house.aft;
            if before >= 0 && abaft >= 0 {
                before.min(length) + abaft.min(length)
            } else {
                0
            }
        })
        .sum()
}

/// Regulation 38(14) to (16): what is added, up, and what is deducted, down.
fn sheer_correction(mean: i64, length: i64, covered: i64, reach: i64) -> (i64, i64) {
    // 0.75 - S/2L is (3L - 2S) / 4L; the cover is the reach over 2L tenths.
    let part = 3 * length - 2 * covered;
    if mean < 0 {
        (up(-mean * part, 4 * length), 0)
    } else {
        // Greatest for the longest ship: 5.6e6 x 1.1e6 x 7.3e5, below 4.5e18.
        let excess = down(mean * part * reach, 4 * length * 2 * length);
        (0, excess.min(down(5 * length, 4)))
    }
}

/// Regulation 39(1): bow height, up.
fn bow_height(ship: &Ship, length: i64) -> i64 {
    // b2 in millionths, over 170 M: 0.0129 L / (0.85 M) is 2580000 L / (170 M) millionths.
    let coefficients = 20_800_000 + 609 * limited_cb(ship) - 1_603 * ship.cwf;
    let b2 = up(17 * ship.moulded * coefficients - 2_580_000 * length, 170 * ship.moulded);
    // b1 in um, over 5e9.
    let cubic = 303_750_000_000 * length - 937_500 * length.pow(2) + length.pow(3);
    let b1 = if b2 >= 0 { up(cubic, 5_000_000_000) } else { down(cubic, 5_000_000_000) };
    up(b1 * b2, 1_000_000)
}

/// Regulation 39(2): bow height that sheer and forecastle give.
fn bow_credit(ship: &Ship, forecastle: Option<usize>) -> i64 {
    let [.., sixth, perpendicular] = ship.sheer;
    let sheer = if sixth > 0 { perpendicular } else { 0 };
    let height = forecastle
        .map(|place| &ship.houses[place])
        .filter(|house| 100 * length_within(house, ship.length) >= 7 * ship.length)
        .map_or(0, |house| house.height);
    1000 * (sheer + height as i64)
}
