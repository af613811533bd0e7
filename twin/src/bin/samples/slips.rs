//! Plausible slips in one step of the marks. A case is worth keeping if some slip changes its line.
//!
//! The working below is the steps once more, with at most one slip in it. It is in i128: what fits an
//! i64 when worked rightly need not fit with a slip.

use twin::marks::{self, increase, standard_height, tabular, Marks};
use twin::record::{House, Kind, Ship, MAX_HOUSES};
use twin::refusal::Refusal;

mod timber;

macro_rules! slips {
    ($($name:ident $regulation:literal $text:literal,)*) => {
        #[derive(Clone, Copy, Debug, PartialEq, Eq)]
        pub enum Slip { $($name),* }

        /// Every slip, the regulation or refusal it is in, and what it does.
        pub const SLIPS: &[(Slip, u8, &str)] = &[$((Slip::$name, $regulation, $text)),*];
    };
}
pub(crate) use slips;

slips! {
    HeightRounded 33 "standard height in whole mm",
    HeightSteps 33 "standard height not linear between 75 and 125 m",
    DeckAsHouse 33 "quarterdeck with the standard height of other houses",
    DeckFlat 33 "quarterdeck with 1200 mm below 75 m",
    OverhangCounts 34 "length beyond a perpendicular counts",
    CoveredTwice 34 "house across amidships added to both halves",
    CoveredDeckLimited 34 "quarterdeck limited to 0.6 L in S too",
    OpenCounts 35 "house not enclosed counts",
    LowWhole 35 "low house counts whole",
    HighMore 35 "high house counts more than its length",
    DeckUnlimited 35 "quarterdeck not limited to 0.6 L",
    DeckLimitedLast 35 "quarterdeck limited to 0.6 L after the ratio of heights",
    EffectiveUp 35 "sum of ordinary houses up",
    EffectiveMm 35 "sum of ordinary houses, and quarterdeck, in whole mm",
    EffectiveEach 35 "each house down by itself",
    ForecastleAtFp 35 "no forecastle if the fore end is beyond L",
    ForecastleLast 35 "last house is the forecastle wherever it ends",
    OtherTable 28 "table of the other type",
    RowBelow 28 "row below, not linear",
    RowNearest 28 "nearest row, not linear",
    ShortNever 29 "no addition",
    ShortForA 29 "addition for type A",
    ShortOver100 29 "taken off above 100 m",
    ShortLongHouses 29 "taken off where E is above 0.35 L",
    ShortCovered 29 "S in place of E",
    ShortDown 29 "down",
    FullnessNever 30 "not applied",
    FullnessBelow 30 "applied below 0.68",
    FullnessTable 30 "applied to the table alone",
    FullnessDepth 30 "applied to the depth correction too",
    FullnessUnlimited 30 "Cb above 1.0 taken as it is",
    FullnessDown 30 "down",
    DepthNever 31 "no addition",
    DepthBelow 31 "taken off below L/15 with no house amidships",
    DepthMoulded 31 "M in place of D",
    DepthSlope 31 "L/0.48 from 120 m",
    Depth250 31 "250 below 120 m",
    DepthDown 31 "down",
    DeductAlways 37 "type B without a forecastle gets it",
    DeductForecastleA 37 "type A without a forecastle gets none",
    DeductPlain 37 "0.07 L on the plain length",
    DeductMmNearest 37 "0.07 L on the effective length to the nearest mm",
    DeductMmDown 37 "0.07 L on the effective length down to mm",
    DeductStrict 37 "forecastle of 0.07 L is too short",
    DeductCovered 37 "S in place of E",
    DeductSteps 37 "percentages not linear",
    DeductKnot 37 "full amount linear from 24 to 122 m",
    DeductBeyond 37 "full amount goes on rising above 122 m",
    DeductFullUp 37 "full amount up",
    DeductShareUp 37 "share up",
    DeductUp 37 "product up",
    OrdinatesRounded 38 "standard ordinates in whole mm",
    MultipliersSwapped 38 "multipliers 3, 1, 1, 3",
    AfterCounts 38 "after excess counts with forward deficiency",
    ForwardWhole 38 "forward excess counts whole with after deficiency",
    ForwardNone 38 "forward excess counts nothing with after deficiency",
    ForwardSteps 38 "forward excess counts whole or not, by 75 per cent",
    ForwardFromZero 38 "forward excess linear from 0 to 75 per cent",
    MeanToZero 38 "mean toward zero",
    HalvesDown 38 "each half down before the mean",
    FactorPlain 38 "0.75 without S",
    FactorEffective 38 "E in place of S",
    AddedDown 38 "addition down",
    DeductedUp 38 "deduction up",
    LimitNever 38 "no limit of 1.25 L",
    LimitFirst 38 "limit of 1.25 L before the cover",
    CoverWhole 38 "cover not asked for",
    CoverAny 38 "whole cover if any house stands amidships",
    CoverDeficiency 38 "cover on a deficiency too",
    CoverSumLimited 38 "reaches limited together to 0.2 L",
    CoverJoined 38 "houses that touch join up",
    CoverOne 38 "one house alone counts at L/2",
    CoverStrict 38 "house that ends or begins at L/2 does not count",
    CoverMmDown 38 "L/2 down to mm",
    CoverNoDeck 38 "quarterdeck gives no cover",
    CoverLow 38 "low house amidships counts in the ratio of heights",
    BowNever 39 "not asked for",
    BowDepth 39 "D in place of M",
    BowWholeDepth 39 "M in place of 0.85 M",
    BowCbUnlimited 39 "Cb above 1.0 taken as it is",
    BowCbLeast 39 "Cb at least 0.68",
    BowFactorDown 39 "b2 down",
    BowHeightDown 39 "b1 down with b2 not below zero",
    BowHeightUp 39 "b1 up with b2 below zero",
    BowDown 39 "product down",
    BowSheerAlways 39 "sheer at FP without the ordinate at L/6",
    BowSheerNever 39 "no sheer at FP",
    BowSheerAtZero 39 "ordinate at L/6 of zero is enough",
    BowSheerPositive 39 "sheer at FP never below zero",
    BowShortForecastle 39 "forecastle of any length counts",
    BowEffective 39 "0.07 L on the effective length",
    BowStrict 39 "forecastle of 0.07 L is too short",
    BowHeightLimited 39 "forecastle counts up to the standard height",
    BowHalfHeight 39 "forecastle below half the standard height does not count",
    MarkDown 40 "S down to mm",
    MarkNearest 40 "S to the nearest mm",
    FloorNever 40 "S below 50",
    TropicalFloorNever 40 "T below 50",
    TropicalUp 40 "d/48 up for T",
    WinterDown 40 "d/48 down for W",
    NorthAtlanticStrict 40 "no addition at 100 m",
    NorthAtlanticAlways 40 "addition above 100 m",
    NorthAtlanticNever 40 "no addition",
    FreshUp 40 "allowance up",
    FreshPlain 40 "d/48 for a certified ship",
    FreshLesser 40 "the lesser of both allowances",
    FreshFloor 40 "F and TF at least 50",
    TropicalFreshEarly 40 "TF from T before its floor",
    DraughtMoulded 40 "draught from M",
    TwelveAbove 12 "only above D",
    TwelveNever 12 "never",
    ThirteenAt 13 "at the draught",
    ThirteenNever 13 "never",
    ThirteenExact 13 "on the allowance before it is rounded",
    // A slip's place is its seed: new ones stand here, so that the others keep their random ships.
    DeckUp 35 "quarterdeck up",
    EffectiveTogether 35 "ordinary houses and quarterdeck rounded together",
    EffectiveFirst 35 "first house down by itself though no quarterdeck",
    HouseAsDeck 35 "ordinary house added with the standard height of the quarterdeck",
    LimitEvery 35 "every house limited to 0.6 L",
    ReductionNever 31 "no reduction",
    ReductionAdded 31 "reduction added",
    ReductionUp 31 "reduction up",
    ReductionMm 31 "reduction down to mm",
    ReductionTwice 31 "reduction down before the ratio of heights, too",
    ReductionWhole 31 "reduction whole though the house is low",
    ReductionHigh 31 "reduction greater for a high house",
    ReductionHeightMm 31 "reduction by the standard height in whole mm",
    ReductionDeckAsHouse 31 "reduction for a quarterdeck by the standard height of other houses",
    ReductionHouseAsDeck 31 "reduction by the standard height of a quarterdeck",
    ReductionNoDeck 31 "no reduction for a quarterdeck",
    ReductionOpen 31 "reduction for a house not enclosed",
    ReductionFirst 31 "reduction for the first house alone",
    ReductionForecastle 31 "no reduction for a type B ship without a forecastle",
    ReductionJoined 31 "reduction for houses that touch",
    ReductionAftStrict 31 "house that begins at 0.2 L does not count",
    ReductionForeStrict 31 "house that ends at 0.8 L does not count",
    ReductionAftMm 31 "0.2 L up to mm",
    ReductionForeMm 31 "0.8 L down to mm",
    ReductionFifths 31 "0.8 L as four times 0.2 L in whole mm",
    ReductionMiddle 31 "reduction for a house at 0.5 L",
    ReductionAnywhere 31 "reduction for a house of 0.6 L anywhere",
    ReductionCovered 31 "reduction where S is 0.6 L",
    ReductionEffective 31 "reduction where E is 0.6 L",
    ReductionFloor 31 "reduction never below zero freeboard",
    ReductionAbove 31 "reduction in place of the addition with a house amidships",
    ReductionMoulded 31 "reduction by M in place of D",
    ReductionFifteenth 31 "reduction by L/15 in whole mm",
    ReductionSlope 31 "reduction by L/0.48 from 120 m",
    Reduction250 31 "reduction by 250 below 120 m",
    ReductionAfterBow 31 "reduction taken after the bow height",
    FullnessReduction 30 "applied to the reduction too",
    SheerFloor 38 "freeboard never below zero before it",
    ForwardAboveHalf 38 "forward excess counts whole above 50 per cent",
    MeanToZeroWhole 38 "mean toward zero where no forward excess counts in part",
    MeanToZeroPart 38 "mean toward zero where forward excess counts in part",
    MeanAboveMinusOne 38 "mean between -1 and 0 um taken as 0",
    AddedByCover 38 "nothing added where no house stands amidships",
    ReducedDown 27 "line of B-60 down",
    ReducedNearest 27 "line of B-60 to the nearest um",
    ReducedMm 27 "line of B-60 up to mm",
    ReducedRows 27 "line of B-60 between rows in whole mm",
    ReducedForty 27 "B-60 less 40 per cent",
    ReducedOfA 27 "B-60 less 60 per cent of A",
    ReducedOfB 27 "B-60 less 60 per cent of B",
    ReducedHundred 27 "B-60 less 100 per cent",
    ReducedNever 27 "B-60 not reduced",
    HundredSixty 27 "B-100 less 60 per cent",
    HundredNever 27 "B-100 not reduced",
    ReducedAfterFullness 27 "B-60 reduced after 30",
    HundredAfterFullness 27 "B-100 reduced after 30",
    CoversNever 27 "no increase",
    CoversOnB 27 "increase for B too",
    CoversOnReduced 27 "increase for B-60 and B-100 too",
    CoversOnA 27 "increase over table 28.1",
    CoversAfterFullness 27 "increase after 30",
    CoversAfterBow 27 "increase after the bow height",
    CoversSloping 27 "increase linear below 108 m too",
    CoversLongOnly 27 "no increase below 108 m",
    CoversRowBelow 27 "increase of the row below, not linear",
    CoversRowAbove 27 "increase of the row above, not linear",
    CoversRowNearest 27 "increase of the nearest row, not linear",
    CoversRowNext 27 "increase one row on",
    CoversMm 27 "increase up to mm",
    ShortNotCovers 29 "no addition with portable covers",
    DeductB60Always 37 "B-60 without a forecastle gets it",
    DeductB100Always 37 "B-100 without a forecastle gets it",
    DeductCoversAlways 37 "portable covers without a forecastle get it",
    DeductOnlyB 37 "the forecastle's rule for B alone",
    CoversFloorNever 40 "S and T with portable covers from 50",
    CoversFloorSummer 40 "T with portable covers from 50",
    CoversFloorTropical 40 "S with portable covers from 50",
    CoversFloorFresh 40 "F and TF with portable covers at least 150",
    FloorEvery 40 "S and T of every type at least 150",
    FloorEveryB 40 "S and T of every kind of B at least 150",
    SidesNever 35 "breadths left out",
    SidesTurned 35 "ratio of breadths turned over",
    SidesOne 35 "set in on one side alone",
    SidesLesser 35 "the lesser of both ratios",
    SidesPerCent 35 "ratio of breadths in whole per cent",
    SidesTenThousandths 35 "ratio of breadths in 1/10000, down",
    SidesOfFirst 35 "first house's breadths for every house",
    SidesNotDeck 35 "quarterdeck's breadths left out",
    SidesDeckLimit 35 "quarterdeck limited to 0.6 L after the ratio of breadths",
    SidesUp 35 "set-in house up",
    SidesMm 35 "set-in house down to mm",
    SidesTwice 35 "set-in house down before the ratio of breadths, too",
    SidesTogether 35 "set-in house added to those of full breadth, then rounded",
    SidesSum 35 "set-in houses added, then rounded",
    SidesEqualFull 35 "equal breadths as full breadth",
    SidesEach 35 "every house down by itself where one is set in",
    SidesCovered 34 "ratio of breadths in S too",
    SidesShort 29 "E without the ratio of breadths",
    SidesDeduct 37 "E without the ratio of breadths",
    SidesTest 37 "0.07 L without the ratio of breadths",
    SidesCover 38 "cover by the ratio of breadths",
    SidesReduction 31 "reduction by the ratio of breadths",
    SidesNoReduction 31 "no reduction for a set-in house",
    SidesBowLength 39 "0.07 L by the ratio of breadths",
    SidesBowHeight 39 "forecastle's height by the ratio of breadths",
    TimberNever 45 "no timber marks",
    TimberAlways 45 "timber marks without the flag",
    TimberZeros 45 "zeros printed without the flag",
    TimberRow 45 "LS by the percentages of 37",
    TimberFromZero 45 "LS by 0 per cent where no house is effective",
    TimberNotLinear 45 "timber percentages not linear",
    TimberShareUp 45 "share for timber up",
    TimberProductUp 45 "product for timber up",
    TimberForecastle 45 "deduction for timber without a forecastle",
    TimberTwenty 45 "20 per cent for timber without a forecastle",
    TimberNoShort 45 "LS without 29",
    TimberNoFullness 45 "LS without 30",
    TimberNoDepth 45 "LS without the addition of 31",
    TimberNoReduction 45 "LS without the reduction of 31",
    TimberNoSheer 45 "LS without 38",
    TimberReducedLine 45 "LS by the reduced line",
    TimberSixtyLine 45 "LS of B-60 by its own line",
    TimberHundredLine 45 "LS of B-100 by its own line",
    TimberLineAfterFullness 45 "LS of a reduced ship raised to B's after 30",
    TimberCoversLine 45 "LS with portable covers by the line of B",
    TimberBow 45 "bow height asked for in LS",
    TimberFloor 45 "LS and LT at least 50",
    TimberFloorOfType 45 "LS and LT at least the type's floor",
    TimberFloorCovers 45 "LS and LT with portable covers at least 150",
    TimberTropicalFloor 45 "LT at least 50",
    TimberZero 45 "LS and LT at least 0",
    TimberTropicalZero 45 "LT at least 0",
    TimberFreshZero 45 "LF and LTF at least 0",
    TimberDown 45 "LS down to mm",
    TimberNearest 45 "LS to the nearest mm",
    TimberAway 45 "LS below zero away from zero",
    TimberAtMostSummer 45 "LS of a reduced ship at most S",
    TimberDraughtOfSummer 45 "timber draught by S",
    TimberDraughtMoulded 45 "timber draught from M",
    TimberTropicalUp 45 "d/48 up for LT",
    TimberTropicalThirtySix 45 "d/36 for LT",
    TimberWinterDown 45 "d/36 down for LW",
    TimberWinterFortyEight 45 "d/48 for LW",
    TimberWinterFromSummer 45 "LW from S",
    TimberWinterOrdinary 45 "LW of a reduced ship is W, be it greater",
    TimberCapNever 45 "W does not limit LW",
    TimberCapNotSixty 45 "W does not limit LW of B-60",
    TimberCapNotHundred 45 "W does not limit LW of B-100",
    TimberCapB 45 "W limits LW of B too",
    TimberCapCovers 45 "W limits LW with portable covers too",
    TimberCapGreater 45 "LW the greater of the two",
    TimberCapAtlantic 45 "WNA limits LW of every type",
    TimberCapTropical 45 "LT of a reduced ship at most T",
    TimberAtlanticOwn 45 "LWNA from LW",
    TimberAtlanticWinter 45 "LWNA is W",
    TimberAtlanticLevel 45 "LWNA at least LW",
    TimberFreshCertified 45 "LF and LTF by the certified allowance",
    TimberFreshOrdinary 45 "LF and LTF by the allowance of F",
    TimberFreshUp 45 "d/48 up for LF and LTF",
    TimberFreshThirtySix 45 "d/36 for LF and LTF",
    TimberTropicalFreshOnce 45 "LTF from LS",
    TimberTropicalFreshTogether 45 "LTF by d/24, rounded once",
    TimberAtDepth 45 "LS at D passes",
    TimberBeyondDepth 45 "LS above D passes",
    TimberBelowZeroNone 45 "no timber marks where LS is below zero",
    TimberWinterDepth 45 "no timber marks where LW is at or above D",
    TimberNoneAtlantic 45 "LWNA stands where LS is at or above D",
    TimberNoneUnsaid 45 "nothing printed where LS is at or above D",
    TimberNoneAll 45 "ordinary marks zero too where LS is at or above D",
    TimberTwelve 12 "where LS is at or above D, too",
    TimberNotTwelve 12 "by LS with the flag",
    TimberThirteen 13 "where the allowance is above the timber draught, too",
    TimberNotThirteen 13 "never with the flag",
    FlagRow 37 "timber percentages for S with the flag",
    FlagLine 27 "line of B for S of a reduced ship with the flag",
    FlagBow 39 "not asked for in S with the flag",
    FlagFloor 40 "S and T with no floor with the flag",
    FlagWinter 40 "d/36 for W with the flag",
    FlagFresh 40 "d/48 for F with the flag, though certified",
}

fn down(number: i128, divisor: i128) -> i128 {
    number.div_euclid(divisor)
}

fn up(number: i128, divisor: i128) -> i128 {
    -down(-number, divisor)
}

/// Sum of fractions, over the least divisor of both: an i128 holds it for four breadths of the ship, all unlike.
fn added((a, b): (i128, i128), (c, d): (i128, i128)) -> (i128, i128) {
    let common = divisor(b, d);
    (a * (d / common) + c * (b / common), b / common * d)
}

/// The greatest that divides both.
fn divisor(a: i128, b: i128) -> i128 {
    match b {
        0 => a,
        _ => divisor(b, a % b),
    }
}

/// Table 28.1 or 28.2, um.
fn rows(kind: Kind, length: i64) -> i128 {
    tabular(kind, length).into()
}

/// Houses that touch made one, of the height of the first.
fn join(houses: &mut Vec<House>) {
    houses.dedup_by(|house, before| {
        let touches = house.aft == before.fore;
        if touches {
            before.fore = house.fore;
        }
        touches
    });
}

/// The marks, with a slip or none.
pub fn worked(ship: &Ship, slip: Option<Slip>) -> Result<Marks, Refusal> {
    Working { ship, slip, l: ship.length.into(), timber: false }.marks()
}

/// Whether the slip changes the freeboard before the bow height, be it by a um.
pub fn changes(ship: &Ship, slip: Slip) -> bool {
    let corrected = |slip| Working { ship, slip, l: ship.length.into(), timber: false }.corrected();
    corrected(Some(slip)) != corrected(None)
}

/// Whether the slip changes the ship's marks.
pub fn tells(ship: &Ship, slip: Slip) -> bool {
    worked(ship, Some(slip)) != worked(ship, None)
}

/// From here on each sort of houses is one house.
const ALONE: usize = 2;

#[derive(Clone, Copy)]
struct Working<'a> {
    ship: &'a Ship,
    slip: Option<Slip>,
    /// L, mm.
    l: i128,
    /// For LS.
    timber: bool,
}

impl Working<'_> {
    fn has(&self, slip: Slip) -> bool {
        self.slip == Some(slip)
    }

    /// The slip, in the working of LS.
    fn in_timber(&self, slip: Slip) -> bool {
        self.timber && self.has(slip)
    }

    /// The slip, in the ordinary marks of a ship with the flag.
    fn with_flag(&self, slip: Slip) -> bool {
        self.ship.timber && !self.timber && self.has(slip)
    }

    /// Down, or up under the slip.
    fn down(&self, number: i128, divisor: i128, slip: Slip) -> i128 {
        down(number + if self.has(slip) { divisor - 1 } else { 0 }, divisor)
    }

    /// Up, or down under the slip.
    fn up(&self, number: i128, divisor: i128, slip: Slip) -> i128 {
        up(number - if self.has(slip) { divisor - 1 } else { 0 }, divisor)
    }

    fn marks(&self) -> Result<Marks, Refusal> {
        let ship = self.ship;
        let summer = self.summer();
        let draught = i128::from(ship.depth) - summer;
        let sinks = draught < 0 || draught == 0 && !self.has(Slip::TwelveAbove);
        let sinks = self.sinks_by_timber(sinks);
        Refusal::unless(!sinks || self.has(Slip::TwelveNever), Refusal::MARK_AT_DECK)?;
        let d = match self.has(Slip::DraughtMoulded) {
            true => i128::from(ship.moulded) - summer,
            false => draught,
        };
        let allowance = self.allowance(d);
        Refusal::unless(!self.is_over(allowance, draught), Refusal::FRESH_ALLOWANCE)?;
        let low = summer - self.down(d, 48, Slip::TropicalUp);
        let tropical = match self.slip {
            Some(Slip::TropicalFloorNever) => low,
            Some(Slip::FlagFloor) if ship.timber => low,
            Some(Slip::CoversFloorSummer) => low.max(50),
            _ => low.max(self.floor()),
        };
        let parts = if self.with_flag(Slip::FlagWinter) { 36 } else { 48 };
        let winter = summer + self.up(d, parts, Slip::WinterDown);
        let addition = match self.slip {
            Some(Slip::NorthAtlanticAlways) => 50,
            Some(Slip::NorthAtlanticNever) => 0,
            Some(Slip::NorthAtlanticStrict) => 50 * i128::from(self.l < 100_000),
            _ => 50 * i128::from(self.l <= 100_000),
        };
        let least = match self.slip {
            Some(Slip::FreshFloor) => 50,
            Some(Slip::CoversFloorFresh) if ship.kind == Kind::Covers => 150,
            _ => i128::MIN,
        };
        let tropical_fresh = if self.has(Slip::TropicalFreshEarly) { low } else { tropical };
        Ok(self.with_timber(Marks {
            summer: summer as i64,
            tropical: tropical as i64,
            winter: winter as i64,
            winter_north_atlantic: (winter + addition) as i64,
            fresh: (summer - allowance).max(least) as i64,
            tropical_fresh: (tropical_fresh - allowance).max(least) as i64,
            timber: None,
        }))
    }

    /// 40(7), and 40(8) if not certified.
    fn allowance(&self, d: i128) -> i128 {
        let plain = self.down(d, 48, Slip::FreshUp);
        match (25 * i128::from(self.ship.displacement), i128::from(self.ship.immersion)) {
            (0, _) => plain,
            _ if self.has(Slip::FreshPlain) || self.with_flag(Slip::FlagFresh) => plain,
            (weight, immersion) => match self.down(weight, immersion, Slip::FreshUp) {
                allowance if self.has(Slip::FreshLesser) => allowance.min(plain),
                allowance => allowance,
            },
        }
    }

    /// Refusal 13.
    fn is_over(&self, allowance: i128, draught: i128) -> bool {
        let ship = self.ship;
        let weight = 25 * i128::from(ship.displacement);
        let immersion = i128::from(ship.immersion);
        match self.slip {
            Some(Slip::ThirteenAt) => allowance >= draught,
            Some(Slip::ThirteenNever) => false,
            Some(Slip::ThirteenExact) => weight > immersion * draught && immersion > 0,
            Some(Slip::TimberThirteen) if ship.timber => {
                allowance > draught.min(self.timber_draught())
            }
            Some(Slip::TimberNotThirteen) if ship.timber => false,
            _ => allowance > draught,
        }
    }

    fn summer(&self) -> i128 {
        let no_bow = self.has(Slip::BowNever) || self.with_flag(Slip::FlagBow);
        let bow = if no_bow { i128::MIN } else { self.bow() };
        let freeboard = match self.slip {
            Some(Slip::ReductionAfterBow) => self.corrected().max(bow) - self.reduction(),
            Some(Slip::CoversAfterBow) if self.ship.kind == Kind::Covers => {
                self.corrected().max(bow) + self.increase()
            }
            _ => self.corrected().max(bow),
        };
        let mark = match self.slip {
            Some(Slip::MarkDown) => down(freeboard, 1000),
            Some(Slip::MarkNearest) => down(freeboard + 500, 1000),
            _ => up(freeboard, 1000),
        };
        match self.slip {
            Some(Slip::FloorNever) => mark,
            Some(Slip::FlagFloor) if self.ship.timber => mark,
            Some(Slip::CoversFloorTropical) => mark.max(50),
            _ => mark.max(self.floor()),
        }
    }

    /// 40(2) and (4)
    fn floor(&self) -> i128 {
        match self.slip {
            Some(Slip::CoversFloorNever) => 50,
            Some(Slip::FloorEvery) => 150,
            Some(Slip::FloorEveryB) if self.ship.kind != Kind::A => 150,
            _ => marks::floor(self.ship.kind).into(),
        }
    }

    fn enclosed(&self) -> impl Iterator<Item = &House> {
        self.ship.houses.iter().filter(|house| house.enclosed || self.has(Slip::OpenCounts))
    }

    fn forecastle(&self) -> Option<&House> {
        match self.slip {
            Some(Slip::ForecastleAtFp) => self.enclosed().find(|h| h.fore == self.ship.length),
            Some(Slip::ForecastleLast) => self.enclosed().last(),
            _ => self.enclosed().find(|h| h.fore >= self.ship.length),
        }
    }

    /// 34: mm within the perpendiculars.
    fn within(&self, house: &House) -> i128 {
        let (aft, fore) = (i128::from(house.aft), i128::from(house.fore));
        if self.has(Slip::OverhangCounts) {
            fore - aft
        } else {
            fore.min(self.l) - aft.max(0)
        }
    }

    /// S, mm.
    fn covered(&self) -> i128 {
        let part = |house: &House| {
            let across = 2 * house.aft < self.ship.length && 2 * house.fore > self.ship.length;
            match self.within(house) {
                l if self.has(Slip::CoveredTwice) && across => 2 * l,
                l if self.has(Slip::CoveredDeckLimited) && house.quarterdeck => {
                    l.min(3 * self.l / 5)
                }
                l if self.has(Slip::SidesCovered) => self.by_breadths(l, house),
                l => l,
            }
        };
        self.enclosed().map(part).sum()
    }

    /// 33: standard height as a fraction of mm.
    fn standard(&self, quarterdeck: bool) -> (i128, i128) {
        let quarterdeck = quarterdeck && !self.has(Slip::DeckAsHouse);
        let length = self.ship.length;
        let (mm, parts) = standard_height(quarterdeck, length);
        let (mm, parts) = match self.slip {
            Some(Slip::HeightRounded) => (mm / parts, 1),
            Some(Slip::HeightSteps) if (75_000..125_000).contains(&length) => {
                standard_height(quarterdeck, 75_000)
            }
            Some(Slip::DeckFlat) if quarterdeck && length < 75_000 => (1_200, 1),
            _ => (mm, parts),
        };
        (mm.into(), parts.into())
    }

    /// 35(2): the house's breadth over the ship's, 1 for full breadth.
    fn breadths(&self, house: &House) -> (i128, i128) {
        let house = match self.has(Slip::SidesOfFirst) {
            true => &self.ship.houses[0],
            false => house,
        };
        let (breadth, beam) = (i128::from(house.breadth), i128::from(house.beam));
        match self.slip {
            _ if house.has_full_breadth() => (1, 1),
            Some(Slip::SidesNever) => (1, 1),
            Some(Slip::SidesNotDeck) if house.quarterdeck => (1, 1),
            Some(Slip::SidesTurned) => (beam, breadth),
            Some(Slip::SidesOne) => (beam + breadth, 2 * beam),
            Some(Slip::SidesPerCent) => (100 * breadth / beam, 100),
            Some(Slip::SidesTenThousandths) => (10_000 * breadth / beam, 10_000),
            _ => (breadth, beam),
        }
    }

    /// The number times the ratio of breadths, down.
    fn by_breadths(&self, number: i128, house: &House) -> i128 {
        let (breadth, beam) = self.breadths(house);
        down(number * breadth, beam)
    }

    /// 35: effective length as a fraction of um.
    fn effective(&self, house: &House) -> (i128, i128) {
        self.effective_by(house, house.quarterdeck)
    }

    /// The same with the standard height of a quarterdeck, or of another house.
    fn effective_by(&self, house: &House, quarterdeck: bool) -> (i128, i128) {
        let (um, standard) = self.by_height(house, quarterdeck);
        let (breadth, beam) = self.breadths(house);
        let most = 600 * self.l;
        match self.slip {
            // By the lower ratio alone.
            Some(Slip::SidesLesser)
                if um * beam <= 1000 * self.within(house) * standard * breadth =>
            {
                (um, standard)
            }
            Some(Slip::SidesLesser) => (1000 * self.within(house) * breadth, beam),
            Some(Slip::SidesTwice) if beam > 1 => (down(um, standard) * breadth, beam),
            // The limit is left out of the length by height.
            Some(Slip::SidesDeckLimit) if house.quarterdeck => {
                let whole = 1000 * self.within(house);
                let limited = (whole * breadth).min(most * beam);
                (um * limited, standard * beam * whole.min(most))
            }
            _ => (um * breadth, standard * beam),
        }
    }

    /// Effective length without the ratio of breadths.
    fn by_height(&self, house: &House, quarterdeck: bool) -> (i128, i128) {
        let (whole, most) = (1000 * self.within(house), 600 * self.l);
        let (standard, parts) = self.standard(quarterdeck);
        let height = match i128::from(house.height) * parts {
            height if self.has(Slip::HighMore) => height,
            _ if self.has(Slip::LowWhole) => standard,
            height => height.min(standard),
        };
        let limited = match self.slip {
            Some(Slip::DeckUnlimited) => false,
            Some(Slip::LimitEvery) => true,
            _ => house.quarterdeck,
        };
        let um = match limited {
            false => whole * height,
            true if self.has(Slip::DeckLimitedLast) => (whole * height).min(most * standard),
            true => whole.min(most) * height,
        };
        (um, standard)
    }

    /// E, um.
    fn effective_sum(&self) -> i128 {
        let decked = self.enclosed().any(|house| house.quarterdeck);
        // Houses of one sort are added, then rounded.
        let mut sorts = [(0, 1); ALONE + MAX_HOUSES];
        for (i, house) in self.enclosed().enumerate() {
            let sort = self.sort(i, house);
            let as_deck = house.quarterdeck || decked && self.has(Slip::HouseAsDeck);
            sorts[sort] = added(sorts[sort], self.effective_by(house, as_deck));
        }
        let rounded = |(sort, (um, parts)): (usize, (i128, i128))| match self.slip {
            Some(Slip::EffectiveMm) => 1000 * down(um, 1000 * parts),
            Some(Slip::SidesMm) if sort >= ALONE => 1000 * down(um, 1000 * parts),
            Some(Slip::DeckUp) if sort == 0 => up(um, parts),
            Some(Slip::EffectiveUp) if sort == 1 => up(um, parts),
            Some(Slip::SidesUp) if sort >= ALONE => up(um, parts),
            _ => down(um, parts),
        };
        sorts.into_iter().enumerate().map(rounded).sum()
    }

    /// With which others the i-th enclosed house is added: a quarterdeck, ordinary houses, or none.
    fn sort(&self, i: usize, house: &House) -> usize {
        let equal = house.breadth == house.beam;
        let set_in = match self.slip {
            Some(Slip::SidesTogether) => false,
            Some(Slip::SidesEqualFull) => !equal,
            Some(Slip::SidesEach) => self.enclosed().any(|house| !house.has_full_breadth()),
            _ => !house.has_full_breadth(),
        };
        match self.slip {
            Some(Slip::SidesSum) if set_in => ALONE,
            Some(Slip::EffectiveEach) => ALONE + i,
            _ if set_in => ALONE + i,
            Some(Slip::EffectiveTogether) => 0,
            Some(Slip::EffectiveFirst) => usize::from(i > 0),
            _ => usize::from(!house.quarterdeck),
        }
    }

    /// E with no ratio of breadths, um.
    fn effective_sum_by_height(&self) -> i128 {
        Working { slip: Some(Slip::SidesNever), ..*self }.effective_sum()
    }

    fn corrected(&self) -> i128 {
        let (covered, effective) = (self.covered(), self.effective_sum());
        let (depth, reduction) = (self.depth(), self.reduction());
        let (table, later) = self.line();
        let short = self.short_b(match self.slip {
            Some(Slip::ShortCovered) => 1000 * covered,
            Some(Slip::SidesShort) => self.effective_sum_by_height(),
            _ => effective,
        });
        let added = match self.slip {
            Some(Slip::FullnessTable) => self.fullness(table) + short + depth,
            Some(Slip::FullnessDepth) => self.fullness(table + short + depth),
            Some(Slip::FullnessReduction) => self.fullness(table + short - reduction) + depth,
            _ => self.fullness(table + short) + later + depth,
        };
        let reduced = match self.slip {
            Some(Slip::FullnessReduction | Slip::ReductionAfterBow) => added,
            Some(Slip::ReductionAdded) => added + reduction,
            Some(Slip::ReductionFloor) => (added - reduction).max(0),
            _ => added - reduction,
        };
        let deducted = self.deduction(match self.slip {
            Some(Slip::DeductCovered) => 1000 * covered,
            Some(Slip::SidesDeduct) => self.effective_sum_by_height(),
            _ => effective,
        });
        let freeboard = match self.has(Slip::SheerFloor) {
            true => (reduced - deducted).max(0),
            false => reduced - deducted,
        };
        freeboard + self.by_sheer(covered, effective)
    }

    /// 38, by the covered length in mm, or the effective one in um.
    fn by_sheer(&self, covered: i128, effective: i128) -> i128 {
        match self.slip {
            _ if self.in_timber(Slip::TimberNoSheer) => 0,
            Some(Slip::FactorPlain) => self.sheer(0),
            Some(Slip::FactorEffective) => self.sheer(effective),
            _ => self.sheer(1000 * covered),
        }
    }

    /// 27 and 28: the line of a type, and what a slip adds to the freeboard after 30.
    fn table(&self, kind: Kind) -> (i128, i128) {
        let length = match self.slip {
            Some(Slip::RowBelow) => self.ship.length / 1000 * 1000,
            Some(Slip::RowNearest) => (self.ship.length + 500) / 1000 * 1000,
            _ => self.ship.length,
        };
        let (a, b) = match self.has(Slip::OtherTable) {
            true => (rows(Kind::B, length), rows(Kind::A, length)),
            false => (rows(Kind::A, length), rows(Kind::B, length)),
        };
        let line = match (kind, self.slip) {
            (Kind::B, Some(Slip::CoversOnB)) => b + self.increase(),
            (Kind::B60, Some(Slip::CoversOnReduced)) => self.reduced(a, b) + self.increase(),
            (Kind::B100, Some(Slip::CoversOnReduced)) => a + self.increase(),
            (Kind::B60, Some(Slip::ReducedAfterFullness)) => return (b, self.reduced(a, b) - b),
            (Kind::B100, Some(Slip::HundredAfterFullness)) => return (b, a - b),
            (Kind::B100, Some(Slip::HundredNever)) => b,
            (Kind::B100, Some(Slip::HundredSixty)) => self.reduced(a, b),
            (Kind::Covers, Some(Slip::CoversNever | Slip::CoversAfterBow)) => b,
            (Kind::Covers, Some(Slip::CoversAfterFullness)) => return (b, self.increase()),
            (Kind::Covers, Some(Slip::CoversOnA)) => a + self.increase(),
            (Kind::Covers, _) => b + self.increase(),
            (Kind::B60, _) => self.reduced(a, b),
            (Kind::A | Kind::B100, _) => a,
            (Kind::B, _) => b,
        };
        (line, 0)
    }

    /// 27(9): B less 60 per cent of the difference.
    fn reduced(&self, a: i128, b: i128) -> i128 {
        let fifths = 2 * b + 3 * a;
        match self.slip {
            Some(Slip::ReducedDown) => down(fifths, 5),
            Some(Slip::ReducedNearest) => down(2 * fifths + 5, 10),
            Some(Slip::ReducedMm) => 1000 * up(fifths, 5000),
            Some(Slip::ReducedRows) => {
                let row = |metres: i64| {
                    let length = (1000 * metres).min(365_000);
                    up(2 * rows(Kind::B, length) + 3 * rows(Kind::A, length), 5000)
                };
                let (metres, beyond) = (self.ship.length / 1000, self.l % 1000);
                1000 * row(metres) + (row(metres + 1) - row(metres)) * beyond
            }
            Some(Slip::ReducedForty) => up(3 * b + 2 * a, 5),
            Some(Slip::ReducedOfA) => up(5 * b - 3 * a, 5),
            Some(Slip::ReducedOfB) => up(2 * b, 5),
            Some(Slip::ReducedHundred) => a,
            Some(Slip::ReducedNever) => b,
            _ => up(fifths, 5),
        }
    }

    /// 27(6): table 27.1.
    fn increase(&self) -> i128 {
        let length = self.ship.length;
        let of = |length| i128::from(increase(length));
        match self.slip {
            // The first two rows are 50 and 52 mm.
            Some(Slip::CoversSloping) if length < 108_000 => 50_000 - 2 * (108_000 - self.l),
            Some(Slip::CoversLongOnly) if length < 108_000 => 0,
            Some(Slip::CoversRowBelow) => of(length / 1000 * 1000),
            Some(Slip::CoversRowAbove) => of((length + 999) / 1000 * 1000),
            Some(Slip::CoversRowNearest) => of((length + 500) / 1000 * 1000),
            Some(Slip::CoversRowNext) => of(length + 1000),
            Some(Slip::CoversMm) => 1000 * up(of(length), 1000),
            _ => of(length),
        }
    }

    /// 29
    fn short_b(&self, effective: i128) -> i128 {
        let l = self.l;
        let type_b = match (self.ship.kind, self.slip) {
            (Kind::A, slip) => slip == Some(Slip::ShortForA),
            (Kind::Covers, Some(Slip::ShortNotCovers)) => false,
            _ => true,
        };
        let short = l < 100_000 || self.has(Slip::ShortOver100);
        let few = effective < 350 * l || self.has(Slip::ShortLongHouses);
        let never = self.has(Slip::ShortNever) || self.in_timber(Slip::TimberNoShort);
        if type_b && short && few && !never {
            self.up(3 * (100_000 - l) * (350 * l - effective), 400 * l, Slip::ShortDown)
        } else {
            0
        }
    }

    /// 30
    fn fullness(&self, freeboard: i128) -> i128 {
        let cb = i128::from(self.ship.cb);
        let cb = if self.has(Slip::FullnessUnlimited) { cb } else { cb.min(10_000) };
        let applies = cb > 6_800 || self.has(Slip::FullnessBelow);
        let never = self.has(Slip::FullnessNever) || self.in_timber(Slip::TimberNoFullness);
        if applies && !never {
            self.up(freeboard * (cb + 6_800), 13_600, Slip::FullnessDown)
        } else {
            freeboard
        }
    }

    /// 31(1)
    fn depth(&self) -> i128 {
        let depth = if self.has(Slip::DepthMoulded) { self.ship.moulded } else { self.ship.depth };
        let excess = match self.slip {
            Some(Slip::DepthNever) => 0,
            Some(Slip::TimberNoDepth) if self.timber => 0,
            Some(Slip::ReductionAbove) if self.amidships().is_some() => 0,
            _ => (15 * i128::from(depth) - self.l).max(0),
        };
        let sloping = match self.slip {
            Some(Slip::DepthSlope) => true,
            Some(Slip::Depth250) => false,
            _ => self.l < 120_000,
        };
        if sloping {
            self.up(excess * self.l, 7_200, Slip::DepthDown)
        } else {
            self.up(excess * 50, 3, Slip::DepthDown)
        }
    }

    /// 31(2) and (3)
    fn reduction(&self) -> i128 {
        let ship = self.ship;
        let depth = if self.has(Slip::ReductionMoulded) { ship.moulded } else { ship.depth };
        let lack = self.l - 15 * i128::from(depth);
        let lack = match self.slip {
            Some(Slip::ReductionNever) => 0,
            Some(Slip::TimberNoReduction) if self.timber => 0,
            Some(Slip::ReductionAbove) => lack.abs(),
            Some(Slip::ReductionFifteenth) => (lack - self.l % 15).max(0),
            Some(Slip::ReductionForecastle)
                if ship.kind != Kind::A && self.forecastle().is_none() =>
            {
                0
            }
            _ => lack.max(0),
        };
        let Some((height, standard)) = self.amidships() else { return 0 };
        let sloping = match self.slip {
            Some(Slip::ReductionSlope) => true,
            Some(Slip::Reduction250) => false,
            _ => self.l < 120_000,
        };
        let (um, parts) = if sloping { (lack * self.l, 7_200) } else { (lack * 50, 3) };
        match self.slip {
            Some(Slip::ReductionMm) => 1000 * down(um * height, 1000 * parts * standard),
            Some(Slip::ReductionTwice) => down(down(um, parts) * height, standard),
            _ => self.down(um * height, parts * standard, Slip::ReductionUp),
        }
    }

    /// Height over standard height of the house amidships, if there is one.
    fn amidships(&self) -> Option<(i128, i128)> {
        let Some(house) = self.house_amidships() else {
            return self.has(Slip::DepthBelow).then_some((1, 1));
        };
        let (standard, parts) = self.standard(match self.slip {
            Some(Slip::ReductionDeckAsHouse) => false,
            Some(Slip::ReductionHouseAsDeck) => true,
            _ => house.quarterdeck,
        });
        let (standard, parts) = match self.slip {
            Some(Slip::ReductionHeightMm) => (standard / parts, 1),
            _ => (standard, parts),
        };
        let height = match i128::from(house.height) * parts {
            _ if self.has(Slip::ReductionWhole) => standard,
            height if self.has(Slip::ReductionHigh) => height,
            height => height.min(standard),
        };
        match self.breadths(&house) {
            (breadth, beam) if self.has(Slip::SidesReduction) => {
                Some((height * breadth, standard * beam))
            }
            _ => Some((height, standard)),
        }
    }

    /// The house from 0.2 L to 0.8 L.
    fn house_amidships(&self) -> Option<House> {
        let mut houses: Vec<House> = match self.has(Slip::ReductionOpen) {
            true => self.ship.houses.to_vec(),
            false => self.enclosed().copied().collect(),
        };
        match self.slip {
            Some(Slip::ReductionJoined) => join(&mut houses),
            Some(Slip::ReductionFirst) => houses.truncate(1),
            Some(Slip::ReductionNoDeck) => houses.retain(|house| !house.quarterdeck),
            Some(Slip::SidesNoReduction) => houses.retain(House::has_full_breadth),
            _ => {}
        }
        // With either slip the longest house has the height that counts.
        let long = match self.slip {
            Some(Slip::ReductionCovered) => Some(5 * self.covered() >= 3 * self.l),
            Some(Slip::ReductionEffective) => Some(self.effective_sum() >= 600 * self.l),
            _ => None,
        };
        let longest = || houses.iter().max_by_key(|house| self.within(house));
        match long {
            Some(enough) => longest().filter(|_| enough).copied(),
            None => houses.iter().find(|house| self.covers_middle(house)).copied(),
        }
    }

    fn covers_middle(&self, house: &House) -> bool {
        let (l, aft, fore) = (self.l, i128::from(house.aft), i128::from(house.fore));
        match self.slip {
            Some(Slip::ReductionAftStrict) => 5 * aft < l && 5 * fore >= 4 * l,
            Some(Slip::ReductionForeStrict) => 5 * aft <= l && 5 * fore > 4 * l,
            Some(Slip::ReductionAftMm) => aft <= up(l, 5) && 5 * fore >= 4 * l,
            Some(Slip::ReductionForeMm) => 5 * aft <= l && fore >= down(4 * l, 5),
            Some(Slip::ReductionFifths) => aft <= down(l, 5) && fore >= 4 * down(l, 5),
            Some(Slip::ReductionMiddle) => 2 * aft <= l && 2 * fore >= l,
            Some(Slip::ReductionAnywhere) => 5 * self.within(house) >= 3 * l,
            _ => 5 * aft <= l && 5 * fore >= 4 * l,
        }
    }

    /// 37
    fn deduction(&self, effective: i128) -> i128 {
        let l = self.l;
        let asked = match (self.slip, self.ship.kind) {
            (Some(Slip::DeductAlways), _)
            | (Some(Slip::DeductB60Always), Kind::B60)
            | (Some(Slip::DeductB100Always), Kind::B100)
            | (Some(Slip::DeductCoversAlways), Kind::Covers)
            | (Some(Slip::DeductOnlyB), Kind::B60 | Kind::B100 | Kind::Covers) => false,
            (Some(Slip::TimberForecastle), _) if self.timber => false,
            (Some(Slip::DeductForecastleA), _) => true,
            (_, kind) => kind != Kind::A,
        };
        let long = self.forecastle().is_some_and(|house| self.is_long(house));
        if asked && !long && !self.in_timber(Slip::TimberTwenty) {
            return 0;
        }
        // 20 per cent are those at no effective length.
        let effective = if asked && !long { 0 } else { effective };
        let point = |(x0, y0): (i128, i128), (x1, y1): (i128, i128)| {
            let rise = (y1 - y0) * 1000 * (l - x0);
            1000 * y0 + self.down(rise, x1 - x0, Slip::DeductFullUp)
        };
        let ends = [(24_000, 350), (85_000, 860), (122_000, 1_070)];
        let full = match self.slip {
            Some(Slip::DeductKnot) if l < 122_000 => point(ends[0], ends[2]),
            Some(Slip::DeductBeyond) if l >= 122_000 => point(ends[1], ends[2]),
            _ if l < 85_000 => point(ends[0], ends[1]),
            _ if l < 122_000 => point(ends[1], ends[2]),
            _ => 1_070_000,
        };
        let share = self.share(effective);
        match self.in_timber(Slip::TimberProductUp) {
            true => up(full * share, 1_000_000),
            false => self.down(full * share, 1_000_000, Slip::DeductUp),
        }
    }

    /// 37(2) and 45(1): millionths of the full deduction.
    fn share(&self, effective: i128) -> i128 {
        let percentages = self.percentages();
        let tenth = 100 * self.l;
        let below = (effective / tenth).min(10) as usize;
        let steps = self.has(Slip::DeductSteps) || self.in_timber(Slip::TimberNotLinear);
        let beyond = if steps { 0 } else { effective - below as i128 * tenth };
        let rise = 1000 * (percentages[below + 1] - percentages[below]) * beyond;
        let beyond = match self.in_timber(Slip::TimberShareUp) {
            true => up(rise, tenth),
            false => self.down(rise, tenth, Slip::DeductShareUp),
        };
        1000 * percentages[below] + beyond
    }

    /// 37(3): the forecastle has 0.07 L.
    fn is_long(&self, house: &House) -> bool {
        let (um, parts) = match self.slip {
            Some(Slip::SidesTest) => self.by_height(house, house.quarterdeck),
            _ => self.effective(house),
        };
        let least = 70 * self.l;
        match self.slip {
            Some(Slip::DeductPlain) => 1000 * self.within(house) >= least,
            Some(Slip::DeductMmNearest) => down(um + 500 * parts, 1000 * parts) * 1000 >= least,
            Some(Slip::DeductMmDown) => down(um, 1000 * parts) * 1000 >= least,
            Some(Slip::DeductStrict) => um > least * parts,
            _ => um >= least * parts,
        }
    }

    /// 38(8) to (11): the mean excess, um.
    fn mean(&self) -> i128 {
        let sheer = self.ship.sheer.map(i128::from);
        let third = self.l + 30_000; // 3000 u
        let times: [i128; 6] = match self.has(Slip::MultipliersSwapped) {
            true => [3, 1, 1, 1, 1, 3],
            false => [1, 3, 3, 3, 3, 1],
        };
        // 1/30000 mm.
        let standard = [250, 111, 28, 56, 222, 500].map(|tenths| match self.slip {
            Some(Slip::OrdinatesRounded) => 30_000 * down(tenths * third + 15_000, 30_000),
            _ => tenths * third,
        });
        let sum = |half: std::ops::Range<usize>, of: &[i128; 6]| -> i128 {
            half.map(|i| times[i] * of[i]).sum()
        };
        let after_standard = sum(0..3, &standard);
        let after_sum = 30_000 * sum(0..3, &sheer);
        let mut after = after_sum - after_standard;
        let forward = 30_000 * sum(3..6, &sheer) - sum(3..6, &standard);
        let mut credit = after_standard;
        if after > 0 && forward < 0 && !self.has(Slip::AfterCounts) {
            after = 0;
        } else if forward > 0 && after < 0 {
            credit = match self.slip {
                Some(Slip::ForwardWhole) => after_standard,
                Some(Slip::ForwardNone) => 0,
                Some(Slip::ForwardSteps) if 4 * after_sum < 3 * after_standard => 0,
                Some(Slip::ForwardSteps) => after_standard,
                Some(Slip::ForwardFromZero) => (4 * after_sum / 3).clamp(0, after_standard),
                Some(Slip::ForwardAboveHalf) if 2 * after_sum > after_standard => after_standard,
                _ => (4 * after_sum - 2 * after_standard).clamp(0, after_standard),
            };
        }
        let in_part = 0 < credit && credit < after_standard;
        let (after, forward) = (after * after_standard, forward * credit);
        let parts = 30 * 8 * after_standard;
        let to_zero = (after + forward) / (2 * parts);
        match self.slip {
            Some(Slip::MeanToZero) => to_zero,
            Some(Slip::MeanToZeroWhole) if !in_part => to_zero,
            Some(Slip::MeanToZeroPart) if in_part => to_zero,
            Some(Slip::MeanAboveMinusOne) if to_zero == 0 => 0,
            Some(Slip::HalvesDown) => down(down(after, parts) + down(forward, parts), 2),
            _ => down(after + forward, 2 * parts),
        }
    }

    /// 38(16): tenths of mm, 2 L at most.
    fn reach(&self) -> i128 {
        let l = self.l;
        let middle = if self.has(Slip::CoverMmDown) { 10 * (l / 2) } else { 5 * l };
        let mut houses: Vec<House> = self.enclosed().copied().collect();
        if self.has(Slip::CoverJoined) {
            join(&mut houses);
        }
        let reaches = houses.iter().filter_map(|house| {
            let before = 10 * i128::from(house.fore) - middle;
            let abaft = middle - 10 * i128::from(house.aft);
            let strict = self.has(Slip::CoverStrict) && (before == 0 || abaft == 0);
            if before < 0 || abaft < 0 || strict {
                return None;
            }
            if self.has(Slip::CoverNoDeck) && house.quarterdeck {
                return None;
            }
            let reach = match self.has(Slip::CoverSumLimited) {
                true => (before + abaft).min(2 * l),
                false => before.min(l) + abaft.min(l),
            };
            let (standard, parts) = self.standard(house.quarterdeck);
            let height = (i128::from(house.height) * parts).min(standard);
            Some(match self.slip {
                Some(Slip::CoverLow) => reach * height / standard,
                Some(Slip::SidesCover) => self.by_breadths(reach, house),
                _ => reach,
            })
        });
        let reach = match self.has(Slip::CoverOne) {
            true => reaches.max().unwrap_or(0),
            false => reaches.sum(),
        };
        match self.slip {
            Some(Slip::CoverWhole) => 2 * l,
            Some(Slip::CoverAny) if reach > 0 => 2 * l,
            _ => reach,
        }
    }

    /// 38(14) to (16): what is added, negative if deducted. S comes in um.
    fn sheer(&self, covered: i128) -> i128 {
        let (l, mean) = (self.l, self.mean());
        let part = 3_000 * l - 2 * covered;
        if mean < 0 {
            let reach = match self.slip {
                Some(Slip::CoverDeficiency) => self.reach(),
                Some(Slip::AddedByCover) if self.reach() == 0 => 0,
                _ => 2 * l,
            };
            return self.up(-mean * part * reach, 8_000 * l * l, Slip::AddedDown);
        }
        let limit = match self.has(Slip::LimitNever) {
            true => i128::MAX,
            false => down(5 * l, 4),
        };
        let reach = self.reach();
        if self.has(Slip::LimitFirst) {
            return -down(down(mean * part, 4_000 * l).min(limit) * reach, 2 * l);
        }
        -self.down(mean * part * reach, 8_000 * l * l, Slip::DeductedUp).min(limit)
    }

    /// 39
    fn bow(&self) -> i128 {
        let (ship, l) = (self.ship, self.l);
        let moulded = i128::from(if self.has(Slip::BowDepth) { ship.depth } else { ship.moulded });
        let cb = match i128::from(ship.cb) {
            cb if self.has(Slip::BowCbUnlimited) => cb,
            cb if self.has(Slip::BowCbLeast) => cb.clamp(6_800, 10_000),
            cb => cb.min(10_000),
        };
        let coefficients = 20_800_000 + 609 * cb - 1_603 * i128::from(ship.cwf);
        let parts = if self.has(Slip::BowWholeDepth) { 200 } else { 170 };
        let b2 = self.up(
            parts * moulded * coefficients - 25_800_000 * l,
            10 * parts * moulded,
            Slip::BowFactorDown,
        );
        let cubic = 303_750_000_000 * l - 937_500 * l * l + l * l * l;
        let upward = match self.slip {
            Some(Slip::BowHeightDown) => false,
            Some(Slip::BowHeightUp) => true,
            _ => b2 >= 0,
        };
        let b1 = if upward { up(cubic, 5_000_000_000) } else { down(cubic, 5_000_000_000) };
        let height = self.up(b1 * b2, 1_000_000, Slip::BowDown);
        height - 1000 * (self.bow_sheer() + self.bow_forecastle())
    }

    fn bow_sheer(&self) -> i128 {
        let [.., sixth, perpendicular] = self.ship.sheer.map(i128::from);
        let counts = match self.slip {
            Some(Slip::BowSheerAlways) => true,
            Some(Slip::BowSheerNever) => false,
            Some(Slip::BowSheerAtZero) => sixth >= 0,
            _ => sixth > 0,
        };
        match counts {
            true if self.has(Slip::BowSheerPositive) => perpendicular.max(0),
            true => perpendicular,
            false => 0,
        }
    }

    fn bow_forecastle(&self) -> i128 {
        let Some(house) = self.forecastle() else { return 0 };
        let (l, length) = (self.l, 1000 * self.within(house));
        let long_enough = match self.slip {
            Some(Slip::BowShortForecastle) => true,
            Some(Slip::BowEffective) => {
                let (um, parts) = self.effective(house);
                um >= 70 * l * parts
            }
            Some(Slip::BowStrict) => length > 70 * l,
            Some(Slip::SidesBowLength) => self.by_breadths(length, house) >= 70 * l,
            _ => length >= 70 * l,
        };
        let height = i128::from(house.height);
        let (standard, parts) = self.standard(house.quarterdeck);
        match self.slip {
            _ if !long_enough => 0,
            Some(Slip::BowHeightLimited) => height.min(standard / parts),
            Some(Slip::BowHalfHeight) if 2 * height * parts < standard => 0,
            Some(Slip::SidesBowHeight) => self.by_breadths(height, house),
            _ => height,
        }
    }
}
