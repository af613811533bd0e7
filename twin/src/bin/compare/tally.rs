//! What was compared, how many marks of each type were in it, how many have a house that is set in, a
//! reduction for depth or timber marks, and how often each refusal was seen, 11, 18 and 22 to 24 in each
//! call; for inputs around the borders of sheer, where the marks lie.

use std::fmt;

use twin::marks::{self, Steps, Timber};
use twin::record::{self, Ship};

use crate::frame::{Answer, REFUSAL};
use crate::input::{Input, Kind};
use crate::judge;
use crate::sheer;

/// Of records that are not around the borders of sheer.
const KINDS: [Kind; 9] = [
    Kind::Valid,
    Kind::WholeMm,
    Kind::Border,
    Kind::List,
    Kind::Head,
    Kind::Side,
    Kind::Timber,
    Kind::Damaged,
    Kind::Noise,
];
const TYPES: [&str; 5] = ["A", "B", "B-60", "B-100", "portable covers"];
const WRITES_BACK: &str = "writes back";
const CALLS: [&str; 5] = ["marks", "reads", WRITES_BACK, "writes", "questions"];
const REFUSALS: [usize; 21] =
    [1, 2, 3, 24, 4, 5, 6, 7, 22, 8, 9, 23, 10, 11, 18, 12, 13, 14, 15, 16, 17];
/// Those that are counted by call.
const LATER: [usize; 5] = [11, 18, 22, 23, 24];
/// One more than the greatest.
const NUMBERS: usize = 25;

#[derive(Default)]
pub struct Tally {
    pub inputs: u64,
    /// In the order of `Kind`.
    kinds: [u64; 10],
    /// Calls made and accepted, in the order of `CALLS`.
    calls: [(u64, u64); CALLS.len()],
    /// Marks of each type.
    types: [u64; TYPES.len()],
    /// Summer marks at 50 and at 150, the floor of their type.
    floors: [u64; 2],
    /// Records that were read, by version, and how many of each were written back in a lower one.
    versions: [(u64, u64); 4],
    /// Marks with an enclosed house that has breadths, and with one that has less than all of the ship's.
    set_in: [u64; 2],
    /// Marks with a reduction for depth, and poops that earn one.
    reductions: (u64, u64),
    timber: TimberMarks,
    /// By number; for each of `CALLS`.
    refusals: [[u64; NUMBERS]; CALLS.len()],
    /// Overlaps of 1 mm, and the greatest.
    overlaps: (u64, u64),
    /// For inputs around the borders of sheer.
    sheer: Option<Sheer>,
}

/// Marks with the timber flag.
#[derive(Default)]
struct TimberMarks {
    all: u64,
    /// LS below zero, and at zero.
    below_zero: u64,
    at_zero: u64,
    /// All six are zero, LS being at or above D.
    none: u64,
    /// LW is W though it would be greater, or comes to W by itself.
    capped: u64,
    level: u64,
}

impl TimberMarks {
    fn add(&mut self, ship: &Ship, steps: &Steps, timber: &Timber) {
        let none = *timber == Timber::default();
        let own = timber.summer + (ship.depth - timber.summer + 35).div_euclid(36);
        let winter = steps.summer + (ship.depth - steps.summer + 47).div_euclid(48);
        self.all += 1;
        self.below_zero += u64::from(timber.summer < 0);
        self.at_zero += u64::from(timber.summer == 0 && !none);
        self.none += u64::from(none);
        self.capped += u64::from(timber.winter < own && !none);
        self.level += u64::from(own == winter && !none);
    }
}

impl fmt::Display for TimberMarks {
    fn fmt(&self, f: &mut fmt::Formatter) -> fmt::Result {
        let TimberMarks { all, below_zero, at_zero, none, capped, level } = self;
        write!(
            f,
            "marks with timber {all}, with LS below zero {below_zero}, at zero {at_zero}, \
             all six zero {none}, with LW limited by W {capped}, LW level with W by itself {level}"
        )
    }
}

/// Marks by where they lie.
#[derive(Default)]
struct Sheer {
    /// After sum at or below 50 per cent of the standard, between, at or above 75 per cent.
    after: [u64; 3],
    /// Mean above zero, below it, and zero.
    mean: [u64; 3],
    /// Mean from -2 to 1 um.
    near_zero: u64,
    /// At a whole mm or one um above it.
    whole_mm: u64,
}

impl Sheer {
    fn add(&mut self, ship: &Ship, steps: &Steps) {
        let [ap, sixth, third, ..] = ship.sheer;
        let (standard, sum) = (sheer::standard(ship.length), sheer::sum([ap, sixth, third]));
        let quarters = 120_000 * sum;
        let after = usize::from(quarters > 2 * standard) + usize::from(quarters >= 3 * standard);
        self.after[after] += 1;
        let mean = match steps.sheer_mean {
            1.. => 0,
            ..=-1 => 1,
            0 => 2,
        };
        self.mean[mean] += 1;
        self.near_zero += u64::from((-2..=1).contains(&steps.sheer_mean));
        self.whole_mm += u64::from(sheer::shows(steps));
    }
}

impl fmt::Display for Sheer {
    fn fmt(&self, f: &mut fmt::Formatter) -> fmt::Result {
        let Sheer { after: [low, between, high], mean: [excess, lack, neither], .. } = self;
        write!(
            f,
            "marks with an after sum at or below 50 per cent {low}, between {between}, \
             at or above 75 per cent {high}; with excess {excess}, deficiency {lack}, \
             neither {neither}, the mean from -2 to 1 um {}; \
             at a whole mm or one um above it {}",
            self.near_zero, self.whole_mm
        )
    }
}

impl Tally {
    /// With or without where the marks lie.
    pub fn new(sheer: bool) -> Tally {
        Tally { sheer: sheer.then(Sheer::default), ..Tally::default() }
    }

    pub fn add(&mut self, input: &Input, answer: &Answer) {
        self.inputs += 1;
        self.kinds[input.kind as usize] += 1;
        let was_read = answer.read[0] == 0;
        for (call, made, numbers) in [
            (0, true, &answer.marks[..]),
            (1, true, &answer.read),
            (2, was_read, &answer.back.numbers),
            (3, true, &answer.write.numbers),
            (4, input.question.is_some(), &answer.poop),
        ] {
            let (refusal, overlap) = (numbers[0] as usize, numbers[2]);
            let (calls, accepted) = &mut self.calls[call];
            *calls += u64::from(made);
            *accepted += u64::from(made && refusal == 0);
            if refusal > 0 {
                self.refusals[call][refusal] += 1;
            }
            self.overlaps.0 += u64::from(overlap == 1);
            self.overlaps.1 = self.overlaps.1.max(overlap);
        }
        self.add_steps(input, answer);
    }

    fn add_steps(&mut self, input: &Input, answer: &Answer) {
        let Ok(ship) = record::read(input.record()) else { return };
        let (read, lower) = &mut self.versions[usize::from(input.record[0] >> 4) - 1];
        *read += 1;
        *lower += u64::from(!judge::in_lowest_version(input, &ship));
        if answer.marks[0] == 0 {
            let steps = marks::steps(&ship);
            self.types[ship.kind as usize] += 1;
            let floor = marks::floor(ship.kind);
            self.floors[usize::from(floor == 150)] += u64::from(steps.summer == floor);
            self.reductions.0 += u64::from(steps.depth_reduction > 0);
            let mut enclosed = ship.houses.iter().filter(|house| house.enclosed);
            self.set_in[0] += u64::from(enclosed.clone().any(|house| !house.has_full_breadth()));
            self.set_in[1] += u64::from(enclosed.any(|house| house.breadth < house.beam));
            if let Some(timber) = marks::marks(&ship).ok().and_then(|marks| marks.timber) {
                self.timber.add(&ship, &steps, &timber);
            }
            if let Some(sheer) = &mut self.sheer {
                sheer.add(&ship, &steps);
            }
        }
        // No answer is 0 dm.
        let poop = 100 * answer.poop[REFUSAL] as i64;
        let earned = 15 * ship.depth < ship.length && 5 * poop >= 4 * ship.length;
        self.reductions.1 += u64::from(earned);
    }

    /// How often a refusal was seen in all calls.
    fn seen(&self, refusal: usize) -> u64 {
        self.refusals.iter().map(|call| call[refusal]).sum()
    }

    /// The first refusal, in the order of the checks, that was never seen.
    pub fn unseen(&self) -> Option<usize> {
        REFUSALS.into_iter().find(|&refusal| self.seen(refusal) == 0)
    }

    /// Refusals 11, 18 and 22 to 24 in each call but writing back: a ship that was read is never refused.
    fn in_each_call(&self) -> String {
        let calls = CALLS.iter().zip(&self.refusals).filter(|(call, _)| **call != WRITES_BACK);
        let counts = calls.map(|(call, seen)| {
            let [a, b, c, d, e] = LATER.map(|number| seen[number]);
            format!("{call} {a}, {b}, {c}, {d} and {e}")
        });
        format!(
            "11, 18, 22, 23 and 24 in {}; overlaps of 1 mm {}, the greatest {} mm",
            counts.collect::<Vec<_>>().join(", "),
            self.overlaps.0,
            self.overlaps.1
        )
    }

    /// Marks by type and at the floors, and records by version.
    fn types_and_versions(&self) -> String {
        let types = TYPES.iter().zip(self.types).map(|(name, count)| format!("{name} {count}"));
        let ([fifty, more], [breadths, less]) = (self.floors, self.set_in);
        let [(first, _), (second, as_first), (third, as_lower), (fourth, unflagged)] =
            self.versions;
        format!(
            "marks of types {}, at the floor of 50 mm {fifty}, of 150 mm {more}, \
             with breadths {breadths}, with a house less broad than the ship {less}; \
             records read of version 1 {first}, of version 2 {second}, \
             {as_first} of them written back in version 1, of version 3 {third}, \
             {as_lower} of them written back in version 1 or 2, of version 4 {fourth}, \
             {unflagged} of them without the flag and written back in a lower one",
            types.collect::<Vec<_>>().join(", ")
        )
    }
}

impl fmt::Display for Tally {
    fn fmt(&self, f: &mut fmt::Formatter) -> fmt::Result {
        let kinds = match self.sheer {
            Some(_) => &[Kind::Sheer][..],
            None => &KINDS,
        };
        let kinds: Vec<_> =
            kinds.iter().map(|&kind| format!("{} {kind}", self.kinds[kind as usize])).collect();
        let calls = CALLS.iter().zip(self.calls);
        let calls: Vec<_> = calls
            .map(|(call, (made, accepted))| format!("{made} {call} ({accepted} accepted)"))
            .collect();
        let refusals: Vec<_> =
            REFUSALS.iter().map(|&number| format!("{number}: {}", self.seen(number))).collect();
        write!(
            f,
            "{} inputs, no difference: {}; {}; {}; {}; \
             {} marks with a reduction for depth, {} poops that earn one; refusals {}; {}",
            self.inputs,
            kinds.join(", "),
            calls.join(", "),
            self.types_and_versions(),
            self.timber,
            self.reductions.0,
            self.reductions.1,
            refusals.join(", "),
            self.in_each_call()
        )?;
        match &self.sheer {
            Some(sheer) => write!(f, "; {sheer}"),
            None => Ok(()),
        }
    }
}

#[cfg(test)]
mod tests {
    use super::*;
    use crate::judge;
    use twin::random::Random;

    #[test]
    fn reductions_are_drawn() {
        let mut random = Random::new(31);
        let mut tally = Tally::default();
        for _ in 0..4_000 {
            let input = Input::draw(&mut random);
            tally.add(&input, &judge::worked(&input));
        }
        let (marks, poops) = tally.reductions;
        assert!(marks >= 250 && poops >= 10, "{tally}");
    }

    /// Every type has marks, at either floor too, and every version is read.
    #[test]
    fn types_are_drawn() {
        let mut random = Random::new(5);
        let mut tally = Tally::default();
        for _ in 0..20_000 {
            let input = Input::draw(&mut random);
            tally.add(&input, &judge::worked(&input));
        }
        assert!(tally.types.iter().all(|&n| n >= 500), "{tally}");
        assert!(tally.floors.iter().all(|&n| n >= 40), "{tally}");
        let [(first, none), (second, as_first), (third, as_lower), (fourth, unflagged)] =
            tally.versions;
        assert_eq!(none, 0, "{tally}");
        let counts = [first, second, third, fourth, as_first, as_lower, unflagged];
        assert!(counts.iter().chain(&tally.set_in).all(|&n| n >= 200), "{tally}");
    }

    /// Timber marks of every sort.
    #[test]
    fn timber_is_drawn() {
        let mut random = Random::new(45);
        let mut tally = Tally::default();
        for _ in 0..20_000 {
            let input = Input::draw(&mut random);
            tally.add(&input, &judge::worked(&input));
        }
        let TimberMarks { all, below_zero, at_zero, none, capped, level } = tally.timber;
        assert!(all >= 2_000 && capped >= 400 && below_zero >= 40 && none >= 40, "{tally}");
        assert!(at_zero >= 5 && level >= 8, "{tally}");
    }

    /// All refusals are seen, and both of a list of houses and 22 to 24 in every call.
    #[test]
    fn refusals_are_drawn() {
        let mut random = Random::new(18);
        let mut tally = Tally::default();
        for _ in 0..20_000 {
            let input = Input::draw(&mut random);
            tally.add(&input, &judge::worked(&input));
        }
        assert_eq!(tally.unseen(), None, "{tally}");
        for (call, seen) in CALLS.iter().zip(&tally.refusals) {
            let counts = LATER.map(|number| seen[number]);
            if *call == WRITES_BACK {
                assert_eq!(counts, [0; 5], "{tally}");
            } else {
                assert!(counts.iter().all(|&n| n >= 20), "{tally}");
            }
        }
    }

    /// Every mark is counted once, and each place has some.
    #[test]
    fn marks_about_sheer() {
        let mut random = Random::new(38);
        let mut tally = Tally::new(true);
        for _ in 0..4_000 {
            let input = Input::draw_sheer(&mut random);
            tally.add(&input, &judge::worked(&input));
        }
        let sheer = tally.sheer.as_ref().expect("it was asked for");
        for counts in [sheer.after, sheer.mean] {
            assert_eq!(counts.iter().sum::<u64>(), tally.calls[0].1, "{tally}");
            assert!(counts.iter().all(|&n| n >= 100), "{tally}");
        }
        assert!(sheer.near_zero >= 500 && sheer.whole_mm >= 1_000, "{tally}");
    }
}
