//! The twenty-one refusals, 1 to 18 and 22 to 24. The order of their numbers is the order of the checks,
//! but for four: 18 stands where 11 does, and one check gives either; 22 stands between 7 and 8, 23
//! between 9 and 10, and 24 between 3 and 4.

use std::fmt;

/// Why there is no answer: a number from the table of refusals, a place (0 unless the table names
/// one), and for 11 the overlap.
#[derive(Clone, Copy, Debug, PartialEq, Eq)]
pub struct Refusal {
    pub number: u8,
    pub place: usize,
    /// Whole mm that lie in both houses; 0 for every refusal but 11.
    pub overlap: u64,
}

impl Refusal {
    pub const SHORT_RECORD: u8 = 1;
    pub const VERSION: u8 = 2;
    pub const KIND: u8 = 3;
    pub const TOO_MANY_HOUSES: u8 = 4;
    pub const RECORD_LENGTH: u8 = 5;
    pub const SPARE_BIT: u8 = 6;
    pub const FIELD: u8 = 7;
    pub const HALF_CERTIFIED: u8 = 8;
    pub const HOUSE: u8 = 9;
    pub const QUARTERDECK: u8 = 10;
    pub const OVERLAP: u8 = 11;
    pub const MARK_AT_DECK: u8 = 12;
    pub const FRESH_ALLOWANCE: u8 = 13;
    pub const ASKED: u8 = 14;
    pub const NO_ROOM: u8 = 15;
    pub const NOTHING_FITS: u8 = 16;
    pub const SHORT_BUFFER: u8 = 17;
    pub const OUT_OF_ORDER: u8 = 18;
    pub const KIND_LENGTH: u8 = 22;
    pub const BREADTHS: u8 = 23;
    pub const TIMBER: u8 = 24;

    /// A refusal at a named place: a field from 1, or a house from 0.
    pub fn at(number: u8, place: usize) -> Refusal {
        Refusal { number, place, overlap: 0 }
    }

    /// Refusal 11: so many mm lie in this house and in the one before.
    pub fn overlapping(place: usize, overlap: u64) -> Refusal {
        Refusal { number: Refusal::OVERLAP, place, overlap }
    }

    /// `Ok` if `holds`, otherwise the refusal with place 0.
    pub fn unless(holds: bool, number: u8) -> Result<(), Refusal> {
        if holds {
            Ok(())
        } else {
            Err(Refusal::at(number, 0))
        }
    }

    /// The refusal at the first place where the test fails, `Ok` if it fails nowhere.
    pub fn first_false(
        number: u8,
        tests: impl IntoIterator<Item = (usize, bool)>,
    ) -> Result<(), Refusal> {
        match tests.into_iter().find(|&(_, holds)| !holds) {
            None => Ok(()),
            Some((place, _)) => Err(Refusal::at(number, place)),
        }
    }
}

impl fmt::Display for Refusal {
    fn fmt(&self, f: &mut fmt::Formatter) -> fmt::Result {
        write!(f, "refused {} {}", self.number, self.place)?;
        match self.number {
            Refusal::OVERLAP => write!(f, " {}", self.overlap),
            _ => Ok(()),
        }
    }
}
