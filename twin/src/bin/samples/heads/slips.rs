//! Plausible slips about types and versions: in reading the head, in refusal 22, in what the writer
//! chooses. A case is answered once more below, with at most one slip; it tells the slip if its line
//! changes.

use crate::bytes::packed_as;
use crate::calls::{self, Call, Calls, Taken};
use crate::slips::slips;
use twin::bits;
use twin::record::{self, Kind, RawShip, Ship, Version, MAX_HOUSES};
use twin::refusal::Refusal;

slips! {
    // In reading.
    FirstOnly 2 "version 2 refused",
    SecondOnly 2 "version 1 refused",
    ZeroRead 2 "version 0 read as version 1",
    VersionLate 2 "judged after 3 and 4",
    TypesInFirst 3 "types 2 and 3 read from version 1",
    PlainNotInSecond 3 "types 0 and 1 refused in version 2",
    FourthRefused 3 "type 4 refused in version 2",
    FifthRead 3 "types 5 to 7 of version 2 read as 4",
    KindLate 3 "judged after 4 to 6",
    FirstLayout 3 "version 2 read with 2 bits of type",
    SecondLayout 3 "version 1 read with 3 bits of type",
    FirstSpare 6 "spare bits of version 1 in version 2",
    SecondSpare 6 "spare bits of version 2 in version 1",
    SpareNotInSecond 6 "spare bits of version 2 not judged",
    BeforeSpare 22 "judged before 6",
    // In both.
    Never 22 "never",
    BeforeFields 22 "judged before 7",
    AfterCertified 22 "judged after 8",
    AfterHouses 22 "judged after 9 to 11, 18 and 23",
    Last 22 "judged after 12 to 17",
    Below100 22 "100 m allowed for types 2 and 3",
    At200 22 "200 m refused for type 4",
    Metres 22 "length in whole metres",
    SecondForgotten 22 "not for type 2",
    ThirdForgotten 22 "not for type 3",
    FourthForgotten 22 "not for type 4",
    FourthShort 22 "for type 4 of 100 m or less too",
    ReducedLong 22 "for types 2 and 3 beyond 200 m too",
    PlainShort 22 "for types 0 and 1 of 100 m or less too",
    AtLength 22 "place 1, the length's",
    AsField 22 "7 in its place",
    AsKind 22 "3 in its place",
    // In writing.
    WritesSecond 0 "version 2 written for every type",
    WritesFirst 0 "version 1 written for every type",
    WritesFirstLayout 0 "version 2 written with 2 bits of type",
    WritesReducedAsA 0 "type 3 written as type 0",
    // In a ship that is stated.
    StatedSecondRefused 3 "types above 1 refused",
    StatedFourthRefused 3 "type 4 refused",
    StatedFifth 3 "types 5 to 7 written",
    StatedLowBits 3 "the low three bits of a type judged",
}

/// The cases of one call.
pub type Heads = Calls<Working>;

#[derive(Default)]
pub struct Working {
    slip: Option<Slip>,
}

/// The head's numbers.
struct Head {
    version: u64,
    kind: u64,
    n: u64,
    timber: bool,
    spare: u64,
}

impl calls::Working for Working {
    type Slip = Slip;
    const SLIPS: &'static [(Slip, u8, &'static str)] = SLIPS;

    fn with(slip: Option<Slip>) -> Working {
        Working { slip }
    }

    /// Reading judges nothing after 22 but what is in the record.
    fn concerns(slip: Slip, call: &Call) -> bool {
        let place = slip as usize;
        match call {
            Call::Read(_) if slip == Slip::Last => false,
            Call::Read(_) => place <= Slip::WritesReducedAsA as usize,
            Call::Marks(_) | Call::Question(..) => place <= Slip::AsKind as usize,
            Call::Write(_) => place >= Slip::Never as usize,
        }
    }

    fn read(&self, bytes: &[u8]) -> Taken {
        let ship = self.ship(bytes)?;
        let late = self.late(&ship.raw()).err();
        Ok((ship, late))
    }

    fn record(&self, raw: &RawShip) -> Vec<u8> {
        let lowest = Version::lowest(raw);
        match (self.slip, lowest) {
            (Some(Slip::WritesSecond), Version::One) => packed_as(Version::Two, raw),
            (Some(Slip::WritesFirst), Version::Two) => packed_as(Version::One, raw),
            (Some(Slip::WritesFirstLayout), Version::Two) => {
                let mut record = packed_as(Version::One, raw);
                bits::put_over(&mut record, 0, 4, 2);
                record
            }
            (Some(Slip::WritesReducedAsA), Version::Two) if raw.kind == 3 => {
                packed_as(Version::One, &RawShip { kind: 0, ..raw.clone() })
            }
            _ => packed_as(lowest, raw),
        }
    }

    /// Refusals 3, 4, 7 to 11, 18, 22 to 24 and 17.
    fn write(&self, buffer: &mut [u8], raw: &RawShip) -> Result<usize, Refusal> {
        let kind = match self.has(Slip::StatedLowBits) {
            true => raw.kind & 7,
            false => raw.kind,
        };
        let last = match self.slip {
            Some(Slip::StatedSecondRefused) => 1,
            Some(Slip::StatedFourthRefused) => 3,
            Some(Slip::StatedFifth) => 7,
            _ => 4,
        };
        Refusal::unless(kind <= last, Refusal::KIND)?;
        Refusal::unless(kind > 0 || !raw.timber, Refusal::TIMBER)?;
        Refusal::unless(raw.n <= MAX_HOUSES as u64, Refusal::TOO_MANY_HOUSES)?;
        let raw = RawShip { kind, ..raw.clone() };
        self.judged(&raw)?;
        let record = self.record(&raw);
        let place = buffer.get_mut(..record.len()).ok_or(Refusal::at(Refusal::SHORT_BUFFER, 0))?;
        self.late(&raw)?;
        place.copy_from_slice(&record);
        Ok(record.len())
    }
}

impl Working {
    fn has(&self, slip: Slip) -> bool {
        self.slip == Some(slip)
    }

    fn head(&self, bytes: &[u8]) -> Head {
        let head = u64::from(u16::from_be_bytes([bytes[0], bytes[1]]));
        let version = head >> 12;
        let bits = match self.slip {
            Some(Slip::FirstLayout) if version == 2 => 2,
            Some(Slip::SecondLayout) => 3,
            _ if version < 2 => 2,
            _ => 3,
        };
        let spare = match self.slip {
            Some(Slip::FirstSpare) if version == 2 => 6,
            Some(Slip::SecondSpare) => 5,
            Some(Slip::SpareNotInSecond) if version == 2 => 0,
            _ if version == 4 => 4,
            _ => 8 - bits,
        };
        Head {
            version,
            kind: head >> (12 - bits) & ((1 << bits) - 1),
            n: head >> (8 - bits) & 15,
            timber: version == 4 && head >> 4 & 1 == 1,
            spare: head & ((1 << spare) - 1),
        }
    }

    /// Refusals 1 to 11, 18 and 22 to 24.
    fn ship(&self, bytes: &[u8]) -> Result<Ship, Refusal> {
        Refusal::unless(bytes.len() >= record::HEADER_BYTES, Refusal::SHORT_RECORD)?;
        let head = self.head(bytes);
        let known = match self.slip {
            Some(Slip::FirstOnly) => [1, 3, 4].contains(&head.version),
            Some(Slip::SecondOnly) => [2, 3, 4].contains(&head.version),
            Some(Slip::ZeroRead) => head.version <= 4,
            _ => (1..=4).contains(&head.version),
        };
        let version = Refusal::unless(known, Refusal::VERSION);
        let kind = Refusal::unless(self.kind_read(&head), Refusal::KIND);
        let timber = Refusal::unless(head.kind > 0 || !head.timber, Refusal::TIMBER);
        let count = Refusal::unless(head.n <= MAX_HOUSES as u64, Refusal::TOO_MANY_HOUSES);
        let layout = Version::of(head.version).unwrap_or(Version::One);
        let bytes_of_n = layout.record_bytes(head.n as usize);
        let length = Refusal::unless(bytes.len() == bytes_of_n, Refusal::RECORD_LENGTH);
        let (raw, house_spare) = record::unpack(layout, bytes);
        let raw = RawShip { kind: head.kind.min(4), n: head.n, timber: head.timber, ..raw };
        let early = match self.has(Slip::BeforeSpare) {
            true => self.twenty_two(&raw),
            false => Ok(()),
        };
        let spare = Refusal::unless(head.spare | house_spare == 0, Refusal::SPARE_BIT);
        let order = match self.slip {
            Some(Slip::VersionLate) => [kind, timber, count, version, length, early, spare],
            Some(Slip::KindLate) => [version, count, length, early, spare, kind, timber],
            _ => [version, kind, timber, count, length, early, spare],
        };
        order.into_iter().collect::<Result<(), Refusal>>()?;
        self.judged(&raw)
    }

    /// Refusal 3 in reading.
    fn kind_read(&self, head: &Head) -> bool {
        match (head.version, self.slip) {
            (1, Some(Slip::TypesInFirst)) => true,
            (..=1, _) => head.kind <= 1,
            (2, Some(Slip::PlainNotInSecond)) => (2..=4).contains(&head.kind),
            (_, Some(Slip::FourthRefused)) => head.kind <= 3,
            (_, Some(Slip::FifthRead)) => true,
            _ => head.kind <= 4,
        }
    }

    /// Refusals 7, 22, 8, 9, 23, 10, 11 and 18 of a ship with a known type.
    fn judged(&self, raw: &RawShip) -> Result<Ship, Refusal> {
        let plain = RawShip { kind: 1, ..raw.clone() };
        // Without houses 7 or 8 is all that is left.
        let fields = RawShip { n: 0, ..plain.clone() }.check().map(|_| ());
        let (seven, eight) = match fields {
            Err(refusal) if refusal.number == Refusal::FIELD => (fields, Ok(())),
            _ => (Ok(()), fields),
        };
        let houses = record::check_houses(raw.length as i64, &raw.houses[..raw.n as usize]);
        let kind_length = match self.slip {
            Some(Slip::Last | Slip::BeforeSpare) => Ok(()),
            _ => self.twenty_two(raw),
        };
        let order = match self.slip {
            Some(Slip::BeforeFields) => [kind_length, seven, eight, houses],
            Some(Slip::AfterCertified) => [seven, eight, kind_length, houses],
            Some(Slip::AfterHouses) => [seven, eight, houses, kind_length],
            _ => [seven, kind_length, eight, houses],
        };
        order.into_iter().collect::<Result<(), Refusal>>()?;
        let kind = Kind::of(raw.kind.min(4)).expect("one of the five");
        Ok(Ship { kind, ..plain.check()? })
    }

    /// Refusal 22 where it is judged after all else.
    fn late(&self, raw: &RawShip) -> Result<(), Refusal> {
        match self.has(Slip::Last) {
            true => self.twenty_two(raw),
            false => Ok(()),
        }
    }

    fn twenty_two(&self, raw: &RawShip) -> Result<(), Refusal> {
        let length = raw.length;
        let short = match self.slip {
            Some(Slip::Below100) => length < 100_000,
            Some(Slip::Metres) => length / 1000 <= 100,
            _ => length <= 100_000,
        };
        let long = match self.slip {
            Some(Slip::At200) => length >= 200_000,
            Some(Slip::Metres) => length / 1000 > 200,
            _ => length > 200_000,
        };
        let forgotten = match self.slip {
            Some(Slip::Never) => true,
            Some(Slip::SecondForgotten) => raw.kind == 2,
            Some(Slip::ThirdForgotten) => raw.kind == 3,
            Some(Slip::FourthForgotten) => raw.kind == 4,
            _ => false,
        };
        let takes = match raw.kind {
            0 | 1 => short && self.has(Slip::PlainShort),
            2 | 3 => short || long && self.has(Slip::ReducedLong),
            _ => long || short && self.has(Slip::FourthShort),
        };
        let refusal = match self.slip {
            Some(Slip::AtLength) => Refusal::at(Refusal::KIND_LENGTH, 1),
            Some(Slip::AsField) => Refusal::at(Refusal::FIELD, 1),
            Some(Slip::AsKind) => Refusal::at(Refusal::KIND, 0),
            _ => Refusal::at(Refusal::KIND_LENGTH, 0),
        };
        match takes && !forgotten {
            true => Err(refusal),
            false => Ok(()),
        }
    }
}
