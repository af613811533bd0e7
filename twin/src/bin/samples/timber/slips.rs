//! Plausible slips about the timber flag: in reading version 4, in refusal 24, in the version that the writer
//! chooses and the flag that it writes.

use crate::bytes::packed_as;
use crate::calls::{self, Call, Calls, Taken};
use crate::slips::slips;
use twin::bits;
use twin::record::{self, House, Kind, RawShip, Ship, Version, HEADER_BYTES, MAX_HOUSES};
use twin::refusal::Refusal;

slips! {
    // In reading.
    FourthRefused 2 "version 4 refused",
    FifthRead 2 "version 5 read as version 4",
    PlainNotInFourth 3 "types 0 and 1 refused in version 4",
    ReducedNotInFourth 3 "types 2 to 4 refused in version 4",
    NewTypes 3 "types 5 to 7 of version 4 read as 4",
    FirstHead 3 "version 4 read with 2 bits of type",
    FlagBeforeCount 4 "flag read before the number of houses",
    EightBytes 5 "27+8n in version 4",
    EightBytesToo 5 "27+8n in version 4 too, as full breadth",
    FlagAsSpare 6 "flag refused as a spare bit",
    FlagSecondBit 6 "flag read from the second spare bit",
    FlagLastBit 6 "flag read from the last spare bit",
    SpareUnjudged 6 "spare bits of version 4 not judged",
    SpareShort 6 "last spare bit of version 4 not judged",
    HouseSpare 6 "spare bits of houses not judged in version 4",
    FlagInThird 6 "flag read from version 3",
    FlagInSecond 6 "flag read from version 2",
    FlagInFirst 6 "flag read from version 1, in its first spare bit",
    FlagInFirstToo 6 "flag read from version 1, in the same bit",
    LostInThird 6 "bit of the flag not judged in version 3",
    LostInSecond 6 "bit of the flag not judged in version 2",
    Unread 24 "flag not read",
    Always 24 "every ship of version 4 has the flag",
    Inverted 24 "flag read the other way round",
    BreadthsUnread 23 "breadths not read in version 4",
    AfterLength 24 "judged after 5",
    AfterSpare 24 "judged after 6",
    // In both.
    Never 24 "never",
    NotB 24 "for every type that is none of B's, before 3",
    AfterCount 24 "judged after 4",
    AfterFields 24 "judged after 7",
    AfterCertified 24 "judged after 8",
    AfterExtent 24 "judged after 9",
    AfterHouses 24 "judged after 9 to 11, 18 and 23",
    Last 24 "judged after 12 to 17",
    ForB 24 "for type 1 too",
    ForReduced 24 "for types 2 and 3 too",
    ForHundred 24 "for type 3 too, whose line is that of A",
    ForCovers 24 "for type 4 too",
    AtPlace 24 "place 1",
    AsKind 24 "3 in its place",
    AsSpare 24 "6 in its place",
    AsKindLength 24 "22 in its place",
    // In writing.
    Drops 0 "flag dropped, in the version of a ship without it",
    Clears 0 "flag written as 0",
    WritesFourth 0 "version 4 written for every ship",
    InLowest 0 "flag written in the version of a ship without it",
    SecondBit 0 "flag written in the second spare bit",
    LastBit 0 "flag written in the last spare bit",
    WritesEight 0 "8 bytes written for a house of full breadth in version 4",
    ThirdNumber 0 "version 4 written with the number 3",
    DropsBreadths 0 "breadths dropped in version 4",
    BreadthsFirst 0 "version 3 written for a ship with breadths, flag or not",
    TypeFirst 0 "version 2 written for types above 1 with full breadth, flag or not",
    // In a ship that is stated.
    ShortBuffer 17 "27+8n bytes are enough for version 4",
    LongBuffer 17 "27+12n bytes asked for in every version",
}

/// The cases of one call.
pub type Timbers = Calls<Working>;

#[derive(Default)]
pub struct Working {
    slip: Option<Slip>,
}

/// The head's numbers.
struct Head {
    version: u64,
    kind: u64,
    n: usize,
    timber: bool,
    spare: u64,
}

impl calls::Working for Working {
    type Slip = Slip;
    const SLIPS: &'static [(Slip, u8, &'static str)] = SLIPS;

    fn with(slip: Option<Slip>) -> Working {
        Working { slip }
    }

    /// Reading judges nothing after the houses.
    fn concerns(slip: Slip, call: &Call) -> bool {
        let place = slip as usize;
        match call {
            Call::Read(_) if slip == Slip::Last => false,
            Call::Read(_) => place <= Slip::TypeFirst as usize,
            Call::Marks(_) | Call::Question(..) => place <= Slip::AsKindLength as usize,
            Call::Write(_) => place >= Slip::Never as usize,
        }
    }

    /// Refusals 1 to 11, 18 and 22 to 24.
    fn read(&self, bytes: &[u8]) -> Taken {
        Refusal::unless(bytes.len() >= HEADER_BYTES, Refusal::SHORT_RECORD)?;
        let head = self.head(bytes);
        self.version_read(&head)?;
        let own = self.twenty_four(head.kind, head.timber);
        own.filter(|_| self.has(Slip::NotB)).map_or(Ok(()), Err)?;
        Refusal::unless(self.kinds(head.version).contains(&head.kind), Refusal::KIND)?;
        let count = Refusal::unless(head.n <= MAX_HOUSES, Refusal::TOO_MANY_HOUSES);
        let layout = self.layout(bytes, &head);
        let length = layout.map(|_| ()).ok_or(Refusal::at(Refusal::RECORD_LENGTH, 0));
        let (raw, house_spare) = self.unpacked(layout.unwrap_or(Version::Four), bytes, &head);
        let spare = Refusal::unless(head.spare | house_spare == 0, Refusal::SPARE_BIT);
        let early = [count, length, spare].into_iter().find_map(Result::err);
        let late = self.judged(&raw, early)?;
        // What is judged late is judged on a ship that is sound without it.
        let ship =
            RawShip { timber: false, ..raw.clone() }.check().expect("a ship that was judged");
        Ok((Ship { timber: raw.timber && late.is_none(), ..ship }, late))
    }

    fn record(&self, raw: &RawShip) -> Vec<u8> {
        let plain = RawShip { timber: false, ..raw.clone() };
        let lowest = Version::lowest(&plain);
        let set_in = lowest == Version::Three;
        match self.slip {
            Some(Slip::WritesFourth) => packed_as(Version::Four, raw),
            _ if !raw.timber => packed_as(lowest, raw),
            Some(Slip::Drops) => packed_as(lowest, raw),
            Some(Slip::BreadthsFirst) if set_in => packed_as(lowest, raw),
            Some(Slip::TypeFirst) if lowest == Version::Two => packed_as(lowest, raw),
            Some(Slip::InLowest) => over(packed_as(lowest, raw), 11, 1),
            Some(Slip::Clears) => packed_as(Version::Four, &plain),
            Some(Slip::SecondBit) => over(packed_as(Version::Four, &plain), 12, 1),
            Some(Slip::LastBit) => over(packed_as(Version::Four, &plain), 15, 1),
            // The number of version 2 made 4, and the flag.
            Some(Slip::WritesEight) if !set_in => {
                over(over(over(packed_as(Version::Two, raw), 1, 1), 2, 0), 11, 1)
            }
            Some(Slip::ThirdNumber) => over(over(over(fourth(raw), 1, 0), 2, 1), 3, 1),
            Some(Slip::DropsBreadths) => fourth(&without_breadths(raw)),
            _ => fourth(raw),
        }
    }

    /// Refusals 3, 4, 7 to 11, 18, 22 to 24 and 17.
    fn write(&self, buffer: &mut [u8], raw: &RawShip) -> Result<usize, Refusal> {
        let own = self.twenty_four(raw.kind, raw.timber);
        own.filter(|_| self.has(Slip::NotB)).map_or(Ok(()), Err)?;
        Kind::of(raw.kind).ok_or(Refusal::at(Refusal::KIND, 0))?;
        let count = Refusal::unless(raw.n <= MAX_HOUSES as u64, Refusal::TOO_MANY_HOUSES);
        let late = self.judged(raw, count.err())?;
        let record = self.record(raw);
        let enough = match self.slip {
            Some(Slip::ShortBuffer) if raw.timber => Version::Two.record_bytes(raw.n as usize),
            Some(Slip::LongBuffer) => Version::Four.record_bytes(raw.n as usize),
            _ => record.len(),
        };
        Refusal::unless(buffer.len() >= enough, Refusal::SHORT_BUFFER)?;
        late.map_or(Ok(()), Err)?;
        // As much as there is room for.
        buffer.iter_mut().zip(&record).for_each(|(to, from)| *to = *from);
        Ok(record.len())
    }
}

fn fourth(raw: &RawShip) -> Vec<u8> {
    packed_as(Version::Four, raw)
}

/// The record with one bit put over.
fn over(mut record: Vec<u8>, at: usize, bit: u64) -> Vec<u8> {
    bits::put_over(&mut record, at, 1, bit);
    record
}

fn without_breadths(raw: &RawShip) -> RawShip {
    let houses = raw.houses.map(|house| House { breadth: 0, beam: 0, ..house });
    RawShip { houses, ..raw.clone() }
}

impl Working {
    fn has(&self, slip: Slip) -> bool {
        self.slip == Some(slip)
    }

    fn head(&self, bytes: &[u8]) -> Head {
        let head = u64::from(u16::from_be_bytes([bytes[0], bytes[1]]));
        let version = head >> 12;
        let later = version >= 4;
        let bits = if version < 2 || later && self.has(Slip::FirstHead) { 2 } else { 3 };
        let (timber, spare) = self.flag(version, bits, head);
        let count = if later && self.has(Slip::FlagBeforeCount) { 4 } else { 8 - bits };
        Head {
            version,
            kind: head >> (12 - bits) & ((1 << bits) - 1),
            n: (head >> count & 15) as usize,
            timber,
            spare,
        }
    }

    /// The flag, and the spare bits.
    fn flag(&self, version: u64, bits: u64, head: u64) -> (bool, u64) {
        let bit = |at: u64| head >> (15 - at) & 1 == 1;
        let all = head & ((1 << (8 - bits)) - 1);
        let without = |at: u64| all & !(1 << (15 - at));
        match (version, self.slip) {
            (4.., Some(Slip::FlagAsSpare)) => (bit(11), all),
            (4.., Some(Slip::FlagBeforeCount)) => (bit(7), head & 15),
            (4.., Some(Slip::FlagSecondBit)) => (bit(12), without(12)),
            (4.., Some(Slip::FlagLastBit)) => (bit(15), without(15)),
            (4.., Some(Slip::SpareUnjudged)) => (bit(11), 0),
            (4.., Some(Slip::SpareShort)) => (bit(11), all & 0b1110),
            (4.., Some(Slip::Unread)) => (false, without(11)),
            (4.., Some(Slip::Always)) => (true, without(11)),
            (4.., Some(Slip::Inverted)) => (!bit(11), without(11)),
            (4.., _) => (bit(11), without(11)),
            (3, Some(Slip::FlagInThird)) | (2, Some(Slip::FlagInSecond)) => (bit(11), without(11)),
            (1, Some(Slip::FlagInFirst)) => (bit(10), without(10)),
            (1, Some(Slip::FlagInFirstToo)) => (bit(11), without(11)),
            (3, Some(Slip::LostInThird)) | (2, Some(Slip::LostInSecond)) => (false, without(11)),
            _ => (false, all),
        }
    }

    /// Refusal 2.
    fn version_read(&self, head: &Head) -> Result<(), Refusal> {
        let last = match self.slip {
            Some(Slip::FourthRefused) => 3,
            Some(Slip::FifthRead) => 5,
            _ => 4,
        };
        Refusal::unless((1..=last).contains(&head.version), Refusal::VERSION)
    }

    /// The types that refusal 3 lets pass in reading.
    fn kinds(&self, version: u64) -> std::ops::RangeInclusive<u64> {
        match (version, self.slip) {
            (4.., Some(Slip::ReducedNotInFourth)) => 0..=1,
            (4.., Some(Slip::PlainNotInFourth)) => 2..=4,
            (4.., Some(Slip::NewTypes)) => 0..=7,
            (1, _) => 0..=1,
            _ => 0..=4,
        }
    }

    /// The version whose houses the record's bytes are enough for.
    fn layout(&self, bytes: &[u8], head: &Head) -> Option<Version> {
        let (eight, twelve) = (Version::Two, Version::Four);
        let layouts = match (head.version, self.slip) {
            (4.., Some(Slip::EightBytes)) => [eight; 2],
            (4.., Some(Slip::EightBytesToo)) => [twelve, eight],
            (3.., _) => [twelve; 2],
            _ => [eight; 2],
        };
        layouts.into_iter().find(|layout| bytes.len() == layout.record_bytes(head.n))
    }

    /// The ship, and the spare bits of its houses.
    fn unpacked(&self, layout: Version, bytes: &[u8], head: &Head) -> (RawShip, u64) {
        let (raw, spare) = record::unpack(layout, bytes);
        let raw = match self.has(Slip::BreadthsUnread) && head.version >= 4 {
            true => without_breadths(&raw),
            false => raw,
        };
        let unjudged = self.has(Slip::HouseSpare) && head.version >= 4;
        let kind = head.kind.min(4);
        let raw = RawShip { kind, n: head.n as u64, timber: head.timber, ..raw };
        (raw, if unjudged { 0 } else { spare })
    }

    /// What comes after 3: 24, `early` (4, 5 or 6), 7, 22, 8, 9, 23, 10, 11 and 18; 24 if it is judged after
    /// all else.
    fn judged(&self, raw: &RawShip, early: Option<Refusal>) -> Result<Option<Refusal>, Refusal> {
        let plain = RawShip { timber: false, ..raw.clone() };
        let other = early.or_else(|| plain.check().err());
        let own = self.twenty_four(raw.kind, raw.timber);
        let rank = |refusal: &Refusal| match refusal.number {
            Refusal::TOO_MANY_HOUSES => 1,
            Refusal::RECORD_LENGTH => 2,
            Refusal::SPARE_BIT => 3,
            Refusal::FIELD => 4,
            Refusal::KIND_LENGTH => 5,
            Refusal::HALF_CERTIFIED => 6,
            Refusal::HOUSE => 7,
            _ => 8,
        };
        let own_rank = match self.slip {
            Some(Slip::AfterCount) => 1,
            Some(Slip::AfterLength) => 2,
            Some(Slip::AfterSpare) => 3,
            Some(Slip::AfterFields) => 4,
            Some(Slip::AfterCertified) => 6,
            Some(Slip::AfterExtent) => 7,
            Some(Slip::AfterHouses | Slip::Last) => 8,
            _ => 0,
        };
        match (other, own) {
            (None, own) if self.has(Slip::Last) => Ok(own),
            (Some(other), Some(_)) if rank(&other) <= own_rank => Err(other),
            (_, Some(own)) => Err(own),
            (Some(other), None) => Err(other),
            (None, None) => Ok(None),
        }
    }

    fn twenty_four(&self, kind: u64, timber: bool) -> Option<Refusal> {
        let takes = match self.slip {
            Some(Slip::Never) => false,
            Some(Slip::NotB) => !(1..=4).contains(&kind),
            Some(Slip::ForB) => kind < 2,
            Some(Slip::ForReduced) => matches!(kind, 0 | 2 | 3),
            Some(Slip::ForHundred) => matches!(kind, 0 | 3),
            Some(Slip::ForCovers) => matches!(kind, 0 | 4),
            _ => kind == 0,
        };
        let refusal = match self.slip {
            Some(Slip::AtPlace) => Refusal::at(Refusal::TIMBER, 1),
            Some(Slip::AsKind) => Refusal::at(Refusal::KIND, 0),
            Some(Slip::AsSpare) => Refusal::at(Refusal::SPARE_BIT, 0),
            Some(Slip::AsKindLength) => Refusal::at(Refusal::KIND_LENGTH, 0),
            _ => Refusal::at(Refusal::TIMBER, 0),
        };
        (takes && timber).then_some(refusal)
    }
}
