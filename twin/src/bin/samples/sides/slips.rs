//! Plausible slips about set-in sides: in reading a house of 12 bytes, in refusal 23, in the version that
//! the writer chooses and the breadths that it writes.

use crate::bytes::packed_as;
use crate::calls::{self, Call, Calls, Taken};
use crate::slips::slips;
use twin::bits;
use twin::record::{self, House, Houses, Kind, RawShip, Ship, Version, HEADER_BYTES, MAX_HOUSES};
use twin::refusal::Refusal;

slips! {
    // In reading.
    ThirdRefused 2 "version 3 refused",
    FifthRead 2 "version 5 read as version 3",
    PlainNotInThird 3 "types 0 and 1 refused in version 3",
    ReducedNotInThird 3 "types 2 to 4 refused in version 3",
    FirstHead 3 "version 3 read with 2 bits of type",
    EightBytes 5 "27+8n in version 3",
    EightBytesToo 5 "27+8n in version 3 too, as full breadth",
    TwelveBytes 5 "27+12n in every version",
    TwelveBytesToo 5 "27+12n in versions 1 and 2 too",
    HeadSpare 6 "spare bits of the head not judged in version 3",
    HouseSpare 6 "spare bits of houses not judged in version 3",
    SpareByEight 6 "spare bits of houses judged at every 8 bytes in version 3",
    EveryEight 9 "houses at every 8 bytes in version 3",
    BreadthsBefore 9 "breadths before a house's eight bytes",
    BreadthsBehind 9 "breadths behind the eight bytes of all houses",
    ShipFirst 23 "the ship's breadth read first",
    LowByteFirst 23 "breadths read with the low byte first",
    Signed 23 "breadths above 32767 read as negative ones",
    Unread 23 "breadths not read",
    FirstForAll 23 "first house's breadths read for every house",
    BeforeSpare 23 "judged before 6",
    // In both.
    Never 23 "never",
    BeforeFields 23 "judged before 7",
    BeforeKindLength 23 "judged before 22",
    BeforeCertified 23 "judged before 8",
    BeforeExtent 23 "judged before 9",
    AfterTen 23 "judged after 10",
    AfterList 23 "judged after 11 and 18",
    Last 23 "judged after 12 to 17",
    HouseByHouse 23 "each house by 9, 23 and 10 before the next",
    FivePerCent 23 "5 per cent on a side",
    EightPerCent 23 "8 per cent on a side",
    BothSides 23 "4 per cent on both sides together",
    OfHouse 23 "4 per cent of the house's breadth",
    AtBorder 23 "4 per cent are too much",
    WholeMm 23 "inside on a side, and 4 per cent, in whole mm",
    HouseZero 23 "house's breadth alone zero allowed",
    ShipZero 23 "ship's breadth alone zero allowed",
    Broader 23 "house broader than the ship allowed",
    EqualRefused 23 "equal breadths refused",
    OpenLeftOut 23 "not for a house that is not enclosed",
    DeckLeftOut 23 "not for a quarterdeck",
    FirstOnly 23 "for the first house alone",
    LastPlace 23 "place of the last such house",
    PlaceAfter 23 "places from 1",
    NoPlace 23 "place 0",
    AsExtent 23 "9 in its place",
    AsDeck 23 "10 in its place",
    // In writing.
    Drops 0 "breadths dropped, in version 1 or 2",
    DropsHouse 0 "house's breadth written as 0",
    DropsShip 0 "ship's breadth written as 0",
    DropsLast 0 "last house's breadths written as 0",
    ShipWrittenFirst 0 "the ship's breadth written first",
    WritesThird 0 "version 3 written for every ship",
    ByType 0 "version 2 written for types above 1, with breadths or not",
    EqualAsFull 0 "equal breadths written as full breadth",
    ByFirst 0 "version by the first house's breadths alone",
    ByEnclosed 0 "version by the breadths of enclosed houses alone",
    SecondNumber 0 "version 3 written with the number 2",
    // In a ship that is stated.
    BeyondWritten 0 "version by breadths beyond n too",
    BeyondJudged 23 "judged beyond n too",
    Wide 23 "breadths beyond 16 bits allowed",
    LowBits 23 "low 16 bits of the breadths judged",
    Wraps 23 "products of 64 bits, and no bits of a breadth judged",
    ShortBuffer 17 "27+8n bytes are enough for version 3",
    LongBuffer 17 "27+12n bytes asked for in every version",
}

/// The cases of one call.
pub type Sides = Calls<Working>;

#[derive(Default)]
pub struct Working {
    slip: Option<Slip>,
}

impl calls::Working for Working {
    type Slip = Slip;
    const SLIPS: &'static [(Slip, u8, &'static str)] = SLIPS;

    fn with(slip: Option<Slip>) -> Working {
        Working { slip }
    }

    /// Reading judges nothing after the houses.
    fn concerns(slip: Slip, call: &Call) -> bool {
        let place = slip as usize;
        match call {
            Call::Read(_) if slip == Slip::Last => false,
            Call::Read(_) => place <= Slip::SecondNumber as usize,
            Call::Marks(_) | Call::Question(..) => place <= Slip::AsDeck as usize,
            Call::Write(_) => place >= Slip::Never as usize,
        }
    }

    /// Refusals 1 to 11, 18 and 22 to 24.
    fn read(&self, bytes: &[u8]) -> Taken {
        Refusal::unless(bytes.len() >= HEADER_BYTES, Refusal::SHORT_RECORD)?;
        let head = self.head(bytes);
        let known = match self.slip {
            Some(Slip::FifthRead) => 1..=5,
            _ => 1..=4,
        };
        let kinds = match (head.version, self.slip) {
            (1, _) | (3, Some(Slip::ReducedNotInThird)) => 0..=1,
            (3, Some(Slip::PlainNotInThird)) => 2..=4,
            _ => 0..=4,
        };
        let left_out = head.version == 3 && self.has(Slip::ThirdRefused);
        Refusal::unless(known.contains(&head.version) && !left_out, Refusal::VERSION)?;
        Refusal::unless(kinds.contains(&head.kind), Refusal::KIND)?;
        Refusal::unless(head.kind > 0 || !head.timber, Refusal::TIMBER)?;
        Refusal::unless(head.n <= MAX_HOUSES, Refusal::TOO_MANY_HOUSES)?;
        let layout = self.layout(bytes, &head).ok_or(Refusal::at(Refusal::RECORD_LENGTH, 0))?;
        let (raw, house_spare) = self.unpacked(layout, bytes, &head);
        let early = self.twenty_three(&raw).filter(|_| self.has(Slip::BeforeSpare));
        early.map_or(Ok(()), Err)?;
        Refusal::unless(head.spare | house_spare == 0, Refusal::SPARE_BIT)?;
        let late = self.judged(&raw)?;
        // What is judged late is judged on a ship that is sound without it.
        Ok((ship(&if late.is_some() { without_breadths(&raw) } else { raw }), late))
    }

    fn record(&self, raw: &RawShip) -> Vec<u8> {
        let mut written = raw.clone();
        for (place, house) in written.houses.iter_mut().enumerate() {
            let &mut House { breadth, beam, .. } = house;
            (house.breadth, house.beam) = match self.slip {
                Some(Slip::DropsHouse) => (0, beam),
                Some(Slip::DropsShip) => (breadth, 0),
                Some(Slip::DropsLast) if place as u64 + 1 == raw.n => (0, 0),
                Some(Slip::ShipWrittenFirst) => (beam, breadth),
                _ => (breadth, beam),
            };
        }
        let mut record = packed_as(self.version(raw), &written);
        if self.has(Slip::SecondNumber) && record[0] >> 4 == 3 {
            bits::put_over(&mut record, 0, 4, 2);
        }
        record
    }

    /// Refusals 3, 4, 7 to 11, 18, 22 to 24 and 17.
    fn write(&self, buffer: &mut [u8], raw: &RawShip) -> Result<usize, Refusal> {
        Kind::of(raw.kind).ok_or(Refusal::at(Refusal::KIND, 0))?;
        Refusal::unless(raw.kind > 0 || !raw.timber, Refusal::TIMBER)?;
        Refusal::unless(raw.n <= MAX_HOUSES as u64, Refusal::TOO_MANY_HOUSES)?;
        let late = self.judged(raw)?;
        let record = self.record(raw);
        let enough = match self.slip {
            Some(Slip::ShortBuffer) => Version::Two.record_bytes(raw.n as usize),
            Some(Slip::LongBuffer) => Version::Three.record_bytes(raw.n as usize),
            _ => record.len(),
        };
        Refusal::unless(buffer.len() >= enough, Refusal::SHORT_BUFFER)?;
        late.map_or(Ok(()), Err)?;
        // As much as there is room for.
        buffer.iter_mut().zip(&record).for_each(|(to, from)| *to = *from);
        Ok(record.len())
    }
}

/// The head's numbers.
struct Head {
    version: u64,
    kind: u64,
    n: usize,
    timber: bool,
    spare: u64,
}

/// A ship that is taken as it is; its numbers are sound but for breadths.
fn ship(raw: &RawShip) -> Ship {
    let sound = without_breadths(raw).check().expect("a ship that was judged");
    Ship { houses: Houses::of(&raw.houses[..raw.n as usize]), ..sound }
}

fn without_breadths(raw: &RawShip) -> RawShip {
    let houses = raw.houses.map(|house| House { breadth: 0, beam: 0, ..house });
    RawShip { houses, ..raw.clone() }
}

impl Working {
    fn has(&self, slip: Slip) -> bool {
        self.slip == Some(slip)
    }

    fn head(&self, bytes: &[u8]) -> Head {
        let head = u64::from(u16::from_be_bytes([bytes[0], bytes[1]]));
        let version = head >> 12;
        let bits = if version < 2 || version == 3 && self.has(Slip::FirstHead) { 2 } else { 3 };
        let spare = match version {
            3 if self.has(Slip::HeadSpare) => 0,
            4 => 4,
            _ => 8 - bits,
        };
        Head {
            version,
            kind: head >> (12 - bits) & ((1 << bits) - 1),
            n: (head >> (8 - bits) & 15) as usize,
            timber: version == 4 && head >> 4 & 1 == 1,
            spare: head & ((1 << spare) - 1),
        }
    }

    /// The version whose houses the record's bytes are enough for.
    fn layout(&self, bytes: &[u8], head: &Head) -> Option<Version> {
        let (eight, twelve) = (Version::Two, Version::Three);
        let layouts = match (head.version, self.slip) {
            (3, Some(Slip::EightBytes)) => [eight; 2],
            (3, Some(Slip::EightBytesToo)) => [twelve, eight],
            (3.., _) => [twelve; 2],
            (_, Some(Slip::TwelveBytes)) => [twelve; 2],
            (_, Some(Slip::TwelveBytesToo)) => [eight, twelve],
            _ => [eight; 2],
        };
        layouts.into_iter().find(|layout| bytes.len() == layout.record_bytes(head.n))
    }

    /// The ship, and the spare bits of its houses.
    fn unpacked(&self, layout: Version, bytes: &[u8], head: &Head) -> (RawShip, u64) {
        let third = layout == Version::Three;
        let (mut raw, mut spare) = match third {
            true => record::unpack(layout, &self.laid(bytes, head.n)),
            false => record::unpack(layout, bytes),
        };
        let first = raw.houses[0];
        for house in &mut raw.houses {
            let &mut House { breadth, beam, .. } = house;
            (house.breadth, house.beam) = match self.slip {
                Some(Slip::ShipFirst) => (beam, breadth),
                Some(Slip::LowByteFirst) => {
                    ((breadth as u16).swap_bytes().into(), (beam as u16).swap_bytes().into())
                }
                // No breadth is as great as a negative one here.
                Some(Slip::Signed) => (breadth as i16 as u64, beam as i16 as u64),
                Some(Slip::Unread) => (0, 0),
                Some(Slip::FirstForAll) => (first.breadth, first.beam),
                _ => (breadth, beam),
            };
        }
        match self.slip {
            Some(Slip::HouseSpare) if third => spare = 0,
            Some(Slip::SpareByEight) if third => {
                spare = record::unpack(Version::Two, &bytes[..Version::Two.record_bytes(head.n)]).1;
            }
            _ => {}
        }
        (RawShip { kind: head.kind, n: head.n as u64, timber: head.timber, ..raw }, spare)
    }

    /// A record of version 3 with the bytes of each house where they are looked for.
    fn laid(&self, bytes: &[u8], n: usize) -> Vec<u8> {
        let mut laid = bytes[..HEADER_BYTES].to_vec();
        let houses = &bytes[HEADER_BYTES..];
        for place in 0..n {
            let own = &houses[12 * place..][..12];
            match self.slip {
                Some(Slip::EveryEight) => laid.extend(&houses[8 * place..][..12]),
                Some(Slip::BreadthsBefore) => laid.extend(own[4..].iter().chain(&own[..4])),
                Some(Slip::BreadthsBehind) => {
                    laid.extend(&houses[8 * place..][..8]);
                    laid.extend(&houses[8 * n + 4 * place..][..4]);
                }
                _ => laid.extend(own),
            }
        }
        laid
    }

    /// Refusals 7, 22, 8, 9, 23, 10, 11 and 18; 23 if it is judged after all else.
    fn judged(&self, raw: &RawShip) -> Result<Option<Refusal>, Refusal> {
        let plain = without_breadths(raw);
        let fields = RawShip { n: 0, ..plain.clone() }.check().err();
        let houses = &plain.houses[..plain.n as usize];
        let houses = match self.has(Slip::HouseByHouse) {
            true => self.house_by_house(raw),
            false => record::check_houses(plain.length as i64, houses).err(),
        };
        let own = self.twenty_three(raw);
        // The others in their order, and 23 among them.
        let rank = |refusal: &Refusal| match refusal.number {
            Refusal::FIELD => 1,
            Refusal::KIND_LENGTH => 3,
            Refusal::HALF_CERTIFIED => 5,
            Refusal::HOUSE => 7,
            Refusal::QUARTERDECK => 9,
            _ => 11,
        };
        let own_rank = match self.slip {
            Some(Slip::BeforeFields) => 0,
            Some(Slip::BeforeKindLength) => 2,
            Some(Slip::BeforeCertified) => 4,
            Some(Slip::BeforeExtent) => 6,
            Some(Slip::AfterTen) => 10,
            Some(Slip::AfterList | Slip::Last) => 12,
            _ => 8,
        };
        match (fields.or(houses), own) {
            (None, own) if self.has(Slip::Last) => Ok(own),
            (Some(other), Some(_)) if rank(&other) < own_rank => Err(other),
            (_, Some(own)) => Err(own),
            (Some(other), None) => Err(other),
            (None, None) => Ok(None),
        }
    }

    /// Each house by 9, 23 and 10, then 11 and 18.
    fn house_by_house(&self, raw: &RawShip) -> Option<Refusal> {
        let houses = &raw.houses[..raw.n as usize];
        let alone = houses.iter().enumerate().find_map(|(place, house)| {
            let refusal = record::check_houses(raw.length as i64, &[*house]).err()?;
            Some(Refusal { place, ..refusal })
        });
        alone.or_else(|| record::check_houses(raw.length as i64, houses).err())
    }

    fn twenty_three(&self, raw: &RawShip) -> Option<Refusal> {
        let count = match self.slip {
            Some(Slip::Never) => return None,
            Some(Slip::HouseByHouse) => return None,
            Some(Slip::FirstOnly) => raw.n.min(1) as usize,
            Some(Slip::BeyondJudged) => MAX_HOUSES,
            _ => raw.n as usize,
        };
        let houses = &raw.houses[..count];
        let place = match self.slip {
            Some(Slip::LastPlace) => houses.iter().rposition(|house| self.bad(house))?,
            _ => houses.iter().position(|house| self.bad(house))?,
        };
        Some(match self.slip {
            Some(Slip::PlaceAfter) => Refusal::at(Refusal::BREADTHS, place + 1),
            Some(Slip::NoPlace) => Refusal::at(Refusal::BREADTHS, 0),
            Some(Slip::AsExtent) => Refusal::at(Refusal::HOUSE, place),
            Some(Slip::AsDeck) => Refusal::at(Refusal::QUARTERDECK, place),
            _ => Refusal::at(Refusal::BREADTHS, place),
        })
    }

    /// Whether 23 takes a house.
    fn bad(&self, house: &House) -> bool {
        let (b, ship) = match self.slip {
            Some(Slip::LowBits) => (house.breadth & 0xffff, house.beam & 0xffff),
            _ => (house.breadth, house.beam),
        };
        let left_out = match self.slip {
            Some(Slip::OpenLeftOut) => !house.enclosed,
            Some(Slip::DeckLeftOut) => house.quarterdeck,
            Some(Slip::HouseZero) => b == 0,
            Some(Slip::ShipZero) => ship == 0,
            _ => false,
        };
        if (b, ship) == (0, 0) || left_out {
            return false;
        }
        let wide = b.max(ship) > 65_535 && !matches!(self.slip, Some(Slip::Wide | Slip::Wraps));
        let alone = b == 0 || ship == 0;
        let broader = b > ship && !self.has(Slip::Broader);
        let equal = b == ship && self.has(Slip::EqualRefused);
        wide || alone || broader || equal || self.inside(b, ship)
    }

    /// Whether it is too far inside.
    fn inside(&self, breadth: u64, beam: u64) -> bool {
        let (b, ship) = (u128::from(breadth), u128::from(beam));
        match self.slip {
            Some(Slip::FivePerCent) => 9 * ship > 10 * b,
            Some(Slip::EightPerCent) => 21 * ship > 25 * b,
            Some(Slip::BothSides) => 24 * ship > 25 * b,
            Some(Slip::OfHouse) => 25 * ship > 27 * b,
            Some(Slip::AtBorder) => 23 * ship >= 25 * b,
            Some(Slip::WholeMm) => ship.saturating_sub(b) / 2 > 4 * ship / 100,
            Some(Slip::Wraps) => beam.wrapping_mul(23) > breadth.wrapping_mul(25),
            _ => 23 * ship > 25 * b,
        }
    }

    /// The version that is written.
    fn version(&self, raw: &RawShip) -> Version {
        let count = match self.slip {
            Some(Slip::BeyondWritten) => MAX_HOUSES,
            Some(Slip::ByFirst) => raw.n.min(1) as usize,
            _ => raw.n as usize,
        };
        let set_in = raw.houses[..count].iter().any(|house| match self.slip {
            Some(Slip::ByEnclosed) => house.enclosed && !house.has_full_breadth(),
            Some(Slip::EqualAsFull) => house.breadth != house.beam,
            _ => !house.has_full_breadth(),
        });
        match (self.slip, raw.kind) {
            _ if raw.timber => Version::Four,
            (Some(Slip::WritesThird), _) => Version::Three,
            (Some(Slip::ByType), 2..) => Version::Two,
            (slip, _) if set_in && slip != Some(Slip::Drops) => Version::Three,
            (_, 2..) => Version::Two,
            _ => Version::One,
        }
    }
}
