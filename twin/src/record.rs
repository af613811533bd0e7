//! The ship record, versions 1 to 4: 27 bytes, then 8 for each house, in versions 3 and 4 12, bit-packed.
//! From version 2 on there is one more bit for the type in the header's first two bytes and one fewer spare.
//! From version 3 on two breadths stand behind each house's eight bytes; before it every house has full
//! breadth. Version 4 has the timber flag in its first spare bit; the others have none.

use std::ops::{Deref, DerefMut};

use crate::bits::{BitReader, BitWriter};
use crate::refusal::Refusal;

/// Most houses a ship holds.
pub const MAX_HOUSES: usize = 8;
/// Version, type, number of houses and spare bits.
const HEAD_BITS: usize = 16;
pub const HEADER_BYTES: usize = 27;
/// Bytes of a house; from version 3 on its breadths follow.
pub const HOUSE_BYTES: usize = 8;
const BREADTHS_BYTES: usize = 4;
/// Of the longest record, one of version 3 or 4.
pub const MOST_BYTES: usize = HEADER_BYTES + (HOUSE_BYTES + BREADTHS_BYTES) * MAX_HOUSES;
/// The greatest breadth that a record holds, mm.
const MOST_BREADTH: u64 = 65_535;

/// Type of ship; the number is the one in the record. All but A are type B in every rule that does
/// not name them.
#[derive(Clone, Copy, Debug, PartialEq, Eq)]
pub enum Kind {
    A = 0,
    B = 1,
    /// B less 60 per cent of the difference from A (27(9)).
    B60 = 2,
    /// B less all of the difference from A (27(10)).
    B100 = 3,
    /// B with portable covers in position 1 (27(6)).
    Covers = 4,
}

impl Kind {
    pub const ALL: [Kind; 5] = [Kind::A, Kind::B, Kind::B60, Kind::B100, Kind::Covers];

    /// The kind with this number, if there is one.
    pub fn of(number: u64) -> Option<Kind> {
        Kind::ALL.into_iter().find(|&kind| kind as u64 == number)
    }

    pub fn is_a(self) -> bool {
        self == Kind::A
    }

    /// 27: a reduced ship is above 100 m; table 27.1 ends at 200 m.
    fn has_length(self, length: u64) -> bool {
        match self {
            Kind::A | Kind::B => true,
            Kind::B60 | Kind::B100 => length > 100_000,
            Kind::Covers => length <= 200_000,
        }
    }
}

/// How many bits of the head's first two bytes are the type's, the timber flag's and spare, and how many
/// bytes a house has.
#[derive(Clone, Copy, Debug, PartialEq, Eq)]
pub enum Version {
    One = 1,
    Two = 2,
    Three = 3,
    Four = 4,
}

impl Version {
    pub const ALL: [Version; 4] = [Version::One, Version::Two, Version::Three, Version::Four];

    /// The version with this number, if there is one.
    pub fn of(number: u64) -> Option<Version> {
        Version::ALL.into_iter().find(|&version| version as u64 == number)
    }

    /// The lowest version that holds the ship. The places beyond n do not matter.
    pub fn lowest(raw: &RawShip) -> Version {
        let n = raw.n.min(MAX_HOUSES as u64) as usize;
        match raw.kind {
            _ if raw.timber => Version::Four,
            _ if any_set_in(&raw.houses[..n]) => Version::Three,
            0 | 1 => Version::One,
            _ => Version::Two,
        }
    }

    /// Bits of the type, and spare ones.
    pub fn widths(self) -> (usize, usize) {
        match self {
            Version::One => (2, 6),
            Version::Two | Version::Three => (3, 5),
            Version::Four => (3, 4),
        }
    }

    /// A bit of its head is the timber flag.
    fn has_flag(self) -> bool {
        self == Version::Four
    }

    /// Its houses have breadths.
    fn has_breadths(self) -> bool {
        matches!(self, Version::Three | Version::Four)
    }

    /// The greatest type.
    fn last_kind(self) -> u64 {
        match self {
            Version::One => 1,
            Version::Two | Version::Three | Version::Four => 4,
        }
    }

    /// Bytes of a house.
    pub fn house_bytes(self) -> usize {
        match self.has_breadths() {
            true => HOUSE_BYTES + BREADTHS_BYTES,
            false => HOUSE_BYTES,
        }
    }

    /// Bytes of a record with `n` houses.
    pub fn record_bytes(self, n: usize) -> usize {
        HEADER_BYTES + self.house_bytes() * n
    }
}

/// A house on the freeboard deck. Stations in mm forward of the after perpendicular.
#[derive(Clone, Copy, Debug, Default, PartialEq, Eq)]
pub struct House {
    pub enclosed: bool,
    pub quarterdeck: bool,
    pub aft: i64,
    pub fore: i64,
    pub height: u64,
    /// The house's own breadth at the middle of its length, mm; 0 with the other for full breadth.
    pub breadth: u64,
    /// The ship's breadth there, mm.
    pub beam: u64,
}

impl House {
    /// Both breadths are zero, which says that it is not set in. Equal breadths do not say so.
    pub fn has_full_breadth(&self) -> bool {
        (self.breadth, self.beam) == (0, 0)
    }
}

/// Whether some house has breadths, be they equal.
pub fn any_set_in(houses: &[House]) -> bool {
    houses.iter().any(|house| !house.has_full_breadth())
}

/// Up to eight houses in order from aft, kept by value; to be used as a slice.
#[derive(Clone, Copy, Debug, Default, PartialEq, Eq)]
pub struct Houses {
    /// Zero beyond the count, so that equal houses are equal all over.
    places: [House; MAX_HOUSES],
    count: usize,
}

impl Houses {
    /// A copy of at most eight houses.
    pub fn of(houses: &[House]) -> Houses {
        let mut places = [House::default(); MAX_HOUSES];
        places[..houses.len()].copy_from_slice(houses);
        Houses { places, count: houses.len() }
    }

    /// The same houses after one more; there are at most seven.
    pub fn after(&self, first: House) -> Houses {
        let mut places = [first; MAX_HOUSES];
        places[1..].copy_from_slice(&self.places[..MAX_HOUSES - 1]);
        Houses { places, count: self.count + 1 }
    }
}

impl Deref for Houses {
    type Target = [House];

    fn deref(&self) -> &[House] {
        &self.places[..self.count]
    }
}

impl DerefMut for Houses {
    fn deref_mut(&mut self) -> &mut [House] {
        &mut self.places[..self.count]
    }
}

/// A ship as someone states it. Nothing has been checked: any number may stand anywhere.
#[derive(Clone, Debug, Default)]
pub struct RawShip {
    pub kind: u64,
    /// Houses that count; the places beyond are ignored.
    pub n: u64,
    /// Timber freeboards are asked for.
    pub timber: bool,
    /// L, mm (field 1).
    pub length: u64,
    /// D, depth for freeboard, mm (field 2).
    pub depth: u64,
    /// M, least moulded depth, mm (field 3).
    pub moulded: u64,
    /// Block coefficient, 1/10000 (field 4).
    pub cb: u64,
    /// Waterplane coefficient forward, 1/10000 (field 5).
    pub cwf: u64,
    /// Ordinates of sheer, mm, from the after to the forward perpendicular (fields 6 to 11).
    pub sheer: [i64; 6],
    /// Displacement, t; 0 if not certified (field 12).
    pub displacement: u64,
    /// Immersion, 1/100 t per cm; 0 if not certified (field 13).
    pub immersion: u64,
    pub houses: [House; MAX_HOUSES],
}

/// A ship that passed refusals 3, 4, 7 to 11, 18 and 22 to 24.
#[derive(Clone, Debug, PartialEq, Eq)]
pub struct Ship {
    pub kind: Kind,
    /// Timber freeboards are asked for; never of type A.
    pub timber: bool,
    pub length: i64,
    pub depth: i64,
    pub moulded: i64,
    pub cb: i64,
    pub cwf: i64,
    pub sheer: [i64; 6],
    pub displacement: i64,
    pub immersion: i64,
    pub houses: Houses,
}

/// Reads a record of any version: refusals 1 to 11, 18 and 22 to 24.
pub fn read(bytes: &[u8]) -> Result<Ship, Refusal> {
    Refusal::unless(bytes.len() >= HEADER_BYTES, Refusal::SHORT_RECORD)?;
    let mut head = BitReader::new(&bytes[..HEADER_BYTES]);
    let version = Version::of(head.take(4)).ok_or(Refusal::at(Refusal::VERSION, 0))?;
    let (kind_bits, spare_bits) = version.widths();
    let kind = head.take(kind_bits);
    let n = head.take(4);
    let timber = version.has_flag() && head.take(1) == 1;
    let spare = head.take(spare_bits);
    Refusal::unless(kind <= version.last_kind(), Refusal::KIND)?;
    let (_, count) = kind_and_count(kind, timber, n)?;
    Refusal::unless(bytes.len() == version.record_bytes(count), Refusal::RECORD_LENGTH)?;
    let (raw, house_spare) = unpack(version, bytes);
    Refusal::unless(spare | house_spare == 0, Refusal::SPARE_BIT)?;
    RawShip { kind, n, timber, ..raw }.check()
}

/// What stands after the head, unchecked: the fields, the houses there are bytes for, and all spare
/// bits of these. There are at least 27 bytes.
pub fn unpack(version: Version, bytes: &[u8]) -> (RawShip, u64) {
    let mut header = BitReader::new(&bytes[..HEADER_BYTES]);
    header.take(HEAD_BITS);
    let mut raw = RawShip {
        length: header.take(20),
        depth: header.take(16),
        moulded: header.take(16),
        cb: header.take(14),
        cwf: header.take(14),
        sheer: std::array::from_fn(|_| header.take_signed(14)),
        displacement: header.take(20),
        immersion: header.take(16),
        ..RawShip::default()
    };
    let mut spare = 0;
    let parts = bytes[HEADER_BYTES..].chunks_exact(version.house_bytes());
    for (house, part) in raw.houses.iter_mut().zip(parts) {
        let mut fields = BitReader::new(part);
        *house = House {
            enclosed: fields.take(1) == 1,
            quarterdeck: fields.take(1) == 1,
            aft: fields.take_signed(21),
            fore: fields.take_signed(21),
            height: fields.take(13),
            ..House::default()
        };
        spare |= fields.take(7);
        if version.has_breadths() {
            (house.breadth, house.beam) = (fields.take(16), fields.take(16));
        }
    }
    (raw, spare)
}

/// Writes a ship in the lowest version that holds it: refusals 3, 4, 7 to 11, 18 and 22 to 24, and 17
/// last. Gives the record's length. A refusal changes no byte; an accepted write changes the record's
/// bytes only.
pub fn write(buffer: &mut [u8], raw: &RawShip) -> Result<usize, Refusal> {
    let (_, count) = raw.check_all()?;
    let version = Version::lowest(raw);
    let length = version.record_bytes(count);
    let record = buffer.get_mut(..length).ok_or(Refusal::at(Refusal::SHORT_BUFFER, 0))?;
    pack_as(version, record, raw);
    Ok(length)
}

/// Puts the fields' low bits in their places in this version, which need not hold the ship, unchecked.
/// The record is as long as that of n houses.
pub fn pack_as(version: Version, record: &mut [u8], raw: &RawShip) {
    let (header, houses) = record.split_at_mut(HEADER_BYTES);
    let (kind_bits, spare_bits) = version.widths();
    let mut fields = BitWriter::new(header);
    fields.put(4, version as u64);
    fields.put(kind_bits, raw.kind);
    fields.put(4, raw.n);
    if version.has_flag() {
        fields.put(1, raw.timber.into());
    }
    fields.put(spare_bits, 0);
    fields.put(20, raw.length);
    fields.put(16, raw.depth);
    fields.put(16, raw.moulded);
    fields.put(14, raw.cb);
    fields.put(14, raw.cwf);
    for ordinate in raw.sheer {
        fields.put_signed(14, ordinate);
    }
    fields.put(20, raw.displacement);
    fields.put(16, raw.immersion);
    for (part, house) in houses.chunks_exact_mut(version.house_bytes()).zip(&raw.houses) {
        let mut fields = BitWriter::new(part);
        fields.put(1, house.enclosed.into());
        fields.put(1, house.quarterdeck.into());
        fields.put_signed(21, house.aft);
        fields.put_signed(21, house.fore);
        fields.put(13, house.height);
        fields.put(7, 0);
        if version.has_breadths() {
            fields.put(16, house.breadth);
            fields.put(16, house.beam);
        }
    }
}

impl RawShip {
    /// The ship, if it passes refusals 3, 4, 7 to 11, 18 and 22 to 24.
    pub fn check(&self) -> Result<Ship, Refusal> {
        let (kind, count) = self.check_all()?;
        // All fields are below 2^20 by now.
        Ok(Ship {
            kind,
            timber: self.timber,
            length: self.length as i64,
            depth: self.depth as i64,
            moulded: self.moulded as i64,
            cb: self.cb as i64,
            cwf: self.cwf as i64,
            sheer: self.sheer,
            displacement: self.displacement as i64,
            immersion: self.immersion as i64,
            houses: Houses::of(&self.houses[..count]),
        })
    }

    /// Refusals 3, 24, 4, 7, 22, 8, 9, 23, 10, 11 and 18; what numbers that pass say of the kind and the houses.
    fn check_all(&self) -> Result<(Kind, usize), Refusal> {
        let (kind, count) = kind_and_count(self.kind, self.timber, self.n)?;
        self.check_fields()?;
        Refusal::unless(kind.has_length(self.length), Refusal::KIND_LENGTH)?;
        let certified = (self.displacement != 0, self.immersion != 0);
        Refusal::unless(certified.0 == certified.1, Refusal::HALF_CERTIFIED)?;
        check_houses(self.length as i64, &self.houses[..count])?;
        Ok((kind, count))
    }

    /// Refusal 7, the lowest field outside its range or bits.
    fn check_fields(&self) -> Result<(), Refusal> {
        let first_five = [
            (24_000..=365_000).contains(&self.length),
            (1_000..=60_000).contains(&self.depth),
            (1_000..=60_000).contains(&self.moulded),
            (1..=12_000).contains(&self.cb),
            (1..=10_000).contains(&self.cwf),
        ];
        let sheer = self.sheer.map(|ordinate| (-8_192..=8_191).contains(&ordinate));
        let certified = [self.displacement < 1 << 20, self.immersion < 1 << 16];
        let all = first_five.into_iter().chain(sheer).chain(certified);
        Refusal::first_false(Refusal::FIELD, (1..).zip(all))
    }
}

impl Ship {
    /// The same ship as numbers to write; the places beyond the last house are zero.
    pub fn raw(&self) -> RawShip {
        RawShip {
            kind: self.kind as u64,
            n: self.houses.len() as u64,
            timber: self.timber,
            length: self.length as u64,
            depth: self.depth as u64,
            moulded: self.moulded as u64,
            cb: self.cb as u64,
            cwf: self.cwf as u64,
            sheer: self.sheer,
            displacement: self.displacement as u64,
            immersion: self.immersion as u64,
            houses: self.houses.places,
        }
    }
}

/// Refusals 3, 24 and 4.
fn kind_and_count(kind: u64, timber: bool, n: u64) -> Result<(Kind, usize), Refusal> {
    let kind = Kind::of(kind).ok_or(Refusal::at(Refusal::KIND, 0))?;
    Refusal::unless(!(timber && kind.is_a()), Refusal::TIMBER)?;
    Refusal::unless(n <= MAX_HOUSES as u64, Refusal::TOO_MANY_HOUSES)?;
    Ok((kind, n as usize))
}

/// Refusals 9, 23, 10, and then 11 or 18, each over all the houses before the next.
pub fn check_houses(length: i64, houses: &[House]) -> Result<(), Refusal> {
    let sound = |h: &House| {
        h.fore > h.aft
            && h.fore > 0
            && h.aft < length
            && h.aft >= -20_000
            && h.fore <= length + 20_000
            && (1..=8_191).contains(&h.height)
    };
    let quarterdeck_sound =
        |h: &House| !h.quarterdeck || (h.enclosed && h.aft <= 0 && h.fore < length);
    Refusal::first_false(Refusal::HOUSE, houses.iter().map(sound).enumerate())?;
    Refusal::first_false(Refusal::BREADTHS, houses.iter().map(sides_sound).enumerate())?;
    Refusal::first_false(Refusal::QUARTERDECK, houses.iter().map(quarterdeck_sound).enumerate())?;
    check_pairs(houses)
}

/// Full breadth, or at most 4 per cent of the ship's breadth inside on a side: 0.92 of it is left.
fn sides_sound(house: &House) -> bool {
    let &House { breadth, beam, .. } = house;
    // The products are of numbers of 16 bits by then.
    let set_in = breadth <= beam && beam <= MOST_BREADTH && 23 * beam <= 25 * breadth;
    house.has_full_breadth() || set_in
}

/// Refusals 11 and 18: the first house whose aft end is below the previous one's fore end decides
/// which of them is given.
fn check_pairs(houses: &[House]) -> Result<(), Refusal> {
    let mut pairs = (1..).zip(houses.windows(2));
    match pairs.find(|(_, pair)| pair[1].aft < pair[0].fore) {
        None => Ok(()),
        Some((place, pair)) => Err(overlap_or_order(place, &pair[0], &pair[1])),
    }
}

fn overlap_or_order(place: usize, previous: &House, house: &House) -> Refusal {
    if house.aft < previous.aft {
        return Refusal::at(Refusal::OUT_OF_ORDER, place);
    }
    // Its own aft end is the later one of the two.
    let overlap = previous.fore.min(house.fore) - house.aft;
    Refusal::overlapping(place, overlap as u64)
}
