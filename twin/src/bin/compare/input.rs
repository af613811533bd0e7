//! The inputs: a record, perhaps a question on it, and a ship to be written into a buffer.

use std::fmt;

use twin::question;
use twin::random::Random;
use twin::record::{self, Kind as Type, RawShip, Ship, Version, MAX_HOUSES};

use crate::border;
use crate::fine;
use crate::flat::{self, SHIP};
use crate::frame::{MEMORY, ROOM};
use crate::heads;
use crate::lists;
use crate::sheer;
use crate::sides;
use crate::timber;

/// How a record came about.
#[derive(Clone, Copy)]
pub enum Kind {
    Valid,
    WholeMm,
    Border,
    List,
    Head,
    Side,
    Timber,
    Damaged,
    Noise,
    Sheer,
}

impl fmt::Display for Kind {
    fn fmt(&self, f: &mut fmt::Formatter) -> fmt::Result {
        f.write_str(match self {
            Kind::Valid => "valid",
            Kind::WholeMm => "at a whole mm",
            Kind::Border => "at a border",
            Kind::List => "about overlap and order",
            Kind::Head => "about types and versions",
            Kind::Side => "about set-in sides",
            Kind::Timber => "about timber",
            Kind::Damaged => "damaged",
            Kind::Noise => "noise",
            Kind::Sheer => "about sheer",
        })
    }
}

pub struct Input {
    pub kind: Kind,
    /// The record, and any bytes after it.
    pub record: [u8; ROOM],
    pub record_length: usize,
    /// Height and wish.
    pub question: Option<(u64, u64)>,
    /// The numbers of the ship to be written.
    pub ship: [u64; SHIP],
    pub buffer_length: usize,
    /// What the buffer and its guards hold.
    pub memory: [u8; MEMORY],
}

impl Input {
    pub fn draw(random: &mut Random) -> Input {
        let n = random.between(0, MAX_HOUSES as i64) as usize;
        let mut raw = random.any_ship(n);
        random.flag_at_times(&mut raw);
        let mut input = Input::blank(random);
        match random.between(1, 40) {
            1..=6 => input.pack(random, &raw),
            7..=9 => input.put_whole_mm(random, n),
            10..=14 => input.put_border(random, raw.clone()),
            15..=19 => input.put_damaged(random, &raw),
            20..=24 => input.put_list(random, raw.clone()),
            25..=28 => input.put_head(random, n),
            29..=32 => input.put_side(random, raw.clone()),
            33..=38 => input.put_timber(random, n),
            _ => input.put_noise(random),
        }
        input.state(random, raw);
        if input.question.is_none() && random.once_in(4) {
            input.question = Some(asked(random, input.record()));
        }
        input
    }

    /// One around the borders of sheer.
    pub fn draw_sheer(random: &mut Random) -> Input {
        let (mut raw, question) = sheer::ship(random);
        random.flag_at_times(&mut raw);
        let mut input = Input::blank(random);
        input.kind = Kind::Sheer;
        input.question = question;
        input.pack(random, &raw);
        input.state(random, raw);
        input
    }

    fn blank(random: &mut Random) -> Input {
        let pattern = random.number();
        Input {
            kind: Kind::Valid,
            record: filled(pattern),
            record_length: 0,
            question: None,
            ship: [0; SHIP],
            buffer_length: 0,
            memory: filled(pattern.rotate_left(4)),
        }
    }

    /// The ship to be written, and how long its buffer is.
    fn state(&mut self, random: &mut Random, raw: RawShip) {
        self.ship = stated(random, raw);
        self.buffer_length = buffer_length(random, &flat::ship(&self.ship));
    }

    /// The bytes of the record.
    pub fn record(&self) -> &[u8] {
        &self.record[..self.record_length]
    }

    /// In the lowest version that holds the ship, every other time in any that does.
    fn pack(&mut self, random: &mut Random, raw: &RawShip) {
        let lowest = Version::lowest(raw);
        let version = match random.once_in(2) {
            true => random.pick(&Version::ALL[lowest as usize - 1..]),
            false => lowest,
        };
        self.pack_as(version, raw);
    }

    fn pack_as(&mut self, version: Version, raw: &RawShip) {
        self.record_length = version.record_bytes(raw.n.min(MAX_HOUSES as u64) as usize);
        record::pack_as(version, &mut self.record[..self.record_length], raw);
    }

    fn put_whole_mm(&mut self, random: &mut Random, n: usize) {
        let (mut raw, question) = fine::ship(random, n);
        random.flag_at_times(&mut raw);
        self.kind = Kind::WholeMm;
        self.question = question;
        self.pack(random, &raw);
    }

    fn put_border(&mut self, random: &mut Random, mut raw: RawShip) {
        self.kind = Kind::Border;
        for _ in 0..random.between(0, 2) {
            border::put(random, &mut raw);
        }
        self.pack(random, &raw);
        match random.between(1, 12) {
            1 => self.record_length = 26,
            2 => self.record_length = 27,
            3 => self.record_length -= 1,
            4 => self.record_length += 1,
            5 => self.record[0] ^= 0x10 << random.between(0, 3), // version
            6 => self.record[1] ^= 1 << random.between(0, 5),    // spare, or the last bit of n
            7 => self.record[self.record_length - 1] ^= 1, // immersion, a house's spare, or a breadth
            _ => {}
        }
    }

    fn put_list(&mut self, random: &mut Random, mut raw: RawShip) {
        self.kind = Kind::List;
        lists::put(random, &mut raw);
        self.pack(random, &raw);
    }

    /// The type and the version, which need not hold it, and what else of the head may be wrong.
    fn put_head(&mut self, random: &mut Random, n: usize) {
        self.kind = Kind::Head;
        let raw = heads::ship(random, n);
        let lowest = [Version::lowest(&raw); 4];
        self.pack_as(random.pick([lowest, Version::ALL].as_flattened()), &raw);
        heads::damage(random, &mut self.record);
        match random.between(1, 24) {
            1 => self.record_length = 26,
            2 => self.record_length -= 1,
            3 => self.record_length += 1,
            4 => self.record_length += random.pick(&[8, 12]),
            _ => {}
        }
    }

    /// Breadths, most often in version 3, and bytes of another version at times.
    fn put_side(&mut self, random: &mut Random, mut raw: RawShip) {
        self.kind = Kind::Side;
        sides::put(random, &mut raw);
        let version = random.pick(&[Version::Three, Version::Three, Version::lowest(&raw)]);
        self.pack_as(version, &raw);
        sides::damage(random, &mut self.record, &mut self.record_length);
    }

    /// A ship with the timber flag, one in four of type A, most often in version 4; bytes of another version at
    /// times.
    fn put_timber(&mut self, random: &mut Random, n: usize) {
        self.kind = Kind::Timber;
        let raw = timber::ship(random, n);
        let version = match random.once_in(8) {
            true => random.pick(&Version::ALL),
            false => Version::Four,
        };
        self.pack_as(version, &raw);
        timber::damage(random, &mut self.record, &mut self.record_length);
    }

    fn put_damaged(&mut self, random: &mut Random, raw: &RawShip) {
        self.kind = Kind::Damaged;
        self.pack(random, raw);
        let length = self.record_length as i64;
        match random.between(1, 6) {
            1 => self.record_length = random.between(0, length - 1) as usize,
            2 => self.record_length += random.between(1, 20) as usize,
            3 => {
                for _ in 0..random.between(1, 4) {
                    self.record[random.between(0, length - 1) as usize] = random.number() as u8;
                }
            }
            _ => {
                for _ in 0..random.between(1, 3) {
                    let bit = random.between(0, 8 * length - 1) as usize;
                    self.record[bit / 8] ^= 0x80 >> (bit % 8);
                }
            }
        }
    }

    fn put_noise(&mut self, random: &mut Random) {
        self.kind = Kind::Noise;
        self.record_length = random.between(0, 130) as usize;
        self.record.fill_with(|| random.number() as u8);
        match random.between(1, 6) {
            1 => self.record[0] = 0x10 | self.record[0] & 0x07, // version 1, type A or B
            2 => self.record[0] = 0x20 | self.record[0] & 0x07, // version 2, types A to B-100
            3 => self.record[0] = 0x30 | self.record[0] & 0x07, // version 3, the same
            4 => self.record[0] = 0x40 | self.record[0] & 0x07, // version 4, the same
            _ => {}
        }
    }
}

/// The pattern over and over.
fn filled<const N: usize>(pattern: u64) -> [u8; N] {
    let bytes = pattern.to_le_bytes();
    std::array::from_fn(|i| bytes[i % 8])
}

/// Any length, often about that of the ship's record, at times about that in another version.
fn buffer_length(random: &mut Random, raw: &RawShip) -> usize {
    let version = match random.between(1, 6) {
        1 | 2 => Version::lowest(raw),
        3 => random.pick(&Version::ALL),
        _ => return random.between(0, ROOM as i64) as usize,
    };
    let n = raw.n.min(MAX_HOUSES as u64) as usize;
    version.record_bytes(n) + random.between(0, 2) as usize - 1
}

/// The numbers of the ship: as they are, at a border, with another list of houses, about refusals 22
/// to 24, or any.
fn stated(random: &mut Random, mut raw: RawShip) -> [u64; SHIP] {
    let kind = random.between(1, 20);
    match kind {
        5..=7 => border::put(random, &mut raw),
        11 | 12 => lists::put(random, &mut raw),
        13 | 14 => raw = heads::ship(random, raw.n as usize),
        15 | 16 => sides::put(random, &mut raw),
        17 | 18 => sides::put_wide(random, &mut raw),
        19 | 20 => raw = timber::ship(random, raw.n as usize),
        _ => {}
    }
    let yes = random.pick(&[1, 1, 1, 2, 256, 1 << 32, 1 << 63, u64::MAX]);
    let mut numbers = flat::numbers(&raw, yes);
    match kind {
        8 | 9 => {
            for _ in 0..random.between(1, 3) {
                border::put_any(random, &mut numbers);
            }
        }
        10 if random.once_in(4) => numbers.fill_with(|| random.number()),
        _ => {}
    }
    numbers
}

/// Height and wish. A search through all lengths takes long, so that few ask for one.
fn asked(random: &mut Random, record: &[u8]) -> (u64, u64) {
    const NUMBERS: [u64; 8] = [0, 1, 50, 8_191, 8_192, 60_000, 60_001, u64::MAX];
    let any = (random.pick(&NUMBERS), random.pick(&NUMBERS));
    let height = random.between(1, 8_191) as u64;
    let no_room = |ship: &Ship| {
        ship.houses.len() == MAX_HOUSES || ship.houses.first().is_some_and(|first| first.aft <= 0)
    };
    let ship = match record::read(record) {
        Ok(ship) if !no_room(&ship) => ship,
        _ => return any,
    };
    if earns_by_poop(&ship) && random.once_in(4) {
        return asked_amidships(random, &ship);
    }
    if ship.kind == Type::Covers && random.once_in(8) {
        return (height, random.pick(&[49, 50, 149, 150, 151]));
    }
    // The mark that a poop of up to so many dm gives, if it gives any.
    let hit = |random: &mut Random, most: i64| {
        let mark = question::summer_with_poop(&ship, height, random.between(0, most));
        (height, mark.map_or(u64::MAX, |mark| mark as u64))
    };
    match random.between(1, 100) {
        1..=8 => (random.pick(&[1, 50, 8_191, height]), random.pick(&[50, 8_191, 8_192, 60_000])),
        9..=30 => (random.pick(&[0, 8_192, 60_001, u64::MAX]), any.1),
        31..=50 => (any.0, random.pick(&[0, 1, 49, 60_001, u64::MAX])),
        51..=65 => hit(random, ship.length / 100),
        _ => hit(random, 20),
    }
}

/// D is below L/15, and a poop can reach 0.8 L.
fn earns_by_poop(ship: &Ship) -> bool {
    let room = ship.houses.first().map_or(ship.length, |first| first.aft);
    15 * ship.depth < ship.length && 100 * fine::shortest_amidships(ship.length) <= room
}

/// A wish that a poop about 0.8 L meets, or that one just fails.
fn asked_amidships(random: &mut Random, ship: &Ship) -> (u64, u64) {
    let height = match random.between(1, 4) {
        1 => random.between(1, 8_191),
        2 => random.between(2_200, 2_400),
        _ => random.between(900, 2_300),
    } as u64;
    let k = fine::shortest_amidships(ship.length) + random.between(-1, 1);
    let mark = question::summer_with_poop(ship, height, k);
    (height, mark.map_or(60_000, |mark| (mark - random.between(0, 1)).max(50) as u64))
}
