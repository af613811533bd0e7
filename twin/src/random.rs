//! Random ships from a seed, the same ones on every machine.

mod timber;

use crate::marks::{self, standard_height};
use crate::record::{House, RawShip, Ship};

/// A small generator (splitmix64).
pub struct Random(u64);

impl Random {
    pub fn new(seed: u64) -> Random {
        Random(seed)
    }

    pub fn number(&mut self) -> u64 {
        self.0 = self.0.wrapping_add(0x9e37_79b9_7f4a_7c15);
        let mut z = self.0;
        z = (z ^ z >> 30).wrapping_mul(0xbf58_476d_1ce4_e5b9);
        z = (z ^ z >> 27).wrapping_mul(0x94d0_49bb_1331_11eb);
        z ^ z >> 31
    }

    /// A number from `low` to `high`, both included.
    pub fn between(&mut self, low: i64, high: i64) -> i64 {
        let count = (high - low + 1) as u64;
        low + (self.number() % count) as i64
    }

    /// True once in `n` times.
    pub fn once_in(&mut self, n: i64) -> bool {
        self.between(1, n) == 1
    }

    /// One of the things, each as likely.
    pub fn pick<T: Copy>(&mut self, from: &[T]) -> T {
        from[self.between(0, from.len() as i64 - 1) as usize]
    }

    /// A valid ship of any of the five types with `n` houses. One in three is a low one, one in eight
    /// has its mark about the floor; one time in three houses of it are set in.
    pub fn any_ship(&mut self, n: usize) -> RawShip {
        let kind = self.kind();
        let mut raw = match self.between(1, 24) {
            // Its mark is what it is by its houses: they have their breadths before.
            1..=3 => return self.ship_at_floor(kind, n),
            4..=11 => self.low_ship_of(Some(kind), n),
            _ => self.ship_of(kind, n),
        };
        self.set_in_at_times(&mut raw.houses[..n]);
        raw
    }

    /// Sets houses in, one time in three.
    pub fn set_in_at_times(&mut self, houses: &mut [House]) {
        if self.once_in(3) {
            self.set_in(houses);
        }
    }

    /// Gives breadths to all, half or few of the houses.
    pub fn set_in(&mut self, houses: &mut [House]) {
        let share = self.pick(&[1, 2, 4]);
        for house in houses {
            if self.once_in(share) {
                (house.breadth, house.beam) = self.breadths();
            }
        }
    }

    /// The breadth of a house and the ship's, which refusal 23 lets pass: often as little as can be,
    /// or equal.
    pub fn breadths(&mut self) -> (u64, u64) {
        let beam = self.beam();
        let least = least_breadth(beam);
        let breadth = match self.between(1, 8) {
            1 | 2 => beam,
            3 | 4 => least,
            5 => (least + 1).min(beam),
            6 => (beam - 1).max(least),
            _ => self.between(least, beam),
        };
        (breadth as u64, beam as u64)
    }

    /// The same of 16 bits that it takes, often by as little as can be.
    pub fn bad_breadths(&mut self) -> (u64, u64) {
        // There is a greater one.
        let beam = self.beam().min(65_534);
        let least = least_breadth(beam);
        let (breadth, beam) = match self.between(1, 8) {
            1 => (0, beam),
            2 => (beam, 0),
            3 => (self.between(1, 65_535), 0),
            4 => (beam + 1, beam),
            5 => (self.between(beam + 1, 65_535), beam),
            6 => (self.between(0, least - 1), beam),
            _ => (least - 1, beam),
        };
        (breadth as u64, beam as u64)
    }

    /// A breadth of the ship: any, small or great, or one of which 0.92 is whole.
    fn beam(&mut self) -> i64 {
        match self.between(1, 8) {
            1 => self.between(1, 40),
            2 => self.between(65_500, 65_535),
            3 | 4 => 25 * self.between(1, 2_621),
            _ => self.between(2_000, 60_000),
        }
    }

    /// The number of a type; types 2 to 4 more often than A and B.
    pub fn kind(&mut self) -> u64 {
        self.pick(&[0, 1, 1, 2, 2, 3, 4, 4])
    }

    /// A valid ship of type A or B with `n` houses: borders of the rules often, anything else besides.
    pub fn ship(&mut self, n: usize) -> RawShip {
        loop {
            let raw = self.attempt(None, n);
            if raw.check().is_ok() {
                return raw;
            }
        }
    }

    /// The same of this type, its length often at a border of its line.
    pub fn ship_of(&mut self, kind: u64, n: usize) -> RawShip {
        loop {
            let length = self.length_of(kind);
            let raw = self.attempt(Some((kind, length)), n);
            if raw.check().is_ok() {
                return raw;
            }
        }
    }

    /// A valid type B ship of this length with `n` houses.
    pub fn ship_of_length(&mut self, length: i64, n: usize) -> RawShip {
        loop {
            let raw = self.attempt(Some((1, length)), n);
            if raw.check().is_ok() {
                return raw;
            }
        }
    }

    /// A valid ship of type A or B with `n` houses and D below L/15, seldom at it. Most often a house
    /// stands from about 0.2 L to about 0.8 L or beyond; the bow height seldom decides, lest it hide
    /// what that is worth.
    pub fn low_ship(&mut self, n: usize) -> RawShip {
        self.low_ship_of(None, n)
    }

    /// The same of this type, if one is given.
    pub fn low_ship_of(&mut self, kind: Option<u64>, n: usize) -> RawShip {
        loop {
            let given = kind.map(|kind| (kind, self.length_of(kind)));
            let mut raw = self.attempt(given, n);
            if self.once_in(4) {
                // L/15, 0.2 L and 0.8 L are whole mm, and 0.8 L is whole dm.
                raw.length -= raw.length % 375;
            }
            let length = raw.length as i64;
            raw.depth = self.low_depth(length) as u64;
            if !self.once_in(6) {
                self.lower_bow(&mut raw);
            }
            let houses = &mut raw.houses[..n];
            match n {
                0 => {}
                _ if self.once_in(6) => self.put_row(houses, length * 4 / 5, length, length),
                _ => self.put_amidships(houses, length),
            }
            if raw.check().is_ok() {
                return raw;
            }
        }
    }

    /// A valid ship of this type with `n` houses whose summer or tropical mark is at the floor of its
    /// type, at that of another, or within 2 mm of either. With no house it is any ship.
    pub fn ship_at_floor(&mut self, kind: u64, n: usize) -> RawShip {
        // Some lengths and houses have no depth for it.
        for _ in 0..24 {
            let length = self.length_of(kind);
            let mut raw = self.attempt(Some((kind, length)), n);
            self.lower_bow(&mut raw);
            raw.cb = self.between(6_000, 7_500) as u64;
            self.put_long_houses(&mut raw.houses[..n], length);
            self.set_in_at_times(&mut raw.houses[..n]);
            let floor = self.pick(&[50, 150]) + self.between(-2, 2);
            if let Some(depth) = self.depth_for(&raw, floor) {
                raw.depth = depth;
                return raw;
            }
        }
        self.ship_of(kind, n)
    }

    /// Houses over nearly all of the length, the last one most often a forecastle.
    fn put_long_houses(&mut self, houses: &mut [House], length: i64) {
        if let [only] = houses {
            *only = self.middle_house(0, length, length);
        } else if let [first, rest @ ..] = houses {
            let cut = self.between(length / 2, length * 93 / 100);
            *first = self.middle_house(0, cut, length);
            self.put_row(rest, cut, length, length);
            if let Some(last) = rest.last_mut() {
                last.fore = length;
            }
        }
    }

    /// A depth for which S, or T, comes to so many mm or just above before the floor.
    fn depth_for(&mut self, raw: &RawShip, mm: i64) -> Option<u64> {
        let tropical = self.once_in(2);
        least_depth(raw, mm, |ship| {
            let steps = marks::steps(ship);
            let summer = steps.corrected.max(steps.bow).div_euclid(1000);
            if tropical {
                summer - (ship.depth - summer).div_euclid(48)
            } else {
                summer
            }
        })
    }

    /// A length of this type: often where refusal 22 or a table's rule begins or ends, or between two
    /// rows, at times one that 22 takes.
    pub fn length_of(&mut self, kind: u64) -> i64 {
        const METRES: [i64; 9] = [24, 75, 85, 100, 108, 109, 120, 199, 200];
        if kind < 2 && !self.once_in(3) {
            return self.length();
        }
        let most = if kind == 4 { 200_000 } else { 365_000 };
        let least = if kind == 2 || kind == 3 { 100_001 } else { 24_000 };
        match self.between(1, 8) {
            1 => 1000 * self.pick(&METRES) + self.between(-1, 1),
            2 => 108_000 + self.between(0, 1_000),
            3 => 1000 * self.between(least / 1000 + 1, most / 1000),
            4 => self.between(least, 125_000),
            5 => self.between(100_000, 130_000),
            _ => self.between(least, most),
        }
    }

    /// Any length, often where a rule for all types changes.
    fn length(&mut self) -> i64 {
        const LENGTHS: [i64; 12] = [
            24_000, 30_000, 75_000, 85_000, 99_999, 100_000, 120_000, 122_000, 125_000, 61_500,
            364_999, 365_000,
        ];
        match self.between(1, 6) {
            1 => self.pick(&LENGTHS),
            2 | 3 => self.between(24_000, 125_000),
            _ => self.between(24_000, 365_000),
        }
    }

    /// A ship that need not be valid, of type A or B and any length if none is given.
    fn attempt(&mut self, given: Option<(u64, i64)>, n: usize) -> RawShip {
        let length = given.map_or_else(|| self.length(), |(_, length)| length);
        let depth = match self.between(1, 4) {
            1 => self.between(1_000, 60_000),
            2 => (length / 15 + self.between(-2, 2)).max(1_000),
            _ => (length / 15 * self.between(60, 180) / 100).max(1_000),
        };
        let moulded = if self.once_in(2) { depth } else { self.between(1_000, 60_000) };
        let certified = self.once_in(2);
        let mut raw = RawShip {
            kind: given.map_or_else(|| self.between(0, 1) as u64, |(kind, _)| kind),
            n: n as u64,
            length: length as u64,
            depth: depth as u64,
            moulded: moulded as u64,
            cb: match self.between(1, 4) {
                1 => self.pick(&[1, 6_800, 6_801, 10_000, 10_001, 12_000]),
                2 => self.between(1, 12_000) as u64,
                _ => self.between(5_000, 9_500) as u64,
            },
            cwf: match self.between(1, 4) {
                1 => self.between(1, 10_000) as u64,
                _ => self.between(6_500, 10_000) as u64,
            },
            sheer: self.sheer(length),
            displacement: if certified { self.between(1, 200_000) as u64 } else { 0 },
            immersion: if certified { self.between(1, 65_535) as u64 } else { 0 },
            ..RawShip::default()
        };
        self.put_houses(&mut raw.houses[..n], length);
        raw
    }

    /// Ordinates near the standard ones, anything, or none.
    fn sheer(&mut self, length: i64) -> [i64; 6] {
        let near = |random: &mut Random, ordinate: i64, per_cent: i64| {
            ordinate * per_cent / 100 + random.between(-20, 20)
        };
        let u = (length + 30_000) / 3_000;
        let (after, forward) = (self.between(30, 180), self.between(60, 180));
        match self.between(1, 6) {
            1 => [0; 6],
            2 => std::array::from_fn(|_| self.between(-8_192, 8_191)),
            _ => [
                near(self, 25 * u, after),
                near(self, 111 * u / 10, after),
                near(self, 28 * u / 10, after),
                near(self, 56 * u / 10, forward),
                near(self, 222 * u / 10, forward),
                near(self, 50 * u, forward).min(8_191),
            ],
        }
    }

    /// A depth below L/15, often by little, and at times at it.
    fn low_depth(&mut self, length: i64) -> i64 {
        let most = (length - 1) / 15;
        let depth = match self.between(1, 6) {
            1 => most + self.between(-2, 1),
            2 => self.between(1_000, most),
            _ => most * self.between(70, 100) / 100,
        };
        depth.max(1_000)
    }

    /// Asks for less bow height, and gives sheer for it.
    fn lower_bow(&mut self, raw: &mut RawShip) {
        raw.moulded = self.between(1_000, 2_500) as u64;
        raw.cwf = self.between(8_500, 10_000) as u64;
        if self.once_in(2) {
            raw.sheer[4] = raw.sheer[4].max(1);
            raw.sheer[5] = self.between(2_000, 8_191);
        }
    }

    /// A house about 0.2 L to 0.8 L or longer, at times two that touch there; others abaft and before.
    fn put_amidships(&mut self, houses: &mut [House], length: i64) {
        let n = houses.len();
        let count = if n > 1 && self.once_in(8) { 2 } else { 1 };
        let place = self.between(0, (n - count) as i64) as usize;
        let (abaft, rest) = houses.split_at_mut(place);
        let (middle, before) = rest.split_at_mut(count);
        let aft = match self.between(1, 4) {
            1 | 2 if abaft.is_empty() => -self.between(0, 2_000),
            3 => length / 5 + self.between(-2, 2),
            _ => self.between(1, length / 5),
        };
        // 0.8 L up to whole mm.
        let end = length - length / 5;
        let fore = match self.between(1, 4) {
            1 if before.is_empty() => length + self.between(0, 2_000),
            2 => end + self.between(-2, 2),
            _ => self.between(end, length - 1),
        };
        self.put_row(abaft, 0, aft, length);
        self.put_row(before, fore, length, length);
        let cut = self.between(length / 5, end);
        for house in middle.iter_mut() {
            *house = self.middle_house(aft, fore, length);
        }
        if let [first, second] = middle {
            (first.fore, second.aft) = (cut, cut);
        }
    }

    /// A house from `aft` to `fore`, often about its standard height or lower.
    fn middle_house(&mut self, aft: i64, fore: i64, length: i64) -> House {
        let enclosed = !self.once_in(12);
        let quarterdeck = enclosed && aft <= 0 && fore < length && !self.once_in(3);
        let (standard, parts) = standard_height(quarterdeck, length);
        let standard = standard / parts;
        let height = match self.between(1, 6) {
            1 => standard + self.between(-1, 1),
            2 => self.between(1, 8_191),
            3 => self.between(1, standard),
            _ => self.between(standard / 2, standard * 5 / 4),
        };
        House { enclosed, quarterdeck, aft, fore, height: height as u64, ..House::default() }
    }

    /// Houses in order between two stations; some touch, some stand at one of them.
    fn put_row(&mut self, houses: &mut [House], from: i64, to: i64, length: i64) {
        let mut cuts: Vec<i64> = (0..2 * houses.len()).map(|_| self.between(from, to)).collect();
        if let [first, .., last] = &mut cuts[..] {
            *first = if self.once_in(3) { from } else { *first };
            *last = if self.once_in(2) { to } else { *last };
        }
        self.put_between(houses, cuts, length);
    }

    /// Houses in order between cuts of the deck; some touch, some stand at a border.
    fn put_houses(&mut self, houses: &mut [House], length: i64) {
        let borders =
            [-20_000, 0, length / 10, length / 2, length * 6 / 10, length * 93 / 100, length];
        let cuts = (0..2 * houses.len())
            .map(|_| match self.between(1, 4) {
                1 => self.pick(&borders),
                _ => self.between(-2_000, length + 2_000),
            })
            .collect();
        self.put_between(houses, cuts, length);
    }

    /// Houses between two cuts each.
    fn put_between(&mut self, houses: &mut [House], mut cuts: Vec<i64>, length: i64) {
        cuts.sort_unstable();
        for (i, house) in houses.iter_mut().enumerate() {
            let touching = i > 0 && self.once_in(4);
            house.aft = if touching { cuts[2 * i - 1] } else { cuts[2 * i] };
            house.fore = cuts[2 * i + 1];
            house.height = match self.between(1, 3) {
                1 => self.between(1, 8_191) as u64,
                _ => self.between(500, 2_600) as u64,
            };
            house.enclosed = !self.once_in(6);
            house.quarterdeck =
                house.enclosed && house.aft <= 0 && house.fore < length && self.once_in(2);
        }
    }

    /// Houses that pass refusals 9 and 10, each drawn by the one before: clear of it, touching it, or
    /// about it, where 11 and 18 are near each other. A list may have several such houses or none.
    pub fn put_list(&mut self, houses: &mut [House], length: i64) {
        let aft = match self.between(1, 12) {
            1 => self.pick(&[-20_000, -19_999]),
            2..=4 => -self.between(0, 2_000),
            5 | 6 => self.between(-1, 1),
            7 => length - self.between(1, 2_000),
            _ => self.between(0, length / 2),
        };
        let most = if self.once_in(4) { length + 40_000 } else { length / 16 };
        let mut ends = (aft, aft + self.between(1, most));
        let about = self.pick(&[2, 6, 16]);
        for house in houses {
            *house = self.listed(ends, length);
            ends = (house.aft, house.fore);
            ends = if self.once_in(about) { self.about(ends) } else { self.clear(ends, length) };
        }
    }

    /// A house with these ends, as far as refusal 9 lets it have them.
    fn listed(&mut self, (aft, fore): (i64, i64), length: i64) -> House {
        let aft = aft.clamp(-20_000, length - 1);
        let fore = fore.clamp((aft + 1).max(1), length + 20_000);
        let enclosed = !self.once_in(3);
        let quarterdeck = enclosed && aft <= 0 && fore < length && self.once_in(2);
        let height = self.between(1, 8_191) as u64;
        House { enclosed, quarterdeck, aft, fore, height, ..House::default() }
    }

    /// Ends before these, or touching.
    fn clear(&mut self, (_, last): (i64, i64), length: i64) -> (i64, i64) {
        let aft = match self.between(1, 3) {
            1 => last + self.between(0, 1),
            _ => last + self.between(0, length / 24),
        };
        (aft, aft + self.between(1, length / 16))
    }

    /// Ends equal to these or 1 mm off, within them, or abaft them.
    fn about(&mut self, (first, last): (i64, i64)) -> (i64, i64) {
        let aft = match self.between(1, 8) {
            1 | 2 => last - self.between(0, 2),
            3..=5 => first + self.between(-1, 1),
            6 => self.between(first, last),
            _ => first - self.between(1, 20_000),
        };
        let fore = match self.between(1, 8) {
            1..=3 => last + self.between(-1, 1),
            4 => first + self.between(-1, 1),
            5 => aft + 1,
            6 => self.between(first, last),
            _ => last + self.between(1, 20_000),
        };
        (aft, fore)
    }

    /// Changes one of the houses so that refusal 9, 10 or 23 takes it, most often with its ends as they
    /// were.
    pub fn spoil(&mut self, houses: &mut [House], length: i64) {
        let place = self.between(0, houses.len() as i64 - 1) as usize;
        let house = &mut houses[place];
        match self.between(1, 9) {
            1 | 2 => house.height = 0,
            3 => house.fore = house.aft,
            4 => house.fore = length + 20_001,
            5 => (house.quarterdeck, house.fore) = (true, length),
            6 | 7 => (house.quarterdeck, house.enclosed) = (true, false),
            _ => (house.breadth, house.beam) = self.bad_breadths(),
        }
    }
}

/// The least depth for which the ship comes to so many mm, of what rises with the depth.
fn least_depth(raw: &RawShip, mm: i64, comes_to: impl Fn(&Ship) -> i64) -> Option<u64> {
    let of = |depth: u64| Some(comes_to(&RawShip { depth, ..raw.clone() }.check().ok()?));
    // S and T rise as long as the rate is above 1/49.
    let (mut low, mut high) = (1_000, 30_000);
    if of(low)? > mm || of(high)? < mm {
        return None;
    }
    while high - low > 1 {
        let middle = (low + high) / 2;
        match of(middle)? < mm {
            true => low = middle,
            false => high = middle,
        }
    }
    Some(high)
}

/// The least breadth of a house that refusal 23 lets pass: 0.92 of the ship's, up.
fn least_breadth(beam: i64) -> i64 {
    (23 * beam + 24) / 25
}
