//! Ships to write: the line is `written` or the refusal, and the buffer afterwards.

use crate::heads::{self, slips::Heads};
use crate::lists::{self, slips::Lists};
use crate::ships::{bulk, extremes, house, k1, k2, set_in, three_houses, with};
use crate::sides::{self, slips::Sides};
use crate::timber::{self, slips::Timbers};
use crate::{overlap, refused, Expected, Sample};
use twin::random::Random;
use twin::record::{House, RawShip, Version};
use twin::report::Trial;

#[derive(Default)]
pub struct Writes {
    pub samples: Vec<Sample>,
    pub lists: Lists,
    pub heads: Heads,
    pub sides: Sides,
    pub timbers: Timbers,
}

impl Writes {
    fn into(&mut self, buffer: u64, name: &str, expected: Expected, ship: &RawShip) {
        let trial = Trial { buffer, ship: ship.clone() };
        let data = trial.to_bytes();
        let again = Trial::from_bytes(&data).map(|read| read.line());
        let line = trial.line();
        assert_eq!(again, Some(line.clone()), "{name} does not come back");
        let length = Version::lowest(ship).record_bytes(ship.n.min(8) as usize);
        let short = (buffer as usize) < length;
        self.lists.add(ship, refused(17, 0).filter(|_| short));
        self.heads.write(&trial, &line);
        self.sides.write(&trial, &line);
        self.timbers.write(&trial, &line);
        self.samples.push(Sample::new(name, data, line, expected));
    }

    /// Into a buffer that is longer than any record of one house.
    fn ship(&mut self, name: &str, expected: Expected, ship: &RawShip) {
        self.into(40, name, expected, ship);
    }

    fn houses(&mut self, name: &str, expected: Expected, houses: &[House]) {
        self.into(64, name, expected, &with(k1(), houses));
    }
}

pub fn cases() -> Writes {
    let mut all = Writes::default();
    written(&mut all);
    short_buffers(&mut all);
    kind_and_count(&mut all);
    fields(&mut all);
    houses(&mut all);
    beyond_count(&mut all);
    priorities(&mut all);
    lists(&mut all);
    types(&mut all);
    kind_lengths(&mut all);
    set_in_sides(&mut all);
    wide_breadths(&mut all);
    breadths_beyond_count(&mut all);
    timber(&mut all);
    timber_buffers(&mut all);
    all.lists.enough("writes");
    all.heads.enough("writes");
    all.sides.enough("writes");
    all.timbers.enough("writes");
    all
}

fn written(all: &mut Writes) {
    all.into(27, "k1-fits-exactly", None, &k1());
    all.into(28, "k1-one-byte-over", None, &k1());
    all.into(128, "k1-long-buffer", None, &k1());
    all.into(35, "k2-fits-exactly", None, &k2());
    all.into(128, "k2-long-buffer", None, &k2());
    all.into(64, "three-houses", None, &three_houses());
    all.into(91, "eight-houses-fit-exactly", None, &extremes());
    all.into(128, "eight-houses-long-buffer", None, &extremes());
    let mut random = Random::new(1966);
    for n in [4, 7] {
        all.into(100, &format!("random-ship-houses-{n}"), None, &random.ship(n));
    }
}

fn short_buffers(all: &mut Writes) {
    let short = refused(17, 0);
    all.into(0, "k1-no-buffer", short, &k1());
    all.into(26, "k1-one-byte-short", short, &k1());
    all.into(27, "k2-header-only", short, &k2());
    all.into(34, "k2-one-byte-short", short, &k2());
    all.into(90, "eight-houses-one-byte-short", short, &extremes());
}

fn kind_and_count(all: &mut Writes) {
    // k1 is too short for type 2, and may be of type 4.
    all.ship("type-2", refused(22, 0), &RawShip { kind: 2, ..k1() });
    all.ship("type-4", None, &RawShip { kind: 4, ..k1() });
    all.ship("type-5", refused(3, 0), &RawShip { kind: 5, ..k1() });
    all.ship("type-greatest", refused(3, 0), &RawShip { kind: u64::MAX, ..k1() });
    all.into(128, "nine-houses", refused(4, 0), &RawShip { n: 9, ..extremes() });
    all.ship("sixteen-houses", refused(4, 0), &RawShip { n: 16, ..k1() });
    all.into(0, "most-houses-no-buffer", refused(4, 0), &RawShip { n: u64::MAX, ..k1() });
}

fn fields(all: &mut Writes) {
    // A value whose low bits would do is outside all the same.
    for (name, length) in [
        ("below", 23_999),
        ("above", 365_001),
        ("2-to-20", 1 << 20),
        ("low-bits-good", (1 << 20) + 90_000),
        ("greatest", u64::MAX),
    ] {
        all.ship(&format!("length-{name}"), refused(7, 1), &RawShip { length, ..k1() });
    }
    for (name, depth) in [("below", 999), ("above", 60_001), ("low-bits-good", (1 << 16) + 6_000)] {
        all.ship(&format!("depth-{name}"), refused(7, 2), &RawShip { depth, ..k1() });
    }
    for (name, moulded) in [("below", 999), ("above", 60_001), ("2-to-63", 1 << 63)] {
        all.ship(&format!("moulded-depth-{name}"), refused(7, 3), &RawShip { moulded, ..k1() });
    }
    for (name, cb) in [("below", 0), ("above", 12_001), ("low-bits-good", (1 << 14) + 6_800)] {
        all.ship(&format!("cb-{name}"), refused(7, 4), &RawShip { cb, ..k1() });
    }
    for (name, cwf) in [("below", 0), ("above", 10_001), ("greatest", u64::MAX)] {
        all.ship(&format!("cwf-{name}"), refused(7, 5), &RawShip { cwf, ..k1() });
    }
    for i in 0..6 {
        for (name, ordinate) in [("below", -8_193), ("above", 8_192)] {
            let mut raw = k1();
            raw.sheer[i] = ordinate;
            all.ship(&format!("sheer-{}-{name}", i + 1), refused(7, 6 + i), &raw);
        }
    }
    let sheer = |ordinate| RawShip { sheer: [0, 0, 0, 0, 0, ordinate], ..k1() };
    all.ship("sheer-6-least", refused(7, 11), &sheer(i64::MIN));
    all.ship("sheer-6-greatest", refused(7, 11), &sheer(i64::MAX));
    let certified = |displacement, immersion| RawShip { displacement, immersion, ..k1() };
    all.ship("displacement-2-to-20", refused(7, 12), &certified(1 << 20, 1));
    all.ship("displacement-greatest", refused(7, 12), &certified(u64::MAX, 1));
    all.ship("immersion-2-to-16", refused(7, 13), &certified(1, 1 << 16));
    all.ship("immersion-2-to-63", refused(7, 13), &certified(1, 1 << 63));
    all.ship("displacement-alone", refused(8, 0), &certified((1 << 20) - 1, 0));
    all.ship("immersion-alone", refused(8, 0), &certified(0, (1 << 16) - 1));
}

fn houses(all: &mut Writes) {
    let poop = house(0, 10_000, 2_000);
    let first = refused(9, 0);
    all.houses("fore-end-at-aft-end", first, &[house(40_000, 40_000, 2_000)]);
    all.houses("fore-end-0", first, &[house(-500, 0, 2_000)]);
    all.houses("aft-end-at-length", first, &[house(90_000, 90_500, 2_000)]);
    all.houses("aft-end-minus-20001", first, &[house(-20_001, 9_000, 2_000)]);
    all.houses("aft-end-least", first, &[house(i64::MIN, 9_000, 2_000)]);
    all.houses("fore-end-length-plus-20001", first, &[house(80_000, 110_001, 2_000)]);
    all.houses("fore-end-low-bits-good", first, &[house(80_000, (1 << 21) + 90_000, 2_000)]);
    all.houses("fore-end-greatest", first, &[house(80_000, i64::MAX, 2_000)]);
    all.houses("height-0", first, &[house(80_000, 90_000, 0)]);
    all.houses("height-8192", refused(9, 1), &[poop, house(80_000, 90_000, 8_192)]);
    all.houses("height-greatest", first, &[house(80_000, 90_000, u64::MAX)]);
    let deck = House { quarterdeck: true, ..house(0, 20_000, 1_200) };
    let open_deck = House { enclosed: false, ..deck };
    all.houses("quarterdeck-not-enclosed", refused(10, 0), &[open_deck]);
    all.houses("quarterdeck-aft-end-1", refused(10, 0), &[House { aft: 1, ..deck }]);
    all.houses("quarterdeck-fore-end-at-length", refused(10, 0), &[House { fore: 90_000, ..deck }]);
    all.houses("touching", None, &[poop, house(10_000, 20_000, 2_000)]);
    all.houses("overlapping-by-1", overlap(1, 1), &[poop, house(9_999, 20_000, 2_000)]);
    let late = [poop, house(10_000, 20_000, 1), house(19_999, 30_000, 1)];
    all.houses("overlapping-at-house-2", overlap(2, 1), &late);
}

/// What stands beyond n is ignored, whatever it is.
fn beyond_count(all: &mut Writes) {
    let wild = House {
        enclosed: false,
        quarterdeck: true,
        aft: i64::MAX,
        fore: i64::MIN,
        height: u64::MAX,
        breadth: u64::MAX,
        beam: 1,
    };
    for n in [0, 1, 7] {
        let mut raw = extremes();
        raw.n = n;
        raw.houses[n as usize..].fill(wild);
        all.into(100, &format!("wild-houses-beyond-{n}"), None, &raw);
    }
}

fn priorities(all: &mut Writes) {
    let poop = house(0, 10_000, 2_000);
    let open_deck = House { quarterdeck: true, enclosed: false, ..poop };
    let bad = house(30_000, 30_000, 2_000);
    let overlapping = house(9_999, 20_000, 2_000);
    all.ship("3-before-4", refused(3, 0), &RawShip { kind: 5, n: 9, ..k1() });
    all.ship("4-before-7", refused(4, 0), &RawShip { n: 9, length: 0, ..k1() });
    let both = RawShip { sheer: [0, 9_000, 0, 0, 0, 0], immersion: 1 << 16, ..k1() };
    all.ship("7-lowest-field", refused(7, 7), &both);
    let both = RawShip { displacement: 0, immersion: 1 << 16, ..k1() };
    all.ship("7-before-8", refused(7, 13), &both);
    all.ship("8-before-9", refused(8, 0), &RawShip { immersion: 7, ..with(k1(), &[bad]) });
    all.houses("9-at-house-1-before-10-at-house-0", refused(9, 1), &[open_deck, bad]);
    all.houses("10-before-11", refused(10, 0), &[open_deck, overlapping]);
    let both = with(k1(), &[poop, overlapping]);
    all.into(42, "11-before-17", overlap(1, 1), &both);
}

/// Every type, the version that holds it, and numbers of which only the low bits are a type's.
fn types(all: &mut Writes) {
    for kind in 0..=4 {
        all.into(35, &format!("head-type-{kind}"), None, &RawShip { kind, ..bulk() });
    }
    for (kind, buffer) in [(2, 34), (3, 0), (4, 27)] {
        let raw = RawShip { kind, ..bulk() };
        all.into(buffer, &format!("head-type-{kind}-in-{buffer}-bytes"), refused(17, 0), &raw);
    }
    let mut random = Random::new(1968);
    for (kind, n) in [(2, 8), (3, 5), (4, 2), (3, 0)] {
        let raw = random.ship_of(kind, n);
        all.into(100, &format!("head-random-type-{kind}-houses-{n}"), None, &raw);
    }
    all.into(91, "head-type-3-extreme-values", None, &RawShip { kind: 3, ..extremes() });
    for (name, kind) in [
        ("5", 5),
        ("6", 6),
        ("7", 7),
        ("8", 8),
        ("12", 12),
        ("2-to-32-and-2", (1 << 32) + 2),
        ("2-to-63-and-4", (1 << 63) + 4),
        ("greatest", u64::MAX),
    ] {
        let raw = RawShip { kind, ..bulk() };
        all.into(64, &format!("head-type-{name}-of-120-m"), refused(3, 0), &raw);
    }
}

/// Refusal 22 from both sides, after 7 and before 8.
fn kind_lengths(all: &mut Writes) {
    for (kind, length, expected) in [
        (2, 100_000, refused(22, 0)),
        (2, 100_001, None),
        (2, 200_001, None),
        (3, 100_000, refused(22, 0)),
        (3, 100_001, None),
        (3, 365_000, None),
        (4, 24_000, None),
        (4, 99_999, None),
        (4, 100_000, None),
        (4, 200_000, None),
        (4, 200_001, refused(22, 0)),
        (4, 365_000, refused(22, 0)),
        (1, 100_000, None),
        (0, 100_000, None),
    ] {
        let name = format!("head-type-{kind}-length-{length}");
        all.into(40, &name, expected, &heads::of_length(kind, length));
    }
    let longest = heads::of_length(4, 200_000);
    all.into(34, "17-type-4-length-200000", refused(17, 0), &longest);
    all.into(27, "head-type-4-length-200000-no-house", None, &RawShip { n: 0, ..longest });
    for (kind, length) in [(2, 100_000), (3, 90_000), (4, 200_001)] {
        let raw = heads::of_length(kind, length);
        let bad = RawShip { cwf: 0, ..raw.clone() };
        all.into(40, &format!("7-before-22-type-{kind}"), refused(7, 5), &bad);
        let bad = RawShip { immersion: 7, ..raw.clone() };
        all.into(40, &format!("22-before-8-type-{kind}"), refused(22, 0), &bad);
        all.into(34, &format!("22-before-17-type-{kind}"), refused(22, 0), &raw);
        let aft = house(30_000, 40_000, 2_000);
        let houses = match kind {
            2 => [house(30_000, 30_000, 2_000), raw.houses[0]],
            3 => [raw.houses[0], aft],
            _ => [aft, aft],
        };
        let number = [9, 18, 11][kind as usize - 2];
        let bad = with(raw, &houses);
        all.into(64, &format!("22-before-{number}"), refused(22, 0), &bad);
    }
    for (kind, length) in [(2, 23_999), (3, 0), (4, 365_001), (4, u64::MAX)] {
        let raw = RawShip { kind, length, ..bulk() };
        all.into(40, &format!("7-before-22-type-{kind}-length-{length}"), refused(7, 1), &raw);
    }
    let raw = RawShip { n: 9, ..heads::of_length(2, 90_000) };
    all.into(40, "4-before-22", refused(4, 0), &raw);
}

/// Ships about set-in sides, and what comes after 23; the buffer is that of version 3.
fn set_in_sides(all: &mut Writes) {
    for case in sides::ships() {
        all.into(124, &case.name, case.expected, &case.raw);
    }
    let one = sides::forecastle(9_500, 10_000);
    for (buffer, expected) in [(27, true), (35, true), (38, true), (39, false), (40, false)] {
        let name = format!("side-one-house-in-{buffer}-bytes");
        all.into(buffer, &name, refused(17, 0).filter(|_| expected), &one);
    }
    let eight = with(k1(), &[set_in(k2().houses[0], 1, 1); 8]);
    let mut random = Random::new(2005);
    for n in [3, 8] {
        let mut raw = random.ship_of(n as u64 % 5, n);
        raw.houses[..n].iter_mut().for_each(|h| (h.breadth, h.beam) = random.breadths());
        for (buffer, short) in [(27 + 8 * n, true), (26 + 12 * n, true), (27 + 12 * n, false)] {
            let name = format!("side-random-houses-{n}-in-{buffer}-bytes");
            all.into(buffer as u64, &name, refused(17, 0).filter(|_| short), &raw);
        }
    }
    all.into(0, "side-11-before-17", overlap(1, 10_000), &eight);
    for ((name, breadth, beam), buffer) in sides::BAD.into_iter().zip([0, 35, 38]) {
        let raw = sides::forecastle(breadth, beam);
        let name = format!("side-23-{name}-before-17-in-{buffer}-bytes");
        all.into(buffer, &name, refused(23, 0), &raw);
    }
}

/// Breadths beyond 16 bits, though their low bits or products would do.
fn wide_breadths(all: &mut Writes) {
    // 23 times this is 17 above 2^64.
    let wraps = u64::MAX / 23 + 1;
    for (name, breadth, beam) in [
        ("house-low-bits-good", (1 << 16) + 9_500, 10_000),
        ("ship-low-bits-good", 9_500, (1 << 16) + 10_000),
        ("both-low-bits-good", (1 << 16) + 9_500, (1 << 16) + 10_000),
        ("both-high-bits", (1 << 32) + 9_500, (1 << 32) + 10_000),
        ("both-highest-bit", (1 << 63) + 9_500, (1 << 63) + 10_000),
        ("both-2-to-16", 1 << 16, 1 << 16),
        ("65535-of-65536", 65_535, 65_536),
        ("75000-of-80000", 75_000, 80_000),
        ("both-greatest", u64::MAX, u64::MAX),
        ("house-greatest", u64::MAX, 10_000),
        ("ship-greatest", 9_500, u64::MAX),
        ("one-of-a-product-that-wraps", 1, wraps),
        ("16-bits-of-a-product-that-wraps", 65_535, 2 * wraps),
        ("both-of-a-product-that-wraps", wraps, wraps),
        ("zero-of-2-to-16", 0, 1 << 16),
        ("2-to-16-of-zero", 1 << 16, 0),
    ] {
        let raw = sides::forecastle(breadth, beam);
        all.into(64, &format!("side-wide-{name}"), refused(23, 0), &raw);
    }
    let second = [k2().houses[0], k2().houses[0]];
    let houses =
        [House { aft: 10_000, fore: 20_000, ..second[0] }, set_in(second[1], 1 << 40, 1 << 40)];
    all.into(64, "side-wide-second-house", refused(23, 1), &with(k1(), &houses));
}

/// Breadths beyond n are ignored, whatever they are.
fn breadths_beyond_count(all: &mut Writes) {
    for (n, name, breadth, beam) in [
        (0, "sound", 9_500, 10_000),
        (1, "sound", 10_000, 10_000),
        (2, "sound", 60_293, 65_535),
        (0, "bad", 9_199, 10_000),
        (1, "bad", 0, 1),
        (2, "wide", u64::MAX, u64::MAX),
    ] {
        let houses = [house(10_000, 20_000, 1_900), k2().houses[0]];
        let mut raw = with(k1(), &houses[2 - n..]);
        raw.houses[n..].fill(set_in(house(1, 2, 1), breadth, beam));
        let name = format!("side-{name}-breadths-beyond-{n}");
        all.into(27 + 8 * n as u64, &name, None, &raw);
    }
}

/// Ships about the timber flag, and numbers of which only the low bits are those of type A.
fn timber(all: &mut Writes) {
    for case in timber::ships() {
        all.into(128, &case.name, case.expected, &case.raw);
    }
    for (name, kind) in
        [("8", 8), ("2-to-32", 1 << 32), ("2-to-63", 1 << 63), ("greatest", u64::MAX)]
    {
        let raw = RawShip { kind, ..timber::flagged(&k2()) };
        all.into(64, &format!("timber-3-type-{name}"), refused(3, 0), &raw);
    }
    let a = RawShip { kind: 0, ..timber::flagged(&k2()) };
    for (name, n) in [("16", 16), ("2-to-32-and-1", (1 << 32) + 1), ("greatest", u64::MAX)] {
        let raw = RawShip { n, ..a.clone() };
        all.into(64, &format!("timber-24-before-4-{name}-houses"), refused(24, 0), &raw);
    }
    let mut sheer = a.clone();
    sheer.sheer[3] = i64::MIN;
    all.into(64, "timber-24-before-7-sheer", refused(24, 0), &sheer);
    let wide = with(a, &[set_in(k2().houses[0], 1 << 20, 1 << 20)]);
    all.into(64, "timber-24-before-23-wide", refused(24, 0), &wide);
    // What stands beyond n is ignored in version 4 too.
    for n in [0, 1, 2] {
        let houses = [house(10_000, 20_000, 1_900), k2().houses[0]];
        let mut raw = timber::flagged(&with(k1(), &houses[2 - n..]));
        raw.houses[n..].fill(set_in(house(1, 2, 0), 1, u64::MAX));
        all.into(27 + 12 * n as u64, &format!("timber-wild-houses-beyond-{n}"), None, &raw);
    }
}

/// 17 by the length of version 4, and after 24.
fn timber_buffers(all: &mut Writes) {
    let one = timber::flagged(&k2());
    for (buffer, short) in [(27, true), (35, true), (38, true), (39, false), (40, false)] {
        let name = format!("timber-one-house-in-{buffer}-bytes");
        all.into(buffer, &name, refused(17, 0).filter(|_| short), &one);
    }
    for (buffer, short) in [(0, true), (26, true), (27, false), (28, false)] {
        let name = format!("timber-no-house-in-{buffer}-bytes");
        all.into(buffer, &name, refused(17, 0).filter(|_| short), &timber::flagged(&k1()));
    }
    let mut random = Random::new(2009);
    for n in [2, 8] {
        let raw = timber::flagged(&random.ship_of(1 + n as u64 % 4, n));
        for (buffer, short) in [(27 + 8 * n, true), (26 + 12 * n, true), (27 + 12 * n, false)] {
            let name = format!("timber-random-houses-{n}-in-{buffer}-bytes");
            all.into(buffer as u64, &name, refused(17, 0).filter(|_| short), &raw);
        }
    }
    for buffer in [0, 27, 35, 38] {
        let raw = RawShip { kind: 0, ..one.clone() };
        let name = format!("timber-24-before-17-in-{buffer}-bytes");
        all.into(buffer, &name, refused(24, 0), &raw);
    }
}

/// Lists about refusals 11 and 18, and what comes before and after either.
fn lists(all: &mut Writes) {
    for case in lists::cases() {
        all.into(96, &case.name, case.expected, &with(k1(), &case.houses));
    }
    for (number, expected, houses) in lists::either() {
        let raw = with(k1(), &houses);
        let bad = RawShip { cwf: 0, ..raw.clone() };
        all.into(64, &format!("7-before-{number}"), refused(7, 5), &bad);
        let bad = RawShip { displacement: 7, ..raw.clone() };
        all.into(64, &format!("8-before-{number}"), refused(8, 0), &bad);
        for buffer in [0, 27, 42] {
            let name = format!("{number}-before-17-in-{buffer}-bytes");
            all.into(buffer, &name, expected, &raw);
        }
        // What stands beyond n is not compared.
        for n in [0, 1] {
            let name = format!("{number}-beyond-{n}");
            all.into(64, &name, None, &RawShip { n, ..raw.clone() });
        }
    }
}
