//! Ships and records about set-in sides: refusal 23 and version 3. The ships are given to every call, the
//! records to those that read. Each says the refusal and its place.

pub mod slips;

use crate::bytes::{over, packed, packed_as, resized, VERSION};
use crate::heads::of_length;
use crate::ships::{bulk, house, k1, k2, open, quarterdeck, set_in, with};
use crate::{refused, Expected};
use twin::record::{House, RawShip, Version};

/// First bit of the fields in the head of versions 2 and 3.
const COUNT: usize = 7;
const SPARE: usize = 11;

pub struct Case {
    pub name: String,
    pub expected: Expected,
    pub raw: RawShip,
}

pub struct Record {
    pub name: String,
    pub expected: Expected,
    pub bytes: Vec<u8>,
}

struct Ships(Vec<Case>);

impl Ships {
    fn ship(&mut self, name: &str, expected: Expected, raw: &RawShip) {
        self.0.push(Case { name: format!("side-{name}"), expected, raw: raw.clone() });
    }

    fn houses(&mut self, name: &str, expected: Expected, houses: &[House]) {
        self.ship(name, expected, &with(k1(), houses));
    }
}

struct Records(Vec<Record>);

impl Records {
    fn bytes(&mut self, name: &str, expected: Expected, bytes: Vec<u8>) {
        self.0.push(Record { name: format!("side-{name}"), expected, bytes });
    }
}

pub fn ships() -> Vec<Case> {
    let mut all = Ships(Vec::new());
    breadths(&mut all);
    types(&mut all);
    places(&mut all);
    sound(&mut all);
    before(&mut all);
    after(&mut all);
    all.0
}

pub fn records() -> Vec<Record> {
    let mut all = Records(Vec::new());
    full_breadth(&mut all);
    versions(&mut all);
    lengths(&mut all);
    spare_bits(&mut all);
    other_places(&mut all);
    all.0
}

/// k2 with breadths of its forecastle.
pub fn forecastle(breadth: u64, beam: u64) -> RawShip {
    with(k1(), &[set_in(k2().houses[0], breadth, beam)])
}

/// Breadths that 23 takes, each by another of its clauses.
pub const BAD: [(&str, u64, u64); 3] =
    [("inside", 9_199, 10_000), ("broader", 10_001, 10_000), ("zero", 0, 10_000)];

/// Three houses of k1, none at the stern, with these breadths.
fn three(breadths: [(u64, u64); 3]) -> Vec<House> {
    let houses = [(10_000, 20_000, 1_900), (30_000, 40_000, 1_500), (80_000, 90_000, 2_000)];
    let of =
        |((aft, fore, height), (breadth, beam))| set_in(house(aft, fore, height), breadth, beam);
    houses.into_iter().zip(breadths).map(of).collect()
}

/// Breadths that 23 lets pass.
const PASS: [(u64, u64); 11] = [
    (9_500, 10_000),
    (9_200, 10_000),
    (9_259, 10_000),
    (9_599, 10_000),
    (10_000, 10_000),
    (1, 1),
    (65_535, 65_535),
    (60_293, 65_535),
    (23, 25),
    (46_000, 50_000),
    (12, 13),
];

/// Breadths that it takes.
const TAKEN: [(u64, u64); 17] = [
    (9_199, 10_000),
    (9_000, 10_000),
    (8_999, 10_000),
    (8_400, 10_000),
    (10_001, 10_000),
    (10_000, 9_500),
    (65_535, 65_534),
    (60_292, 65_535),
    (11, 12),
    (10, 11),
    (1, 2),
    (0, 10_000),
    (0, 1),
    (0, 65_535),
    (10_000, 0),
    (1, 0),
    (65_535, 0),
];

/// Refusal 23 from both sides.
fn breadths(all: &mut Ships) {
    for (breadth, beam) in PASS {
        all.ship(&format!("{breadth}-of-{beam}"), None, &forecastle(breadth, beam));
    }
    for (breadth, beam) in TAKEN {
        let raw = forecastle(breadth, beam);
        all.ship(&format!("{breadth}-of-{beam}"), refused(23, 0), &raw);
    }
}

/// Every type may have houses that are set in.
fn types(all: &mut Ships) {
    for kind in 0..=4 {
        let fore = set_in(bulk().houses[0], 14_250, 15_000);
        let raw = with(RawShip { kind, ..bulk() }, &[fore]);
        all.ship(&format!("type-{kind}"), None, &raw);
    }
}

/// Which house is the place.
fn places(all: &mut Ships) {
    let (full, sound, bad) = ((0, 0), (9_500, 10_000), (9_199, 10_000));
    for (name, place, breadths) in [
        ("second", 1, [full, bad, sound]),
        ("third", 2, [sound, full, bad]),
        ("second-and-third", 1, [sound, bad, (0, 9_000)]),
        ("first-and-third", 0, [(10_001, 10_000), full, bad]),
        ("first-and-second", 0, [bad, bad, full]),
    ] {
        all.houses(&format!("{name}-house-bad"), refused(23, place), &three(breadths));
    }
    // A house that does not count for the marks is judged as well.
    for (place, (name, breadth, beam)) in BAD.into_iter().enumerate() {
        let mut houses = three([full, sound, full]);
        houses[place] = open(set_in(houses[place], breadth, beam));
        all.houses(&format!("open-house-{name}"), refused(23, place), &houses);
        let deck = set_in(quarterdeck(-500, 9_000, 1_200), breadth, beam);
        let houses = [&[deck][..], &three([full; 3])].concat();
        all.houses(&format!("quarterdeck-{name}"), refused(23, 0), &houses);
    }
    let mut eight = eight();
    (eight[7].breadth, eight[7].beam) = bad;
    all.houses("house-7-bad", refused(23, 7), &eight);
}

/// Eight houses of k1, in turn of full breadth and set in.
fn eight() -> Vec<House> {
    let of = |i: i64| house(500 + 11_000 * i, 10_500 + 11_000 * i, 1_800);
    let in_turn = |i: i64| match i % 2 {
        0 => set_in(of(i), 11_500 + 100 * i as u64, 12_300),
        _ => of(i),
    };
    (0..8).map(in_turn).collect()
}

/// Houses that pass: of one ship's breadth or of several, one alone, open, a quarterdeck, eight.
fn sound(all: &mut Ships) {
    let (full, breadths) = ((0, 0), (9_500, 10_000));
    all.houses("three-alike", None, &three([breadths; 3]));
    all.houses("three-unlike", None, &three([(9_301, 10_000), (8_000, 8_600), (5_003, 5_003)]));
    all.houses("second-alone", None, &three([full, breadths, full]));
    all.houses("third-alone", None, &three([full, full, breadths]));
    all.houses("all-but-the-first", None, &three([full, (9_300, 10_000), (11_000, 11_001)]));
    for place in 0..3 {
        let mut houses = three([full; 3]);
        houses[place] = open(set_in(houses[place], 9_400, 10_000));
        all.houses(&format!("open-house-{place}-alone"), None, &houses);
    }
    let deck = set_in(quarterdeck(-500, 9_000, 1_200), 9_400, 10_000);
    let houses = [&[deck][..], &three([full; 3])].concat();
    all.houses("quarterdeck-alone", None, &houses);
    all.houses("eight", None, &eight());
}

/// 7, 22, 8 and 9 stand before 23.
fn before(all: &mut Ships) {
    for (name, breadth, beam) in BAD {
        let bad = RawShip { cwf: 0, ..forecastle(breadth, beam) };
        all.ship(&format!("7-before-23-{name}"), refused(7, 5), &bad);
        let bad = RawShip { immersion: 7, ..forecastle(breadth, beam) };
        all.ship(&format!("8-before-23-{name}"), refused(8, 0), &bad);
    }
    for ((kind, length), (_, breadth, beam)) in
        [(2, 100_000), (3, 90_000), (4, 200_001)].into_iter().zip(BAD)
    {
        let mut raw = of_length(kind, length);
        (raw.houses[0].breadth, raw.houses[0].beam) = (breadth, beam);
        all.ship(&format!("22-before-23-type-{kind}"), refused(22, 0), &raw);
    }
    let flat = |place: usize, mut houses: Vec<House>| {
        houses[place].height = 0;
        houses
    };
    let (full, bad) = ((0, 0), (9_199, 10_000));
    for (place, breadths) in [(1, [bad, full, full]), (2, [bad, full, bad]), (2, [full, bad, full])]
    {
        let other = breadths.iter().position(|&breadths| breadths == bad).unwrap_or(0);
        let name = format!("9-at-house-{place}-before-23-at-house-{other}");
        all.houses(&name, refused(9, place), &flat(place, three(breadths)));
    }
    let name = "9-before-23-of-one-house";
    all.houses(name, refused(9, 1), &flat(1, three([full, (0, 1), full])));
}

/// 10, 11 and 18 stand after 23.
fn after(all: &mut Ships) {
    let (full, bad) = ((0, 0), (9_199, 10_000));
    let open_deck = |breadths| {
        let mut houses = three(breadths);
        houses[0] = open(House { quarterdeck: true, ..houses[0] });
        houses
    };
    for place in 0..3 {
        let mut breadths = [full; 3];
        breadths[place] = bad;
        let name = format!("23-at-house-{place}-before-10-at-house-0");
        all.houses(&name, refused(23, place), &open_deck(breadths));
        // The second house begins within the first, or abaft it.
        for (number, aft) in [(11, 19_000), (18, 9_000)] {
            let mut houses = three(breadths);
            houses[1].aft = aft;
            let name = format!("23-at-house-{place}-before-{number}-at-house-1");
            all.houses(&name, refused(23, place), &houses);
        }
    }
}

/// Version 3 with no breadth holds what versions 1 and 2 do.
fn full_breadth(all: &mut Records) {
    let third = |raw: &RawShip| packed_as(Version::Three, raw);
    all.bytes("version-3-k1", None, third(&k1()));
    all.bytes("version-3-k2", None, third(&k2()));
    for kind in 0..=4 {
        all.bytes(&format!("version-3-type-{kind}"), None, third(&RawShip { kind, ..bulk() }));
    }
    all.bytes("version-3-three-houses", None, third(&with(k1(), &three([(0, 0); 3]))));
    let none = RawShip { kind: 4, n: 0, depth: 12_000, ..bulk() };
    all.bytes("version-3-type-4-no-house", None, third(&none));
}

/// Refusals 2 to 4.
fn versions(all: &mut Records) {
    let third = packed(&forecastle(9_500, 10_000));
    let none = packed_as(Version::Three, &k1());
    let reduced = packed_as(Version::Three, &RawShip { kind: 2, ..bulk() });
    for (name, bytes) in [("set-in", &third), ("no-house", &none), ("type-2", &reduced)] {
        // Version 4 without the timber flag.
        let fourth = over(bytes.clone(), VERSION, 4, 4);
        all.bytes(&format!("version-4-{name}"), None, fourth);
        let fifth = over(bytes.clone(), VERSION, 4, 5);
        all.bytes(&format!("version-5-{name}"), refused(2, 0), fifth);
    }
    for kind in [5, 7] {
        let bytes = packed_as(Version::Three, &RawShip { kind, ..bulk() });
        all.bytes(&format!("version-3-type-{kind}"), refused(3, 0), bytes);
    }
    let nine = over(resized(third, 27 + 12 * 9), COUNT, 4, 9);
    all.bytes("version-3-9-houses", refused(4, 0), nine);
}

/// Refusal 5: a record that is as long as another version's, and others.
fn lengths(all: &mut Records) {
    for n in [1, 2, 3] {
        let houses = three([(9_500, 10_000), (0, 0), (9_301, 10_000)]);
        let raw = with(k1(), &houses[3 - n..]);
        let third = packed_as(Version::Three, &raw);
        let first = packed_as(Version::One, &raw);
        let second = packed_as(Version::Two, &raw);
        let name =
            |version, bytes: &[u8]| format!("version-{version}-houses-{n}-bytes-{}", bytes.len());
        // The head of versions 2 and 3 is alike but for the number.
        let bytes = over(second, VERSION, 4, 3);
        all.bytes(&name(3, &bytes), refused(5, 0), bytes);
        let bytes = over(third.clone(), VERSION, 4, 2);
        all.bytes(&name(2, &bytes), refused(5, 0), bytes);
        let bytes = [&first[..27], &third[27..]].concat();
        all.bytes(&name(1, &bytes), refused(5, 0), bytes);
        if n == 1 {
            for length in [27, 38, 40, 51] {
                let bytes = resized(third.clone(), length);
                all.bytes(&name(3, &bytes), refused(5, 0), bytes);
            }
        }
    }
    let longest = packed(&with(k1(), &eight()));
    for length in [91, 122, 124] {
        let name = format!("version-3-houses-8-bytes-{length}");
        all.bytes(&name, refused(5, 0), resized(longest.clone(), length));
    }
    let none = resized(packed_as(Version::Three, &k1()), 39);
    all.bytes("version-3-no-house-39-bytes", refused(5, 0), none);
}

/// Refusal 6, before 23.
fn spare_bits(all: &mut Records) {
    let third = packed(&with(k1(), &three([(9_500, 10_000), (9_500, 10_000), (0, 0)])));
    for bit in [0, 2, 4] {
        let bytes = over(third.clone(), SPARE + bit, 1, 1);
        all.bytes(&format!("head-spare-bit-{bit}"), refused(6, 0), bytes);
    }
    for (place, bit) in [(0, 57), (1, 60), (2, 63)] {
        let at = 8 * Version::Three.record_bytes(place) + bit;
        let bytes = over(third.clone(), at, 1, 1);
        all.bytes(&format!("house-{place}-spare-bit"), refused(6, 0), bytes);
    }
    for (place, (name, breadth, beam)) in BAD.into_iter().enumerate() {
        let mut breadths = [(0, 0); 3];
        breadths[place] = (breadth, beam);
        let bytes = packed(&with(k1(), &three(breadths)));
        let at = if place == 0 { SPARE } else { 8 * Version::Three.record_bytes(2) + 58 };
        all.bytes(&format!("6-before-23-{name}"), refused(6, 0), over(bytes, at, 1, 1));
    }
}

/// As many bytes as another number of houses has in another version.
fn other_places(all: &mut Records) {
    let houses = three([(9_500, 10_000), (10_000, 10_000), (0, 0)]);
    let second = over(packed(&with(k1(), &houses[..2])), VERSION, 4, 2);
    // The second of three would begin with breadths.
    all.bytes("two-of-12-as-three-of-8", refused(6, 0), over(second, COUNT, 4, 3));
    // The first of two would have breadths of the second's first bytes.
    let second = over(packed_as(Version::Two, &with(k1(), &houses)), VERSION, 4, 3);
    all.bytes("three-of-8-as-two-of-12", refused(6, 0), over(second, COUNT, 4, 2));
}
