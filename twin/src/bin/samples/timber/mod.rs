//! Ships and records about the timber flag: refusal 24 and version 4. The ships are given to every call, the
//! records to those that read. Each says the refusal and its place.

pub mod slips;

use crate::bytes::{over, packed, packed_as, resized, VERSION};
use crate::heads::of_length;
use crate::ships::{bulk, house, k1, k2, open, quarterdeck, set_in, with};
use crate::{refused, Expected};
use twin::record::{House, RawShip, Version};

/// First bit of the fields in the head of versions 2 to 4.
const KIND: usize = 4;
const COUNT: usize = 7;
const FLAG: usize = 11;

pub struct Case {
    pub name: String,
    pub expected: Expected,
    pub raw: RawShip,
}

pub struct Record {
    pub name: String,
    pub expected: Expected,
    pub bytes: Vec<u8>,
}

struct Ships(Vec<Case>);

impl Ships {
    fn ship(&mut self, name: &str, expected: Expected, raw: &RawShip) {
        self.0.push(Case { name: format!("timber-{name}"), expected, raw: raw.clone() });
    }
}

struct Records(Vec<Record>);

impl Records {
    fn bytes(&mut self, name: &str, expected: Expected, bytes: Vec<u8>) {
        self.0.push(Record { name: format!("timber-{name}"), expected, bytes });
    }
}

/// The ship with the flag.
pub fn flagged(raw: &RawShip) -> RawShip {
    RawShip { timber: true, ..raw.clone() }
}

/// The same of this type.
fn of(kind: u64, raw: &RawShip) -> RawShip {
    RawShip { kind, ..flagged(raw) }
}

pub fn ships() -> Vec<Case> {
    let mut all = Ships(Vec::new());
    sound(&mut all);
    breadths(&mut all);
    type_a(&mut all);
    before(&mut all);
    after(&mut all);
    as_without(&mut all);
    all.0
}

pub fn records() -> Vec<Record> {
    let mut all = Records(Vec::new());
    without_flag(&mut all);
    versions(&mut all);
    other_versions(&mut all);
    lengths(&mut all);
    spare_bits(&mut all);
    before_the_rest(&mut all);
    all.0
}

/// Three houses of k1, none at the stern.
fn three() -> [House; 3] {
    [(10_000, 20_000, 1_900), (30_000, 40_000, 1_500), (80_000, 90_000, 2_000)]
        .map(|(aft, fore, height)| house(aft, fore, height))
}

/// Three houses, all or some of them set in.
fn three_set_in() -> [RawShip; 3] {
    let [aft, middle, fore] = three();
    [
        with(k1(), &[set_in(aft, 9_500, 10_000), middle, set_in(fore, 9_301, 10_000)]),
        with(k1(), &[aft, middle, set_in(fore, 9_400, 10_000)]),
        with(k1(), &[aft, set_in(middle, 10_000, 10_000), fore]),
    ]
}

/// Every type B ship may have the flag.
fn sound(all: &mut Ships) {
    all.ship("no-house", None, &flagged(&k1()));
    all.ship("one-house", None, &flagged(&k2()));
    all.ship("three-houses", None, &flagged(&with(k1(), &three())));
    for kind in 1..=4 {
        all.ship(&format!("type-{kind}"), None, &of(kind, &bulk()));
    }
    all.ship("type-4-of-90-m", None, &of(4, &k2()));
    let none = RawShip { n: 0, depth: 12_000, ..of(2, &bulk()) };
    all.ship("type-2-no-house", None, &none);
    let certified = RawShip { displacement: 9_000, immersion: 1_500, ..flagged(&k2()) };
    all.ship("certified", None, &certified);
    let eight: Vec<House> =
        (0..8).map(|i| house(500 + 11_000 * i, 10_500 + 11_000 * i, 1_800)).collect();
    all.ship("eight-houses", None, &flagged(&with(k1(), &eight)));
    let deck = [quarterdeck(-500, 9_000, 1_200), k2().houses[0]];
    all.ship("quarterdeck", None, &flagged(&with(k1(), &deck)));
}

/// The flag beside breadths.
fn breadths(all: &mut Ships) {
    for (i, raw) in three_set_in().into_iter().enumerate() {
        all.ship(&format!("set-in-{i}"), None, &flagged(&raw));
    }
    for kind in 1..=4 {
        let fore = set_in(bulk().houses[0], 14_250, 15_000);
        all.ship(&format!("set-in-type-{kind}"), None, &with(of(kind, &bulk()), &[fore]));
    }
    let open_house = set_in(open(three()[0]), 9_400, 10_000);
    let raw = flagged(&with(k1(), &[open_house, k2().houses[0]]));
    all.ship("open-set-in-house", None, &raw);
}

/// Refusal 24: no ship of type A has the flag, whatever else it has; without it every one is sound.
fn type_a(all: &mut Ships) {
    let certified = RawShip { displacement: 9_000, immersion: 1_500, ..k2() };
    for (name, raw) in [
        ("no-house", k1()),
        ("one-house", k2()),
        ("120-m", bulk()),
        ("three-houses", with(k1(), &three())),
        ("set-in", three_set_in()[0].clone()),
        ("certified", certified),
        ("longest", of_length(0, 365_000)),
    ] {
        all.ship(&format!("type-a-{name}"), refused(24, 0), &of(0, &raw));
        let plain = RawShip { kind: 0, ..raw };
        all.ship(&format!("type-a-{name}-without-the-flag"), None, &plain);
    }
}

/// 3 stands before 24, and is given for a type that is none.
fn before(all: &mut Ships) {
    for kind in 5..=7 {
        all.ship(&format!("3-type-{kind}"), refused(3, 0), &of(kind, &bulk()));
    }
    let raw = RawShip { n: 9, ..of(5, &with(k1(), &three())) };
    all.ship("3-before-4", refused(3, 0), &raw);
    all.ship("3-before-7", refused(3, 0), &RawShip { cwf: 0, ..of(6, &bulk()) });
}

/// 4, 7, 8, 9, 23, 10, 11 and 18 stand after 24.
fn after(all: &mut Ships) {
    let [aft, middle, fore] = three();
    let a = of(0, &k2());
    let mut expect = |name: &str, raw: &RawShip| {
        all.ship(&format!("24-before-{name}"), refused(24, 0), raw);
    };
    for n in [9, 12, 15] {
        expect(&format!("4-n-{n}"), &RawShip { n, ..a.clone() });
    }
    expect("7-field-1", &RawShip { length: 23_999, ..a.clone() });
    expect("7-field-2", &RawShip { depth: 999, ..a.clone() });
    expect("7-field-5", &RawShip { cwf: 0, ..a.clone() });
    expect("8", &RawShip { immersion: 7, ..a.clone() });
    expect("8-displacement", &RawShip { displacement: 7, ..of(0, &k1()) });
    expect("8-of-120-m", &RawShip { displacement: 7, ..of(0, &bulk()) });
    let flat = House { height: 0, ..middle };
    expect("9", &with(a.clone(), &[aft, flat, fore]));
    expect("9-first-house", &with(a.clone(), &[House { fore: 0, ..aft }]));
    expect("23", &with(a.clone(), &[set_in(fore, 9_199, 10_000)]));
    expect("23-zero", &with(a.clone(), &[aft, set_in(fore, 0, 10_000)]));
    expect("10", &with(a.clone(), &[open(quarterdeck(0, 9_000, 1_200)), fore]));
    expect("11", &with(a.clone(), &[aft, house(19_999, 30_000, 2_000), fore]));
    expect("18", &with(a, &[middle, aft, fore]));
}

/// The flag on a type B ship changes no other refusal.
fn as_without(all: &mut Ships) {
    let [aft, middle, fore] = three();
    let b = flagged(&k2());
    for (name, expected, raw) in [
        ("4", refused(4, 0), RawShip { n: 9, ..b.clone() }),
        ("7", refused(7, 5), RawShip { cwf: 0, ..b.clone() }),
        ("22-type-2", refused(22, 0), of(2, &of_length(2, 100_000))),
        ("22-type-3", refused(22, 0), of(3, &of_length(3, 90_000))),
        ("22-type-4", refused(22, 0), of(4, &of_length(4, 200_001))),
        ("8", refused(8, 0), RawShip { immersion: 7, ..b.clone() }),
        ("9", refused(9, 1), with(b.clone(), &[aft, House { height: 0, ..middle }])),
        ("23", refused(23, 0), with(b.clone(), &[set_in(fore, 9_199, 10_000)])),
        ("23-second", refused(23, 1), with(b.clone(), &[aft, set_in(fore, 10_001, 10_000)])),
        ("10", refused(10, 0), with(b.clone(), &[open(quarterdeck(0, 9_000, 1_200)), fore])),
        ("18", refused(18, 1), with(b.clone(), &[middle, aft, fore])),
    ] {
        all.ship(&format!("{name}-as-without-the-flag"), expected, &raw);
    }
    let overlapping = with(b, &[aft, house(19_999, 30_000, 2_000), fore]);
    all.ship("11-as-without-the-flag", crate::overlap(1, 1), &overlapping);
}

fn fourth(raw: &RawShip) -> Vec<u8> {
    packed_as(Version::Four, raw)
}

/// Version 4 without the flag holds what the others do.
fn without_flag(all: &mut Records) {
    all.bytes("version-4-k1", None, fourth(&k1()));
    all.bytes("version-4-k2", None, fourth(&k2()));
    for kind in 0..=4 {
        all.bytes(&format!("version-4-type-{kind}"), None, fourth(&RawShip { kind, ..bulk() }));
    }
    for (i, raw) in three_set_in().iter().enumerate() {
        all.bytes(&format!("version-4-set-in-{i}"), None, fourth(raw));
        let a = RawShip { kind: 0, ..raw.clone() };
        all.bytes(&format!("version-4-type-a-set-in-{i}"), None, fourth(&a));
    }
}

/// Refusals 2 and 3, with all else as in version 4.
fn versions(all: &mut Records) {
    let [one, none, reduced] = [flagged(&k2()), flagged(&k1()), of(2, &bulk())].map(|r| packed(&r));
    for number in [0, 5, 8, 12] {
        let bytes = over(one.clone(), VERSION, 4, number);
        all.bytes(&format!("version-{number}"), refused(2, 0), bytes);
    }
    for (name, bytes) in [("no-house", &none), ("type-2", &reduced)] {
        let bytes = over(bytes.clone(), VERSION, 4, 5);
        all.bytes(&format!("version-5-{name}"), refused(2, 0), bytes);
    }
    for kind in 5..=7 {
        let bytes = fourth(&RawShip { kind, ..bulk() });
        all.bytes(&format!("version-4-type-{kind}-without-the-flag"), refused(3, 0), bytes);
    }
    let a = over(packed(&of(0, &k2())), VERSION, 4, 5);
    all.bytes("2-before-24", refused(2, 0), a);
}

/// The bit is a spare one in versions 1 to 3.
fn other_versions(all: &mut Records) {
    let ships =
        [("k1", k1()), ("k2", k2()), ("120-m", bulk()), ("set-in", three_set_in()[1].clone())];
    for (name, raw) in ships {
        for version in [Version::Two, Version::Three] {
            let bytes = over(packed_as(version, &raw), FLAG, 1, 1);
            let name = format!("bit-11-in-version-{}-{name}", version as u8);
            all.bytes(&name, refused(6, 0), bytes);
        }
    }
    for kind in [0, 2, 3, 4] {
        for version in [Version::Two, Version::Three] {
            let raw = RawShip { kind, ..bulk() };
            let bytes = over(packed_as(version, &raw), FLAG, 1, 1);
            let name = format!("bit-11-in-version-{}-type-{kind}", version as u8);
            all.bytes(&name, refused(6, 0), bytes);
        }
    }
    // The first two spare bits of version 1.
    for (name, raw) in [("k1", k1()), ("k2", k2()), ("type-a", RawShip { kind: 0, ..k2() })] {
        for bit in [10, 11] {
            let bytes = over(packed_as(Version::One, &raw), bit, 1, 1);
            all.bytes(&format!("bit-{bit}-in-version-1-{name}"), refused(6, 0), bytes);
        }
    }
}

/// Refusals 4 and 5 in version 4.
fn lengths(all: &mut Records) {
    for (n, houses) in [(1, &three()[2..]), (2, &three()[1..]), (3, &three()[..])] {
        let raw = with(k1(), houses);
        // 8 bytes a house, with the flag and without it.
        let short = over(packed_as(Version::Two, &raw), VERSION, 4, 4);
        let bytes = over(short.clone(), FLAG, 1, 1);
        all.bytes(&format!("houses-{n}-of-8-bytes"), refused(5, 0), bytes);
        all.bytes(&format!("houses-{n}-of-8-bytes-without-the-flag"), refused(5, 0), short);
    }
    let one = packed(&flagged(&k2()));
    for length in [27, 38, 40, 51] {
        let bytes = resized(one.clone(), length);
        all.bytes(&format!("houses-1-bytes-{length}"), refused(5, 0), bytes);
    }
    let none = resized(packed(&flagged(&k1())), 39);
    all.bytes("no-house-39-bytes", refused(5, 0), none);
    let nine = over(resized(one, 27 + 12 * 9), COUNT, 4, 9);
    all.bytes("9-houses", refused(4, 0), nine);
}

/// Refusal 6: the four spare bits behind the flag, and those of a house, with the flag and without it.
fn spare_bits(all: &mut Records) {
    for (name, raw) in [("flag", flagged(&k2())), ("no-flag", k2())] {
        for bit in 12..16 {
            let bytes = over(fourth(&raw), bit, 1, 1);
            all.bytes(&format!("{name}-spare-bit-{bit}"), refused(6, 0), bytes);
        }
    }
    for (name, raw) in [("no-house", k1()), ("type-4", of(4, &bulk()))] {
        for bit in [12, 15] {
            let bytes = over(fourth(&flagged(&raw)), bit, 1, 1);
            all.bytes(&format!("{name}-spare-bit-{bit}"), refused(6, 0), bytes);
        }
    }
    let houses = packed(&flagged(&with(k1(), &three())));
    for (place, bit) in [(0, 57), (1, 60), (2, 63)] {
        let at = 8 * Version::Four.record_bytes(place) + bit;
        let bytes = over(houses.clone(), at, 1, 1);
        all.bytes(&format!("house-{place}-spare-bit"), refused(6, 0), bytes);
    }
}

/// 24 stands before 4, 5 and 6.
fn before_the_rest(all: &mut Records) {
    let mut expect = |name: &str, bytes: Vec<u8>| {
        all.bytes(&format!("24-before-{name}"), refused(24, 0), bytes);
    };
    let [a, bare] = [k2(), k1()].map(|raw| packed(&of(0, &raw)));
    let set_in = packed(&of(0, &three_set_in()[0]));
    for length in [27, 35, 40] {
        expect(&format!("5-bytes-{length}"), resized(a.clone(), length));
    }
    expect("5-no-house", resized(bare.clone(), 39));
    expect("5-set-in", resized(set_in.clone(), 51));
    for bit in 12..16 {
        expect(&format!("6-bit-{bit}"), over(a.clone(), bit, 1, 1));
    }
    expect("6-no-house", over(bare.clone(), 15, 1, 1));
    expect("6-house", over(a.clone(), 8 * 27 + 57, 1, 1));
    expect("4-and-5", over(a, COUNT, 4, 9));
    expect("4-and-6", over(over(bare, COUNT, 4, 9), 15, 1, 1));
    // The type is put over a ship that passes.
    let b = packed(&flagged(&with(k1(), &three())));
    expect("all-else-sound", over(b, KIND, 3, 0));
}
