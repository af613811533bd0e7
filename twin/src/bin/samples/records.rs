//! Records to read: the line is the refusal, or the ship and that it comes back or as what.

use crate::bytes::{over, packed, packed_as, resized, COUNT, HOUSE_SPARE, KIND, SPARE, VERSION};
use crate::heads::{self, slips::Heads};
use crate::lists::{self, slips::Lists};
use crate::ships::{extremes, house, k1, k2, three_houses, with};
use crate::sides::{self, slips::Sides};
use crate::timber::{self, slips::Timbers};
use crate::{overlap, refused, Expected, Sample};
use twin::random::Random;
use twin::record::{self, House, RawShip, Version};
use twin::report;

#[derive(Default)]
pub struct Records {
    pub samples: Vec<Sample>,
    pub lists: Lists,
    pub heads: Heads,
    pub sides: Sides,
    pub timbers: Timbers,
}

impl Records {
    fn bytes(&mut self, name: &str, expected: Expected, bytes: Vec<u8>) {
        let line = report::record_line(&bytes);
        self.heads.read(&bytes, &line);
        self.sides.read(&bytes, &line);
        self.timbers.read(&bytes, &line);
        let lowest = record::read(&bytes)
            .is_ok_and(|ship| bytes[0] >> 4 == Version::lowest(&ship.raw()) as u8);
        assert!(expected.is_some() || line.ends_with(" back") == lowest, "{name}: {line}");
        self.samples.push(Sample::new(name, bytes, line, expected));
    }

    fn ship(&mut self, name: &str, expected: Expected, raw: &RawShip) {
        self.lists.add(raw, None);
        self.bytes(name, expected, packed(raw));
    }

    fn houses(&mut self, name: &str, expected: Expected, houses: &[House]) {
        self.ship(name, expected, &with(k1(), houses));
    }
}

pub fn cases() -> Records {
    let mut all = Records::default();
    valid(&mut all);
    header(&mut all);
    fields(&mut all);
    spare_bits(&mut all);
    houses(&mut all);
    quarterdecks(&mut all);
    order_of_houses(&mut all);
    priorities(&mut all);
    lists(&mut all);
    types_and_versions(&mut all);
    set_in_sides(&mut all);
    timber(&mut all);
    all.lists.enough("records");
    all.heads.enough("records");
    all.sides.enough("records");
    all.timbers.enough("records");
    all
}

fn valid(all: &mut Records) {
    let mut random = Random::new(2003);
    for n in 0..=8 {
        for (kind, letter) in [(0, 'a'), (1, 'b')] {
            // Both types at the ends, in turn between.
            if n % 8 == 0 || n as u64 % 2 == kind {
                let ship = RawShip { kind, ..random.ship(n) };
                all.ship(&format!("type-{letter}-houses-{n}"), None, &ship);
            }
        }
    }
}

fn header(all: &mut Records) {
    let eight = packed(&extremes());
    for length in [0, 1, 26] {
        all.bytes(&format!("bytes-{length}"), refused(1, 0), resized(packed(&k1()), length));
    }
    all.bytes("bytes-27-no-house-k1", None, packed(&k1()));
    all.bytes("bytes-28-no-house", refused(5, 0), resized(packed(&k1()), 28));
    all.bytes("bytes-27-one-house", refused(5, 0), resized(packed(&k2()), 27));
    all.bytes("bytes-91-eight-houses-extreme-values", None, eight.clone());
    all.bytes("bytes-92-eight-houses", refused(5, 0), resized(eight.clone(), 92));
    all.bytes("bytes-99-eight-houses", refused(5, 0), resized(eight.clone(), 99));
    let nine = over(resized(eight.clone(), 99), COUNT, 4, 9);
    all.bytes("nine-houses-99-bytes", refused(4, 0), nine);
    all.bytes("nine-houses-91-bytes", refused(4, 0), over(eight, COUNT, 4, 9));
    all.bytes("fifteen-houses-27-bytes", refused(4, 0), over(packed(&k1()), COUNT, 4, 15));
    for (version, number) in [(0, 2), (2, 5), (3, 5), (4, 5), (5, 2), (15, 2)] {
        // By the head of versions 2 to 4 it has two houses.
        let bytes = over(packed(&k2()), VERSION, 4, version);
        all.bytes(&format!("version-{version}"), refused(number, 0), bytes);
    }
    for kind in [2, 3] {
        all.bytes(&format!("type-{kind}"), refused(3, 0), over(packed(&k2()), KIND, 2, kind));
    }
}

fn fields(all: &mut Records) {
    all.ship("length-23999", refused(7, 1), &RawShip { length: 23_999, ..k1() });
    all.ship("length-24000", None, &RawShip { length: 24_000, ..k1() });
    all.ship("length-365000", None, &RawShip { length: 365_000, ..k1() });
    all.ship("length-365001", refused(7, 1), &RawShip { length: 365_001, ..k1() });
    for depth in [999, 60_001] {
        all.ship(&format!("depth-{depth}"), refused(7, 2), &RawShip { depth, ..k1() });
    }
    for moulded in [999, 60_001] {
        all.ship(&format!("moulded-depth-{moulded}"), refused(7, 3), &RawShip { moulded, ..k1() });
    }
    for cb in [0, 12_001] {
        all.ship(&format!("cb-{cb}"), refused(7, 4), &RawShip { cb, ..k1() });
    }
    for cwf in [0, 10_001] {
        all.ship(&format!("cwf-{cwf}"), refused(7, 5), &RawShip { cwf, ..k1() });
    }
    let lowest = RawShip {
        length: 24_000,
        depth: 1_000,
        moulded: 1_000,
        cb: 1,
        cwf: 1,
        sheer: [-8_192; 6],
        ..k1()
    };
    all.ship("fields-at-their-least", None, &lowest);
    all.ship("fields-1-and-5-bad", refused(7, 1), &RawShip { length: 0, cwf: 0, ..k1() });
    all.ship("fields-3-and-4-bad", refused(7, 3), &RawShip { moulded: 65_535, cb: 16_383, ..k1() });
    all.ship("immersion-alone", refused(8, 0), &RawShip { immersion: 1, ..k2() });
    all.ship("displacement-alone", refused(8, 0), &RawShip { displacement: 1, ..k2() });
    all.ship("both-certified", None, &RawShip { displacement: 1, immersion: 1, ..k2() });
}

fn spare_bits(all: &mut Records) {
    for bit in 0..6 {
        let bytes = over(packed(&k1()), SPARE + bit, 1, 1);
        all.bytes(&format!("header-spare-bit-{bit}"), refused(6, 0), bytes);
    }
    for (place, name, bit) in [(0, "first", 0), (1, "middle", 3), (2, "last", 6)] {
        let at = 8 * Version::One.record_bytes(place) + HOUSE_SPARE + bit;
        let bytes = over(packed(&three_houses()), at, 1, 1);
        all.bytes(&format!("{name}-house-spare-bit-{bit}"), refused(6, 0), bytes);
    }
}

/// Each clause of refusal 9 from both sides; L is 90000.
fn houses(all: &mut Records) {
    let first = refused(9, 0);
    all.houses("fore-end-at-aft-end", first, &[house(40_000, 40_000, 2_000)]);
    all.houses("fore-end-1-above-aft-end", None, &[house(40_000, 40_001, 2_000)]);
    all.houses("fore-end-below-aft-end", first, &[house(40_000, 39_999, 2_000)]);
    all.houses("fore-end-0", first, &[house(-500, 0, 2_000)]);
    all.houses("fore-end-1", None, &[house(-500, 1, 2_000)]);
    all.houses("aft-end-at-length", first, &[house(90_000, 90_500, 2_000)]);
    all.houses("aft-end-1-below-length", None, &[house(89_999, 90_500, 2_000)]);
    all.houses("aft-end-minus-20001", first, &[house(-20_001, 9_000, 2_000)]);
    all.houses("aft-end-minus-20000", None, &[house(-20_000, 9_000, 2_000)]);
    all.houses("fore-end-length-plus-20001", first, &[house(80_000, 110_001, 2_000)]);
    all.houses("fore-end-length-plus-20000", None, &[house(80_000, 110_000, 2_000)]);
    all.houses("height-0", first, &[house(80_000, 90_000, 0)]);
    all.houses("height-1", None, &[house(80_000, 90_000, 1)]);
    all.houses("height-8191", None, &[house(80_000, 90_000, 8_191)]);
    let least = house(-1_048_576, 1_048_575, 0);
    all.houses("stations-at-the-ends-of-their-bits", first, &[least]);
    let good = house(0, 9_000, 2_000);
    let bad = house(30_000, 20_000, 2_000);
    all.houses("second-and-third-house-bad", refused(9, 1), &[good, bad, bad]);
}

/// Each clause of refusal 10 from both sides; L is 90000.
fn quarterdecks(all: &mut Records) {
    let deck = |aft, fore| House { quarterdeck: true, ..house(aft, fore, 1_200) };
    let first = refused(10, 0);
    let open = House { enclosed: false, ..deck(0, 20_000) };
    all.houses("quarterdeck-not-enclosed", first, &[open]);
    all.houses("quarterdeck-aft-end-1", first, &[deck(1, 20_000)]);
    all.houses("quarterdeck-aft-end-0", None, &[deck(0, 20_000)]);
    all.houses("quarterdeck-fore-end-at-length", first, &[deck(0, 90_000)]);
    all.houses("quarterdeck-fore-end-1-below-length", None, &[deck(0, 89_999)]);
    all.houses("second-quarterdeck", refused(10, 1), &[deck(-500, 9_000), deck(9_000, 20_000)]);
}

fn order_of_houses(all: &mut Records) {
    let poop = house(0, 10_000, 2_000);
    let open_poop = House { enclosed: false, ..poop };
    let bridge = house(40_000, 50_000, 2_000);
    all.houses("touching", None, &[poop, house(10_000, 20_000, 2_000)]);
    all.houses("overlapping-by-1", overlap(1, 1), &[poop, house(9_999, 20_000, 2_000)]);
    all.houses(
        "overlapping-an-open-house",
        overlap(1, 1),
        &[open_poop, house(9_999, 20_000, 2_000)],
    );
    all.houses("wrong-order", refused(18, 1), &[bridge, poop]);
    let late = [poop, bridge, house(49_999, 60_000, 2_000), house(59_999, 70_000, 2_000)];
    all.houses("overlaps-at-houses-2-and-3", overlap(2, 1), &late);
    // House 2 stands after house 1 but within house 0: compared with house 1 only.
    let within = [house(0, 60_000, 2_000), house(5_000, 9_000, 2_000), bridge];
    all.houses("second-house-within-the-first", overlap(1, 4_000), &within);
}

fn priorities(all: &mut Records) {
    let poop = house(0, 10_000, 2_000);
    let open_deck = House { quarterdeck: true, enclosed: false, ..poop };
    let bad = house(30_000, 30_000, 2_000);
    let overlapping = house(9_999, 20_000, 2_000);
    all.bytes("1-before-2", refused(1, 0), vec![0xff; 26]);
    all.bytes("2-before-3", refused(2, 0), vec![0xff; 27]);
    let both = over(packed(&k1()), KIND, 2, 3);
    all.bytes("3-before-4", refused(3, 0), over(both, COUNT, 4, 9));
    let both = over(packed(&k1()), SPARE, 6, 63);
    all.bytes("5-before-6", refused(5, 0), resized(both.clone(), 35));
    all.bytes("6-before-7", refused(6, 0), over(both, 16, 20, 0));
    let both = RawShip { cwf: 0, immersion: 7, ..k1() };
    all.ship("7-before-8", refused(7, 5), &both);
    let both = RawShip { displacement: 7, ..with(k1(), &[bad]) };
    all.ship("8-before-9", refused(8, 0), &both);
    all.houses("9-at-house-1-before-10-at-house-0", refused(9, 1), &[open_deck, bad]);
    all.houses("9-at-house-2-before-11-at-house-1", refused(9, 2), &[poop, overlapping, bad]);
    all.houses("10-at-house-0-before-11-at-house-1", refused(10, 0), &[open_deck, overlapping]);
    let late = House { quarterdeck: true, ..house(30_000, 40_000, 1_200) };
    all.houses("10-at-house-2-before-11-at-house-1", refused(10, 2), &[poop, overlapping, late]);
}

/// Records about types and versions, and ships of every type that comes back.
fn types_and_versions(all: &mut Records) {
    for case in heads::cases().into_iter().chain(heads::for_reading()) {
        all.bytes(&case.name, case.expected, case.bytes);
    }
    let mut random = Random::new(1969);
    for kind in 2..=4 {
        let raw = random.ship_of(kind, kind as usize + 1);
        all.ship(&format!("type-{kind}-houses-{}", raw.n), None, &raw);
    }
    let bytes = packed_as(Version::Two, &extremes());
    all.bytes("version-2-type-0-extreme-values", None, bytes);
}

/// Ships and records about set-in sides, and random ships of every number of houses that come back.
fn set_in_sides(all: &mut Records) {
    for case in sides::ships() {
        all.ship(&case.name, case.expected, &case.raw);
    }
    for case in sides::records() {
        all.bytes(&case.name, case.expected, case.bytes);
    }
    let mut random = Random::new(2005);
    for n in 1..=8 {
        let kind = n as u64 % 5;
        let mut raw = random.ship_of(kind, n);
        random.set_in(&mut raw.houses[..n]);
        (raw.houses[0].breadth, raw.houses[0].beam) = random.breadths();
        all.ship(&format!("side-random-type-{kind}-houses-{n}"), None, &raw);
    }
}

/// Ships and records about the timber flag, and random ships of every type B and number of houses.
fn timber(all: &mut Records) {
    for case in timber::ships() {
        all.ship(&case.name, case.expected, &case.raw);
    }
    for case in timber::records() {
        all.bytes(&case.name, case.expected, case.bytes);
    }
    let mut random = Random::new(2009);
    for n in 0..=8 {
        let kind = 1 + n as u64 % 4;
        let mut raw = random.ship_of(kind, n);
        random.set_in_at_times(&mut raw.houses[..n]);
        let name = format!("timber-random-type-{kind}-houses-{n}");
        all.ship(&name, None, &timber::flagged(&raw));
    }
    let most = RawShip { kind: 3, ..timber::flagged(&extremes()) };
    all.ship("timber-extreme-values", None, &most);
}

/// Lists about refusals 11 and 18, and what comes before either.
fn lists(all: &mut Records) {
    for case in lists::cases() {
        all.houses(&case.name, case.expected, &case.houses);
    }
    for (number, _, houses) in lists::either() {
        let raw = with(k1(), &houses);
        let mut bytes = packed(&raw);
        all.bytes(&format!("5-before-{number}"), refused(5, 0), resized(bytes.clone(), 44));
        bytes[42] |= 1; // spare
        all.bytes(&format!("6-before-{number}"), refused(6, 0), bytes);
        let bad = RawShip { cwf: 0, ..raw.clone() };
        all.ship(&format!("7-before-{number}"), refused(7, 5), &bad);
        let bad = RawShip { displacement: 7, ..raw };
        all.ship(&format!("8-before-{number}"), refused(8, 0), &bad);
    }
}
