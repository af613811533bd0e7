//! Refusals 1 to 11, 18 and 22 to 24, and the order between them.

use super::Cases;
use crate::bytes::{over, packed, resized, COUNT, HOUSE_SPARE, KIND, SPARE, VERSION};
use crate::heads;
use crate::lists;
use crate::refused;
use crate::ships::{extremes, house, k1, k2, open, quarterdeck, three_houses, with};
use crate::sides;
use crate::timber;
use twin::record::{House, RawShip, Version};

pub fn damaged(all: &mut Cases) {
    header(all);
    fields(all);
    houses(all);
    order(all);
}

fn header(all: &mut Cases) {
    all.bytes("bytes-0", refused(1, 0), Vec::new());
    // By the head of version 2 it has two houses.
    all.bytes("version-2", refused(5, 0), over(packed(&k2()), VERSION, 4, 2));
    all.bytes("type-2", refused(3, 0), over(packed(&k2()), KIND, 2, 2));
    let nine = over(resized(packed(&extremes()), 99), COUNT, 4, 9);
    all.bytes("nine-houses", refused(4, 0), nine);
    all.bytes("bytes-28-no-house", refused(5, 0), resized(packed(&k1()), 28));
    all.bytes("header-spare-bit", refused(6, 0), over(packed(&k1()), SPARE + 5, 1, 1));
    let last = 8 * Version::One.record_bytes(2) + HOUSE_SPARE;
    all.bytes("last-house-spare-bit", refused(6, 0), over(packed(&three_houses()), last, 1, 1));
    all.marks("eight-houses-extreme-values", &extremes());
    all.marks("three-houses-certified", &three_houses());
}

fn fields(all: &mut Cases) {
    all.refused("depth-999", 7, 2, &RawShip { depth: 999, ..k1() });
    all.marks("depth-60000", &RawShip { depth: 60_000, ..k1() });
    all.refused("moulded-depth-60001", 7, 3, &RawShip { moulded: 60_001, ..k1() });
    all.refused("cb-12001", 7, 4, &RawShip { cb: 12_001, ..k1() });
    all.refused("cwf-0", 7, 5, &RawShip { cwf: 0, ..k1() });
    all.refused("displacement-alone", 8, 0, &RawShip { displacement: 1, ..k2() });
}

/// L is 90000.
fn houses(all: &mut Cases) {
    for (name, bad) in [
        ("fore-end-at-aft-end", house(40_000, 40_000, 2_000)),
        ("fore-end-0", house(-500, 0, 2_000)),
        ("aft-end-minus-20001", house(-20_001, 9_000, 2_000)),
        ("height-0", house(80_000, 90_000, 0)),
    ] {
        all.refused(name, 9, 0, &with(k1(), &[bad]));
    }
    for (name, bad) in [
        ("quarterdeck-not-enclosed", open(quarterdeck(0, 20_000, 1_200))),
        ("quarterdeck-fore-end-at-length", quarterdeck(0, 90_000, 1_200)),
    ] {
        all.refused(name, 10, 0, &with(k1(), &[bad]));
    }
    let poop = house(0, 10_000, 2_000);
    all.marks("houses-touching", &with(k1(), &[poop, house(10_000, 20_000, 2_000)]));
    let overlapping = house(9_999, 20_000, 2_000);
    all.overlap("houses-overlapping-by-1", 1, 1, &with(k1(), &[poop, overlapping]));
    let late = [poop, house(30_000, 40_000, 1), house(39_999, 50_000, 1)];
    all.overlap("overlapping-at-house-2", 2, 1, &with(k1(), &late));
}

fn order(all: &mut Cases) {
    all.bytes("1-before-2", refused(1, 0), vec![0xff; 26]);
    all.bytes("2-before-3", refused(2, 0), vec![0xff; 27]);
    let both = over(packed(&k1()), KIND, 2, 3);
    all.bytes("3-before-4", refused(3, 0), over(both, COUNT, 4, 9));
    let both = over(packed(&k1()), COUNT, 4, 9);
    all.bytes("4-before-5", refused(4, 0), resized(both, 30));
    let both = over(packed(&k1()), SPARE, 6, 63);
    all.bytes("5-before-6", refused(5, 0), resized(both.clone(), 35));
    all.bytes("6-before-7", refused(6, 0), over(both, 16, 20, 0));
    all.refused("7-before-8", 7, 5, &RawShip { cwf: 0, immersion: 7, ..k1() });
    all.refused("7-lowest-field", 7, 2, &RawShip { depth: 0, moulded: 0, cb: 0, ..k1() });
    let bad = house(30_000, 30_000, 2_000);
    let poop = house(0, 10_000, 2_000);
    let overlapping = house(9_999, 20_000, 2_000);
    let open_deck = open(House { quarterdeck: true, ..poop });
    all.refused("8-before-9", 8, 0, &RawShip { displacement: 7, ..with(k1(), &[bad]) });
    all.refused("9-at-house-1-before-10-at-house-0", 9, 1, &with(k1(), &[open_deck, bad]));
    let late = [poop, overlapping, bad];
    all.refused("9-at-house-2-before-11-at-house-1", 9, 2, &with(k1(), &late));
    all.refused("10-before-11", 10, 0, &with(k1(), &[open_deck, overlapping]));
    let sinking = with(RawShip { depth: 1_000, ..k1() }, &[poop, overlapping]);
    all.overlap("11-before-12", 1, 1, &sinking);
}

/// Records about types and versions, and what comes after 22.
pub fn heads(all: &mut Cases) {
    for case in heads::cases() {
        all.bytes(&case.name, case.expected, case.bytes);
    }
    for (kind, length) in [(2, 100_000), (3, 90_000), (4, 200_001)] {
        let raw = heads::of_length(kind, length);
        let sinking = RawShip { depth: 1_000, ..raw.clone() };
        all.refused(&format!("22-before-12-type-{kind}"), 22, 0, &sinking);
        let heavy = RawShip { displacement: 1 << 19, immersion: 1, ..raw };
        all.refused(&format!("22-before-13-type-{kind}"), 22, 0, &heavy);
    }
}

/// Ships and records about set-in sides, and what comes after 23.
pub fn sides(all: &mut Cases) {
    for case in sides::ships() {
        all.ship(&case.name, case.expected, &case.raw);
    }
    for case in sides::records() {
        all.bytes(&case.name, case.expected, case.bytes);
    }
    for (name, breadth, beam) in sides::BAD {
        let raw = sides::forecastle(breadth, beam);
        let sinking = RawShip { depth: 1_000, ..raw.clone() };
        all.refused(&format!("side-23-{name}-before-12"), 23, 0, &sinking);
        let heavy = RawShip { displacement: 1 << 19, immersion: 1, ..raw };
        all.refused(&format!("side-23-{name}-before-13"), 23, 0, &heavy);
    }
}

/// Ships and records about the timber flag, and what comes after 24.
pub fn timber(all: &mut Cases) {
    for case in timber::ships() {
        all.ship(&case.name, case.expected, &case.raw);
    }
    for case in timber::records() {
        all.bytes(&case.name, case.expected, case.bytes);
    }
    for (name, raw) in [("k1", k1()), ("k2", k2()), ("three-houses", three_houses())] {
        let a = RawShip { kind: 0, ..timber::flagged(&raw) };
        let sinking = RawShip { depth: 1_000, ..a.clone() };
        all.refused(&format!("timber-24-{name}-before-12"), 24, 0, &sinking);
        let heavy = RawShip { displacement: 1 << 19, immersion: 1, ..a };
        all.refused(&format!("timber-24-{name}-before-13"), 24, 0, &heavy);
    }
}

/// Lists about refusals 11 and 18, and what comes before and after either.
pub fn lists(all: &mut Cases) {
    for case in lists::cases() {
        all.ship(&case.name, case.expected, &with(k1(), &case.houses));
    }
    for (number, expected, houses) in lists::either() {
        let raw = with(k1(), &houses);
        let bad = RawShip { displacement: 7, ..raw.clone() };
        all.refused(&format!("8-before-{number}"), 8, 0, &bad);
        for (letter, kind) in [('a', 0), ('b', 1)] {
            let sinking = RawShip { kind, depth: 1_000, ..raw.clone() };
            all.ship(&format!("{letter}-{number}-before-12"), expected, &sinking);
            let heavy = RawShip { kind, displacement: 1 << 19, immersion: 1, ..raw.clone() };
            all.ship(&format!("{letter}-{number}-before-13"), expected, &heavy);
        }
    }
}
