//! Records about types and versions, refusals 2 to 6 and 22, to be given to every call that reads. Each
//! says the refusal and its place.

pub mod slips;

use crate::bytes::{over, packed, packed_as, resized, VERSION};
use crate::ships::{bulk, decked, house, k1, open, plain, quarterdeck, with};
use crate::{refused, Expected};
use twin::record::{House, RawShip, Version};

/// First bit of the fields in the head of version 2.
const KIND: usize = 4;
const COUNT: usize = 7;
const SPARE: usize = 11;

pub struct Case {
    pub name: String,
    pub expected: Expected,
    pub bytes: Vec<u8>,
}

/// The cases, and those that are for reading alone.
#[derive(Default)]
struct Cases {
    all: Vec<Case>,
    reading: Vec<Case>,
}

impl Cases {
    fn bytes(&mut self, name: &str, expected: Expected, bytes: Vec<u8>) {
        self.all.push(Case { name: format!("head-{name}"), expected, bytes });
    }

    /// The ship in version 2.
    fn second(&mut self, name: &str, expected: Expected, raw: &RawShip) {
        self.bytes(name, expected, packed_as(Version::Two, raw));
    }

    /// One more for reading, where others tell the same slips.
    fn more(&mut self, name: &str, expected: Expected, bytes: Vec<u8>) {
        self.reading.push(Case { name: format!("head-{name}"), expected, bytes });
    }
}

fn made() -> Cases {
    let mut all = Cases::default();
    types(&mut all);
    versions(&mut all);
    damaged(&mut all);
    lengths(&mut all);
    priorities(&mut all);
    all
}

/// Those for every call; none has a house at the stern but one, which has eight.
pub fn cases() -> Vec<Case> {
    made().all
}

/// Those for reading alone.
pub fn for_reading() -> Vec<Case> {
    made().reading
}

/// A type B ship of this type and length with a forecastle, which has marks.
pub fn of_length(kind: u64, length: u64) -> RawShip {
    decked(kind, length, &[])
}

/// The ship of 120 m as every type, with none to eight houses.
fn types(all: &mut Cases) {
    for kind in 0..=4 {
        all.second(&format!("version-2-type-{kind}"), None, &RawShip { kind, ..bulk() });
    }
    all.second("version-2-k1", None, &k1());
    let fore = bulk().houses[0];
    let deep = |kind| RawShip { depth: 12_000, ..plain(kind, 120_000) };
    all.second("version-2-type-2-no-house", None, &deep(2));
    let low = [house(20_000, 30_000, 1_900), fore];
    let bytes = packed(&with(deep(3), &low));
    all.more("version-2-type-3-two-houses", None, bytes);
    let eight: Vec<House> = (0..7).map(|i| house(9_000 * i, 9_000 * i + 8_000, 2_000)).collect();
    let eight = with(deep(4), &[&eight[..], &[fore]].concat());
    all.second("version-2-type-4-eight-houses", None, &eight);
}

/// Refusals 2 and 3.
fn versions(all: &mut Cases) {
    // With the layout of either version the rest would do.
    let first = packed(&RawShip { kind: 0, ..k1() });
    let second = packed(&RawShip { kind: 2, ..bulk() });
    for (number, layout, bytes) in [(0, 1, &first), (0, 2, &second), (9, 2, &second)] {
        let name = format!("version-{number}-layout-{layout}");
        all.bytes(&name, refused(2, 0), over(bytes.clone(), VERSION, 4, number));
    }
    // A house of version 4 has 12 bytes.
    all.bytes("version-4-layout-2", refused(5, 0), over(second.clone(), VERSION, 4, 4));
    for number in [5, 8] {
        let name = format!("version-{number}-layout-2");
        all.more(&name, refused(2, 0), over(second.clone(), VERSION, 4, number));
    }
    for kind in [2, 3] {
        let bytes = packed_as(Version::One, &RawShip { kind, ..bulk() });
        all.bytes(&format!("version-1-type-{kind}"), refused(3, 0), bytes);
    }
    let bytes = packed_as(Version::One, &RawShip { kind: 2, ..k1() });
    all.bytes("version-1-type-2-k1", refused(3, 0), bytes);
    for kind in 5..=7 {
        let bytes = packed(&RawShip { kind, ..bulk() });
        let name = format!("version-2-type-{kind}");
        match kind {
            7 => all.bytes(&name, refused(3, 0), bytes),
            _ => all.more(&name, refused(3, 0), bytes),
        }
    }
}

/// Refusals 4 to 6 in version 2.
fn damaged(all: &mut Cases) {
    let second = packed(&RawShip { kind: 4, ..bulk() });
    all.bytes("version-2-9-houses", refused(4, 0), over(second.clone(), COUNT, 4, 9));
    all.bytes("version-2-34-bytes", refused(5, 0), resized(second.clone(), 34));
    for bit in 0..5 {
        let bytes = over(second.clone(), SPARE + bit, 1, 1);
        let name = format!("version-2-spare-bit-{bit}");
        match bit {
            0 | 4 => all.bytes(&name, refused(6, 0), bytes),
            _ => all.more(&name, refused(6, 0), bytes),
        }
    }
    let last = over(second, 8 * 27 + 63, 1, 1);
    all.more("version-2-house-spare-bit", refused(6, 0), last);
    // The first spare bit of version 1 is the last of n in version 2.
    for (kind, houses) in [(0, k1()), (1, k1()), (1, bulk())] {
        let raw = RawShip { kind, ..houses };
        let bytes = over(packed(&raw), 10, 1, 1);
        let name = format!("version-1-spare-bit-0-type-{kind}-houses-{}", raw.n);
        all.bytes(&name, refused(6, 0), bytes);
    }
}

/// Refusal 22 from both sides.
fn lengths(all: &mut Cases) {
    for (kind, length, expected) in [
        (2, 100_000, refused(22, 0)),
        (2, 100_001, None),
        (2, 200_001, None),
        (2, 365_000, None),
        (3, 100_000, refused(22, 0)),
        (3, 100_001, None),
        (3, 200_001, None),
        (4, 24_000, None),
        (4, 99_999, None),
        (4, 100_000, None),
        (4, 200_000, None),
        (4, 200_001, refused(22, 0)),
        (4, 365_000, refused(22, 0)),
        (1, 100_000, None),
        (0, 24_000, None),
    ] {
        let name = format!("type-{kind}-length-{length}");
        all.second(&name, expected, &of_length(kind, length));
    }
    let longest = of_length(4, 200_000);
    let houses = [house(30_000, 60_000, 2_300), longest.houses[0]];
    all.second("type-4-length-200000-two-houses", None, &with(longest.clone(), &houses));
    let certified = RawShip { displacement: 20_000, immersion: 3_000, ..longest };
    all.second("type-4-length-200000-certified", None, &certified);
}

/// 22 stands after 7 and before 8; 3 stands before 4 in version 2 too.
fn priorities(all: &mut Cases) {
    let second = packed(&RawShip { kind: 4, ..bulk() });
    let both = over(over(second.clone(), VERSION, 4, 5), KIND, 3, 7);
    all.bytes("2-before-3", refused(2, 0), both);
    let first = over(packed(&k1()), VERSION, 4, 0);
    all.bytes("2-before-3-version-0", refused(2, 0), over(first, KIND, 2, 3));
    let unknown = over(second.clone(), VERSION, 4, 5);
    all.bytes("2-before-4", refused(2, 0), over(unknown, COUNT, 4, 9));
    let fifth = over(second.clone(), KIND, 3, 5);
    all.bytes("3-before-4", refused(3, 0), over(fifth.clone(), COUNT, 4, 9));
    all.bytes("3-before-5", refused(3, 0), resized(fifth.clone(), 36));
    all.bytes("3-before-6", refused(3, 0), over(fifth, SPARE, 5, 1));
    let ships = [(2, 100_000), (3, 90_000), (4, 200_001)];
    for (kind, length) in ships {
        let raw = of_length(kind, length);
        let bytes = over(packed(&raw), SPARE + 4, 1, 1);
        all.bytes(&format!("6-before-22-type-{kind}"), refused(6, 0), bytes);
        let bad = RawShip { cwf: 0, ..raw.clone() };
        all.second(&format!("7-before-22-type-{kind}"), refused(7, 5), &bad);
        let bad = RawShip { displacement: 7, ..raw.clone() };
        all.second(&format!("22-before-8-type-{kind}"), refused(22, 0), &bad);
        let aft = house(30_000, 40_000, 2_000);
        let houses = match kind {
            2 => [house(30_000, 30_000, 2_000), raw.houses[0]],
            3 => [open(quarterdeck(0, 20_000, 1_200)), raw.houses[0]],
            _ => [aft, aft],
        };
        let number = [9, 10, 11][kind as usize - 2];
        let bad = with(raw, &houses);
        all.second(&format!("22-before-{number}"), refused(22, 0), &bad);
    }
    // The length is outside its range.
    for (kind, length) in [(2, 23_999), (4, 365_001)] {
        let raw = RawShip { length, ..bulk() };
        let name = format!("7-before-22-length-{length}");
        all.second(&name, refused(7, 1), &RawShip { kind, ..raw });
    }
}
