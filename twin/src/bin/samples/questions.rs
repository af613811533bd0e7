//! Questions for the shortest poop: height and wish, then the record. The line is the poop's length
//! in dm, or one of refusals 1 to 11, 18, 22 to 24, and 14 to 16.

use crate::bytes::{over, packed, resized, COUNT, KIND, SPARE, VERSION};
use crate::heads::{self, slips::Heads};
use crate::lists::{self, slips::Lists};
use crate::ships::{
    bulk, decked, extremes, forecastle, house, k1, k2, open, plain, quarterdeck, set_in, with,
    KINDS, TYPES,
};
use crate::sides::{self, slips::Sides};
use crate::timber::{self, slips::Timbers};
use crate::{refused, slips, Sample};
use twin::marks;
use twin::question::{shortest_poop, summer_with_poop};
use twin::record::{self, House, Kind, RawShip, Ship, MAX_HOUSES};
use twin::refusal::Refusal;

/// What a case is there for.
#[derive(Clone, Copy)]
enum Expected {
    /// This length.
    Poop(i64),
    /// Some length above 0.
    Longer,
    /// Any refusal but 11.
    Refused(u8, usize),
    /// A refusal with its overlap.
    Exactly(Refusal),
}

use Expected::{Exactly, Longer, Poop, Refused};

#[derive(Default)]
pub struct Questions {
    pub samples: Vec<Sample>,
    /// Ship, height, wish and answer of each case that gets as far as the search.
    searched: Vec<(Ship, u64, u64, Result<i64, Refusal>)>,
    pub lists: Lists,
    pub heads: Heads,
    pub sides: Sides,
    pub timbers: Timbers,
}

impl Questions {
    fn bytes(&mut self, name: &str, expected: Expected, height: u64, wish: u64, record: Vec<u8>) {
        let answer = shortest_poop(&record, height, wish);
        let line = match answer {
            Ok(k) => format!("poop {k}"),
            Err(refusal) => refusal.to_string(),
        };
        let refusal = match expected {
            Poop(k) => {
                assert_eq!(answer, Ok(k), "{name}");
                None
            }
            Longer => {
                assert!(answer.is_ok_and(|k| k > 0), "{name}: {line}");
                None
            }
            Refused(number, place) => refused(number, place),
            Exactly(refusal) => Some(refusal),
        };
        if let (Ok(ship), false) =
            (record::read(&record), matches!(answer, Err(r) if r.number < 15))
        {
            self.searched.push((ship, height, wish, answer));
        }
        self.heads.question(&record, height, wish, &line);
        self.sides.question(&record, height, wish, &line);
        self.timbers.question(&record, height, wish, &line);
        let mut data = height.to_be_bytes().to_vec();
        data.extend(wish.to_be_bytes());
        data.extend(record);
        self.samples.push(Sample::new(name, data, line, refusal));
    }

    fn told_by(&self, slip: Slip) -> usize {
        let told = self.searched.iter().filter(|(ship, height, wish, answer)| {
            search_with(slip, ship, *height, *wish) != *answer
        });
        told.count()
    }

    /// How many cases each slip in the search changes.
    pub fn slips(&self) -> String {
        let line = |slip: Slip| format!("search {slip:?}: questions {}", self.told_by(slip));
        SLIPS.map(line).join("\n")
    }

    fn ship(&mut self, name: &str, expected: Expected, height: u64, wish: u64, raw: &RawShip) {
        self.lists.add(raw, after_houses(raw, height, wish));
        self.bytes(name, expected, height, wish, packed(raw));
    }
}

/// Refusal 14 or 15, were the list of houses sound.
fn after_houses(raw: &RawShip, height: u64, wish: u64) -> Option<Refusal> {
    let asked_well = (1..=8_191).contains(&height) && (50..=60_000).contains(&wish);
    let no_room = raw.n == 8 || raw.n > 0 && raw.houses[0].aft <= 0;
    match (asked_well, no_room) {
        (false, _) => refused(14, 0),
        (true, true) => refused(15, 0),
        (true, false) => None,
    }
}

pub fn cases() -> Questions {
    let mut all = Questions::default();
    figures(&mut all);
    whole_length(&mut all);
    first_house(&mut all);
    sums(&mut all);
    amidships(&mut all);
    low_amidships(&mut all);
    numbers_asked(&mut all);
    no_room(&mut all);
    unfit_at_zero(&mut all);
    nothing_fits(&mut all);
    order(&mut all);
    lists(&mut all);
    types(&mut all);
    wishes_about_the_floor(&mut all);
    types_and_versions(&mut all);
    set_in_houses(&mut all);
    set_in_sides(&mut all);
    flagged_ships(&mut all);
    flagged_borders(&mut all);
    timber_flag(&mut all);
    for slip in SLIPS {
        let (told, least) = (all.told_by(slip), if slip as usize >= LATER { 3 } else { 2 });
        assert!(told >= least, "too few cases tell {slip:?}: {told}");
    }
    all.lists.enough("questions");
    all.heads.enough("questions");
    all.sides.enough("questions");
    all.timbers.enough("questions");
    all
}

/// The mark with a poop of k dm, nothing if it is unfit.
fn mark(raw: &RawShip, height: u64, k: i64) -> Option<u64> {
    let ship = raw.check().expect("a valid ship");
    summer_with_poop(&ship, height, k).ok().map(|mark| mark as u64)
}

/// k3 to k6, and the ship whose mark rises with a longer poop.
fn figures(all: &mut Questions) {
    all.ship("k3-wish-1000", Poop(31), 1_950, 1_000, &k2());
    all.ship("k3-wish-1001", Poop(30), 1_950, 1_001, &k2());
    all.ship("k4-wish-1024", Poop(0), 1_950, 1_024, &k2());
    all.ship("k4-wish-1023", Longer, 1_950, 1_023, &k2());
    all.ship("k5-wish-187", Poop(800), 1_950, 187, &k2());
    all.ship("k5-wish-186", Refused(16, 0), 1_950, 186, &k2());
    all.ship("k6-wish-50", Refused(16, 0), 1_950, 50, &k2());
    for (wish, expected) in [
        (1_690, Poop(0)),
        (1_689, Poop(600)),
        (1_651, Poop(600)),
        (1_650, Longer),
        (1_620, Poop(719)),
        (1_619, Poop(1_200)),
        (593, Poop(1_200)),
        (592, Refused(16, 0)),
    ] {
        all.ship(&format!("rising-wish-{wish}"), expected, 2_250, wish, &rising());
    }
}

/// The mark falls to k = 719, rises to 1199 and drops at 1200.
fn rising() -> RawShip {
    RawShip {
        kind: 1,
        length: 120_000,
        depth: 8_000,
        moulded: 8_000,
        cb: 6_800,
        cwf: 9_500,
        sheer: [1562, 693, 175, 350, 1387, 3125],
        ..RawShip::default()
    }
}

/// A poop of the whole length is a forecastle; it needs L in whole dm.
fn whole_length(all: &mut Questions) {
    for (length, expected) in
        [(120_001, Refused(16, 0)), (120_099, Refused(16, 0)), (120_100, Poop(1_201))]
    {
        let raw = RawShip { length, ..rising() };
        all.ship(&format!("whole-length-{length}"), expected, 2_250, 1_000, &raw);
    }
    let k1_drop = mark(&k1(), 2_000, 900).expect("marks with a poop of all the length");
    all.ship("k1-whole-length", Poop(900), 2_000, k1_drop, &k1());
    let shortest = plain(1, 24_000);
    let least = mark(&shortest, 3_000, 240).expect("marks with a poop of all the length");
    all.ship("shortest-ship-whole-length", Poop(240), 3_000, least, &shortest);
    // A type A ship needs no forecastle; the last whole dm of 90099 mm is 900.
    let tanker = RawShip { moulded: 3_000, ..plain(0, 90_099) };
    let least = mark(&tanker, 2_000, 900).expect("marks with the longest poop");
    all.ship("type-a-last-dm-of-90099", Poop(900), 2_000, least, &tanker);
    all.ship("type-a-beyond-the-last-dm", Refused(16, 0), 2_000, least - 1, &tanker);
    let longest = plain(0, 365_000);
    let near = mark(&longest, 2_300, 3_111).expect("marks with a long poop");
    all.ship("longest-type-a", Longer, 2_300, near, &longest);
}

/// The poop may touch the first house, not overlap it.
fn first_house(all: &mut Questions) {
    for (aft, last) in [(30_000, 300), (29_999, 299), (30_001, 300), (100, 1)] {
        let houses = [house(aft, 31_000, 2_000), house(80_000, 90_000, 2_000)];
        let raw = with(RawShip { kind: 0, ..k1() }, &houses);
        let least = mark(&raw, 1_950, last).expect("marks with the longest poop");
        all.ship(&format!("first-house-at-{aft}"), Poop(last), 1_950, least, &raw);
        if aft == 30_000 {
            all.ship("beyond-the-first-house", Refused(16, 0), 1_950, least - 1, &raw);
        }
    }
    // An open house is in the way as well.
    let houses = [open(house(30_000, 31_000, 2_000)), house(80_000, 90_000, 2_000)];
    let raw = with(k1(), &houses);
    let least = mark(&raw, 1_950, 300).expect("marks with the longest poop");
    all.ship("open-first-house", Poop(300), 1_950, least, &raw);
    all.ship("beyond-open-first-house", Refused(16, 0), 1_950, least - 1, &raw);
    // A low poop is worth less, a high one no more.
    all.ship("low-poop", Longer, 400, 1_000, &k2());
    all.ship("height-8191", Poop(31), 8_191, 1_000, &k2());
}

/// The poop is added to other low houses before E is rounded: one um of E meets the wish.
fn sums(all: &mut Questions) {
    let fore = house(80_000, 90_000, 1_000);
    let of = |houses: &[House]| with(RawShip { depth: 6_020, ..k1() }, houses);
    all.ship("low-poop-and-forecastle", Poop(17), 1_000, 1_100, &of(&[fore]));
    // One longer does not fit.
    let next = open(house(1_700, 3_000, 1_000));
    all.ship("low-poop-up-to-the-next-house", Poop(17), 1_000, 1_100, &of(&[next, fore]));
    let short = RawShip { depth: 2_703, ..plain(1, 25_000) };
    let fore = house(20_000, 25_000, 1_500);
    all.ship("low-poop-at-25-m", Poop(60), 1_000, 227, &with(short, &[fore]));
}

/// D 7 m, below L/15, and a forecastle: from 0.8 L on the poop is the house amidships of 31(2).
fn low(length: u64) -> RawShip {
    let raw = RawShip {
        kind: 1,
        length,
        depth: 7_000,
        moulded: 7_000,
        cb: 6_800,
        cwf: 8_000,
        sheer: [1250, 555, 140, 280, 1110, 2500],
        ..RawShip::default()
    };
    with(raw, &[house(110_000, length as i64, 2_300)])
}

/// The mark drops at 0.8 L, from 785 to 534 at 120 m.
fn amidships(all: &mut Questions) {
    for (wish, k) in [(785, 959), (784, 960), (534, 960), (533, 961)] {
        all.ship(&format!("low-ship-wish-{wish}"), Poop(k), 2_300, wish, &low(120_000));
    }
    // 0.8 L is 96000.8, 96080 and 96099.2 mm.
    for length in [120_001, 120_100, 120_124] {
        let raw = low(length);
        let before = mark(&raw, 2_300, 960).expect("marks with a poop of 96 m");
        let after = mark(&raw, 2_300, 961).expect("marks with a poop of 96.1 m");
        let name = format!("low-ship-of-{length}");
        all.ship(&format!("{name}-wish-{before}"), Poop(960), 2_300, before, &raw);
        all.ship(&format!("{name}-wish-{}", before - 1), Poop(961), 2_300, before - 1, &raw);
        all.ship(&format!("{name}-wish-{after}"), Poop(961), 2_300, after, &raw);
    }
    // The poop may touch the first house at 0.8 L, or cannot reach so far.
    for (aft, expected) in [(96_000, Poop(960)), (95_999, Refused(16, 0))] {
        let raw = with(low(120_000), &[house(aft, 120_000, 2_300)]);
        all.ship(&format!("low-ship-first-house-at-{aft}"), expected, 2_300, 400, &raw);
    }
    let tanker = with(RawShip { kind: 0, moulded: 2_000, ..low(120_000) }, &[]);
    let least = mark(&tanker, 2_300, 960).expect("marks with a poop of 96 m");
    all.ship("low-ship-type-a", Poop(960), 2_300, least, &tanker);
}

/// A low poop earns less; one with another house amidships earns nothing more.
fn low_amidships(all: &mut Questions) {
    for height in [300, 700, 1_150, 2_249] {
        let raw = low(120_000);
        let least = mark(&raw, height, 960).expect("marks with a poop of 96 m");
        let name = format!("low-ship-height-{height}-wish-{least}");
        all.ship(&name, Poop(960), height, least, &raw);
        let name = format!("low-ship-height-{height}-wish-{}", least - 1);
        all.ship(&name, Longer, height, least - 1, &raw);
    }
    // The house amidships is there before the poop.
    for (name, height) in [("standard", 2_250), ("low", 900)] {
        let raw = with(low(120_000), &[house(5_000, 100_000, height), low(120_000).houses[0]]);
        let none = mark(&raw, 2_300, 0).expect("marks without a poop");
        let least = mark(&raw, 2_300, 50).expect("marks with a poop of 5 m");
        all.ship(&format!("low-ship-{name}-house-no-poop"), Poop(0), 2_300, none, &raw);
        all.ship(&format!("low-ship-{name}-house"), Longer, 2_300, least, &raw);
        all.ship(&format!("low-ship-{name}-house-beyond"), Refused(16, 0), 2_300, least - 1, &raw);
    }
}

/// Refusal 14 from both sides.
fn numbers_asked(all: &mut Questions) {
    all.ship("wish-49", Refused(14, 0), 1_950, 49, &k2());
    all.ship("wish-60000", Poop(0), 1_950, 60_000, &k2());
    all.ship("wish-60001", Refused(14, 0), 1_950, 60_001, &k2());
    all.ship("wish-greatest", Refused(14, 0), 1_950, u64::MAX, &k2());
    all.ship("height-0", Refused(14, 0), 0, 1_000, &k2());
    all.ship("height-1", Refused(16, 0), 1, 1_000, &k2());
    all.ship("height-8192", Refused(14, 0), 8_192, 1_000, &k2());
    all.ship("height-greatest", Refused(14, 0), u64::MAX, 1_000, &k2());
    all.ship("height-2-to-32-and-1950", Refused(14, 0), (1 << 32) + 1_950, 1_000, &k2());
    // The floor of regulation 40 is met.
    let low = RawShip { kind: 0, moulded: 2_000, cwf: 10_000, cb: 6_800, ..plain(0, 40_000) };
    all.ship("wish-50-met", Longer, 3_000, 50, &RawShip { depth: 2_600, ..low });
}

/// Refusal 15 from both sides.
fn no_room(all: &mut Questions) {
    let fore = house(80_000, 90_000, 2_000);
    for (name, aft, expected) in
        [("minus-1", -1, Refused(15, 0)), ("0", 0, Refused(15, 0)), ("1", 1, Poop(0))]
    {
        let raw = with(k1(), &[house(aft, 9_000, 2_000), fore]);
        all.ship(&format!("first-house-aft-end-{name}"), expected, 1_950, 60_000, &raw);
    }
    let poop = open(house(0, 9_000, 2_000));
    all.ship("open-poop", Refused(15, 0), 1_950, 60_000, &with(k1(), &[poop, fore]));
    let deck = quarterdeck(-500, 9_000, 1_200);
    all.ship("quarterdeck", Refused(15, 0), 1_950, 60_000, &with(k1(), &[deck, fore]));
    let row: Vec<House> = (1..=8).map(|i| house(10_000 * i, 10_000 * i + 9_000, 2_000)).collect();
    let ship = |houses: &[House]| with(RawShip { length: 89_000, ..k1() }, houses);
    all.ship("eight-houses-wish-met", Refused(15, 0), 1_950, 60_000, &ship(&row));
    all.ship("seven-houses-wish-met", Poop(0), 1_950, 60_000, &ship(&row[1..]));
    let seven = ship(&row[1..]);
    let least = mark(&seven, 2_100, 150).expect("marks with a poop of 15 m");
    all.ship("seven-houses-and-poop", Longer, 2_100, least, &seven);
}

/// Refusals 12 and 13 only make a length unfit.
fn unfit_at_zero(all: &mut Questions) {
    let shallow = RawShip { depth: 1_000, ..k2() };
    all.ship("12-without-a-poop", Longer, 1_950, 60_000, &shallow);
    // The draught of k2 is 4976 mm.
    let heavy = RawShip { displacement: 5_000, immersion: 25, ..k2() };
    all.ship("13-without-a-poop", Poop(31), 1_950, 60_000, &heavy);
    all.ship("13-without-a-poop-wish-1024", Poop(31), 1_950, 1_024, &heavy);
    let at = RawShip { displacement: 4_976, immersion: 25, ..k2() };
    all.ship("13-at-its-border", Poop(0), 1_950, 1_024, &at);
}

fn nothing_fits(all: &mut Questions) {
    let short = RawShip { sheer: [0; 6], ..plain(1, 24_050) };
    all.ship("b-short-nothing-fits", Refused(16, 0), 2_000, 60, &short);
    for (kind, letter) in KINDS {
        let long = decked(kind, 365_000, &[house(100_000, 200_000, 2_300)]);
        all.ship(&format!("{letter}-longest-nothing-fits"), Refused(16, 0), 2_300, 500, &long);
    }
    let sinking = RawShip { depth: 1_000, sheer: [0; 6], ..plain(1, 365_000) };
    all.ship("12-at-every-length", Refused(16, 0), 2_300, 60_000, &sinking);
    let heavy = RawShip { displacement: 1_048_575, immersion: 1, ..k2() };
    all.ship("13-at-every-length", Refused(16, 0), 1_950, 60_000, &heavy);
}

/// Damaged records come first, whatever is asked.
fn order(all: &mut Questions) {
    let poop = house(0, 10_000, 2_000);
    let overlapping = house(9_999, 20_000, 2_000);
    let bad = house(30_000, 30_000, 2_000);
    let deck = quarterdeck(1, 20_000, 1_200);
    let record = packed(&k2());
    for (number, place, bytes) in [
        (1, 0, resized(record.clone(), 26)),
        (2, 0, over(record.clone(), VERSION, 4, 5)),
        (3, 0, over(record.clone(), KIND, 2, 2)),
        (4, 0, over(resized(packed(&extremes()), 99), COUNT, 4, 9)),
        (5, 0, resized(record.clone(), 36)),
        (6, 0, over(record, SPARE, 1, 1)),
        (7, 1, packed(&RawShip { length: 23_999, ..k2() })),
        (8, 0, packed(&RawShip { immersion: 1, ..k2() })),
        (9, 1, packed(&with(k1(), &[poop, bad]))),
        (10, 0, packed(&with(k1(), &[deck]))),
    ] {
        let expected = Refused(number, place);
        all.bytes(&format!("{number}-before-14"), expected, 0, u64::MAX, bytes);
    }
    let both = with(k1(), &[poop, overlapping]);
    all.ship("11-before-14", Exactly(Refusal::overlapping(1, 1)), 0, u64::MAX, &both);
    all.ship("11-before-15", Exactly(Refusal::overlapping(1, 1)), 1_950, 60_000, &both);
    all.ship("14-before-15-height", Refused(14, 0), 0, 1_000, &with(k1(), &[poop]));
    all.ship("14-before-15-wish", Refused(14, 0), 1_950, 49, &extremes());
    all.ship("15-before-16", Refused(15, 0), 1_950, 50, &with(k1(), &[poop]));
}

/// Lists about refusals 11 and 18, and what comes after either.
fn lists(all: &mut Questions) {
    for case in lists::cases() {
        let room = case.houses[0].aft > 0 && case.houses.len() < MAX_HOUSES;
        let otherwise = if room { Poop(0) } else { Refused(15, 0) };
        let expected = case.expected.map_or(otherwise, Exactly);
        all.ship(&case.name, expected, 1_950, 60_000, &with(k1(), &case.houses));
    }
    for (number, expected, houses) in lists::either() {
        let expected = expected.map_or(Poop(0), Exactly);
        for (name, height, wish) in [
            ("14-height", 0, 1_000),
            ("14-wish", 1_950, 49),
            ("16", 1_950, 50),
            ("an-answer", 1_950, 60_000),
        ] {
            let raw = with(k1(), &houses);
            all.ship(&format!("{number}-before-{name}"), expected, height, wish, &raw);
        }
    }
    let stern = [house(0, 9_000, 2_000), house(20_000, 30_000, 2_000), house(9_500, 18_000, 2_000)];
    all.ship("18-before-15", Refused(18, 2), 1_950, 60_000, &with(k1(), &stern));
    let eight: Vec<House> =
        (1..=8).rev().map(|i| house(10_000 * i, 10_000 * i + 9_000, 1)).collect();
    all.ship("18-before-15-eight-houses", Refused(18, 1), 1_950, 60_000, &with(k1(), &eight));
}

/// The ship of 120 m as every type: its own mark, one less, and what a poop of 30 m gives.
fn types(all: &mut Questions) {
    for (kind, name) in (0..).zip(TYPES).skip(2) {
        let raw = RawShip { kind, ..bulk() };
        let own = mark(&raw, 2_300, 0).expect("marks without a poop");
        let longer = mark(&raw, 2_300, 300).expect("marks with a poop of 30 m");
        all.ship(&format!("{name}-wish-{own}"), Poop(0), 2_300, own, &raw);
        all.ship(&format!("{name}-wish-{}", own - 1), Longer, 2_300, own - 1, &raw);
        all.ship(&format!("{name}-wish-{longer}-by-a-poop"), Longer, 2_300, longer, &raw);
    }
    // Without a forecastle nothing is deducted but for type A, however long the poop; all of L is one.
    for (kind, name) in (0..).zip(TYPES) {
        let raw = with(RawShip { kind, moulded: 3_000, ..bulk() }, &[]);
        let least = mark(&raw, 2_300, 1_200).expect("marks with a poop of all the length");
        for more in [&[300][..], &[100, 250, 400]][usize::from(kind == 3)] {
            let wish = least + more;
            let expected = if kind == 0 { Longer } else { Poop(1_200) };
            all.ship(&format!("{name}-no-forecastle-wish-{wish}"), expected, 2_300, wish, &raw);
        }
    }
}

/// No mark with portable covers is below 150; a wish below that is not refused for its range.
fn wishes_about_the_floor(all: &mut Questions) {
    let low = |kind, length: u64| {
        let depth = length / 15 - 60;
        let raw = RawShip { depth, moulded: 2_000, cwf: 10_000, cb: 6_800, ..plain(kind, length) };
        with(raw, &[forecastle(length)])
    };
    for (wish, expected) in [
        (49, Refused(14, 0)),
        (50, Refused(16, 0)),
        (149, Refused(16, 0)),
        (150, Longer),
        (151, Longer),
    ] {
        all.ship(&format!("covers-wish-{wish}"), expected, 2_000, wish, &low(4, 40_000));
    }
    all.ship("b-wish-149", Longer, 2_000, 149, &low(1, 40_000));
    let long = RawShip { depth: 4_000, ..low(4, 110_000) };
    all.ship("covers-110-m-wish-149", Refused(16, 0), 2_300, 149, &long);
    all.ship("covers-110-m-wish-150", Longer, 2_300, 150, &long);
    let reduced = RawShip { kind: 2, ..long };
    all.ship("b60-110-m-wish-149", Longer, 2_300, 149, &reduced);
    all.ship("b100-110-m-wish-50", Longer, 2_300, 50, &RawShip { kind: 3, ..reduced });
}

/// Records about types and versions, asked for what a poop of 5 m gives, and what comes after 22.
fn types_and_versions(all: &mut Questions) {
    for case in heads::cases() {
        let (expected, wish) = for_poop_of_5_m(case.expected, &case.bytes);
        all.bytes(&case.name, expected, 2_000, wish, case.bytes);
    }
    for (kind, length) in [(2, 100_000), (3, 90_000), (4, 200_001)] {
        let raw = heads::of_length(kind, length);
        let stern = with(raw.clone(), &[house(0, 9_000, 2_000), raw.houses[0]]);
        let expected = Refused(22, 0);
        match kind {
            2 => all.ship("22-before-14", expected, 0, 1_000, &raw),
            3 => all.ship("22-before-15", expected, 2_000, 1_000, &stern),
            _ => all.ship("22-before-16", expected, 2_000, 50, &raw),
        }
    }
}

/// What a record that may be refused is asked for: the mark that a poop of 5 m gives.
fn for_poop_of_5_m(expected: crate::Expected, bytes: &[u8]) -> (Expected, u64) {
    let no_room = |ship: &Ship| {
        ship.houses.len() == MAX_HOUSES || ship.houses.first().is_some_and(|house| house.aft <= 0)
    };
    match (expected, record::read(bytes)) {
        (Some(refusal), _) => (Exactly(refusal), 60_000),
        (None, Ok(ship)) if !no_room(&ship) => {
            let raw = ship.raw();
            let wish = mark(&raw, 2_000, 50).expect("marks with a poop of 5 m");
            let met = mark(&raw, 2_000, 0).is_some_and(|mark| mark <= wish);
            (if met { Poop(0) } else { Longer }, wish)
        }
        (None, _) => (Refused(15, 0), 60_000),
    }
}

/// The poop has full breadth, and the other houses keep their breadths.
fn set_in_houses(all: &mut Questions) {
    for (breadth, k) in [(9_500, 31), (9_200, 31), (10_000, 31)] {
        let raw = sides::forecastle(breadth, 10_000);
        let own = mark(&raw, 1_950, 0).expect("marks without a poop");
        let wish = mark(&raw, 1_950, k).expect("marks with a poop of 3.1 m");
        let name = format!("k2-set-in-{breadth}-of-10000");
        all.ship(&format!("{name}-wish-{own}"), Poop(0), 1_950, own, &raw);
        all.ship(&format!("{name}-wish-{}", own - 1), Longer, 1_950, own - 1, &raw);
        all.ship(&format!("{name}-wish-{wish}"), Longer, 1_950, wish, &raw);
        all.ship(&format!("{name}-wish-50"), Refused(16, 0), 1_950, 50, &raw);
    }
    for (kind, name) in (0..).zip(TYPES) {
        let aft = set_in(house(40_000, 60_000, 2_300), 11_100, 12_000);
        let fore = set_in(bulk().houses[0], 11_900, 12_000);
        let raw = with(RawShip { kind, ..bulk() }, &[aft, fore]);
        for k in [100, 400] {
            let wish = mark(&raw, 2_300, k).expect("marks with a poop");
            all.ship(&format!("{name}-set-in-wish-{wish}"), Longer, 2_300, wish, &raw);
        }
    }
    // The forecastle is too short by its breadth, and the poop of all the length is not.
    let raw = with(k1(), &[set_in(house(83_700, 90_000, 2_000), 9_999, 10_000)]);
    all.ship("set-in-forecastle-too-short", Refused(16, 0), 1_950, 900, &raw);
    let raw = with(k1(), &[set_in(open(house(50_000, 60_000, 2_000)), 9_500, 10_000)]);
    all.ship("open-set-in-house-in-the-way", Refused(16, 0), 1_950, 900, &raw);
}

/// Ships and records about set-in sides, asked for what a poop of 5 m gives, and what comes after 23.
fn set_in_sides(all: &mut Questions) {
    for case in sides::ships() {
        let (expected, wish) = for_poop_of_5_m(case.expected, &packed(&case.raw));
        all.ship(&case.name, expected, 2_000, wish, &case.raw);
    }
    for case in sides::records() {
        let (expected, wish) = for_poop_of_5_m(case.expected, &case.bytes);
        all.bytes(&case.name, expected, 2_000, wish, case.bytes);
    }
    let [first, second, third] =
        sides::BAD.map(|(_, breadth, beam)| sides::forecastle(breadth, beam));
    all.ship("side-23-before-14-height", Refused(23, 0), 0, 1_000, &first);
    all.ship("side-23-before-14-wish", Refused(23, 0), 1_950, 49, &second);
    let stern = with(third.clone(), &[house(0, 9_000, 2_000), third.houses[0]]);
    all.ship("side-23-before-15", Refused(23, 1), 1_950, 60_000, &stern);
    all.ship("side-23-before-16", Refused(23, 0), 1_950, 50, &third);
}

/// The answer does not depend on the timber flag: the wish is for S, with its own percentages and line.
fn flagged_ships(all: &mut Questions) {
    for (wish, expected) in
        [(1_000, Poop(31)), (1_024, Poop(0)), (187, Poop(800)), (50, Refused(16, 0))]
    {
        let raw = timber::flagged(&k2());
        all.ship(&format!("timber-k2-wish-{wish}"), expected, 1_950, wish, &raw);
    }
    for (wish, expected) in [(1_620, Poop(719)), (1_619, Poop(1_200)), (592, Refused(16, 0))] {
        let raw = timber::flagged(&rising());
        all.ship(&format!("timber-rising-wish-{wish}"), expected, 2_250, wish, &raw);
    }
    for (kind, name) in (1..).zip(&TYPES[1..]) {
        let raw = RawShip { kind, ..timber::flagged(&bulk()) };
        let own = mark(&raw, 2_300, 0).expect("marks without a poop");
        for k in [0, 50, 400] {
            let wish = mark(&raw, 2_300, k).expect("marks with a poop");
            let expected = if wish == own { Poop(0) } else { Longer };
            all.ship(&format!("timber-{name}-wish-{wish}"), expected, 2_300, wish, &raw);
        }
    }
}

/// S keeps its bow height and its floor with the flag, and a length counts where LS is at or above D.
fn flagged_borders(all: &mut Questions) {
    let bow = timber::flagged(&with(k1(), &[house(50_000, 60_000, 2_000)]));
    all.ship("timber-bow-wish-2030", Poop(0), 1_950, 2_030, &bow);
    all.ship("timber-bow-wish-2029", Refused(16, 0), 1_950, 2_029, &bow);
    for (kind, length) in [(1, 60_000), (2, 110_000), (4, 80_000)] {
        let fore = house(length as i64 * 9 / 10, length as i64, 1_500);
        let raw = with(RawShip { cwf: 6_500, ..plain(kind, length) }, &[fore]);
        let own = mark(&raw, 2_300, 0).expect("marks without a poop");
        let name = format!("timber-bow-type-{kind}-wish-{}", own - 1);
        all.ship(&name, Refused(16, 0), 2_300, own - 1, &timber::flagged(&raw));
    }
    let low = |kind| {
        let raw = RawShip { depth: 2_600, moulded: 2_000, cwf: 10_000, ..plain(kind, 40_000) };
        timber::flagged(&with(RawShip { cb: 6_800, ..raw }, &[forecastle(40_000)]))
    };
    for (wish, expected) in [(49, Refused(14, 0)), (50, Longer)] {
        all.ship(&format!("timber-type-1-wish-{wish}"), expected, 2_000, wish, &low(1));
    }
    for (wish, expected) in
        [(60, Refused(16, 0)), (100, Refused(16, 0)), (149, Refused(16, 0)), (150, Longer)]
    {
        all.ship(&format!("timber-type-4-wish-{wish}"), expected, 2_000, wish, &low(4));
    }
    for (kind, depth) in [(2, 1_690), (3, 1_650), (3, 1_500)] {
        let raw = RawShip { kind, depth, moulded: 2_000, cwf: 10_000, ..timber::flagged(&bulk()) };
        let raw = with(raw, &[open(house(100_000, 110_000, 2_300))]);
        let own = mark(&raw, 2_300, 0).expect("marks without a poop");
        for wish in [own, 60_000] {
            let name = format!("timber-type-{kind}-depth-{depth}-wish-{wish}");
            all.ship(&name, Poop(0), 2_300, wish, &raw);
        }
    }
}

/// Ships and records about the timber flag, asked for what a poop of 5 m gives, and what comes after 24.
fn timber_flag(all: &mut Questions) {
    for case in timber::ships() {
        let (expected, wish) = for_poop_of_5_m(case.expected, &packed(&case.raw));
        all.ship(&case.name, expected, 2_000, wish, &case.raw);
    }
    for case in timber::records() {
        let (expected, wish) = for_poop_of_5_m(case.expected, &case.bytes);
        all.bytes(&case.name, expected, 2_000, wish, case.bytes);
    }
    let a = RawShip { kind: 0, ..timber::flagged(&k2()) };
    all.ship("timber-24-before-14-height", Refused(24, 0), 0, 1_000, &a);
    all.ship("timber-24-before-14-wish", Refused(24, 0), 1_950, 49, &a);
    let stern = with(a.clone(), &[house(0, 9_000, 2_000), a.houses[0]]);
    all.ship("timber-24-before-15", Refused(24, 0), 1_950, 60_000, &stern);
    all.ship("timber-24-before-16", Refused(24, 0), 1_950, 50, &a);
}

/// Plausible slips in the search.
#[derive(Clone, Copy, Debug, PartialEq)]
enum Slip {
    /// Stops where the mark first rises.
    StopsAtRise,
    /// Halves the range as if the mark never rose.
    Halves,
    /// Begins at 1 dm.
    SkipsZero,
    /// Ends before 100k = L.
    EndsBelowLength,
    /// Goes on to the first k with 100k beyond L.
    GoesBeyondLength,
    /// The poop may not touch the first house.
    NoTouching,
    /// The mark must be below the wish.
    BelowWish,
    /// Gives refusal 12 or 13 of the ship without a poop.
    RefusesShip,
    /// Takes S where 12 or 13 would refuse.
    TakesRefused,
    /// The poop is a raised quarterdeck.
    Quarterdeck,
    /// Eight houses, or a house at the stern, do for k = 0.
    ZeroNeedsNoRoom,
    /// The poop's effective length is rounded by itself and added to E.
    PoopApart,
    /// The poop is never the house amidships of 31(2).
    PoopNeverAmidships,
    /// The poop is that house only beyond 0.8 L.
    PoopBeyondAmidships,
    /// The poop is that house from 0.8 L down to dm.
    PoopEarlyAmidships,
    /// A low poop earns the whole reduction.
    PoopWholeReduction,
    /// With a poop no other house is the house amidships.
    PoopAloneAmidships,
    /// With a poop every type but A is asked as B.
    AsksAsB,
    /// With a poop B-100 is asked as A.
    AsksAsA,
    /// The rule on the forecastle is left out with a poop.
    PoopAsForecastle,
    /// The floor of portable covers is 50 in the search.
    LowerFloor,
    /// The floor of every type is 150 in the search.
    GreaterFloor,
    /// A wish below 150 on a ship with portable covers is 14.
    WishByFloor,
    /// The poop has the breadths of the first house.
    PoopSetIn,
    /// With a poop every house has full breadth.
    BreadthsLost,
    /// Breadths stay at their places when the houses make room for the poop.
    BreadthsLeft,
    /// With the flag the wish is for LS.
    AsksTimber,
    /// With the flag S has the timber percentages.
    TimberRow,
    /// With the flag S of a reduced ship has the line of B.
    TimberLine,
    /// With the flag S has no bow height.
    TimberBow,
    /// With the flag S has no floor.
    TimberFloor,
    /// A length is unfit where LS is at or above D.
    TimberUnfit,
}

/// The first slip about types, breadths and timber; one more case must tell each of these.
const LATER: usize = Slip::AsksAsB as usize;

const SLIPS: [Slip; 32] = [
    Slip::StopsAtRise,
    Slip::Halves,
    Slip::SkipsZero,
    Slip::EndsBelowLength,
    Slip::GoesBeyondLength,
    Slip::NoTouching,
    Slip::BelowWish,
    Slip::RefusesShip,
    Slip::TakesRefused,
    Slip::Quarterdeck,
    Slip::ZeroNeedsNoRoom,
    Slip::PoopApart,
    Slip::PoopNeverAmidships,
    Slip::PoopBeyondAmidships,
    Slip::PoopEarlyAmidships,
    Slip::PoopWholeReduction,
    Slip::PoopAloneAmidships,
    Slip::AsksAsB,
    Slip::AsksAsA,
    Slip::PoopAsForecastle,
    Slip::LowerFloor,
    Slip::GreaterFloor,
    Slip::WishByFloor,
    Slip::PoopSetIn,
    Slip::BreadthsLost,
    Slip::BreadthsLeft,
    Slip::AsksTimber,
    Slip::TimberRow,
    Slip::TimberLine,
    Slip::TimberBow,
    Slip::TimberFloor,
    Slip::TimberUnfit,
];

/// The slip in the marks that it comes to at this length.
fn in_marks(slip: Slip, ship: &Ship, k: i64) -> Option<slips::Slip> {
    let (poop, middle) = (500 * k, 4 * ship.length);
    match slip {
        Slip::PoopApart if k > 0 => Some(slips::Slip::EffectiveFirst),
        Slip::PoopNeverAmidships if poop >= middle => Some(slips::Slip::ReductionNever),
        Slip::PoopBeyondAmidships if poop == middle => Some(slips::Slip::ReductionNever),
        Slip::PoopEarlyAmidships if k == middle / 500 => Some(slips::Slip::ReductionMiddle),
        Slip::PoopWholeReduction if poop >= middle => Some(slips::Slip::ReductionWhole),
        Slip::PoopAloneAmidships if k > 0 => Some(slips::Slip::ReductionFirst),
        Slip::PoopAsForecastle if k > 0 => Some(slips::Slip::DeductAlways),
        Slip::LowerFloor => Some(slips::Slip::CoversFloorNever),
        Slip::GreaterFloor => Some(slips::Slip::FloorEvery),
        Slip::TimberRow => Some(slips::Slip::FlagRow),
        Slip::TimberLine => Some(slips::Slip::FlagLine),
        Slip::TimberBow => Some(slips::Slip::FlagBow),
        Slip::TimberFloor => Some(slips::Slip::FlagFloor),
        Slip::TimberUnfit => Some(slips::Slip::TimberTwelve),
        _ => None,
    }
}

/// The mark with a poop of k dm, with a slip; nothing if it is unfit.
fn mark_with(slip: Slip, ship: &Ship, height: u64, k: i64) -> Option<i64> {
    let mut longer = ship.clone();
    if k > 0 {
        let quarterdeck = slip == Slip::Quarterdeck;
        longer.houses = ship.houses.after(House { quarterdeck, ..house(0, 100 * k, height) });
        put_breadths(slip, &ship.houses, &mut longer.houses);
    }
    record::check_houses(longer.length, &longer.houses).ok()?;
    longer.kind = match (slip, ship.kind) {
        (Slip::AsksAsB, Kind::B60 | Kind::B100 | Kind::Covers) if k > 0 => Kind::B,
        (Slip::AsksAsA, Kind::B100) if k > 0 => Kind::A,
        (_, kind) => kind,
    };
    let touches = k > 0 && ship.houses.first().is_some_and(|first| first.aft == 100 * k);
    if slip == Slip::NoTouching && touches {
        return None;
    }
    if let Some(slip) = in_marks(slip, ship, k) {
        return slips::worked(&longer, Some(slip)).ok().map(|marks| marks.summer);
    }
    if let (Slip::AsksTimber, Ok(marks)) = (slip, marks::marks(&longer)) {
        return Some(marks.timber.map_or(marks.summer, |timber| timber.summer));
    }
    let refused = marks::marks(&longer).is_err() && slip != Slip::TakesRefused;
    (!refused).then(|| marks::steps(&longer).summer)
}

/// The breadths that the houses have with a poop under the slip.
fn put_breadths(slip: Slip, before: &[House], houses: &mut [House]) {
    let breadths = |place: usize| match slip {
        Slip::PoopSetIn if place == 0 => before.first().copied(),
        Slip::BreadthsLeft => before.get(place).copied(),
        Slip::BreadthsLost => None,
        _ => Some(houses[place]),
    };
    let all: Vec<House> = (0..houses.len()).map(|i| breadths(i).unwrap_or_default()).collect();
    for (house, of) in houses.iter_mut().zip(all) {
        (house.breadth, house.beam) = (of.breadth, of.beam);
    }
}

/// Refusals 12, 13, 15, 16 and the search, with a slip.
fn search_with(slip: Slip, ship: &Ship, height: u64, wish: u64) -> Result<i64, Refusal> {
    let mark = |k: i64| mark_with(slip, ship, height, k);
    let fits = |k: i64| match mark(k) {
        Some(mark) if slip == Slip::BelowWish => mark < wish as i64,
        Some(mark) => mark <= wish as i64,
        None => false,
    };
    let nothing = Refusal::at(Refusal::NOTHING_FITS, 0);
    if slip == Slip::WishByFloor && ship.kind == Kind::Covers && wish < 150 {
        return Err(Refusal::at(Refusal::ASKED, 0));
    }
    let full = ship.houses.len() == MAX_HOUSES;
    if full || ship.houses.first().is_some_and(|first| first.aft <= 0) {
        return match slip == Slip::ZeroNeedsNoRoom && fits(0) {
            true => Ok(0),
            false => Err(Refusal::at(Refusal::NO_ROOM, 0)),
        };
    }
    let last = match slip {
        Slip::EndsBelowLength => (ship.length - 1) / 100,
        Slip::GoesBeyondLength => (ship.length + 99) / 100,
        _ => ship.length / 100,
    };
    let mut lengths = 0..=last;
    match slip {
        Slip::RefusesShip => marks::marks(ship).map(|_| ())?,
        Slip::SkipsZero => lengths = 1..=last,
        Slip::StopsAtRise => {
            let rises = |&k: &i64| matches!((mark(k - 1), mark(k)), (Some(a), Some(b)) if b > a);
            lengths = 0..=(1..=last).find(rises).map_or(last, |k| k - 1);
        }
        Slip::Halves => return halved(last, fits).ok_or(nothing),
        _ => {}
    }
    lengths.into_iter().find(|&k| fits(k)).ok_or(nothing)
}

/// The least length that fits, by halving the range again and again.
fn halved(last: i64, fits: impl Fn(i64) -> bool) -> Option<i64> {
    let (mut low, mut high) = (0, last + 1);
    while low < high {
        let middle = (low + high) / 2;
        match fits(middle) {
            true => high = middle,
            false => low = middle + 1,
        }
    }
    (low <= last).then_some(low)
}
