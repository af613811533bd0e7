//! Plausible slips in the check of a list of houses. A list is checked once more below, with at most
//! one slip in it; a case tells the slip if what is printed changes.

use crate::slips::slips;
use twin::record::{self, House, RawShip};
use twin::refusal::Refusal;

slips! {
    OrderByFore 18 "fore ends compared",
    OrderByBoth 18 "only if both ends are below the previous ones",
    OrderAtEqual 18 "equal aft ends are out of order",
    OrderIfApart 18 "only if no mm lies in both houses",
    OrderNever 18 "never, and 11 in its place",
    OrderFirst 18 "judged over all houses before 11",
    OrderPlaceBefore 18 "place of the house before",
    OrderPlaceAfter 18 "places from 1",
    OrderNoPlace 18 "place 0",
    OrderWithOverlap 18 "mm in both houses beside it",
    OrderWithZero 18 "a third number beside it, 0",
    OrderLast 18 "judged after 12 to 17",
    LastKind 11 "last bad house decides, with the first one's place",
    LastHouse 11 "last bad house decides, with its own place",
    LastPlace 11 "first bad house decides, with the last one's place",
    OverlapFirst 11 "judged over all houses before 18",
    OverlapPlaceBefore 11 "place of the house before",
    OverlapPlaceAfter 11 "places from 1",
    OverlapLast 11 "judged after 12 to 17",
    TouchingBad 11 "houses that touch",
    PreviousEnclosed 11 "previous enclosed house compared",
    OpenLeftOut 11 "houses not enclosed not compared",
    EndsWithinLength 11 "ends limited to L before they are compared",
    MmNever 11 "no overlap beside it",
    MmToFore 11 "overlap to the later house's fore end",
    MmToPreviousFore 11 "overlap to the previous house's fore end",
    MmToGreaterFore 11 "overlap to the greater of the fore ends",
    MmFromPreviousAft 11 "overlap from the previous house's aft end",
    MmBothEnds 11 "overlap with the mm at both ends",
    MmWithinLength 11 "overlap within L alone",
    Mm16Bits 11 "overlap in 16 bits",
    MmLast 11 "overlap of the last house that overlaps",
    MmGreatest 11 "greatest overlap of the list",
    MmSum 11 "all overlaps of the list added",
    TenWithOverlap 10 "overlap of another house beside it",
    TenAfterList 10 "judged after 11 and 18",
    NineWithOverlap 9 "overlap of another house beside it",
    NineAfterList 9 "judged after 11 and 18, as 10 is",
    NineAfterOrder 9 "judged after 18, as 10 is",
    HouseByHouse 9 "each house by 9, 10, 11 and 18 before the next",
}

/// Cases that each slip must change in every call, at least.
const LEAST: usize = 3;

/// The lists of one call's cases.
#[derive(Default)]
pub struct Lists(Vec<List>);

struct List {
    length: i64,
    houses: Vec<House>,
    /// What the call would refuse if the houses were sound.
    later: Option<Refusal>,
}

impl Lists {
    /// Takes in a ship's houses, unless something before them is refused.
    pub fn add(&mut self, raw: &RawShip, later: Option<Refusal>) {
        let refusal = raw.check().err();
        let before = |number| {
            number < Refusal::HOUSE || [Refusal::KIND_LENGTH, Refusal::TIMBER].contains(&number)
        };
        if refusal.is_some_and(|refusal| before(refusal.number)) {
            return;
        }
        let houses = raw.houses[..raw.n as usize].to_vec();
        let list = List { length: raw.length as i64, houses, later };
        let right = refusal.map(|refusal| refusal.to_string());
        assert_eq!(list.line(None), right, "not alike without a slip");
        self.0.push(list);
    }

    fn told_by(&self, slip: Slip) -> usize {
        self.0.iter().filter(|list| list.line(Some(slip)) != list.line(None)).count()
    }

    /// Stops if few cases tell a slip. Reading judges nothing after the houses.
    pub fn enough(&self, call: &str) {
        let nothing_later = self.0.iter().all(|list| list.later.is_none());
        for &(slip, _, what) in SLIPS {
            let unlike = nothing_later && matches!(slip, Slip::OrderLast | Slip::OverlapLast);
            assert!(unlike || self.told_by(slip) >= LEAST, "{call}: too few cases tell: {what}");
        }
    }
}

/// For each slip, how many cases of each call it changes.
pub fn shown(calls: &[(&str, &Lists)]) -> String {
    let line = |&(slip, refusal, what): &(Slip, u8, &str)| {
        let told = calls.iter().map(|(call, lists)| format!("{call} {}", lists.told_by(slip)));
        format!("refusal {refusal} {what}: {}", told.collect::<Vec<_>>().join(", "))
    };
    SLIPS.iter().map(line).collect::<Vec<_>>().join("\n")
}

/// A refusal as it is printed: number and place, and mm at times.
#[derive(Clone, Copy)]
struct Said {
    number: u8,
    place: usize,
    mm: Option<i64>,
}

/// A house whose aft end is below the fore end of the one it is compared with.
struct Bad {
    place: usize,
    out_of_order: bool,
    mm: i64,
}

impl List {
    /// What is printed, with a slip or none; nothing if the list passes.
    fn line(&self, slip: Option<Slip>) -> Option<String> {
        let Said { number, place, mm } = Check { list: self, slip }.said()?;
        let late =
            matches!((slip, number), (Some(Slip::OrderLast), 18) | (Some(Slip::OverlapLast), 11));
        Some(match (self.later, mm) {
            (Some(later), _) if late => later.to_string(),
            (_, Some(mm)) => format!("refused {number} {place} {mm}"),
            _ => format!("refused {number} {place}"),
        })
    }
}

struct Check<'a> {
    list: &'a List,
    slip: Option<Slip>,
}

impl Check<'_> {
    fn has(&self, slip: Slip) -> bool {
        self.slip == Some(slip)
    }

    /// The first refusal in the order of the checks.
    fn said(&self) -> Option<Said> {
        let pair = self.pair();
        let beside = |slip| pair.filter(|_| self.has(slip)).and_then(|said| said.mm);
        let nine = self.alone(9, beside(Slip::NineWithOverlap));
        let sides = self.alone(23, None);
        let ten = self.alone(10, beside(Slip::TenWithOverlap));
        match self.slip {
            Some(Slip::NineAfterList) => pair.or(nine).or(sides).or(ten),
            Some(Slip::NineAfterOrder) => {
                pair.filter(|said| said.number == 18).or(nine).or(sides).or(ten).or(pair)
            }
            Some(Slip::TenAfterList) => nine.or(sides).or(pair).or(ten),
            Some(Slip::HouseByHouse) => {
                [nine, sides, ten, pair].into_iter().flatten().min_by_key(|said| said.place)
            }
            _ => nine.or(sides).or(ten).or(pair),
        }
    }

    /// Refusal 9, 10 or 23, which a house by itself is enough for.
    fn alone(&self, number: u8, mm: Option<i64>) -> Option<Said> {
        let refused = |house: &House| {
            let alone = record::check_houses(self.list.length, &[*house]);
            alone.is_err_and(|refusal| refusal.number == number)
        };
        let place = self.list.houses.iter().position(refused)?;
        Some(Said { number, place, mm })
    }

    /// Refusal 11 or 18, which it takes two houses for.
    fn pair(&self) -> Option<Said> {
        let bad = self.bad();
        let (first, last) = (bad.first()?, bad.last()?);
        let decides = match self.slip {
            Some(Slip::OrderFirst) => bad.iter().find(|bad| bad.out_of_order).unwrap_or(first),
            Some(Slip::OverlapFirst) => bad.iter().find(|bad| !bad.out_of_order).unwrap_or(first),
            Some(Slip::LastKind | Slip::LastHouse) => last,
            _ => first,
        };
        let place = match (self.slip, decides.out_of_order) {
            (Some(Slip::LastKind), _) => first.place,
            (Some(Slip::LastPlace), _) => last.place,
            (Some(Slip::OverlapPlaceBefore), false) => decides.place - 1,
            (Some(Slip::OverlapPlaceAfter), false) => decides.place + 1,
            (Some(Slip::OrderPlaceBefore), true) => decides.place - 1,
            (Some(Slip::OrderPlaceAfter), true) => decides.place + 1,
            (Some(Slip::OrderNoPlace), true) => 0,
            _ => decides.place,
        };
        let number = if decides.out_of_order { 18 } else { 11 };
        Some(Said { number, place, mm: self.mm(decides, &bad) })
    }

    /// The mm that are printed beside 11, and under a slip beside 18.
    fn mm(&self, decides: &Bad, bad: &[Bad]) -> Option<i64> {
        let overlaps = bad.iter().filter(|bad| !bad.out_of_order).map(|bad| bad.mm);
        match self.slip {
            Some(Slip::OrderWithOverlap) => Some(decides.mm).filter(|&mm| mm > 0),
            Some(Slip::OrderWithZero) if decides.out_of_order => Some(0),
            _ if decides.out_of_order => None,
            Some(Slip::MmNever) => None,
            Some(Slip::MmLast) => overlaps.last(),
            Some(Slip::MmGreatest) => overlaps.max(),
            Some(Slip::MmSum) => Some(overlaps.sum()),
            _ => Some(decides.mm),
        }
    }

    fn bad(&self) -> Vec<Bad> {
        let houses: Vec<House> = self.list.houses.iter().map(|house| self.limited(house)).collect();
        let places = 1..houses.len();
        places.filter_map(|place| self.compared(place, &houses[..place], &houses[place])).collect()
    }

    fn limited(&self, house: &House) -> House {
        match self.has(Slip::EndsWithinLength) {
            true => {
                House { aft: house.aft.max(0), fore: house.fore.min(self.list.length), ..*house }
            }
            false => *house,
        }
    }

    /// The house, if it is bad by one of those before it.
    fn compared(&self, place: usize, before: &[House], house: &House) -> Option<Bad> {
        let previous = match self.slip {
            Some(Slip::PreviousEnclosed) => before.iter().rfind(|house| house.enclosed),
            Some(Slip::OpenLeftOut) => {
                before.last().filter(|previous| previous.enclosed && house.enclosed)
            }
            _ => before.last(),
        }?;
        let touches = self.has(Slip::TouchingBad) && house.aft == previous.fore;
        (house.aft < previous.fore || touches).then(|| Bad {
            place,
            out_of_order: self.out_of_order(previous, house),
            mm: self.overlap(previous, house),
        })
    }

    fn out_of_order(&self, previous: &House, house: &House) -> bool {
        match self.slip {
            Some(Slip::OrderByFore) => house.fore < previous.fore,
            Some(Slip::OrderByBoth) => house.aft < previous.aft && house.fore < previous.fore,
            Some(Slip::OrderAtEqual) => house.aft <= previous.aft,
            Some(Slip::OrderIfApart) => house.fore <= previous.aft,
            Some(Slip::OrderNever) => false,
            _ => house.aft < previous.aft,
        }
    }

    /// The mm that lie in both houses.
    fn overlap(&self, previous: &House, house: &House) -> i64 {
        let fore = previous.fore.min(house.fore);
        let aft = previous.aft.max(house.aft);
        match self.slip {
            Some(Slip::MmToFore) => house.fore - aft,
            Some(Slip::MmToPreviousFore) => previous.fore - aft,
            Some(Slip::MmToGreaterFore) => previous.fore.max(house.fore) - aft,
            Some(Slip::MmFromPreviousAft) => fore - previous.aft,
            Some(Slip::MmBothEnds) => fore - aft + 1,
            Some(Slip::MmWithinLength) => fore.min(self.list.length) - aft.max(0),
            Some(Slip::Mm16Bits) => (fore - aft) % (1 << 16),
            _ => fore - aft,
        }
    }
}
