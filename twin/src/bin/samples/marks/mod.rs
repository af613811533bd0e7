//! Records to work the marks of: the line is the six marks, with the timber flag twelve, or one of refusals
//! 1 to 13, 18 and 22 to 24.

mod borders;
mod damaged;
mod found;
mod houses;
mod last;
mod low;
mod sheer;
mod sides;
mod timber;
mod types;

use std::ops::Range;

use crate::bytes::packed;
use crate::heads::slips::Heads;
use crate::lists::slips::Lists;
use crate::sides::slips::Sides;
use crate::slips::{self, tells, Slip, SLIPS};
use crate::timber::slips::Timbers;
use crate::{overlap, refused, Expected, Sample};
use twin::marks;
use twin::record::{self, House, RawShip, Ship};

/// Cases that each slip must change, at least.
const LEAST: usize = 3;

#[derive(Default)]
pub struct Cases {
    pub samples: Vec<Sample>,
    /// Name of each group, and the place of its first sample.
    groups: Vec<(&'static str, usize)>,
    pub lists: Lists,
    pub heads: Heads,
    pub sides: Sides,
    pub timbers: Timbers,
}

impl Cases {
    fn group(&mut self, name: &'static str, add: impl Fn(&mut Cases)) {
        self.groups.push((name, self.samples.len()));
        add(self);
    }

    fn bytes(&mut self, name: &str, expected: Expected, bytes: Vec<u8>) {
        let ship = record::read(&bytes);
        let answer = ship.clone().and_then(|ship| marks::marks(&ship));
        if let Ok(ship) = ship {
            assert_eq!(answer, slips::worked(&ship, None), "{name}: not alike without a slip");
        }
        let line = match answer {
            Ok(marks) => marks.to_string(),
            Err(refusal) => refusal.to_string(),
        };
        self.heads.marks(&bytes, &line);
        self.sides.marks(&bytes, &line);
        self.timbers.marks(&bytes, &line);
        self.samples.push(Sample::new(name, bytes, line, expected));
    }

    fn ship(&mut self, name: &str, expected: Expected, raw: &RawShip) {
        // 12 or 13, were there no houses.
        let bare = RawShip { n: 0, ..raw.clone() }.check();
        self.lists.add(raw, bare.and_then(|ship| marks::marks(&ship)).err());
        self.bytes(name, expected, packed(raw));
    }

    fn refused(&mut self, name: &str, number: u8, place: usize, raw: &RawShip) {
        self.ship(name, refused(number, place), raw);
    }

    fn overlap(&mut self, name: &str, place: usize, mm: u64, raw: &RawShip) {
        self.ship(name, overlap(place, mm), raw);
    }

    fn marks(&mut self, name: &str, raw: &RawShip) {
        self.ship(name, None, raw);
    }

    /// The ships in the cases, of those that can be read.
    fn ships(&self) -> impl Iterator<Item = (usize, Ship)> + '_ {
        let read = |sample: &Sample| record::read(&sample.data).ok();
        self.samples.iter().enumerate().filter_map(move |(i, s)| Some((i, read(s)?)))
    }

    fn told_by(&self, slip: Slip) -> Vec<usize> {
        self.ships().filter(|(_, ship)| tells(ship, slip)).map(|(i, _)| i).collect()
    }

    /// The groups, each with the places of its samples.
    fn ranges(&self) -> impl Iterator<Item = (&'static str, Range<usize>)> + '_ {
        let ends = self.groups.iter().skip(1).map(|group| group.1).chain([self.samples.len()]);
        self.groups.iter().zip(ends).map(|(&(name, start), end)| (name, start..end))
    }

    /// Stops if few cases tell a slip.
    fn enough(&self) {
        for &(slip, _, what) in SLIPS {
            assert!(self.told_by(slip).len() >= LEAST, "too few cases tell: {what}");
        }
        self.lists.enough("marks");
        self.heads.enough("marks");
        self.sides.enough("marks");
        self.timbers.enough("marks");
    }

    /// How many cases each group has; for each slip, how many cases of which group it changes.
    pub fn slips(&self) -> String {
        let mut text = format!("{} cases", self.samples.len());
        for (name, range) in self.ranges() {
            text += &format!(", {name} {}", range.len());
        }
        for &(slip, regulation, what) in SLIPS {
            let told = self.told_by(slip);
            text += &format!("\n{regulation} {what}: {}", told.len());
            for (name, range) in self.ranges() {
                let count = told.iter().filter(|i| range.contains(i)).count();
                if count > 0 {
                    text += &format!(", {name} {count}");
                }
            }
        }
        text
    }
}

/// The first ship whose line the slip changes.
fn telling(slip: Slip, mut ships: impl Iterator<Item = RawShip>) -> RawShip {
    let decisive = |raw: &RawShip| raw.check().is_ok_and(|ship| tells(&ship, slip));
    ships.find(decisive).unwrap_or_else(|| panic!("no ship tells {slip:?}"))
}

/// The ship with a greater and greater depth.
fn deeper(raw: RawShip) -> impl Iterator<Item = RawShip> {
    (0..4_000).map(move |mm| RawShip { depth: raw.depth + mm, ..raw.clone() })
}

/// The ship fuller and fuller.
fn fuller(raw: RawShip) -> impl Iterator<Item = RawShip> {
    (0..2_000).map(move |cb| RawShip { cb: raw.cb + cb, ..raw.clone() })
}

/// The ship fuller and fuller, with some depths.
fn varied(raw: RawShip) -> impl Iterator<Item = RawShip> {
    deeper(raw).take(8).flat_map(fuller)
}

pub fn cases() -> Cases {
    let mut all = Cases::default();
    steps(&mut all);
    all.group("damaged", damaged::damaged);
    all.group("random", found::every_count);
    // Each slip's ships are drawn after the cases that were there before it, so that these stay.
    let earlier = |slip| !found::in_reduction(slip) && !found::by_hand(slip);
    all.group("found", |all| found::for_each_slip(all, earlier));
    low::groups(&mut all);
    all.group("low-found", |all| found::for_each_slip(all, found::in_reduction));
    all.group("sheer-mean", sheer::mean);
    all.group("sheer-signs", sheer::signs);
    all.group("lists", damaged::lists);
    types::groups(&mut all);
    all.group("heads", damaged::heads);
    sides::groups(&mut all);
    all.group("sides", damaged::sides);
    timber::groups(&mut all);
    all.group("timber", damaged::timber);
    all.enough();
    all
}

/// 01's steps, one after the other.
fn steps(all: &mut Cases) {
    all.group("figures", last::figures);
    all.group("lengths", borders::lengths);
    all.group("rows", borders::rows);
    all.group("fullness", borders::fullness);
    all.group("tenths", borders::tenths);
    all.group("short-b", borders::short_b);
    all.group("depth", borders::depth);
    all.group("sheer", sheer::halves);
    all.group("sheer-whole", sheer::whole);
    all.group("cover", houses::cover);
    all.group("quarterdecks", houses::quarterdecks);
    all.group("heights", houses::heights);
    all.group("sums", houses::sums);
    all.group("open", houses::not_enclosed);
    all.group("ends", houses::beyond_the_ends);
    all.group("forecastles", houses::forecastles);
    all.group("bow", last::bow);
    all.group("floors", last::floors);
    all.group("fresh", last::fresh);
    all.group("refusal-12", last::summer_at_deck);
    all.group("refusal-13", last::allowance_above_draught);
}

/// The house with its length cut by some mm at its after end.
fn shorter(house: House, mm: i64) -> House {
    House { aft: house.aft + mm, ..house }
}
