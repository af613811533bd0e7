//! Random ships about regulation 45: the timber marks where one of its rules begins or ends.

use super::{least_depth, Random};
use crate::marks;
use crate::record::{RawShip, Ship};

/// Ships, or depths and fullnesses of one, that are tried for a border.
const SHIPS: usize = 24;
const TRIES: usize = 1_500;

impl Random {
    /// Sets the timber flag on one type B ship in three.
    pub fn flag_at_times(&mut self, raw: &mut RawShip) {
        raw.timber = raw.kind != 0 && self.once_in(3);
    }

    /// A valid ship of any type with `n` houses: one in five is a timber ship, of the others one type B ship in
    /// three has the flag.
    pub fn any_ship_or_timber(&mut self, n: usize) -> RawShip {
        if self.once_in(5) {
            return self.timber_ship(n);
        }
        let mut raw = self.any_ship(n);
        self.flag_at_times(&mut raw);
        raw
    }

    /// A valid type B ship with the flag and `n` houses. LS is about zero or far below it, about D or at a
    /// whole mm, or LW is about W; or it is any ship. Some houses are set in at times.
    pub fn timber_ship(&mut self, n: usize) -> RawShip {
        let sort = self.between(1, 6);
        for _ in 0..SHIPS {
            let kind = match sort {
                // In B and with portable covers LS is never above S, and nothing caps LW.
                3 | 5 => self.pick(&[2, 3]),
                _ => self.pick(&[1, 2, 3, 4]),
            };
            let mut raw = self.ship_of(kind, n);
            raw.timber = true;
            if !self.once_in(6) {
                self.lower_bow(&mut raw);
            }
            let length = raw.length as i64;
            if sort < 3 {
                self.put_long_houses(&mut raw.houses[..n], length);
            }
            self.set_in_at_times(&mut raw.houses[..n]);
            let found = match sort {
                1 => self.about_zero(&raw),
                2 => self.below_zero(raw),
                3 => self.about_depth(raw),
                4 => self.at_whole_mm(raw, length / 22, length / 8),
                5 => self.about_winter(&raw),
                _ => Some(raw),
            };
            let good =
                found.filter(|raw| raw.check().is_ok_and(|ship| marks::marks(&ship).is_ok()));
            if let Some(raw) = good {
                return raw;
            }
        }
        let kind = self.between(1, 4) as u64;
        RawShip { timber: true, ..self.ship_of(kind, n) }
    }

    /// With a depth for which LS is zero or within 2 mm of it.
    fn about_zero(&mut self, raw: &RawShip) -> Option<RawShip> {
        let mm = self.between(-2, 2);
        let depth = least_depth(raw, mm, summer)?;
        Some(RawShip { depth, ..raw.clone() })
    }

    /// With so little depth that LS is below zero, if there is such a depth; every other time at a whole mm.
    fn below_zero(&mut self, mut raw: RawShip) -> Option<RawShip> {
        let (least, most) = (raw.length as i64 / 40, raw.length as i64 / 15);
        if self.once_in(2) {
            raw = self.at_whole_mm(raw, least, most)?;
        } else {
            raw.depth = self.between(least, most).max(1_000) as u64;
        }
        (summer(&raw.check().ok()?) < 0).then_some(raw)
    }

    /// With a depth of LS or within 2 mm of it, be S below it or not.
    fn about_depth(&mut self, mut raw: RawShip) -> Option<RawShip> {
        raw.depth = 1_000;
        // LS itself changes with the depth at times.
        for _ in 0..3 {
            raw.depth = summer(&raw.check().ok()?).clamp(1_000, 60_000) as u64;
        }
        raw.depth = (raw.depth as i64 + self.between(-2, 2)).max(1_000) as u64;
        Some(raw)
    }

    /// With a depth and a fullness for which the timber freeboard is at a whole mm or one um above it.
    fn at_whole_mm(&mut self, mut raw: RawShip, least: i64, most: i64) -> Option<RawShip> {
        let mut ship = raw.check().ok()?;
        let fine = (0..TRIES).any(|_| {
            ship.depth = self.between(least, most).clamp(1_000, 60_000);
            ship.cb = self.between(6_800, 10_000);
            corrected(&ship).rem_euclid(1000) <= 1
        });
        (raw.depth, raw.cb) = (ship.depth as u64, ship.cb as u64);
        fine.then_some(raw)
    }

    /// With a depth for which LW would be W or within 2 mm of it, were it not limited by it.
    fn about_winter(&mut self, raw: &RawShip) -> Option<RawShip> {
        let mm = self.between(-1, 2);
        let depth = least_depth(raw, mm, |ship| {
            let steps = marks::steps(ship);
            let (s, ls) = (steps.summer, marks::timber_steps(ship, &steps).summer);
            let part = |mark: i64, parts: i64| -(mark - ship.depth).div_euclid(parts);
            ls + part(ls, 36) - s - part(s, 48)
        })?;
        Some(RawShip { depth, ..raw.clone() })
    }
}

/// The timber freeboard, um.
fn corrected(ship: &Ship) -> i64 {
    marks::timber_steps(ship, &marks::steps(ship)).corrected
}

/// LS, be it at or above D.
fn summer(ship: &Ship) -> i64 {
    marks::timber_steps(ship, &marks::steps(ship)).summer
}
