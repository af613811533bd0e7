//! Regulation 45 once more, with at most one slip in it.

use super::{down, up, Slip, Working};
use twin::marks::{Marks, Timber};
use twin::record::Kind;

impl Working<'_> {
    /// The type's line; for LS that of B in place of a reduced one.
    pub(super) fn line(&self) -> (i128, i128) {
        let kind = self.ship.kind;
        let own = match self.slip {
            Some(Slip::TimberReducedLine) => true,
            Some(Slip::TimberSixtyLine) => kind == Kind::B60,
            Some(Slip::TimberHundredLine) => kind == Kind::B100,
            _ => false,
        };
        let reduced = matches!(kind, Kind::B60 | Kind::B100);
        let covers = kind == Kind::Covers && self.in_timber(Slip::TimberCoversLine);
        if covers || reduced && self.with_flag(Slip::FlagLine) {
            return self.table(Kind::B);
        }
        if !self.timber || !reduced || own {
            return self.table(kind);
        }
        match (self.has(Slip::TimberLineAfterFullness), self.table(kind), self.table(Kind::B)) {
            (true, (line, later), (b, _)) => (line, later + b - line),
            (false, _, b) => b,
        }
    }

    /// Tenths of a per cent at each tenth of E/L.
    pub(super) fn percentages(&self) -> [i128; 12] {
        let by_timber = match self.slip {
            Some(Slip::TimberRow) => false,
            Some(Slip::FlagRow) => self.ship.timber,
            _ => self.timber,
        };
        let first = if self.has(Slip::TimberFromZero) { 0 } else { 200 };
        match by_timber {
            true => [first, 310, 420, 530, 640, 700, 760, 820, 880, 940, 1000, 1000],
            false => [0, 70, 140, 210, 310, 410, 520, 630, 753, 877, 1000, 1000],
        }
    }

    /// D less LS.
    pub(super) fn timber_draught(&self) -> i128 {
        i128::from(self.ship.depth) - Working { timber: true, ..*self }.timber_summer()
    }

    /// Refusal 12 of a ship that has it or not by S.
    pub(super) fn sinks_by_timber(&self, sinks: bool) -> bool {
        match self.slip {
            Some(Slip::TimberTwelve) if self.ship.timber => sinks || self.timber_draught() <= 0,
            Some(Slip::TimberNotTwelve) if self.ship.timber => self.timber_draught() <= 0,
            _ => sinks,
        }
    }

    /// The ordinary marks, and the timber marks of a ship with the flag.
    pub(super) fn with_timber(&self, ordinary: Marks) -> Marks {
        match (self.ship.timber, self.slip) {
            (false, Some(Slip::TimberAlways)) => {}
            (false, Some(Slip::TimberZeros)) => {
                return Marks { timber: Some(Timber::default()), ..ordinary };
            }
            (false, _) | (true, Some(Slip::TimberNever)) => return ordinary,
            _ => {}
        }
        let timber = Working { timber: true, ..*self }.timber_marks(&ordinary);
        match timber {
            Some(none) if none == Timber::default() && self.has(Slip::TimberNoneAll) => Marks {
                summer: 0,
                tropical: 0,
                winter: 0,
                winter_north_atlantic: 0,
                fresh: 0,
                tropical_fresh: 0,
                timber,
            },
            _ => Marks { timber, ..ordinary },
        }
    }

    /// LS, be it at or above D.
    fn timber_summer(&self) -> i128 {
        let freeboard = match self.slip {
            Some(Slip::TimberBow) => self.corrected().max(self.bow()),
            _ => self.corrected(),
        };
        let mark = match self.slip {
            Some(Slip::TimberDown) => down(freeboard, 1000),
            Some(Slip::TimberNearest) => down(freeboard + 500, 1000),
            Some(Slip::TimberAway) if freeboard < 0 => down(freeboard, 1000),
            _ => up(freeboard, 1000),
        };
        mark.max(self.timber_floor())
    }

    /// The least LS and LT that a slip has.
    fn timber_floor(&self) -> i128 {
        match (self.slip, self.ship.kind) {
            (Some(Slip::TimberFloorOfType | Slip::TimberFloorCovers), Kind::Covers) => 150,
            (Some(Slip::TimberFloor | Slip::TimberFloorOfType), _) => 50,
            (Some(Slip::TimberZero), _) => 0,
            _ => i128::MIN,
        }
    }

    /// The six, zeros, or nothing at all.
    fn timber_marks(&self, ordinary: &Marks) -> Option<Timber> {
        let summer = match (self.slip, self.ship.kind) {
            (Some(Slip::TimberAtMostSummer), Kind::B60 | Kind::B100) => {
                self.timber_summer().min(ordinary.summer.into())
            }
            _ => self.timber_summer(),
        };
        let depth = i128::from(self.ship.depth);
        let draught = match self.slip {
            Some(Slip::TimberDraughtOfSummer) => depth - i128::from(ordinary.summer),
            Some(Slip::TimberDraughtMoulded) => i128::from(self.ship.moulded) - summer,
            _ => depth - summer,
        };
        let none = match self.slip {
            Some(Slip::TimberAtDepth) => depth < summer,
            Some(Slip::TimberBeyondDepth) => false,
            Some(Slip::TimberBelowZeroNone) => depth <= summer || summer < 0,
            Some(Slip::TimberWinterDepth) => depth <= summer + up(draught, 36),
            _ => depth <= summer,
        };
        match (none, self.slip) {
            (false, _) => Some(self.timber_others(summer, draught, ordinary)),
            (true, Some(Slip::TimberNoneUnsaid)) => None,
            (true, Some(Slip::TimberNoneAtlantic)) => Some(Timber {
                winter_north_atlantic: ordinary.winter_north_atlantic,
                ..Timber::default()
            }),
            (true, _) => Some(Timber::default()),
        }
    }

    /// The six from LS and the draught.
    fn timber_others(&self, summer: i128, d: i128, ordinary: &Marks) -> Timber {
        let winter = self.timber_winter(summer, d, ordinary);
        let tropical = self.timber_tropical(summer, d, ordinary);
        let allowance = match self.slip {
            Some(Slip::TimberFreshCertified) if self.ship.immersion > 0 => {
                down(25 * i128::from(self.ship.displacement), self.ship.immersion.into())
            }
            Some(Slip::TimberFreshOrdinary) => (ordinary.summer - ordinary.fresh).into(),
            Some(Slip::TimberFreshThirtySix) => down(d, 36),
            _ => self.down(d, 48, Slip::TimberFreshUp),
        };
        let tropical_fresh = match self.slip {
            Some(Slip::TimberTropicalFreshOnce) => summer - allowance,
            Some(Slip::TimberTropicalFreshTogether) => summer - down(d, 24),
            _ => tropical - allowance,
        };
        let least = if self.has(Slip::TimberFreshZero) { 0 } else { i128::MIN };
        let fifty = if self.l <= 100_000 { 50 } else { 0 };
        let atlantic = ordinary.winter_north_atlantic;
        Timber {
            summer: summer as i64,
            tropical: tropical as i64,
            winter: winter as i64,
            winter_north_atlantic: match self.slip {
                Some(Slip::TimberAtlanticOwn) => winter as i64 + fifty,
                Some(Slip::TimberAtlanticWinter) => ordinary.winter,
                Some(Slip::TimberAtlanticLevel) => atlantic.max(winter as i64),
                _ => atlantic,
            },
            fresh: (summer - allowance).max(least) as i64,
            tropical_fresh: tropical_fresh.max(least) as i64,
        }
    }

    /// LT
    fn timber_tropical(&self, summer: i128, d: i128, ordinary: &Marks) -> i128 {
        let parts = if self.has(Slip::TimberTropicalThirtySix) { 36 } else { 48 };
        let mark = summer - self.down(d, parts, Slip::TimberTropicalUp);
        match self.slip {
            Some(Slip::TimberTropicalFloor) => mark.max(50),
            Some(Slip::TimberTropicalZero) => mark.max(0),
            Some(Slip::TimberCapTropical) if self.is_reduced() => {
                mark.min(ordinary.tropical.into())
            }
            _ => mark.max(self.timber_floor()),
        }
    }

    /// LW
    fn timber_winter(&self, summer: i128, d: i128, ordinary: &Marks) -> i128 {
        let parts = if self.has(Slip::TimberWinterFortyEight) { 48 } else { 36 };
        let from = match self.slip {
            Some(Slip::TimberWinterFromSummer) => ordinary.summer.into(),
            _ => summer,
        };
        let own = from + self.up(d, parts, Slip::TimberWinterDown);
        let limit = i128::from(ordinary.winter);
        match (self.slip, self.ship.kind) {
            (Some(Slip::TimberCapNever), _)
            | (Some(Slip::TimberCapNotSixty), Kind::B60)
            | (Some(Slip::TimberCapNotHundred), Kind::B100) => own,
            (Some(Slip::TimberCapAtlantic), _) => own.min(ordinary.winter_north_atlantic.into()),
            (Some(Slip::TimberCapB), Kind::B) | (Some(Slip::TimberCapCovers), Kind::Covers) => {
                own.min(limit)
            }
            (Some(Slip::TimberWinterOrdinary), Kind::B60 | Kind::B100) => limit,
            (Some(Slip::TimberCapGreater), Kind::B60 | Kind::B100) => own.max(limit),
            (_, Kind::B60 | Kind::B100) => own.min(limit),
            _ => own,
        }
    }

    fn is_reduced(&self) -> bool {
        matches!(self.ship.kind, Kind::B60 | Kind::B100)
    }
}
