//! The lines that the programs print.

use std::fmt::Write;

use crate::record::{self, House, RawShip, Ship, MAX_HOUSES};
use crate::refusal::Refusal;

/// What a buffer holds before a write.
const FILL: u8 = 0xa5;
/// Buffer that a ship just read is written back into.
const BUFFER: usize = 128;

/// One line on a record: the refusal, or the ship, and that writing it gives the record back or what
/// it gives instead.
pub fn record_line(bytes: &[u8]) -> String {
    match record::read(bytes) {
        Err(refusal) => refusal.to_string(),
        Ok(ship) => format!("{} {}", ship_line(&ship), ending(bytes, &written_back(&ship))),
    }
}

/// `back`, or `as` and the other record in hex.
pub fn ending(bytes: &[u8], written: &[u8]) -> String {
    match written == bytes {
        true => "back".to_string(),
        false => format!("as {}", hex(written)),
    }
}

pub fn hex(bytes: &[u8]) -> String {
    bytes.iter().map(|byte| format!("{byte:02x}")).collect()
}

pub fn ship_line(ship: &Ship) -> String {
    let [a, b, c, d, e, f] = ship.sheer;
    let timber = if ship.timber { " timber" } else { "" };
    let mut line = format!(
        "type {}{timber} L {} D {} M {} Cb {} Cwf {} sheer {a} {b} {c} {d} {e} {f} certified {} {} houses {}",
        ship.kind as u8,
        ship.length,
        ship.depth,
        ship.moulded,
        ship.cb,
        ship.cwf,
        ship.displacement,
        ship.immersion,
        ship.houses.len()
    );
    for h in ship.houses.iter() {
        let (enclosed, quarterdeck) = (u8::from(h.enclosed), u8::from(h.quarterdeck));
        let House { aft, fore, height, breadth, beam, .. } = h;
        let _ = write!(line, " [{enclosed} {quarterdeck} {aft} {fore} {height} {breadth} {beam}]");
    }
    line
}

/// The record of a ship that was read. The rest of the buffer stays as it was.
fn written_back(ship: &Ship) -> Vec<u8> {
    let mut buffer = [FILL; BUFFER];
    let length = record::write(&mut buffer, &ship.raw()).expect("a ship that was read is sound");
    assert!(buffer[length..].iter().all(|&byte| byte == FILL));
    buffer[..length].to_vec()
}

/// A write to be tried: how long the buffer is, and the ship.
#[derive(Clone, Debug, Default)]
pub struct Trial {
    pub buffer: u64,
    pub ship: RawShip,
}

const NUMBERS: usize = 16 + 7 * MAX_HOUSES;
/// A number behind them that says that the ship has the timber flag.
const FLAG: u64 = 1;
const SHEER_SHIFT: i64 = 8_192;
const STATION_SHIFT: i64 = 1_048_576;

impl Trial {
    /// The trial as 72 numbers of 8 bytes, most significant first, and one more for the timber flag.
    /// Signed numbers are shifted.
    pub fn to_bytes(&self) -> Vec<u8> {
        let s = &self.ship;
        let mut numbers = vec![self.buffer, s.kind, s.n, s.length, s.depth, s.moulded, s.cb, s.cwf];
        numbers.extend(s.sheer.iter().map(|mm| mm.wrapping_add(SHEER_SHIFT) as u64));
        numbers.extend([s.displacement, s.immersion]);
        for h in &s.houses {
            let station = |mm: i64| mm.wrapping_add(STATION_SHIFT) as u64;
            let (enclosed, quarterdeck) = (h.enclosed.into(), h.quarterdeck.into());
            numbers.extend([enclosed, quarterdeck, station(h.aft), station(h.fore), h.height]);
            numbers.extend([h.breadth, h.beam]);
        }
        numbers.extend(s.timber.then_some(FLAG));
        numbers.iter().flat_map(|number| number.to_be_bytes()).collect()
    }

    /// The other way; nothing if the bytes are not so many numbers or the buffer is above 128 bytes.
    pub fn from_bytes(bytes: &[u8]) -> Option<Trial> {
        let (bytes, last) = bytes.split_at_checked(8 * NUMBERS)?;
        let timber = match last {
            [] => false,
            _ if *last == FLAG.to_be_bytes() => true,
            _ => return None,
        };
        let mut numbers =
            bytes.chunks_exact(8).map(|part| part.iter().fold(0, |n, &b| n << 8 | u64::from(b)));
        let mut next = || numbers.next().unwrap_or(0);
        let trial = Trial {
            buffer: next(),
            ship: RawShip {
                kind: next(),
                n: next(),
                timber,
                length: next(),
                depth: next(),
                moulded: next(),
                cb: next(),
                cwf: next(),
                sheer: std::array::from_fn(|_| (next() as i64).wrapping_sub(SHEER_SHIFT)),
                displacement: next(),
                immersion: next(),
                houses: std::array::from_fn(|_| House {
                    enclosed: next() == 1,
                    quarterdeck: next() == 1,
                    aft: (next() as i64).wrapping_sub(STATION_SHIFT),
                    fore: (next() as i64).wrapping_sub(STATION_SHIFT),
                    height: next(),
                    breadth: next(),
                    beam: next(),
                }),
            },
        };
        (trial.buffer <= BUFFER as u64).then_some(trial)
    }

    /// One line on the write: `written` or the refusal, then the whole buffer in hex.
    pub fn line(&self) -> String {
        self.line_by(record::write)
    }

    /// The same of another writer.
    pub fn line_by<W>(&self, write: W) -> String
    where
        W: Fn(&mut [u8], &RawShip) -> Result<usize, Refusal>,
    {
        let mut buffer = vec![FILL; self.buffer as usize];
        let line = match write(&mut buffer, &self.ship) {
            Ok(_) => "written".to_string(),
            Err(refusal) => refusal.to_string(),
        };
        format!("{line} {}", hex(&buffer)).trim_end().to_string()
    }
}
