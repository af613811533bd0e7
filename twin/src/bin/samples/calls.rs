//! The cases of one call, answered once more with at most one slip in reader and writer. A case tells the
//! slip if its line changes.

use std::marker::PhantomData;

use twin::marks;
use twin::question;
use twin::record::{RawShip, Ship};
use twin::refusal::Refusal;
use twin::report::{self, Trial};

/// What a call is given.
pub enum Call {
    Read(Vec<u8>),
    Marks(Vec<u8>),
    /// Height and wish.
    Question(Vec<u8>, u64, u64),
    Write(Box<Trial>),
}

/// A ship that was read, and what is refused after all else.
pub type Taken = Result<(Ship, Option<Refusal>), Refusal>;

/// Reader and writer with at most one slip.
pub trait Working {
    type Slip: Copy + 'static;
    /// Every slip, the refusal it is in, 0 for the writer, and what it does.
    const SLIPS: &'static [(Self::Slip, u8, &'static str)];

    fn with(slip: Option<Self::Slip>) -> Self;

    /// Whether the slip can be in this call.
    fn concerns(slip: Self::Slip, call: &Call) -> bool;

    fn read(&self, bytes: &[u8]) -> Taken;

    /// The record of a ship that was read.
    fn record(&self, raw: &RawShip) -> Vec<u8>;

    fn write(&self, buffer: &mut [u8], raw: &RawShip) -> Result<usize, Refusal>;
}

/// Cases that each slip must change in every call that it is in, at least.
const LEAST: usize = 3;

/// The cases of one call, with their lines.
#[derive(Default)]
pub struct Calls<W> {
    cases: Vec<(Call, String)>,
    working: PhantomData<W>,
}

impl<W: Working> Calls<W> {
    pub fn read(&mut self, bytes: &[u8], line: &str) {
        self.add(Call::Read(bytes.to_vec()), line);
    }

    pub fn marks(&mut self, bytes: &[u8], line: &str) {
        self.add(Call::Marks(bytes.to_vec()), line);
    }

    pub fn question(&mut self, bytes: &[u8], height: u64, wish: u64, line: &str) {
        self.add(Call::Question(bytes.to_vec(), height, wish), line);
    }

    pub fn write(&mut self, trial: &Trial, line: &str) {
        self.add(Call::Write(Box::new(trial.clone())), line);
    }

    fn add(&mut self, call: Call, line: &str) {
        assert_eq!(answer(&W::with(None), &call), line, "not alike without a slip");
        self.cases.push((call, line.to_string()));
    }

    fn told_by(&self, slip: W::Slip) -> usize {
        self.cases.iter().filter(|(call, line)| tells::<W>(call, line, slip)).count()
    }

    /// Stops if few cases tell a slip.
    pub fn enough(&self, call: &str) {
        for &(slip, _, what) in W::SLIPS {
            let concerned = self.cases.iter().any(|(call, _)| W::concerns(slip, call));
            assert!(
                !concerned || self.told_by(slip) >= LEAST,
                "{call}: too few cases tell: {what}"
            );
        }
    }
}

/// For each slip, how many cases of each call it changes.
pub fn shown<W: Working>(calls: &[(&str, &Calls<W>)]) -> String {
    let line = |&(slip, refusal, what): &(W::Slip, u8, &str)| {
        let told = calls.iter().map(|(call, cases)| format!("{call} {}", cases.told_by(slip)));
        let told = told.collect::<Vec<_>>().join(", ");
        match refusal {
            0 => format!("writer {what}: {told}"),
            _ => format!("refusal {refusal} {what}: {told}"),
        }
    };
    W::SLIPS.iter().map(line).collect::<Vec<_>>().join("\n")
}

fn tells<W: Working>(call: &Call, line: &str, slip: W::Slip) -> bool {
    if !W::concerns(slip, call) {
        return false;
    }
    let working = W::with(Some(slip));
    if let Call::Marks(bytes) | Call::Question(bytes, ..) = call {
        match (W::with(None).read(bytes), working.read(bytes)) {
            // A search takes long: it is made where the slip lets another ship in.
            (right, wrong) if right == wrong => return false,
            // Nothing that comes after reading has a refusal of reading.
            (Err(_), Ok((_, None))) => return true,
            _ => {}
        }
    }
    answer(&working, call) != line
}

/// The line of the call.
fn answer<W: Working>(working: &W, call: &Call) -> String {
    let answer = match call {
        Call::Read(bytes) => working.read(bytes).map(|(ship, _)| {
            let written = working.record(&ship.raw());
            format!("{} {}", report::ship_line(&ship), report::ending(bytes, &written))
        }),
        Call::Marks(bytes) => working.read(bytes).and_then(|(ship, late)| {
            let marks = marks::marks(&ship)?;
            late.map_or(Ok(marks.to_string()), Err)
        }),
        Call::Question(bytes, height, wish) => working.read(bytes).and_then(|(ship, late)| {
            let k = question::shortest_poop_of(&ship, *height, *wish)?;
            late.map_or(Ok(format!("poop {k}")), Err)
        }),
        Call::Write(trial) => Ok(trial.line_by(|buffer, raw| working.write(buffer, raw))),
    };
    answer.unwrap_or_else(|refusal| refusal.to_string())
}
