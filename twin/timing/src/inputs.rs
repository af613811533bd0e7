//! What the calls are timed on; the same from run to run.

use twin::question;
use twin::random::Random;
use twin::record::{self, House, RawShip, Version};
use twin::refusal::Refusal;

use crate::face::FlatShip;

/// A valid ship in every form that a call takes.
pub struct Input {
    pub raw: RawShip,
    pub flat: FlatShip,
    pub record: Vec<u8>,
    /// What the question asks.
    pub height: u64,
    pub wish: u64,
}

const SHIPS: usize = 256;
const SEARCHES: usize = 8;
const HEIGHT: u64 = 2_000;
const LEAST_WISH: u64 = 50;

/// Ships of every type with 0 to 8 houses, each in the lowest version that holds it.
pub fn ships() -> Vec<Input> {
    let mut random = Random::new(1966);
    (0..SHIPS).map(|i| Input::new(random.any_ship(i % 9), LEAST_WISH)).collect()
}

/// The type B ships of these with the timber flag.
pub fn timber_ships() -> Vec<Input> {
    let flagged = |input: Input| Input::new(RawShip { timber: true, ..input.raw }, LEAST_WISH);
    ships().into_iter().filter(|input| input.raw.kind != 0).map(flagged).collect()
}

/// Ships whose wish a poop of 1 to 10 dm meets, and none shorter.
pub fn early_hits() -> Vec<Input> {
    let mut random = Random::new(1988);
    found(SHIPS, || {
        let n = random.between(0, 7) as usize;
        let kind = random.kind();
        let mut raw = random.ship_of(kind, n);
        random.set_in_at_times(&mut raw.houses[..n]);
        let ship = raw.check().ok()?;
        let wish = question::summer_with_poop(&ship, HEIGHT, random.between(1, 10)).ok()?;
        let input = Input::new(raw, wish as u64);
        input.answer().is_ok_and(|k| k > 0).then_some(input)
    })
}

/// The longest ships, whose wish no poop meets; every other one has a forecastle that is set in. Houses
/// stand only in the last tenth of the length, so that there is hardly a length of poop that need not be
/// worked.
pub fn full_searches() -> Vec<Input> {
    let mut random = Random::new(2003);
    let mut set_in = false;
    found(SEARCHES, || {
        let n = random.between(0, 1) as usize;
        let mut raw = random.ship(n);
        if set_in {
            put_forecastle(&mut raw);
        }
        let clear = raw.houses[..raw.n as usize].iter().all(|house| house.aft > 328_500);
        let input = Input::new(raw, LEAST_WISH);
        let nothing_fits = input.answer().is_err_and(|refusal| refusal.number == 16);
        let good = input.raw.length == 365_000 && clear && nothing_fits;
        set_in ^= good;
        good.then_some(input)
    })
}

/// One house, set in by 2.5 per cent on a side.
fn put_forecastle(raw: &mut RawShip) {
    let fore = raw.length as i64;
    let aft = fore * 92 / 100;
    raw.n = 1;
    raw.houses[0] = House {
        enclosed: true,
        aft,
        fore,
        height: 2_300,
        breadth: 38_000,
        beam: 40_000,
        ..House::default()
    };
}

/// The first `count` that an endless search gives.
fn found(count: usize, search: impl FnMut() -> Option<Input>) -> Vec<Input> {
    std::iter::repeat_with(search).flatten().take(count).collect()
}

impl Input {
    fn new(raw: RawShip, wish: u64) -> Input {
        let version = Version::lowest(&raw);
        let mut record = vec![0; version.record_bytes(raw.n as usize)];
        record::pack_as(version, &mut record, &raw);
        Input { flat: FlatShip::from(&raw), raw, record, height: HEIGHT, wish }
    }

    fn answer(&self) -> Result<i64, Refusal> {
        question::shortest_poop(&self.record, self.height, self.wish)
    }
}
