//! An archive's four calls, as include/loadline.h has them, with the unsafe part kept here.

use twin::record::{House, RawShip};

#[repr(C)]
#[derive(Clone, Copy)]
pub struct MarksAnswer {
    pub refusal: u64,
    pub place: u64,
    pub overlap: u64,
    pub s: i64,
    pub t: i64,
    pub w: i64,
    pub wna: i64,
    pub f: i64,
    pub tf: i64,
    pub ls: i64,
    pub lt: i64,
    pub lw: i64,
    pub lwna: i64,
    pub lf: i64,
    pub ltf: i64,
}

#[repr(C)]
#[derive(Clone, Copy)]
pub struct PoopAnswer {
    pub refusal: u64,
    pub place: u64,
    pub overlap: u64,
    pub decimetres: u64,
}

#[repr(C)]
#[derive(Clone, Copy)]
pub struct FlatHouse {
    pub enclosed: u64,
    pub quarterdeck: u64,
    pub aft: i64,
    pub fore: i64,
    pub height: u64,
    pub breadth: u64,
    pub beam: u64,
}

#[repr(C)]
#[derive(Clone, Copy)]
pub struct FlatShip {
    pub kind: u64,
    pub n: u64,
    pub timber: u64,
    pub length: u64,
    pub depth: u64,
    pub moulded: u64,
    pub block: u64,
    pub waterplane: u64,
    pub sheer: [i64; 6],
    pub displacement: u64,
    pub immersion: u64,
    pub houses: [FlatHouse; 8],
}

#[repr(C)]
#[derive(Clone, Copy)]
pub struct ReadAnswer {
    pub refusal: u64,
    pub place: u64,
    pub overlap: u64,
    pub ship: FlatShip,
}

#[repr(C)]
#[derive(Clone, Copy)]
pub struct WriteAnswer {
    pub refusal: u64,
    pub place: u64,
    pub overlap: u64,
    pub bytes: u64,
}

/// The four calls of one archive.
pub trait Calls {
    fn marks(record: &[u8]) -> MarksAnswer;
    fn shortest_poop(record: &[u8], height: u64, wish: u64) -> PoopAnswer;
    fn read(record: &[u8]) -> ReadAnswer;
    fn write(buffer: &mut [u8], ship: &FlatShip) -> WriteAnswer;
}

// SAFETY of all four: the pointer and the length are those of one slice, lent for the call alone.
// The calls take any bytes and any numbers, touch nothing beyond the slice and keep no pointer;
// only `loadline_write` writes, and its slice is lent to be written.
macro_rules! archive {
    ($archive:ident, $marks:literal, $shortest_poop:literal, $read:literal, $write:literal) => {
        pub struct $archive;

        impl Calls for $archive {
            fn marks(record: &[u8]) -> MarksAnswer {
                extern "C" {
                    #[link_name = $marks]
                    fn marks(record: *const u8, length: usize) -> MarksAnswer;
                }
                unsafe { marks(record.as_ptr(), record.len()) }
            }

            fn shortest_poop(record: &[u8], height: u64, wish: u64) -> PoopAnswer {
                extern "C" {
                    #[link_name = $shortest_poop]
                    fn poop(record: *const u8, length: usize, height: u64, wish: u64)
                        -> PoopAnswer;
                }
                unsafe { poop(record.as_ptr(), record.len(), height, wish) }
            }

            fn read(record: &[u8]) -> ReadAnswer {
                extern "C" {
                    #[link_name = $read]
                    fn read(record: *const u8, length: usize) -> ReadAnswer;
                }
                unsafe { read(record.as_ptr(), record.len()) }
            }

            fn write(buffer: &mut [u8], ship: &FlatShip) -> WriteAnswer {
                extern "C" {
                    #[link_name = $write]
                    fn write(buffer: *mut u8, length: usize, ship: FlatShip) -> WriteAnswer;
                }
                unsafe { write(buffer.as_mut_ptr(), buffer.len(), *ship) }
            }
        }
    };
}

archive!(Now, "loadline_marks", "loadline_shortest_poop", "loadline_read", "loadline_write");
// `bench` puts this before each name of the other archive.
#[cfg(before)]
archive!(
    Before,
    "before_loadline_marks",
    "before_loadline_shortest_poop",
    "before_loadline_read",
    "before_loadline_write"
);

impl From<&RawShip> for FlatShip {
    fn from(raw: &RawShip) -> FlatShip {
        FlatShip {
            kind: raw.kind,
            n: raw.n,
            timber: raw.timber.into(),
            length: raw.length,
            depth: raw.depth,
            moulded: raw.moulded,
            block: raw.cb,
            waterplane: raw.cwf,
            sheer: raw.sheer,
            displacement: raw.displacement,
            immersion: raw.immersion,
            houses: raw.houses.map(FlatHouse::from),
        }
    }
}

impl From<House> for FlatHouse {
    fn from(house: House) -> FlatHouse {
        FlatHouse {
            enclosed: house.enclosed.into(),
            quarterdeck: house.quarterdeck.into(),
            aft: house.aft,
            fore: house.fore,
            height: house.height,
            breadth: house.breadth,
            beam: house.beam,
        }
    }
}
