//! Prints the marks of a ship record, then what the other three calls say of it.
//! Build: rustc --edition 2021 -L target/lib examples/marks.rs
use std::{env, fs::File, io::Read, process::ExitCode};

/// The calls of include/loadline.h. Beside a refusal every number is 0, so that `Err` loses nothing.
#[rustfmt::skip] // a struct of C stays on few lines
#[allow(dead_code)] // this program does not look at every field
mod loadline {
    #[repr(C)] #[derive(Clone, Copy)]
    pub struct House { pub enclosed: u64, pub quarterdeck: u64, pub aft: i64, pub fore: i64, pub height: u64, pub breadth: u64, pub beam: u64 }
    #[repr(C)] #[derive(Clone, Copy)]
    pub struct Ship {
        pub kind: u64, pub n: u64, pub timber: u64, pub length: u64, pub depth: u64, pub moulded: u64, pub block: u64, pub waterplane: u64,
        pub sheer: [i64; 6], pub displacement: u64, pub immersion: u64, pub houses: [House; 8],
    }
    #[repr(C)]
    pub struct Marks {
        pub s: i64, pub t: i64, pub w: i64, pub wna: i64, pub f: i64, pub tf: i64,
        pub ls: i64, pub lt: i64, pub lw: i64, pub lwna: i64, pub lf: i64, pub ltf: i64,
    }
    /// The overlap, in mm, is 0 but for houses that overlap.
    #[repr(C)] pub struct Refusal { pub number: u64, pub place: u64, pub overlap: u64 }
    /// What each call gives: the refusal, its number 0 for none, then the rest.
    #[repr(C)] struct Answer<T> { refusal: Refusal, rest: T }
    impl<T> Answer<T> {
        fn result(self) -> Result<T, Refusal> { if self.refusal.number == 0 { Ok(self.rest) } else { Err(self.refusal) } }
    }

    #[link(name = "loadline", kind = "static")]
    extern "C" {
        fn loadline_marks(record: *const u8, length: usize) -> Answer<Marks>;
        fn loadline_shortest_poop(record: *const u8, length: usize, height: u64, wish: u64) -> Answer<u64>;
        fn loadline_read(record: *const u8, length: usize) -> Answer<Ship>;
        fn loadline_write(buffer: *mut u8, length: usize, ship: Ship) -> Answer<u64>;
    }

    // SAFETY, of each: pointer and length are those of a slice lent for the call; the calls keep neither, and every byte
    // and number is permissible.
    pub fn marks(record: &[u8]) -> Result<Marks, Refusal> {
        unsafe { loadline_marks(record.as_ptr(), record.len()) }.result()
    }
    /// The shortest poop, in decimetres, of this height for a summer mark of at most `wish`, both in millimetres.
    pub fn shortest_poop(record: &[u8], height: u64, wish: u64) -> Result<u64, Refusal> {
        unsafe { loadline_shortest_poop(record.as_ptr(), record.len(), height, wish) }.result()
    }
    pub fn read(record: &[u8]) -> Result<Ship, Refusal> {
        unsafe { loadline_read(record.as_ptr(), record.len()) }.result()
    }
    /// How many bytes, from the buffer's start, are now the ship's record.
    pub fn write(buffer: &mut [u8], ship: &Ship) -> Result<usize, Refusal> {
        unsafe { loadline_write(buffer.as_mut_ptr(), buffer.len(), *ship) }.result().map(|bytes| bytes as usize)
    }
}

impl std::fmt::Display for loadline::Refusal {
    fn fmt(&self, f: &mut std::fmt::Formatter) -> std::fmt::Result {
        write!(f, "refused {} {}", self.number, self.place)?;
        if self.overlap > 0 {
            write!(f, " {}", self.overlap)?;
        }
        Ok(())
    }
}

/// The six marks, and the six timber marks if they are asked for: zeros where there are none.
fn line(m: &loadline::Marks, timber: bool) -> String {
    let mut line = format!("S {} T {} W {} WNA {} F {} TF {}", m.s, m.t, m.w, m.wna, m.f, m.tf);
    if timber {
        line += &format!(" LS {} LT {} LW {} LWNA {} LF {} LTF {}", m.ls, m.lt, m.lw, m.lwna, m.lf, m.ltf);
    }
    line
}

fn show(record: &[u8]) -> Result<(), loadline::Refusal> {
    let read = loadline::read(record);
    let flag = read.as_ref().is_ok_and(|ship| ship.timber != 0);
    match loadline::marks(record) {
        Ok(m) => println!("{}", line(&m, flag)),
        Err(r) => println!("{r}"),
    }
    let ship = read?;
    let timber = if flag { " timber" } else { "" };
    print!("L {} type {}{timber} houses {}", ship.length, TYPES[ship.kind as usize], ship.n);
    for house in &ship.houses[..ship.n as usize] {
        print!(" {}..{}", house.aft, house.fore);
        if house.beam > 0 {
            print!(" {}/{}", house.breadth, house.beam); // set-in sides
        }
    }
    print!("\npoop of 1950 mm for S 1000: ");
    match loadline::shortest_poop(record, 1950, 1000) {
        Ok(decimetres) => println!("{decimetres} dm"),
        Err(r) => println!("{r}"),
    }
    let mut copy = [0; LONGEST];
    match loadline::write(&mut copy, &ship) {
        Ok(bytes) if copy[..bytes] == *record => println!("written back: the same {bytes} bytes"),
        _ => println!("written back: not the same"),
    }
    Ok(())
}

/// Bytes of a record.
const LONGEST: usize = 123;

/// The types by their number in the record, as an office writes them.
const TYPES: [&str; 5] = ["A", "B", "B-60", "B-100", "B with portable covers"];

fn main() -> ExitCode {
    let Some(path) = env::args_os().nth(1) else {
        eprintln!("usage: marks RECORD");
        return ExitCode::FAILURE;
    };
    // One byte more than a record can have: a longer file is refused, not cut to a record.
    let mut record = Vec::new();
    if let Err(why) = File::open(&path).and_then(|file| file.take(LONGEST as u64 + 1).read_to_end(&mut record)) {
        eprintln!("marks: {}: {why}", path.to_string_lossy());
        return ExitCode::FAILURE;
    }
    if let Err(r) = show(&record) {
        println!("no ship: {r}"); // a refusal is an answer, no failure
    }
    ExitCode::SUCCESS
}
