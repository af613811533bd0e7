//! What the twin answers to an input, and where an answer differs from it.

use twin::marks::{self, Marks};
use twin::question;
use twin::record::{self, Ship, Version};
use twin::refusal::Refusal;

use crate::flat;
use crate::frame::{Answer, Written, GUARD, POOP, REFUSAL, WRITE};
use crate::input::Input;

/// The twin's answer.
pub fn worked(input: &Input) -> Answer {
    let read = record::read(input.record());
    let ship = read.as_ref().map_err(|refusal| *refusal);
    Answer {
        marks: numbers(ship.and_then(marks::marks).map(|marks| twelve(&marks))),
        read: numbers(ship.map(|ship| flat::numbers(&ship.raw(), 1))),
        back: written_back(input, ship),
        write: written(input),
        poop: input.question.map_or([0; POOP], |(height, wish)| {
            let poop = question::shortest_poop(input.record(), height, wish);
            numbers(poop.map(|decimetres| [decimetres as u64]))
        }),
        record: input.record,
    }
}

/// The ordinary marks, and the timber marks or zeros.
fn twelve(m: &Marks) -> [u64; 12] {
    let l = m.timber.unwrap_or_default();
    let ordinary =
        [m.summer, m.tropical, m.winter, m.winter_north_atlantic, m.fresh, m.tropical_fresh];
    let timber =
        [l.summer, l.tropical, l.winter, l.winter_north_atlantic, l.fresh, l.tropical_fresh];
    let mut all = ordinary.into_iter().chain(timber);
    std::array::from_fn(|_| all.next().unwrap_or_default() as u64)
}

/// Refusal, place and overlap, then what is given: zeros beside a refusal.
fn numbers<const N: usize, const GIVEN: usize>(result: Result<[u64; GIVEN], Refusal>) -> [u64; N] {
    let mut numbers = [0; N];
    match result {
        Ok(given) => numbers[REFUSAL..].copy_from_slice(&given),
        Err(Refusal { number, place, overlap }) => {
            numbers[..REFUSAL].copy_from_slice(&[number.into(), place as u64, overlap]);
        }
    }
    numbers
}

/// A ship that was read gives its record back, if that is in the lowest version that holds the ship.
/// Otherwise it gives a record of that version, which reads as the same ship.
fn written_back(input: &Input, ship: Result<&Ship, Refusal>) -> Written {
    let mut back = Written { numbers: [0; WRITE], memory: input.memory };
    let Ok(ship) = ship else { return back };
    let raw = ship.raw();
    let length = Version::lowest(&raw).record_bytes(ship.houses.len());
    let written = &mut back.memory[GUARD..][..length];
    if in_lowest_version(input, ship) {
        written.copy_from_slice(input.record());
    } else {
        assert_eq!(record::write(written, &raw), Ok(length));
        assert_eq!(record::read(written).as_ref(), Ok(ship));
    }
    back.numbers[REFUSAL] = length as u64;
    back
}

/// Whether the record of this ship has the version that a writer gives it.
pub fn in_lowest_version(input: &Input, ship: &Ship) -> bool {
    input.record[0] >> 4 == Version::lowest(&ship.raw()) as u8
}

fn written(input: &Input) -> Written {
    let mut memory = input.memory;
    let buffer = &mut memory[GUARD..][..input.buffer_length];
    let length = record::write(buffer, &flat::ship(&input.ship));
    Written { numbers: numbers(length.map(|length| [length as u64])), memory }
}

/// The first call whose answers differ: its name, what it was given, and both answers.
pub fn difference(input: &Input, archive: &Answer, twin: &Answer) -> Option<String> {
    if archive == twin {
        return None;
    }
    let record = format!("record {}", hex(input.record()));
    let (height, wish) = input.question.unwrap_or_default();
    let asked = format!("{record}\nheight {height} wish {wish}");
    let ship = format!(
        "ship {}\nbuffer of {} bytes in {}",
        decimal(&input.ship),
        input.buffer_length,
        hex(&input.memory)
    );
    type Shown = fn(&Answer) -> String;
    let calls: [(&str, &str, Shown); 6] = [
        ("loadline_marks", &record, |a| decimal(&a.marks)),
        ("loadline_read", &record, |a| decimal(&a.read)),
        ("loadline_write of the ship just read", &record, |a| both(&a.back)),
        ("loadline_write", &ship, |a| both(&a.write)),
        ("loadline_shortest_poop", &asked, |a| decimal(&a.poop)),
        ("the record after the calls", &record, |a| hex(&a.record)),
    ];
    for (call, given, shown) in calls {
        let (archive, twin) = (shown(archive), shown(twin));
        if archive != twin {
            return Some(format!("{call}\n{given}\narchive {archive}\ntwin    {twin}"));
        }
    }
    None
}

fn both(written: &Written) -> String {
    format!("{} {}", decimal(&written.numbers), hex(&written.memory))
}

/// The numbers as signed ones.
fn decimal(numbers: &[u64]) -> String {
    let words: Vec<_> = numbers.iter().map(|&number| (number as i64).to_string()).collect();
    words.join(" ")
}

fn hex(bytes: &[u8]) -> String {
    bytes.iter().map(|byte| format!("{byte:02x}")).collect()
}

#[cfg(test)]
mod tests {
    use super::*;
    use twin::random::Random;

    /// A number that stands where a zero should is a difference: a timber mark beside a refusal, or without
    /// the flag.
    #[test]
    fn timber_marks_beside_a_refusal() {
        let mut random = Random::new(12);
        let mut seen = [0; 4];
        for _ in 0..20_000 {
            let input = Input::draw(&mut random);
            let twin = worked(&input);
            let flag = record::read(input.record()).is_ok_and(|ship| ship.timber);
            let sorts = [twin.marks[0] == 12, twin.marks[0] == 13, twin.marks[0] == 24];
            let sorts = [sorts[0] && flag, sorts[1] && flag, sorts[2], twin.marks[0] == 0 && !flag];
            if !sorts.contains(&true) {
                continue;
            }
            assert_eq!(twin.marks[REFUSAL + 6..], [0; 6]);
            let mut archive = twin.clone();
            archive.marks[REFUSAL + 6] = 1;
            assert!(difference(&input, &archive, &twin).is_some());
            seen.iter_mut().zip(sorts).for_each(|(count, holds)| *count += u32::from(holds));
        }
        assert!(seen[0] >= 20 && seen[1] >= 5 && seen[2] >= 100 && seen[3] >= 1_000, "{seen:?}");
    }
}
