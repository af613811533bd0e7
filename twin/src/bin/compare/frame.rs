//! Requests and answers as answer.c takes and gives them: little-endian numbers of 64 bits, and bytes.

use crate::flat::SHIP;
use crate::input::Input;

/// Most requests in a batch.
pub const BATCH: usize = 256;
/// Room for a record, and the longest buffer that is lent.
pub const ROOM: usize = 160;
/// Bytes before and after the room that a buffer is lent from.
pub const GUARD: usize = 16;
pub const MEMORY: usize = GUARD + ROOM + GUARD;
/// Numbers that every answer begins with: refusal, place, overlap.
pub const REFUSAL: usize = 3;
/// Numbers of an answer to each call.
pub const MARKS: usize = REFUSAL + 12;
pub const READ: usize = REFUSAL + SHIP;
pub const WRITE: usize = REFUSAL + 1;
pub const POOP: usize = REFUSAL + 1;
/// Bytes of an answer.
pub const ANSWER: usize = 8 * (MARKS + READ + 2 * WRITE + POOP) + 2 * MEMORY + ROOM;

/// What a write gives: refusal, place, overlap, bytes; and the memory that its buffer was lent from.
#[derive(Clone, PartialEq, Eq)]
pub struct Written {
    pub numbers: [u64; WRITE],
    pub memory: [u8; MEMORY],
}

/// All that is answered to an input, with the numbers in the order of include/loadline.h.
#[derive(Clone, PartialEq, Eq)]
pub struct Answer {
    pub marks: [u64; MARKS],
    pub read: [u64; READ],
    /// The ship that was read, written into all the room; zeros if there is none.
    pub back: Written,
    pub write: Written,
    /// Zeros if nothing was asked.
    pub poop: [u64; POOP],
    /// The record's room after the calls.
    pub record: [u8; ROOM],
}

/// A whole batch of requests.
pub fn batch(inputs: &[Input]) -> Vec<u8> {
    let mut bytes = Vec::new();
    put(&mut bytes, &[inputs.len() as u64]);
    for input in inputs {
        put(&mut bytes, &[input.record_length as u64]);
        bytes.extend(input.record);
        let (height, wish) = input.question.unwrap_or_default();
        put(&mut bytes, &[input.question.is_some().into(), height, wish]);
        put(&mut bytes, &[input.buffer_length as u64]);
        bytes.extend(input.memory);
        put(&mut bytes, &input.ship);
    }
    bytes
}

fn put(bytes: &mut Vec<u8>, numbers: &[u64]) {
    bytes.extend(numbers.iter().flat_map(|number| number.to_le_bytes()));
}

impl Answer {
    /// From `ANSWER` bytes.
    pub fn from_bytes(bytes: &[u8]) -> Answer {
        let mut rest = Rest(bytes);
        Answer {
            marks: rest.numbers(),
            read: rest.numbers(),
            back: Written { numbers: rest.numbers(), memory: rest.bytes() },
            write: Written { numbers: rest.numbers(), memory: rest.bytes() },
            poop: rest.numbers(),
            record: rest.bytes(),
        }
    }
}

/// What is still to be taken of an answer.
struct Rest<'a>(&'a [u8]);

impl Rest<'_> {
    fn bytes<const N: usize>(&mut self) -> [u8; N] {
        let (part, rest) = self.0.split_first_chunk().expect("an answer is long enough");
        self.0 = rest;
        *part
    }

    fn numbers<const N: usize>(&mut self) -> [u64; N] {
        std::array::from_fn(|_| u64::from_le_bytes(self.bytes()))
    }
}

#[cfg(test)]
mod tests {
    use super::*;
    use twin::random::Random;

    /// The sizes that answer.c states.
    #[test]
    fn sizes() {
        let input = Input::draw(&mut Random::new(1));
        assert_eq!(batch(&[input]).len(), 8 + 968);
        assert_eq!(ANSWER, 1360);
    }
}
