//! Sample data for run tests, with the lines to be printed: records to read, ships to write,
//! marks to work and questions to answer.
//!
//! Each makes DIR/data/NAME for every case, DIR/args with the names in order, and DIR/stdout with
//! one line for each. `samples slips` shows which cases of the marks a slip in a step would change,
//! and how many cases of each call a slip in the check of the houses, about types and versions, about
//! set-in sides, about the timber flag or in the search would.

mod bytes;
mod calls;
mod heads;
mod lists;
mod marks;
mod questions;
mod records;
mod ships;
mod sides;
mod slips;
mod timber;
mod writes;

use std::fs;
use std::io;
use std::path::Path;
use std::process::ExitCode;

use twin::refusal::Refusal;

/// What a case is there for: a refusal, or none.
pub type Expected = Option<Refusal>;

/// Any refusal but 11.
pub fn refused(number: u8, place: usize) -> Expected {
    Some(Refusal::at(number, place))
}

/// Refusal 11 and the overlap in mm.
pub fn overlap(place: usize, mm: u64) -> Expected {
    Some(Refusal::overlapping(place, mm))
}

/// One case: its input, and the line that answers it.
pub struct Sample {
    pub name: String,
    pub data: Vec<u8>,
    pub line: String,
}

impl Sample {
    /// Stops if the line is not the refusal (or the acceptance) that the case is there for.
    pub fn new(name: &str, data: Vec<u8>, line: String, expected: Expected) -> Sample {
        match expected {
            Some(Refusal { number, place, overlap }) => {
                let said = match number {
                    11 => format!("refused 11 {place} {overlap}"),
                    _ => format!("refused {number} {place}"),
                };
                // Nothing follows but a buffer, which is as it was.
                let rest = line.strip_prefix(&said).map(|rest| rest.replace("a5", ""));
                let right = rest.is_some_and(|rest| rest.trim_start().is_empty());
                assert!(right, "{name}: {line}, not {said}");
            }
            None => assert!(!line.starts_with("refused"), "{name}: {line}"),
        }
        Sample { name: name.to_string(), data, line }
    }
}

fn save(directory: &Path, samples: &[Sample]) -> io::Result<()> {
    let data = directory.join("data");
    fs::create_dir_all(&data)?;
    let mut names = String::new();
    let mut lines = String::new();
    for (i, sample) in samples.iter().enumerate() {
        let twice = samples[..i].iter().any(|earlier| earlier.name == sample.name);
        assert!(!twice, "two cases are called {}", sample.name);
        fs::write(data.join(&sample.name), &sample.data)?;
        names += &format!("{}\n", sample.name);
        lines += &format!("{}: {}\n", sample.name, sample.line);
    }
    fs::write(directory.join("args"), names)?;
    fs::write(directory.join("stdout"), lines)
}

/// Which cases tell each slip.
fn slips() -> String {
    let (records, writes) = (records::cases(), writes::cases());
    let (marks, questions) = (marks::cases(), questions::cases());
    let lists = lists::slips::shown(&[
        ("records", &records.lists),
        ("writes", &writes.lists),
        ("marks", &marks.lists),
        ("questions", &questions.lists),
    ]);
    let heads = calls::shown(&[
        ("records", &records.heads),
        ("writes", &writes.heads),
        ("marks", &marks.heads),
        ("questions", &questions.heads),
    ]);
    let sides = calls::shown(&[
        ("records", &records.sides),
        ("writes", &writes.sides),
        ("marks", &marks.sides),
        ("questions", &questions.sides),
    ]);
    let timbers = calls::shown(&[
        ("records", &records.timbers),
        ("writes", &writes.timbers),
        ("marks", &marks.timbers),
        ("questions", &questions.timbers),
    ]);
    let steps = marks.slips();
    let search = questions.slips();
    format!("{steps}\n{lists}\n{heads}\n{sides}\n{timbers}\n{search}")
}

fn main() -> ExitCode {
    let arguments: Vec<String> = std::env::args().skip(1).collect();
    let words: Vec<&str> = arguments.iter().map(String::as_str).collect();
    let (samples, directory) = match words[..] {
        ["records", directory] => (records::cases().samples, directory),
        ["writes", directory] => (writes::cases().samples, directory),
        ["marks", directory] => (marks::cases().samples, directory),
        ["questions", directory] => (questions::cases().samples, directory),
        ["slips"] => {
            println!("{}", slips());
            return ExitCode::SUCCESS;
        }
        _ => {
            eprintln!("usage: samples records | writes | marks | questions DIR, or samples slips");
            return ExitCode::from(2);
        }
    };
    match save(Path::new(directory), &samples) {
        Ok(()) => {
            println!("{} cases", samples.len());
            ExitCode::SUCCESS
        }
        Err(error) => {
            eprintln!("{directory}: {error}");
            ExitCode::FAILURE
        }
    }
}

#[cfg(test)]
mod tests {
    /// Every generator stops at a case that is not what it says.
    #[test]
    fn cases_are_what_they_say() {
        assert!(!super::records::cases().samples.is_empty());
        assert!(!super::writes::cases().samples.is_empty());
        assert!(!super::marks::cases().samples.is_empty());
        assert!(!super::questions::cases().samples.is_empty());
    }
}
