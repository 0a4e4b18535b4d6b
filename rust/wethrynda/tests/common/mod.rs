//! What the tests share: the samples as they stand in the repository, with the lines that are
//! stored for them; files built from their parts.
#![allow(dead_code, unused_imports)] // each of them uses a part
mod deepest;

use builder::layout;
use builder::random::Random;
use std::fs;
use std::path::{Path, PathBuf};
use wethrynda::Independence::{self, Independent, NotIndependent, Refused};

/// Words as bytes.
pub use builder::layout::bytes as file_of;
pub use deepest::{deepest, Deepest};

/// The top of the repository.
pub fn top() -> PathBuf {
    let package = Path::new(env!("CARGO_MANIFEST_DIR"));
    package.ancestors().nth(2).expect("the package stands in the repository's rust/").to_path_buf()
}

/// The answer that a line gives: the signers, in the line's order, or equal, or a refusal's number
/// and place.
#[derive(Debug)]
pub enum Answer {
    Granted(Vec<u16>),
    Equal,
    Refused(u8, usize),
}

pub struct Sample {
    pub name: String,
    pub file: Vec<u8>,
    pub answer: Answer,
}

impl Sample {
    /// The proof in sentences, which is stored beside a record that is granted and whose text is
    /// not too long.
    pub fn text(&self) -> Option<String> {
        let path = top().join("samples").join(&self.name).with_extension("sentences");
        fs::read_to_string(path).ok().filter(|_| matches!(self.answer, Answer::Granted(_)))
    }

    /// The lines that are stored beside some records: a principal's number, and whether he can
    /// matter.
    pub fn independence(&self) -> Vec<(u16, Independence)> {
        let path = top().join("samples").join(&self.name).with_extension("independent");
        let lines = fs::read_to_string(path).unwrap_or_default();
        let answer = |line: &str| match line.split(' ').collect::<Vec<_>>()[..] {
            [principal, "independent"] => (principal.parse().expect(line), Independent),
            [principal, "not", "independent"] => (principal.parse().expect(line), NotIndependent),
            [principal, "refused", number, "place", place] => {
                let [number, place] = [number, place].map(|word| word.parse().expect(line));
                (principal.parse().expect(line), Refused { number: number as u8, place })
            }
            _ => panic!("{line}"),
        };
        lines.lines().map(answer).collect()
    }
}

/// All samples whose names end so, in the order in which their lines are stored.
pub fn samples(ending: &str) -> Vec<Sample> {
    let lines =
        fs::read_to_string(top().join("crates/samples/stdout")).expect("the samples' lines");
    lines.lines().map(sample).filter(|sample| sample.name.ends_with(ending)).collect()
}

fn sample(line: &str) -> Sample {
    let words: Vec<&str> = line.split(' ').collect();
    let answer = match words[1..] {
        ["granted", count, ref signers @ ..] => {
            assert_eq!(count.parse(), Ok(signers.len()), "{line}");
            Answer::Granted(signers.iter().map(|signer| signer.parse().expect(line)).collect())
        }
        ["equal"] => Answer::Equal,
        ["refused", number, "place", place] => {
            Answer::Refused(number.parse().expect(line), place.parse().expect(line))
        }
        _ => panic!("{line}"),
    };
    let file = fs::read(top().join("samples").join(words[0])).expect(words[0]);
    Sample { name: words[0].to_string(), file, answer }
}

/// A record of a table, statements, a goal and steps.
pub fn record(table: &[(u16, u16)], statements: &[u16], goal: u16, steps: &[u16]) -> Vec<u8> {
    file_of(&layout::record(table, statements, goal, steps))
}

/// An exchange file of a table, two lists and steps.
pub fn exchange(table: &[(u16, u16)], first: &[u16], second: &[u16], steps: &[u16]) -> Vec<u8> {
    file_of(&layout::exchange(table, first, second, steps))
}

/// Files of noise, of each length up to 40, the same in every run. Every other one has sizes that
/// are likely to be in range.
pub fn noise() -> impl Iterator<Item = Vec<u8>> {
    let mut random = Random::of(1, 0);
    let lengths = (0..=40).flat_map(|length| std::iter::repeat_n(length, 2_000));
    lengths.enumerate().map(move |(number, length)| {
        let mut file: Vec<u8> = (0..length).map(|_| random.word() as u8).collect();
        if number % 2 == 1 {
            for (place, byte) in file.iter_mut().take(8).enumerate() {
                *byte = if place % 2 == 1 { 0 } else { *byte % 8 };
            }
        }
        file
    })
}

/// Runs on a thread with a stack of so many KiB, hardly more than the header says.
pub fn on_a_small_stack(kib: usize, run: impl FnOnce() + Send + 'static) {
    let thread = std::thread::Builder::new().stack_size(kib * 1024).spawn(run).expect("a thread");
    thread.join().expect("the calls on a small stack");
}
