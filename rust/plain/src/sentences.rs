//! The proof in sentences (02): the steps are kept with their goals while they are walked, the
//! lengths of all formulas' texts are found in one pass over the table, and then the text is
//! written where it goes.

use super::walk::{Follow, Goal, NOBODY};
use super::words::Words;
use super::{refuse, Refusal};

/// The rules' names by code.
const NAMES: [&[u8]; 12] = [
    b"init",
    b"affirm",
    b"implies right",
    b"implies left",
    b"false left",
    b"and right",
    b"and left",
    b"or right first",
    b"or right second",
    b"or left",
    b"says right",
    b"says left",
];

/// The words in the middle by kind; atoms and false have none.
const MIDDLES: [&[u8]; 6] = [b"", b"", b" implies ", b" and ", b" or ", b" says "];

const FOR: &[u8] = b" for ";
const AFFIRMS: &[u8] = b" affirms ";

/// Whether a rule names a formula, by code.
const NAMING: [bool; 12] =
    [true, false, false, true, true, false, true, false, false, true, false, true];

/// What a walk is followed by for its text.
pub struct Sentences<'a> {
    lines: Vec<(u16, Goal)>,
    text: &'a mut [u8],
    pub written: usize,
}

impl<'a> Sentences<'a> {
    pub fn new(text: &'a mut [u8]) -> Self {
        Sentences { lines: Vec::new(), text, written: 0 }
    }
}

impl Follow for Sentences<'_> {
    #[inline(always)]
    fn step(&mut self, word: u16, goal: Goal) {
        self.lines.push((word, goal));
    }

    /// Test 16, and then the text.
    fn end(&mut self, heads: Words, seconds: Words) -> Result<(), Refusal> {
        let lengths = lengths(heads, seconds);
        let whole = (0..).zip(&self.lines).fold(0, |sum: u64, (number, &(word, goal))| {
            sum.saturating_add(line_length(number, word, goal, &lengths))
        });
        if (self.text.len() as u64) < whole {
            return refuse(16, 0);
        }
        let mut writer = Writer { heads, seconds, text: self.text, at: 0 };
        for (number, &(word, goal)) in (0..).zip(&self.lines) {
            writer.line(number, word, goal);
        }
        self.written = writer.at;
        Ok(())
    }
}

/// How many figures a number has; numbers of steps, atoms and principals have five at most.
fn figures(number: u16) -> u64 {
    match number {
        0..=9 => 1,
        10..=99 => 2,
        100..=999 => 3,
        1000..=9999 => 4,
        _ => 5,
    }
}

/// The length of each formula's text, or the largest number where it is more.
fn lengths(heads: Words, seconds: Words) -> Vec<u64> {
    let mut lengths: Vec<u64> = Vec::with_capacity(heads.len());
    for (head, second) in heads.iter().zip(seconds.iter()) {
        let (kind, first) = ((head >> 12) as usize, head & 4095);
        let length = match kind {
            0 => 1 + figures(first),
            1 => 5,
            _ => {
                let left = if kind == 5 { 1 + figures(first) } else { lengths[first as usize] };
                let words = 2 + MIDDLES[kind].len() as u64;
                left.saturating_add(lengths[second as usize]).saturating_add(words)
            }
        };
        lengths.push(length);
    }
    lengths
}

fn line_length(number: u16, word: u16, goal: Goal, lengths: &[u64]) -> u64 {
    let code = (word >> 12) as usize;
    let named = if NAMING[code] { lengths[(word & 4095) as usize].saturating_add(1) } else { 0 };
    let by = if goal.by == NOBODY { 0 } else { 1 + figures(goal.by) + AFFIRMS.len() as u64 };
    let words = figures(number) + 1 + NAMES[code].len() as u64 + FOR.len() as u64 + by + 1;
    named.saturating_add(lengths[goal.formula as usize]).saturating_add(words)
}

/// Writes into bytes that suffice.
struct Writer<'a> {
    heads: Words<'a>,
    seconds: Words<'a>,
    text: &'a mut [u8],
    at: usize,
}

impl Writer<'_> {
    #[inline(always)]
    fn put(&mut self, words: &[u8]) {
        self.text[self.at..self.at + words.len()].copy_from_slice(words);
        self.at += words.len();
    }

    fn number(&mut self, number: u16) {
        let mut backwards = [0; 5];
        let (mut count, mut rest) = (0, number);
        while count == 0 || rest > 0 {
            backwards[4 - count] = b'0' + (rest % 10) as u8;
            rest /= 10;
            count += 1;
        }
        self.put(&backwards[5 - count..]);
    }

    fn line(&mut self, number: u16, word: u16, goal: Goal) {
        let code = (word >> 12) as usize;
        self.number(number);
        self.put(b" ");
        self.put(NAMES[code]);
        if NAMING[code] {
            self.put(b" ");
            self.formula(word & 4095);
        }
        self.put(FOR);
        if goal.by != NOBODY {
            self.put(b"p");
            self.number(goal.by);
            self.put(AFFIRMS);
        }
        self.formula(goal.formula);
        self.put(b"\n");
    }

    fn formula(&mut self, n: u16) {
        let head = self.heads.at(n as usize);
        let (kind, first) = ((head >> 12) as usize, head & 4095);
        match kind {
            0 => {
                self.put(b"a");
                self.number(first);
            }
            1 => self.put(b"false"),
            _ => {
                self.put(b"(");
                if kind == 5 {
                    self.put(b"p");
                    self.number(first);
                } else {
                    self.formula(first);
                }
                self.put(MIDDLES[kind]);
                self.formula(self.seconds.at(n as usize));
                self.put(b")");
            }
        }
    }
}
