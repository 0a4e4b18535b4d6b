//! How often each refusal, each rule and each grant occurred.
use crate::compare::Answer;
use crate::given::{Given, FAMILIES};
use crate::independence;
use crate::papers;
use crate::parts::{Kind, Parts};
use crate::promise;
use crate::texts::{self, TOO_LONG};
use builder::steps::{code, RULES};
use std::fmt;

#[derive(Clone, Default, PartialEq, Eq, Debug)]
pub struct Tally {
    pub files: u64,
    pub families: [u64; FAMILIES.len()],
    pub granted: u64,
    /// Granted with two signers or more, which have an order.
    pub several: u64,
    /// Granted where someone has papers and they all lie unused.
    pub unused: u64,
    /// Granted where the lent list is too short for all who have papers.
    pub short: u64,
    /// Granted where a says left names a formula that is no statement.
    pub added: u64,
    pub equal: u64,
    /// Refusals of records by number, from 1 to 15.
    pub records: [u64; 16],
    /// Refusals of exchange files, which never have 6 or 8.
    pub exchanges: [u64; 16],
    /// Steps by code in files that were granted or equal.
    pub rules: [u64; 12],
    /// Calls that write sentences.
    pub texts: texts::Counts,
    /// Calls that ask about a principal.
    pub independence: independence::Counts,
    /// Records of papers alone.
    pub papers: papers::Counts,
}

impl Tally {
    pub fn count(&mut self, given: &Given, answers: &[(Kind, Answer)]) {
        self.files += 1;
        let family = FAMILIES.iter().position(|&family| family == given.family);
        self.families[family.expect("a family of the list")] += 1;
        for (kind, answer) in answers {
            match answer {
                Answer::Granted(signers) => {
                    let parts = Parts::of_record(&given.file);
                    let papers = parts.with_papers().len();
                    self.granted += 1;
                    self.several += u64::from(signers.len() > 1);
                    self.unused += u64::from(signers.len() < papers);
                    self.short += u64::from(given.room < papers);
                    self.added +=
                        u64::from(parts.opened().iter().any(|n| !parts.first.contains(n)));
                }
                Answer::Equal => self.equal += 1,
                Answer::Refused { number, .. } => match kind {
                    Kind::Record => self.records[usize::from(*number)] += 1,
                    Kind::Exchange => self.exchanges[usize::from(*number)] += 1,
                },
                Answer::Broken(_) => {}
            }
            if matches!(answer, Answer::Granted(_) | Answer::Equal) {
                let codes = steps(&given.file, *kind).map(code);
                codes.for_each(|code| self.rules[usize::from(code)] += 1);
            }
        }
    }

    pub fn add(&mut self, other: &Tally) {
        self.files += other.files;
        self.granted += other.granted;
        self.several += other.several;
        self.unused += other.unused;
        self.short += other.short;
        self.added += other.added;
        self.equal += other.equal;
        let pairs = |mine: &mut [u64], theirs: &[u64]| {
            mine.iter_mut().zip(theirs).for_each(|(a, b)| *a += b);
        };
        pairs(&mut self.families, &other.families);
        pairs(&mut self.records, &other.records);
        pairs(&mut self.exchanges, &other.exchanges);
        pairs(&mut self.rules, &other.rules);
        self.texts.add(&other.texts);
        self.independence.add(&other.independence);
        self.papers.add(&other.papers);
    }

    /// The grants that have to do with who signs.
    fn of_signers(&self) -> [(&'static str, u64); 4] {
        [
            ("with several signers", self.several),
            ("with an unused paper", self.unused),
            ("in a list short of papers", self.short),
            ("opening what is no statement", self.added),
        ]
    }

    /// What should have occurred and never did.
    pub fn missing(&self) -> Vec<String> {
        let mut missing = vec![];
        let mut expect = |count: u64, what: String| {
            if count == 0 {
                missing.push(what);
            }
        };
        expect(self.granted, "granted".to_string());
        for (what, count) in self.of_signers() {
            expect(count, format!("granted {what}"));
        }
        expect(self.equal, "equal".to_string());
        for number in 1..=15 {
            expect(self.records[number], format!("refusal {number} of a record"));
            if number != 6 && number != 8 {
                expect(self.exchanges[number], format!("refusal {number} of an exchange file"));
            }
        }
        // only the fixed set has texts that are too long
        for (what, count) in self.texts.named(texts::ANSWERS).filter(|(what, _)| *what != TOO_LONG)
        {
            expect(count, format!("sentences, {what}"));
        }
        for (what, count) in self.independence.calls.named(independence::ANSWERS) {
            expect(count, format!("independence, {what}"));
        }
        for (what, count) in self.independence.promise.named(promise::KEPT) {
            expect(count, format!("independent and {what}"));
        }
        for (what, count) in self.papers.named(papers::ASKED) {
            expect(count, format!("papers alone, {what}"));
        }
        for (code, name) in RULES.iter().enumerate() {
            expect(
                self.rules[code],
                format!("rule {code}, {name}, in a file that is granted or equal"),
            );
        }
        missing
    }
}

/// The step words of a file that was granted or equal: its last N.
fn steps(file: &[u8], kind: Kind) -> impl Iterator<Item = u16> + '_ {
    let word = |at: usize| u16::from_le_bytes([file[2 * at], file[2 * at + 1]]);
    let count = usize::from(word(if kind == Kind::Record { 2 } else { 3 }));
    let words = file[file.len() - 2 * count..].chunks_exact(2);
    words.map(|pair| u16::from_le_bytes([pair[0], pair[1]]))
}

impl fmt::Display for Tally {
    fn fmt(&self, f: &mut fmt::Formatter<'_>) -> fmt::Result {
        writeln!(f, "{:<28} {:>12}", "files", self.files)?;
        for (family, count) in FAMILIES.iter().zip(self.families) {
            writeln!(f, "  {family:<26} {count:>12}")?;
        }
        writeln!(f, "\n{:<28} {:>12} {:>14}", "answer", "record", "exchange")?;
        writeln!(f, "{:<28} {:>12} {:>14}", "granted, equal", self.granted, self.equal)?;
        for (what, count) in self.of_signers() {
            writeln!(f, "{what:<28} {count:>12} {:>14}", "-")?;
        }
        for number in 1..=15 {
            let exchange = match number {
                6 | 8 => "-".to_string(),
                _ => self.exchanges[number].to_string(),
            };
            writeln!(
                f,
                "{:<28} {:>12} {exchange:>14}",
                format!("refused {number}"),
                self.records[number]
            )?;
        }
        writeln!(f, "\n{:<28} {:>12}", "sentences", "calls")?;
        for (what, count) in self.texts.named(texts::ANSWERS) {
            writeln!(f, "{what:<28} {count:>12}")?;
        }
        writeln!(f, "\n{:<28} {:>12}", "independence", "calls")?;
        for (what, count) in self.independence.calls.named(independence::ANSWERS) {
            writeln!(f, "{what:<28} {count:>12}")?;
        }
        writeln!(f, "\n{:<28} {:>12}", "independent and still", "records")?;
        for (what, count) in self.independence.promise.named(promise::KEPT) {
            writeln!(f, "{what:<28} {count:>12}")?;
        }
        writeln!(f, "\n{:<28} {:>12}", "papers alone", "records")?;
        for (what, count) in self.papers.named(papers::ASKED) {
            writeln!(f, "{what:<28} {count:>12}")?;
        }
        writeln!(f, "\n{:<28} {:>12}", "rule, granted and equal", "steps")?;
        for (code, name) in RULES.iter().enumerate() {
            writeln!(f, "{code:>2} {name:<25} {:>12}", self.rules[code])?;
        }
        Ok(())
    }
}
