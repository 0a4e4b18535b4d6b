//! The proof in sentences (02): "Write a granted record's proof as text, one line a step: the step
//! number, the rule's name, the named formula if any, the word for, and the goal."

use super::derivation::Done;
use super::formula::{Atom, Formula, Principal};
use super::record::check_record_and;
use super::refusal::{refuse_if, Refusal};
use super::sequent::Judgment;
use super::step::Rule;
use std::collections::HashMap;
use std::ptr;

/// Checks a record as `check_record` does. Granted: the signers stand at the start of the lent
/// list and the text at the start of the lent bytes, and the count of either is given. Refused: "a
/// refusal .. changes nothing that is lent" (01).
pub fn sentences(
    file: &[u8],
    signers: &mut [u16],
    text: &mut [u8],
) -> Result<(usize, usize), Refusal> {
    let mut written = String::new();
    let list = check_record_and(file, signers.len(), |steps| {
        let parts: Vec<Part> =
            (0..).zip(steps).flat_map(|(number, step)| sentence(number, step)).collect();
        // Test 16: "after 15, the lent bytes are fewer than the whole text; place 0".
        refuse_if((text.len() as u128) < Lengths::default().sum(&parts), 16, 0)?;
        write(&parts, &mut written);
        Ok(())
    })?;
    signers[..list.len()].copy_from_slice(&list);
    text[..written.len()].copy_from_slice(written.as_bytes());
    Ok((list.len(), written.len()))
}

/// A part of a text. That of a formula may be far too long to be written.
enum Part<'a> {
    Word(&'static str),
    Number(usize),
    TextOf(&'a Formula),
}

use Part::{Number, TextOf, Word};

/// The line of a step, ended by a line feed.
fn sentence<'a>(number: usize, step: &Done<'a>) -> Vec<Part<'a>> {
    let mut parts = vec![Number(number), Word(" "), Word(name(step.rule))];
    if let Some(named) = step.named {
        parts.extend([Word(" "), TextOf(named)]);
    }
    parts.push(Word(" for "));
    match step.goal {
        Judgment::True(a) => parts.push(TextOf(a)),
        // an affirmation is no formula, so it has no brackets
        Judgment::Affirms(Principal(k), a) => {
            parts.extend([Word("p"), Number(k.into()), Word(" affirms "), TextOf(a)])
        }
    }
    parts.push(Word("\n"));
    parts
}

/// The rules' names of 01's table.
fn name(rule: Rule) -> &'static str {
    match rule {
        Rule::Init => "init",
        Rule::Affirm => "affirm",
        Rule::ImpliesRight => "implies right",
        Rule::ImpliesLeft => "implies left",
        Rule::FalseLeft => "false left",
        Rule::AndRight => "and right",
        Rule::AndLeft => "and left",
        Rule::OrRightFirst => "or right first",
        Rule::OrRightSecond => "or right second",
        Rule::OrLeft => "or left",
        Rule::SaysRight => "says right",
        Rule::SaysLeft => "says left",
    }
}

/// "Atom 0 is a0, principal 7 is p7 and false is false; every compound formula stands in round
/// brackets with its kind's word (implies, and, or, says) in the middle, as (p7 says a0)."
fn spelled(formula: &Formula) -> Vec<Part<'_>> {
    let bracketed = |a, word, b| vec![Word("("), TextOf(a), Word(word), TextOf(b), Word(")")];
    match formula {
        Formula::Atom(Atom(number)) => vec![Word("a"), Number((*number).into())],
        Formula::False => vec![Word("false")],
        Formula::Implies(a, b) => bracketed(a, " implies ", b),
        Formula::And(a, b) => bracketed(a, " and ", b),
        Formula::Or(a, b) => bracketed(a, " or ", b),
        Formula::Says(Principal(k), a) => {
            vec![Word("(p"), Number((*k).into()), Word(" says "), TextOf(a), Word(")")]
        }
    }
}

/// The lengths of formulas' texts, once for each formula of the table, since a tree may have far
/// too many nodes to walk. A length that is too large for the number is the largest number, which
/// no lent bytes reach.
#[derive(Default)]
struct Lengths(HashMap<*const Formula, u128>);

impl Lengths {
    fn sum(&mut self, parts: &[Part]) -> u128 {
        parts.iter().fold(0, |sum: u128, part| sum.saturating_add(self.of(part)))
    }

    fn of(&mut self, part: &Part) -> u128 {
        match part {
            Word(word) => word.len() as u128,
            // its figures
            Number(number) => u128::from(number.checked_ilog10().unwrap_or(0)) + 1,
            TextOf(formula) => self.of_formula(formula),
        }
    }

    fn of_formula(&mut self, formula: &Formula) -> u128 {
        let shared = ptr::from_ref(formula);
        if let Some(&length) = self.0.get(&shared) {
            return length;
        }
        let length = self.sum(&spelled(formula));
        self.0.insert(shared, length);
        length
    }
}

/// Writes parts whose text is not too long.
fn write(parts: &[Part], text: &mut String) {
    for part in parts {
        match part {
            Word(word) => text.push_str(word),
            Number(number) => text.push_str(&number.to_string()),
            TextOf(formula) => write(&spelled(formula), text),
        }
    }
}
