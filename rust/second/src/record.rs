//! The record: sizes F, S, N and the goal's number; heads, seconds, statements, steps.

use super::derivation::{Done, Steps};
use super::formula::{Formula, Principal, Tree};
use super::layout::{lists, sizes, FORMULAS, MOST_STEPS, STATEMENTS};
use super::refusal::{refuse_if, Refusal};
use super::sequent::Hypotheses;
use super::table::Table;
use std::collections::BTreeSet;

/// Checks a record, for a lent list of `room` words. Granted: the signers, as they go into it.
pub fn check_record(file: &[u8], room: usize) -> Result<Vec<u16>, Refusal> {
    check_record_and(file, room, |_| Ok(()))
}

/// The same, with one test more, after the others, of the steps that were done.
pub fn check_record_and(
    file: &[u8],
    room: usize,
    last: impl FnOnce(&[Done]) -> Result<(), Refusal>,
) -> Result<Vec<u16>, Refusal> {
    let Record { table, statements, goal, words } = Record::read(file)?;
    // Tests 9 to 15.
    let mut steps = Steps::new(&table, &words);
    let end = steps.proof(&Hypotheses::of(&statements), &goal, 0)?;
    steps.end(end)?;
    // Test 8: "tested after 15 and before 16" (02).
    let signers = signers_of(&statements, &steps.opened());
    refuse_if(room < signers.len(), 8, 0)?;
    last(&steps.done)?;
    // "Signers shall stand in rising principal number." (02) A set hands them out so.
    Ok(signers.into_iter().collect())
}

/// A record that passed tests 1 to 7, which look at no step word.
pub struct Record {
    pub table: Table,
    pub statements: Vec<Tree>,
    pub goal: Tree,
    pub words: Vec<u16>,
}

impl Record {
    pub fn read(file: &[u8]) -> Result<Record, Refusal> {
        // Test 1.
        let [f, s, n, goal] = sizes(file)?;
        let [f, s, n] = [f, s, n].map(usize::from);
        // Test 2.
        let in_range =
            FORMULAS.contains(&f) && STATEMENTS.contains(&s) && (1..=MOST_STEPS).contains(&n);
        refuse_if(!in_range, 2, 0)?;
        // Test 3.
        let [heads, seconds, statements, words] = lists(file, [f, f, s, n])?;
        // Tests 4 and 5.
        let table = Table::read(&heads, &seconds)?;
        // Test 6.
        let goal = table.get(goal).cloned().ok_or(Refusal { number: 6, place: 0 })?;
        // Test 7.
        let statements = table.statements(&statements)?;
        Ok(Record { table, statements, goal, words })
    }
}

/// "A signer is now a principal K with a statement K says A that some says-left step names" (02),
/// each once. Hypotheses are a set, so a statement is named where its formula is, whichever rule
/// added that too; and a formula that is no statement makes no signer.
fn signers_of(statements: &[Tree], opened: &[&Tree]) -> BTreeSet<u16> {
    let signer = |statement: &Tree| match **statement {
        Formula::Says(Principal(k), _) if opened.contains(&statement) => Some(k),
        _ => None,
    };
    statements.iter().filter_map(signer).collect()
}
