//! "The steps are the derivation from the goal upward: each step is followed by all of its first
//! premise, then its second."

use super::figure1::premises;
use super::formula::{Formula, Tree};
use super::refusal::{refuse_if, Refusal};
use super::sequent::{Hypotheses, Judgment, Sequent};
use super::step::{Rule, Step};
use super::table::Table;

/// "Depth is at most 512."
const DEEPEST: usize = 512;

/// The step words of a file, with the table that gives their numbers a meaning.
pub struct Steps<'a> {
    table: &'a Table,
    words: &'a [u16],
    /// What was done so far: the steps whose rules fit, in file order.
    pub done: Vec<Done<'a>>,
}

/// One step: a rule, the formula that it names, if any, and the goal below it.
pub struct Done<'a> {
    pub rule: Rule,
    pub named: Option<&'a Tree>,
    pub goal: Judgment<'a>,
}

impl<'a> Steps<'a> {
    pub fn new(table: &'a Table, words: &'a [u16]) -> Steps<'a> {
        Steps { table, words, done: vec![] }
    }

    /// Checks a whole proof of a formula's truth that begins at word `at`: "the first step has
    /// depth 1". Gives the place after its last word.
    pub fn proof(
        &mut self,
        hypotheses: &Hypotheses,
        formula: &'a Formula,
        at: usize,
    ) -> Result<usize, Refusal> {
        let (hypotheses, goal) = (hypotheses.clone(), Judgment::True(formula));
        self.derivation(&Sequent { hypotheses, goal }, 1, at)
    }

    /// Tests 9 to 14 in this order at the step, then the derivations of its premises, one deeper
    /// each. Gives the place after the last word used.
    fn derivation(
        &mut self,
        sequent: &Sequent<'a>,
        depth: usize,
        at: usize,
    ) -> Result<usize, Refusal> {
        let refusal = |number: u8| Refusal { number, place: at };
        // Test 9: the steps end while this derivation is due.
        let place = self.words.len();
        let word = *self.words.get(at).ok_or(Refusal { number: 9, place })?;
        // Test 10: the step's depth.
        refuse_if(depth > DEEPEST, 10, at)?;
        // Test 11: the code, and the part of a rule that names nothing.
        let step = Step::read(word).ok_or(refusal(11))?;
        // Test 12: the formula that the number stands for is a hypothesis here.
        let is_hypothesis = |tree: &&'a Tree| sequent.hypotheses.contains(tree);
        let named: Option<&'a Tree> = match step.named {
            None => None,
            Some(number) => Some(self.table.get(number).filter(is_hypothesis).ok_or(refusal(12))?),
        };
        // Tests 13 and 14: the rule fits.
        let premises = premises(step.rule, sequent, named.map(|tree| &**tree)).map_err(refusal)?;
        self.done.push(Done { rule: step.rule, named, goal: sequent.goal });

        let mut next = at + 1;
        for premise in &premises {
            next = self.derivation(premise, depth + 1, next)?;
        }
        Ok(next)
    }

    /// Test 15: everything due is proved before word `at`; "words remain (place: the first of
    /// them)".
    pub fn end(&self, at: usize) -> Result<(), Refusal> {
        refuse_if(at < self.words.len(), 15, at)
    }

    /// The formulas that "some says-left step names" (02), of the steps that were done.
    pub fn opened(&self) -> Vec<&'a Tree> {
        let says_lefts = self.done.iter().filter(|step| step.rule == Rule::SaysLeft);
        says_lefts.filter_map(|step| step.named).collect()
    }
}
