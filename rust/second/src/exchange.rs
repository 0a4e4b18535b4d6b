//! The exchange file: sizes F, S1, S2, N; heads, seconds, the first list, the second list, steps.

use super::derivation::Steps;
use super::layout::{lists, sizes, FORMULAS, MOST_STEPS, STATEMENTS};
use super::refusal::{refuse_if, Refusal};
use super::sequent::Hypotheses;
use super::table::Table;

/// Checks an exchange file. Equal: `Ok(())`. Tests 6 and 8 have no place here.
pub fn check_exchange(file: &[u8]) -> Result<(), Refusal> {
    // Test 1.
    let [f, s1, s2, n] = sizes(file)?.map(usize::from);
    // Test 2: "here N may be 0 to 16,384 and each list 0 to 256".
    let in_range = FORMULAS.contains(&f)
        && STATEMENTS.contains(&s1)
        && STATEMENTS.contains(&s2)
        && n <= MOST_STEPS;
    refuse_if(!in_range, 2, 0)?;
    // Test 3. The two lists are read as one at first.
    let [heads, seconds, both, words] = lists(file, [f, f, s1 + s2, n])?;
    // Tests 4 and 5.
    let table = Table::read(&heads, &seconds)?;
    // Test 7: "Places for 7 run through both lists."
    let both = table.statements(&both)?;
    let (first, second) = both.split_at(s1);
    // Tests 9 to 14: "a proof of each statement of the second list from the first, in order, then
    // of each of the first from the second, one for every position"; "each proof begins at the word
    // after the last one".
    let mut steps = Steps::new(&table, &words);
    let mut at = 0;
    for (from, proved) in [(first, second), (second, first)] {
        let hypotheses = Hypotheses::of(from);
        for formula in proved {
            at = steps.proof(&hypotheses, formula, at)?;
        }
    }
    // Test 15.
    steps.end(at)
}
