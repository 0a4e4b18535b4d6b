//! Records for their proofs in sentences.
use super::record;
use crate::record::Record;
use crate::sample::{bare, sample, Kind, Section};
use builder::steps::*;
use builder::table::Entry::{And, Atom, False, Implies, Or, Says};
use builder::table::Table;
use builder::texts::{doubled, taken_apart};

/// A proof with each of the twelve rules: `every_rule` of `crates/sentences/specs/Samples.antt`,
/// whose text is proved there.
fn every_rule() -> Record {
    let mut table = Table::default();
    let [a0, a1, a2, a3, a4] = [0, 1, 2, 3, 4].map(|atom| table.number(Atom(atom)));
    let falsehood = table.number(False);
    let either = table.number(Or(a1, falsehood));
    let assumed = table.number(And(a0, either));
    let a0_or_a2 = table.number(Or(a0, a2));
    let a3_or_a1 = table.number(Or(a3, a1));
    let said = table.number(Says(7, a3_or_a1));
    let claim = table.number(And(a0_or_a2, said));
    let rule = table.number(Implies(a1, a4));
    let paper = table.number(Says(7, rule));
    let goal = table.number(Implies(assumed, claim));
    let steps = [
        IMPLIES_RIGHT,
        AND_LEFT + assumed,
        AND_RIGHT,
        // a0 or a2
        OR_RIGHT_FIRST,
        INIT + a0,
        // what p7 is to say
        SAYS_RIGHT,
        SAYS_LEFT + paper,
        AFFIRM,
        OR_LEFT + either,
        // the case that a1 is true
        IMPLIES_LEFT + rule,
        INIT + a1,
        OR_RIGHT_SECOND,
        INIT + a1,
        // the case that false is
        FALSE_LEFT + falsehood,
    ];
    record(&table, &[paper], goal, &steps)
}

/// Formulas within formulas in which no two operands are the same, and the goal the other way
/// round.
fn other_way_round() -> Record {
    let mut table = Table::default();
    let [a1, a2, a3, a4] = [1, 2, 3, 4].map(|atom| table.number(Atom(atom)));
    let p9_a2 = table.number(Says(9, a2));
    let a3_and_a1 = table.number(And(a3, a1));
    let a4_or_p9 = table.number(Or(a4, p9_a2));
    let order = table.number(Implies(a3_and_a1, a4_or_p9));
    let paper = table.number(Says(12, order));
    let a1_and_a3 = table.number(And(a1, a3));
    let p9_or_a4 = table.number(Or(p9_a2, a4));
    let turned = table.number(Implies(a1_and_a3, p9_or_a4));
    let goal = table.number(Says(12, turned));
    let steps = [
        SAYS_RIGHT,
        SAYS_LEFT + paper,
        AFFIRM,
        IMPLIES_RIGHT,
        AND_LEFT + a1_and_a3,
        IMPLIES_LEFT + order,
        AND_RIGHT,
        INIT + a3,
        INIT + a1,
        OR_LEFT + a4_or_p9,
        OR_RIGHT_SECOND,
        INIT + a4,
        OR_RIGHT_FIRST,
        SAYS_RIGHT,
        SAYS_LEFT + p9_a2,
        AFFIRM,
        INIT + a2,
    ];
    record(&table, &[paper], goal, &steps)
}

pub fn in_sentences() -> Section<Record> {
    Section {
        title: "The proof in sentences",
        about: "Release officers read a proof aloud before they sign; `./wethrynda sentences` \
                prints it. Beside each record of this page that is granted stands its proof in \
                sentences, but for the last one here.",
        samples: vec![
            sample(
                "every-rule",
                "Each of the twelve rules, over a paper of p7: the sentences have every rule's \
                 name. `docs/SENTENCES.md` reads them aloud.",
                every_rule(),
                "granted 1 7",
            )
            .asked(&[(7, "not independent"), (8, "independent")]),
            sample(
                "other-way-round",
                "The paper of p12 and what p12 is to say are the same thing the other way round. \
                 No two operands are the same, so in the sentences one can see which of them \
                 stands first.",
                other_way_round(),
                "granted 1 12",
            ),
            bare(
                "doubled-40-times",
                "The table has a0, and 40 formulas of which each is (A and A), A being the one \
                 before it. The last of them is the statement, and 41 steps take it apart down \
                 to a0. The record is granted; but the text of its proof would have more than \
                 2^40 bytes, so the program that writes sentences says `refused 16 place 0`, and \
                 no `doubled-40-times.sentences` stands here.",
                record(&doubled(40, And), &[40], 0, &taken_apart(40)).bytes(),
                "granted 0",
            ),
        ],
    }
}
