//! Records for the question whether a principal can matter. It is asked about p7, and each has a
//! paper of his.
use super::record;
use crate::record::Record;
use crate::sample::{sample, Section};
use builder::papers::opened;
use builder::steps::*;
use builder::table::Entry::{And, Atom, Implies, Or, Says};
use builder::table::Table;

/// A table that begins with a0, a1 and p7's word, (p7 says a0).
fn begun() -> (Table, [u16; 3]) {
    let mut table = Table::default();
    let [a0, a1] = [0, 1].map(|atom| table.number(Atom(atom)));
    let word = table.number(Says(7, a0));
    (table, [a0, a1, word])
}

fn goal_is_his_word() -> Record {
    let (mut table, [a0, a1, word]) = begun();
    let other = table.number(Says(7, a1));
    record(&table, &[a0, other], word, &[SAYS_RIGHT, AFFIRM, INIT + a0])
}

fn assumed_in_the_goal() -> Record {
    let (mut table, [_, a1, word]) = begun();
    let goal = table.number(Implies(word, a1));
    record(&table, &[a1, word], goal, &[IMPLIES_RIGHT, INIT + a1])
}

fn left_of_left_in_the_goal() -> Record {
    let (mut table, [a0, a1, word]) = begun();
    let asked = table.number(Implies(word, a1));
    let goal = table.number(Implies(asked, a1));
    let steps =
        [&[IMPLIES_RIGHT, IMPLIES_LEFT + asked], &opened(word, a0)[..], &[INIT + a1]].concat();
    record(&table, &[word], goal, &steps)
}

fn left_of_left() -> Record {
    let (mut table, [_, a1, word]) = begun();
    let a2 = table.number(Atom(2));
    let asked = table.number(Implies(word, a1));
    let order = table.number(Implies(asked, a2));
    let steps = [IMPLIES_LEFT + order, IMPLIES_RIGHT, INIT + a1, INIT + a2];
    record(&table, &[order, a1, word], a2, &steps)
}

fn asked_for_in_an_order() -> Record {
    let (mut table, [a0, a1, word]) = begun();
    let p8_a0 = table.number(Says(8, a0));
    let either = table.number(Or(word, p8_a0));
    let order = table.number(Implies(either, a1));
    let steps =
        [&[IMPLIES_LEFT + order, OR_RIGHT_SECOND], &opened(p8_a0, a0)[..], &[INIT + a1]].concat();
    record(&table, &[order, word, p8_a0], a1, &steps)
}

fn given_in_an_order() -> Record {
    let (mut table, [a0, a1, word]) = begun();
    let both = table.number(And(word, a1));
    let order = table.number(Implies(a0, both));
    let steps = [IMPLIES_LEFT + order, INIT + a0, AND_LEFT + both, INIT + a1];
    record(&table, &[a0, order, word], a1, &steps)
}

fn inside_anothers_word() -> Record {
    let (mut table, [a0, a1, word]) = begun();
    let asked = table.number(Implies(word, a1));
    let paper = table.number(Says(8, asked));
    let goal = table.number(Says(8, a1));
    let steps = [
        &[SAYS_RIGHT, SAYS_LEFT + paper, IMPLIES_LEFT + asked],
        &opened(word, a0)[..],
        &[AFFIRM, INIT + a1],
    ];
    record(&table, &[paper, word], goal, &steps.concat())
}

fn given_in_anothers_word() -> Record {
    let (mut table, [_, a1, word]) = begun();
    let both = table.number(And(word, a1));
    let paper = table.number(Says(8, both));
    let goal = table.number(Says(8, a1));
    let steps = [SAYS_RIGHT, SAYS_LEFT + paper, AND_LEFT + both, AFFIRM, INIT + a1];
    record(&table, &[paper, word], goal, &steps)
}

fn his_own_paper_left_out() -> Record {
    let (mut table, [_, a1, word]) = begun();
    let asked = table.number(Implies(word, a1));
    let own = table.number(Says(7, asked));
    let p8_a1 = table.number(Says(8, a1));
    record(&table, &[own, p8_a1], p8_a1, &opened(p8_a1, a1))
}

fn on_both_sides() -> Record {
    let (mut table, [a0, a1, word]) = begun();
    let asked = table.number(Implies(word, a1));
    let order = table.number(And(word, asked));
    let steps =
        [&[AND_LEFT + order, IMPLIES_LEFT + asked], &opened(word, a0)[..], &[INIT + a1]].concat();
    record(&table, &[order, word], a1, &steps)
}

pub fn independence() -> Section<Record> {
    Section {
        title: "Who can matter",
        about: "Before a contractor may sign, the planner wants to know whether his papers could \
                touch a goal; `./wethrynda independent 7 FILE` tests it. A goal stands on the \
                proving side and a statement on the given side; the parts of a formula stand on \
                its side, but the left of an implies on the other. The goal is independent of p7 \
                where no (p7 says A) stands on the proving side of the goal or of a statement \
                that is no paper of p7. Then p7's papers may be taken out, or others of p7 put in, \
                and steps that are a proof stay one, with the same signers. \
                `docs/INDEPENDENCE.md` says more. Here p7 is the contractor, with a paper in each \
                record. (A, B, I, M, statement-outside, both-foremen and every-rule have their \
                lines above.)",
        samples: vec![
            sample(
                "goal-is-his-word",
                "The goal is p7's own word. It follows from a standing order, as in B, whatever \
                 papers of p7 there are, and the one here is about something else. Not \
                 independent does not say that a paper matters, only that one may: (p7 says a0) \
                 would prove this goal too.",
                goal_is_his_word(),
                "granted 0",
            )
            .asked(&[(7, "not independent"), (8, "independent")]),
            sample(
                "assumed-in-the-goal",
                "In the goal p7's word is only assumed: the left of its implies stands on the \
                 given side. The paper that says the same can be taken out.",
                assumed_in_the_goal(),
                "granted 0",
            )
            .asked(&[(7, "independent"), (8, "independent")]),
            sample(
                "left-of-left-in-the-goal",
                "The left of the left is the proving side again: what the goal assumes asks for \
                 p7's word, and p7's paper gives it.",
                left_of_left_in_the_goal(),
                "granted 1 7",
            )
            .asked(&[(7, "not independent"), (8, "independent")]),
            sample(
                "left-of-left",
                "The same in an order, which stands on the given side: so p7's word is given \
                 there, and nobody has to prove it.",
                left_of_left(),
                "granted 0",
            )
            .asked(&[(7, "independent"), (8, "independent")]),
            sample(
                "asked-for-in-an-order",
                "The order asks for the word of p7 or of p8. This proof uses the paper of p8, \
                 but another could use that of p7.",
                asked_for_in_an_order(),
                "granted 1 8",
            )
            .asked(&[
                (7, "not independent"),
                (8, "not independent"),
                (9, "independent"),
            ]),
            sample(
                "given-in-an-order",
                "The order gives p7's word, beside what the goal needs. Nothing asks for that \
                 word.",
                given_in_an_order(),
                "granted 0",
            )
            .asked(&[(7, "independent"), (8, "independent")]),
            sample(
                "inside-anothers-word",
                "What p8 says keeps the side: the paper of p8 asks for p7's word.",
                inside_anothers_word(),
                "granted 2 7 8",
            )
            .asked(&[
                (7, "not independent"),
                (8, "not independent"),
                (9, "independent"),
            ]),
            sample(
                "given-in-anothers-word",
                "The paper of p8 reports p7's word and does not ask for it. The goal is p8's word \
                 and not p7's.",
                given_in_anothers_word(),
                "granted 1 8",
            )
            .asked(&[(7, "independent"), (8, "not independent")]),
            sample(
                "his-own-paper-left-out",
                "A paper of p7 that asks for p7's word, as p8's does in inside-anothers-word. \
                 p7's own papers are left out with all inside them: they are opened only for what \
                 p7 affirms, and here nobody has to prove that.",
                his_own_paper_left_out(),
                "granted 1 8",
            )
            .asked(&[(7, "independent"), (8, "not independent")]),
            sample(
                "on-both-sides",
                "The order gives p7's word and asks for it. One formula stands on both sides, and \
                 it counts on the proving side.",
                on_both_sides(),
                "granted 1 7",
            )
            .asked(&[(7, "not independent"), (8, "independent")]),
        ],
    }
}
