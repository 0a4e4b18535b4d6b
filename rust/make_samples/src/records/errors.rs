//! What classes get wrong, and what is misread.
use super::record;
use crate::record::Record;
use crate::sample::{sample, Section};
use builder::steps::*;
use builder::table::Entry::{And, Atom, False, Implies, Or, Says};
use builder::table::Table;

pub fn class_errors() -> Section<Record> {
    // a0, and p7 says a0
    let mut one = Table::default();
    let one_a0 = one.number(Atom(0));
    let one_p7 = one.number(Says(7, one_a0));

    // for implies left: p7 says a0, the order a0 implies a1, and p7 says a1
    let mut orders = Table::default();
    let a0 = orders.number(Atom(0));
    let a1 = orders.number(Atom(1));
    let order = orders.number(Implies(a0, a1));
    let paper = orders.number(Says(7, a0));
    let claim = orders.number(Says(7, a1));
    let claimed = |steps: &[u16]| record(&orders, &[order, paper], claim, steps);
    let (open, apply) = (SAYS_LEFT + paper, IMPLIES_LEFT + order);

    // for a named hypothesis that stays
    let mut stays = Table::default();
    let s0 = stays.number(Atom(0));
    let s7 = stays.number(Says(7, s0));
    let pair = stays.number(And(s0, s7));
    let says_pair = stays.number(Says(7, pair));

    // not not (a0 or not a0)
    let mut doubly = Table::default();
    let d0 = doubly.number(Atom(0));
    let falsehood = doubly.number(False);
    let not_d0 = doubly.number(Implies(d0, falsehood));
    let either = doubly.number(Or(d0, not_d0));
    let not_either = doubly.number(Implies(either, falsehood));
    let not_not_either = doubly.number(Implies(not_either, falsehood));

    // for or left
    let mut cases = Table::default();
    let c0 = cases.number(Atom(0));
    let c1 = cases.number(Atom(1));
    let c0_or_c1 = cases.number(Or(c0, c1));
    let c1_or_c0 = cases.number(Or(c1, c0));

    // (a0 implies a0) and a0
    let mut itself = Table::default();
    let i0 = itself.number(Atom(0));
    let i0_itself = itself.number(Implies(i0, i0));
    let itself_and_i0 = itself.number(And(i0_itself, i0));

    // a0 and a0
    let mut both = Table::default();
    let b0 = both.number(Atom(0));
    let b0_and_b0 = both.number(And(b0, b0));

    Section {
        title: "Errors that classes make",
        about: "Each error at the end of document 01, as a class would write it, and where it \
                helps the right record beside it.",
        samples: vec![
            sample(
                "says-left-on-truth",
                "Code 11 on a truth, as in C: the class opens the paper of p7 and takes what it \
                 says for true.",
                record(&one, &[one_p7], one_a0, &[SAYS_LEFT + one_p7, INIT + one_a0]),
                "refused 14 place 0",
            )
            .no_proof(&[], &[7]),
            sample(
                "init-on-affirmation",
                "Init on an affirmation. A has it right: affirm comes first, and turns \"p7 \
                 affirms a0\" into \"a0 is true\".",
                record(&one, &[one_p7], one_p7, &[SAYS_RIGHT, SAYS_LEFT + one_p7, INIT + one_a0]),
                "refused 13 place 2",
            ),
            sample(
                "implies-left",
                "Implies left as it should be: the paper is opened below it, its first premise \
                 is \"a0 is true\", and its second keeps the affirmation.",
                claimed(&[SAYS_RIGHT, open, apply, INIT + a0, AFFIRM, INIT + a1]),
                "granted 1 7",
            ),
            sample(
                "implies-left-affirm-first",
                "The class keeps the affirmation in the first premise of implies left, and \
                 writes affirm there. That premise is a truth already.",
                claimed(&[SAYS_RIGHT, open, apply, AFFIRM, INIT + a0, AFFIRM, INIT + a1]),
                "refused 13 place 3",
            ),
            sample(
                "implies-left-paper-in-first-premise",
                "The same error another way round: the class opens the paper in the first \
                 premise of implies left. That premise is a truth, which no paper serves.",
                claimed(&[SAYS_RIGHT, apply, open, AFFIRM, INIT + a0, AFFIRM, INIT + a1]),
                "refused 14 place 2",
            ),
            sample(
                "named-hypothesis-stays",
                "A class drops the hypothesis that a left rule has named. It stays: here the one \
                 paper is opened a second time, above its first use.",
                record(
                    &stays,
                    &[s7],
                    says_pair,
                    &[
                        SAYS_RIGHT,
                        SAYS_LEFT + s7,
                        AFFIRM,
                        AND_RIGHT,
                        INIT + s0,
                        SAYS_RIGHT,
                        SAYS_LEFT + s7,
                        AFFIRM,
                        INIT + s0,
                    ],
                ),
                "granted 1 7",
            ),
            sample(
                "named-hypothesis-needed-again",
                "And it is used again: with \"not A\" for \"A implies false\", the goal is not not \
                 (a0 or not a0), and the proof names the hypothesis ((a0 or (a0 implies false)) \
                 implies false) at step 1 and, above that, at step 4.",
                record(
                    &doubly,
                    &[],
                    not_not_either,
                    &[
                        IMPLIES_RIGHT,
                        IMPLIES_LEFT + not_either,
                        OR_RIGHT_SECOND,
                        IMPLIES_RIGHT,
                        IMPLIES_LEFT + not_either,
                        OR_RIGHT_FIRST,
                        INIT + d0,
                        FALSE_LEFT + falsehood,
                        FALSE_LEFT + falsehood,
                    ],
                ),
                "granted 0",
            ),
            sample(
                "or-left",
                "Or left as it should be: the first premise has a0 added, the second has a1 \
                 added, and each is proved from its own.",
                record(
                    &cases,
                    &[c0_or_c1],
                    c1_or_c0,
                    &[OR_LEFT + c0_or_c1, OR_RIGHT_SECOND, INIT + c0, OR_RIGHT_FIRST, INIT + c1],
                ),
                "granted 0",
            ),
            sample(
                "or-left-carried",
                "The class carries a0, which or left added to its first premise, into the second.",
                record(&cases, &[c0_or_c1], c0, &[OR_LEFT + c0_or_c1, INIT + c0, INIT + c0]),
                "refused 12 place 2",
            )
            .no_proof(&[1], &[]),
            sample(
                "and-right-carried",
                "The class carries a0, which implies right added inside the first premise of and \
                 right, into the second.",
                record(
                    &itself,
                    &[],
                    itself_and_i0,
                    &[AND_RIGHT, IMPLIES_RIGHT, INIT + i0, INIT + i0],
                ),
                "refused 12 place 3",
            )
            .no_proof(&[], &[]),
            sample(
                "equal-statements",
                "Two equal statements are one hypothesis. The class means to open one copy and \
                 then the other, and opens the same one twice, which is allowed.",
                record(
                    &one,
                    &[one_p7, one_p7],
                    one_p7,
                    &[SAYS_RIGHT, SAYS_LEFT + one_p7, SAYS_LEFT + one_p7, AFFIRM, INIT + one_a0],
                ),
                "granted 1 7",
            ),
            sample(
                "one-statement-for-two",
                "One statement serves both premises of and right. Nobody has to put it in twice.",
                record(&both, &[b0], b0_and_b0, &[AND_RIGHT, INIT + b0, INIT + b0]),
                "granted 0",
            ),
        ],
    }
}

pub fn misreadings() -> Section<Record> {
    // a0 the reel is sound, a1 it may leave; the lab's paper, an order that asks for soundness, and
    // one that asks for the lab's word
    let mut lab = Table::default();
    let sound = lab.number(Atom(0));
    let leaves = lab.number(Atom(1));
    let lab_says = lab.number(Says(7, sound));
    let if_sound = lab.number(Implies(sound, leaves));
    let if_lab_says = lab.number(Implies(lab_says, leaves));
    let by_the_lab = [
        IMPLIES_LEFT + if_lab_says,
        SAYS_RIGHT,
        SAYS_LEFT + lab_says,
        AFFIRM,
        INIT + sound,
        INIT + leaves,
    ];

    // two foremen, an order that asks for the word of p8, and one that asks for the word of both
    let mut foremen = Table::default();
    let f0 = foremen.number(Atom(0));
    let f1 = foremen.number(Atom(1));
    let f7 = foremen.number(Says(7, f0));
    let f8 = foremen.number(Says(8, f0));
    let if_p8_says = foremen.number(Implies(f8, f1));
    let both_say = foremen.number(And(f7, f8));
    let if_both_say = foremen.number(Implies(both_say, f1));
    let by_both = |second: u16| {
        let first_premise = [SAYS_RIGHT, SAYS_LEFT + f7, AFFIRM, INIT + f0];
        let second_premise = [SAYS_RIGHT, SAYS_LEFT + second, AFFIRM, INIT + f0];
        [
            &[IMPLIES_LEFT + if_both_say, AND_RIGHT],
            &first_premise[..],
            &second_premise[..],
            &[INIT + f1],
        ]
        .concat()
    };

    // p7 says false
    let mut said = Table::default();
    let s0 = said.number(Atom(0));
    let falsehood = said.number(False);
    let says_false = said.number(Says(7, falsehood));
    let s7 = said.number(Says(7, s0));
    let s8 = said.number(Says(8, s0));
    let reported = said.number(Says(8, s7));

    Section {
        title: "What is misread",
        about: "The points that the demands name. Read a0 as \"the reel is sound\", a1 as \"the \
                reel may leave the store\", p7 as the lab or one foreman, and p8 as another \
                foreman.",
        samples: vec![
            sample(
                "lab-says-sound",
                "\"The lab says the reel is sound\" is read as \"the reel is sound\". The order \
                 asks that the reel is sound, and nobody but the lab says so.",
                record(
                    &lab,
                    &[lab_says, if_sound],
                    leaves,
                    &[IMPLIES_LEFT + if_sound, INIT + sound, INIT + leaves],
                ),
                "refused 12 place 1",
            )
            .no_proof(&[], &[7]),
            sample(
                "lab-says-sound-init",
                "The same reading, by init: it names the lab's paper where the goal is what the \
                 paper says.",
                record(&lab, &[lab_says], sound, &[INIT + lab_says]),
                "refused 13 place 0",
            )
            .no_proof(&[], &[7]),
            sample(
                "lab-believed-by-order",
                "What the order should have said: if the lab says that the reel is sound, it may \
                 leave.",
                record(&lab, &[lab_says, if_lab_says], leaves, &by_the_lab),
                "granted 1 7",
            ),
            sample(
                "another-foremans-word",
                "One foreman's word is used for another's: the order asks for the word of p8, \
                 and the paper is p7's.",
                record(
                    &foremen,
                    &[f7, if_p8_says],
                    f1,
                    &[
                        IMPLIES_LEFT + if_p8_says,
                        SAYS_RIGHT,
                        SAYS_LEFT + f7,
                        AFFIRM,
                        INIT + f0,
                        INIT + f1,
                    ],
                ),
                "refused 14 place 2",
            )
            .no_proof(&[], &[7]),
            sample(
                "both-foremen",
                "An order that asks for the word of both, and a paper of each.",
                record(&foremen, &[f7, f8, if_both_say], f1, &by_both(f8)),
                "granted 2 7 8",
            )
            .asked(&[
                (7, "not independent"),
                (8, "not independent"),
                (9, "independent"),
            ]),
            sample(
                "one-paper-for-both",
                "The same order, with p7's paper put in twice. It does not weigh double: the \
                 second copy is p7's word too, and not p8's.",
                record(&foremen, &[f7, f7, if_both_say], f1, &by_both(f7)),
                "refused 14 place 7",
            )
            .no_proof(&[], &[7]),
            sample(
                "statement-twice",
                "The lab's paper put in twice is as good as once, and the lab is one signer.",
                record(&lab, &[lab_says, lab_says, if_lab_says], leaves, &by_the_lab),
                "granted 1 7",
            ),
            sample(
                "false-said-by-another",
                "A principal who says false lets nobody else say everything: p7 says false, and \
                 the goal is that p8 says a0.",
                record(
                    &said,
                    &[says_false],
                    s8,
                    &[SAYS_RIGHT, SAYS_LEFT + says_false, FALSE_LEFT + falsehood],
                ),
                "refused 14 place 1",
            )
            .no_proof(&[], &[7]),
            sample(
                "false-said-is-not-false",
                "Nor does it make false true: false left names false, and only \"p7 says false\" \
                 is held.",
                record(&said, &[says_false], s0, &[FALSE_LEFT + falsehood]),
                "refused 12 place 0",
            )
            .no_proof(&[], &[7]),
            sample(
                "false-said-by-oneself",
                "But who says false says everything: p7 says false, so p7 says a0.",
                record(
                    &said,
                    &[says_false],
                    s7,
                    &[SAYS_RIGHT, SAYS_LEFT + says_false, FALSE_LEFT + falsehood],
                ),
                "granted 1 7",
            ),
            sample(
                "false-said-reported",
                "And of that everybody may speak: that p7 says a0 is true here, so p8 says that \
                 p7 says a0. That p8 says a0 does not follow.",
                record(
                    &said,
                    &[says_false],
                    reported,
                    &[
                        SAYS_RIGHT,
                        AFFIRM,
                        SAYS_RIGHT,
                        SAYS_LEFT + says_false,
                        FALSE_LEFT + falsehood,
                    ],
                ),
                "granted 1 7",
            ),
        ],
    }
}
