//! What has equal force, and what is misread.
use super::{exchange, table_k, two_atoms};
use crate::exchange::Exchange;
use crate::sample::{sample, Section};
use builder::steps::*;
use builder::table::Entry::{Atom, False, Implies, Or, Says};
use builder::table::Table;

pub fn misreadings() -> Section<Exchange> {
    // the reel is sound; the lab says so; another principal says so
    let mut table = Table::default();
    let a0 = table.number(Atom(0));
    let p7 = table.number(Says(7, a0));
    let p8 = table.number(Says(8, a0));
    let true_for_all = &[SAYS_RIGHT, AFFIRM, INIT + a0][..];
    let believed = &[SAYS_LEFT + p7, INIT + a0][..];

    // p7 says false
    let mut said = Table::default();
    let s0 = said.number(Atom(0));
    let falsehood = said.number(False);
    let says_false = said.number(Says(7, falsehood));
    let s7 = said.number(Says(7, s0));
    let s8 = said.number(Says(8, s0));
    let by_false = &[SAYS_RIGHT, SAYS_LEFT + says_false, FALSE_LEFT + falsehood][..];
    let from_false = &[FALSE_LEFT + falsehood][..];

    Section {
        title: "What is misread",
        about: "The points that the demands name, as exchanges. Read a0 as \"the reel is \
                sound\", p7 as the lab or one foreman, and p8 as another foreman.",
        samples: vec![
            sample(
                "lab-says-sound",
                "\"The lab says the reel is sound\" is read as \"the reel is sound\". Says left \
                 serves an affirmation by p7, and the goal is a truth, as in record C.",
                exchange(&table, &[p7], &[a0], &[believed, true_for_all]),
                "refused 14 place 0",
            )
            .no_proof(&[], &[7]),
            sample(
                "sound-and-lab-says-sound",
                "The same lists the other way round. That p7 says a0 does follow from a0, by the \
                 first three steps; a0 does not follow from that.",
                exchange(&table, &[a0], &[p7], &[true_for_all, believed]),
                "refused 14 place 3",
            )
            .no_proof(&[], &[7]),
            sample(
                "what-is-true-everybody-says",
                "Beside a0 itself, that p7 says a0 adds nothing.",
                exchange(&table, &[a0], &[a0, p7], &[&[INIT + a0], true_for_all, &[INIT + a0]]),
                "equal",
            ),
            sample(
                "another-foremans-word",
                "One foreman's word for another's: the paper of p7 does not serve an affirmation \
                 by p8.",
                exchange(
                    &table,
                    &[p7],
                    &[p8],
                    &[
                        &[SAYS_RIGHT, SAYS_LEFT + p7, AFFIRM, INIT + a0],
                        &[SAYS_RIGHT, SAYS_LEFT + p8, AFFIRM, INIT + a0],
                    ],
                ),
                "refused 14 place 1",
            )
            .no_proof(&[], &[7]),
            sample(
                "false-said-by-another",
                "A principal who says false lets nobody else say everything: p7 says false, and \
                 p8 says a0 does not follow.",
                exchange(&said, &[says_false], &[says_false, s8], &[by_false, by_false, by_false]),
                "refused 14 place 4",
            )
            .no_proof(&[], &[7]),
            sample(
                "false-said-is-not-false",
                "Nor does it make false true.",
                exchange(
                    &said,
                    &[says_false],
                    &[falsehood],
                    &[&[SAYS_LEFT + says_false, FALSE_LEFT + falsehood], from_false],
                ),
                "refused 14 place 0",
            )
            .no_proof(&[], &[7]),
            sample(
                "false-said-by-oneself",
                "But who says false says everything: beside that, the paper (p7 says a0) adds \
                 nothing.",
                exchange(&said, &[says_false], &[says_false, s7], &[by_false, by_false, by_false]),
                "equal",
            ),
            sample(
                "false-gives-everything",
                "From false itself everything follows, and so does that anybody says anything.",
                exchange(
                    &said,
                    &[falsehood],
                    &[s0, s8, falsehood],
                    &[from_false, from_false, from_false, from_false],
                ),
                "equal",
            ),
        ],
    }
}

pub fn equal_force() -> Section<Exchange> {
    let (mut either, e0, e1) = two_atoms();
    let e0_or_e1 = either.number(Or(e0, e1));
    let e1_or_e0 = either.number(Or(e1, e0));

    // a0 and a1 as conditions of a2, together and one after the other
    let (mut conditions, c0, c1, c0_and_c1) = table_k();
    let c2 = conditions.number(Atom(2));
    let together = conditions.number(Implies(c0_and_c1, c2));
    let if_c1 = conditions.number(Implies(c1, c2));
    let in_turn = conditions.number(Implies(c0, if_c1));

    let (mut chain, h0, h1) = two_atoms();
    let h2 = chain.number(Atom(2));
    let h0_h1 = chain.number(Implies(h0, h1));
    let h1_h2 = chain.number(Implies(h1, h2));
    let h0_h2 = chain.number(Implies(h0, h2));
    let of_h0_h1 = &[IMPLIES_RIGHT, IMPLIES_LEFT + h0_h1, INIT + h0, INIT + h1][..];
    let of_h1_h2 = &[IMPLIES_RIGHT, IMPLIES_LEFT + h1_h2, INIT + h1, INIT + h2][..];
    let of_h0_h2 = &[
        IMPLIES_RIGHT,
        IMPLIES_LEFT + h0_h1,
        INIT + h0,
        IMPLIES_LEFT + h1_h2,
        INIT + h1,
        INIT + h2,
    ][..];

    let (mut papers, p0, p1, p0_and_p1) = table_k();
    let says_both = papers.number(Says(7, p0_and_p1));
    let says_p0 = papers.number(Says(7, p0));
    let says_p1 = papers.number(Says(7, p1));

    let mut report = Table::default();
    let r0 = report.number(Atom(0));
    let says = report.number(Says(7, r0));
    let says_says = report.number(Says(7, says));

    let mut idle = Table::default();
    let i0 = idle.number(Atom(0));
    let i0_itself = idle.number(Implies(i0, i0));

    Section {
        title: "Lists of equal force",
        about: "What can be folded, in its simplest form. K belongs here too.",
        samples: vec![
            sample(
                "order-that-follows",
                "An order that follows from two others adds nothing: a0 gives a1, a1 gives a2, \
                 and so a0 gives a2.",
                exchange(
                    &chain,
                    &[h0_h1, h1_h2],
                    &[h0_h1, h1_h2, h0_h2],
                    &[of_h0_h1, of_h1_h2, of_h0_h2, of_h0_h1, of_h1_h2],
                ),
                "equal",
            ),
            sample(
                "order-that-does-not-follow",
                "The order a1 gives a2 is left out. It does not follow from a0 gives a2, and the \
                 class names it all the same.",
                exchange(
                    &chain,
                    &[h0_h1, h1_h2],
                    &[h0_h1, h0_h2],
                    &[of_h0_h1, of_h0_h2, of_h0_h1, of_h1_h2],
                ),
                "refused 12 place 15",
            )
            .no_proof(&[1], &[]),
            sample(
                "two-conditions",
                "Two conditions in one, or one after the other.",
                exchange(
                    &conditions,
                    &[together],
                    &[in_turn],
                    &[
                        &[
                            IMPLIES_RIGHT,
                            IMPLIES_RIGHT,
                            IMPLIES_LEFT + together,
                            AND_RIGHT,
                            INIT + c0,
                            INIT + c1,
                            INIT + c2,
                        ],
                        &[
                            IMPLIES_RIGHT,
                            AND_LEFT + c0_and_c1,
                            IMPLIES_LEFT + in_turn,
                            INIT + c0,
                            IMPLIES_LEFT + if_c1,
                            INIT + c1,
                            INIT + c2,
                        ],
                    ],
                ),
                "equal",
            ),
            sample(
                "either-way-round",
                "An or either way round.",
                exchange(
                    &either,
                    &[e0_or_e1],
                    &[e1_or_e0],
                    &[
                        &[
                            OR_LEFT + e0_or_e1,
                            OR_RIGHT_SECOND,
                            INIT + e0,
                            OR_RIGHT_FIRST,
                            INIT + e1,
                        ],
                        &[
                            OR_LEFT + e1_or_e0,
                            OR_RIGHT_SECOND,
                            INIT + e1,
                            OR_RIGHT_FIRST,
                            INIT + e0,
                        ],
                    ],
                ),
                "equal",
            ),
            sample(
                "two-things-in-one-paper",
                "One paper that says two things, or two papers of the same principal.",
                exchange(
                    &papers,
                    &[says_both],
                    &[says_p0, says_p1],
                    &[
                        &[
                            SAYS_RIGHT,
                            SAYS_LEFT + says_both,
                            AND_LEFT + p0_and_p1,
                            AFFIRM,
                            INIT + p0,
                        ],
                        &[
                            SAYS_RIGHT,
                            SAYS_LEFT + says_both,
                            AND_LEFT + p0_and_p1,
                            AFFIRM,
                            INIT + p1,
                        ],
                        &[
                            SAYS_RIGHT,
                            SAYS_LEFT + says_p0,
                            SAYS_LEFT + says_p1,
                            AFFIRM,
                            AND_RIGHT,
                            INIT + p0,
                            INIT + p1,
                        ],
                    ],
                ),
                "equal",
            ),
            sample(
                "says-that-it-says",
                "That p7 says that p7 says a0 is no more than that p7 says a0.",
                exchange(
                    &report,
                    &[says],
                    &[says_says],
                    &[
                        &[SAYS_RIGHT, AFFIRM, SAYS_RIGHT, SAYS_LEFT + says, AFFIRM, INIT + r0],
                        &[SAYS_RIGHT, SAYS_LEFT + says_says, SAYS_LEFT + says, AFFIRM, INIT + r0],
                    ],
                ),
                "equal",
            ),
            sample(
                "true-anyway",
                "An order that is true anyway has the force of no order.",
                exchange(&idle, &[], &[i0_itself], &[&[IMPLIES_RIGHT, INIT + i0]]),
                "equal",
            ),
        ],
    }
}
