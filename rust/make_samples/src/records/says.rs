//! What follows from says, and who signs.
use super::record;
use crate::record::Record;
use crate::sample::{sample, Section};
use builder::papers::{all_opened, opened};
use builder::steps::*;
use builder::table::Entry::{And, Atom, False, Implies, Or, Says};
use builder::table::Table;

/// Papers (p7 says (a0 implies a1)) and (K says a0), goal (K says a1): both papers are opened, and
/// implies left joins what they say.
fn joined(k: u16) -> Record {
    let mut table = Table::default();
    let a0 = table.number(Atom(0));
    let a1 = table.number(Atom(1));
    let a0_a1 = table.number(Implies(a0, a1));
    let says_a0_a1 = table.number(Says(7, a0_a1));
    let says_a0 = table.number(Says(k, a0));
    let says_a1 = table.number(Says(k, a1));
    let steps = [
        SAYS_RIGHT,
        SAYS_LEFT + says_a0_a1,
        SAYS_LEFT + says_a0,
        IMPLIES_LEFT + a0_a1,
        INIT + a0,
        AFFIRM,
        INIT + a1,
    ];
    record(&table, &[says_a0_a1, says_a0], says_a1, &steps)
}

pub fn about_says() -> Section<Record> {
    // a0 implies (p7 says a0)
    let mut truth = Table::default();
    let t0 = truth.number(Atom(0));
    let t7 = truth.number(Says(7, t0));
    let t0_is_said = truth.number(Implies(t0, t7));

    // (p7 says (p7 says a0)) implies (p7 says a0)
    let mut twice = Table::default();
    let w0 = twice.number(Atom(0));
    let once = twice.number(Says(7, w0));
    let says_once = twice.number(Says(7, once));
    let twice_is_once = twice.number(Implies(says_once, once));

    // (p7 says a0) implies a0
    let mut said = Table::default();
    let s0 = said.number(Atom(0));
    let s7 = said.number(Says(7, s0));
    let s0_is_true = said.number(Implies(s7, s0));

    // (p7 says false) implies false
    let mut absurd = Table::default();
    let falsehood = absurd.number(False);
    let says_false = absurd.number(Says(7, falsehood));
    let false_is_true = absurd.number(Implies(says_false, falsehood));

    // (p7 says a0) implies (p8 says a0)
    let mut another = Table::default();
    let n0 = another.number(Atom(0));
    let n7 = another.number(Says(7, n0));
    let n8 = another.number(Says(8, n0));
    let n8_too = another.number(Implies(n7, n8));

    // p7 says (a0 or a1), and (p7 says a0) or (p7 says a1)
    let mut cases = Table::default();
    let c0 = cases.number(Atom(0));
    let c1 = cases.number(Atom(1));
    let c0_or_c1 = cases.number(Or(c0, c1));
    let says_or = cases.number(Says(7, c0_or_c1));
    let says_c0 = cases.number(Says(7, c0));
    let says_c1 = cases.number(Says(7, c1));
    let or_says = cases.number(Or(says_c0, says_c1));

    Section {
        title: "What follows from says",
        about: "Section 2.2 of 003, Garg and Pfenning's paper, has three formulas about says \
                that have a proof from no statements, and three that have none. Here they are \
                for p7 and a0, the second of them as two papers and what they give; and last, an \
                or in a paper.",
        samples: vec![
            sample(
                "truth-is-said",
                "What is true, everybody says, as in B: here a0 is no standing order, and \
                 implies right adds it.",
                record(&truth, &[], t0_is_said, &[IMPLIES_RIGHT, SAYS_RIGHT, AFFIRM, INIT + t0]),
                "granted 0",
            ),
            sample(
                "says-distributes",
                "Two papers of p7 go together without an order: both serve an affirmation by p7, \
                 and implies left joins what they say.",
                joined(7),
                "granted 1 7",
            ),
            sample(
                "says-distributes-another",
                "The same with p8's word on a0, and p8's word as the goal: the paper of p7 does \
                 not serve an affirmation by p8.",
                joined(8),
                "refused 14 place 1",
            )
            .no_proof(&[0], &[7]),
            sample(
                "says-twice-is-says",
                "That p7 says that p7 says a0 is no more than that p7 says a0: for an \
                 affirmation by p7 the outer one is opened and then the inner one.",
                record(
                    &twice,
                    &[],
                    twice_is_once,
                    &[
                        IMPLIES_RIGHT,
                        SAYS_RIGHT,
                        SAYS_LEFT + says_once,
                        SAYS_LEFT + once,
                        AFFIRM,
                        INIT + w0,
                    ],
                ),
                "granted 0",
            ),
            sample(
                "said-is-not-true",
                "What p7 says is not thereby true, as in C: implies right adds (p7 says a0) and \
                 leaves a truth as the goal, which says left does not serve.",
                record(&said, &[], s0_is_true, &[IMPLIES_RIGHT, SAYS_LEFT + s7, INIT + s0]),
                "refused 14 place 1",
            )
            .no_proof(&[], &[7]),
            sample(
                "said-false-is-not-false",
                "Nor is false true where p7 says false: the goal is a truth here too.",
                record(
                    &absurd,
                    &[],
                    false_is_true,
                    &[IMPLIES_RIGHT, SAYS_LEFT + says_false, FALSE_LEFT + falsehood],
                ),
                "refused 14 place 1",
            )
            .no_proof(&[], &[7]),
            sample(
                "said-is-not-said-by-another",
                "What p7 says, p8 does not thereby say, as in D: says right makes the goal an \
                 affirmation by p8, which (p7 says a0) does not serve.",
                record(
                    &another,
                    &[],
                    n8_too,
                    &[IMPLIES_RIGHT, SAYS_RIGHT, SAYS_LEFT + n7, AFFIRM, INIT + n0],
                ),
                "refused 14 place 2",
            )
            .no_proof(&[], &[7]),
            sample(
                "or-in-a-paper",
                "That p7 says (a0 or a1) is read as ((p7 says a0) or (p7 says a1)): the class \
                 takes the first side before it opens the paper, and in the second case of or \
                 left it has only a1.",
                record(
                    &cases,
                    &[says_or],
                    or_says,
                    &[
                        OR_RIGHT_FIRST,
                        SAYS_RIGHT,
                        SAYS_LEFT + says_or,
                        OR_LEFT + c0_or_c1,
                        AFFIRM,
                        INIT + c0,
                        AFFIRM,
                        INIT + c0,
                    ],
                ),
                "refused 12 place 7",
            )
            .no_proof_by("by a model with three worlds: `OrInAPaper`, in docs/CLASSES.md"),
        ],
    }
}

pub fn signers() -> Section<Record> {
    // two papers of p7, and a claim that takes both
    let mut papers = Table::default();
    let a0 = papers.number(Atom(0));
    let a1 = papers.number(Atom(1));
    let p7_a0 = papers.number(Says(7, a0));
    let p7_a1 = papers.number(Says(7, a1));
    let both = papers.number(And(a0, a1));
    let p7_both = papers.number(Says(7, both));

    // papers of p7 and p8, and a claim that takes both
    let mut two = Table::default();
    let t0 = two.number(Atom(0));
    let t7 = two.number(Says(7, t0));
    let t8 = two.number(Says(8, t0));
    let (by_both, by_both_steps) = all_opened(&mut two, &[t8, t7], t0);

    // a paper of p7 and two of p8
    let mut three = Table::default();
    let h0 = three.number(Atom(0));
    let h7 = three.number(Says(7, h0));
    let h8 = three.number(Says(8, h0));
    let h1 = three.number(Atom(1));
    let h8_too = three.number(Says(8, h1));
    let h0_and_h1 = three.number(And(h0, h1));
    let h8_says_both = three.number(Says(8, h0_and_h1));
    let by_three = three.number(And(h8_says_both, h7));

    // a paper of each of four
    let mut four = Table::default();
    let f0 = four.number(Atom(0));
    let papers_of_four = [4095, 10, 9, 0].map(|k| four.number(Says(k, f0)));
    let of_p0 = papers_of_four[3];
    let (by_four, by_four_steps) = all_opened(&mut four, &papers_of_four, f0);

    // an order that names p7, and one that gives p7's word
    let mut order = Table::default();
    let o0 = order.number(Atom(0));
    let o1 = order.number(Atom(1));
    let o7 = order.number(Says(7, o0));
    let if_p7_says = order.number(Implies(o7, o1));
    let mut word = Table::default();
    let w0 = word.number(Atom(0));
    let w1 = word.number(Atom(1));
    let w7 = word.number(Says(7, w1));
    let p7_says_if = word.number(Implies(w0, w7));
    let w7_too = word.number(Says(7, w0));
    let by_the_order = [&[IMPLIES_LEFT + p7_says_if, INIT + w0], &opened(w7, w1)[..]].concat();

    Section {
        title: "Who signs",
        about: "The signers are the principals K of the statements of the form K says A that some \
                says left names, each once, in rising number: only those who carried the release. \
                A paper that lies unused makes no signer, and neither does a says-formula that is \
                no statement.",
        samples: vec![
            sample(
                "two-papers-one-signer",
                "Two papers of one principal, both opened: one signer.",
                record(
                    &papers,
                    &[p7_a0, p7_a1],
                    p7_both,
                    &[
                        SAYS_RIGHT,
                        SAYS_LEFT + p7_a0,
                        SAYS_LEFT + p7_a1,
                        AFFIRM,
                        AND_RIGHT,
                        INIT + a0,
                        INIT + a1,
                    ],
                ),
                "granted 1 7",
            ),
            sample(
                "two-papers-one-used",
                "Two papers of one principal, of which one is opened. The other lies unused, and \
                 p7 is a signer by the first.",
                record(&papers[..4], &[p7_a0, p7_a1], p7_a0, &opened(p7_a0, a0)),
                "granted 1 7",
            ),
            sample(
                "two-things-in-one-paper",
                "One paper that says two things; and left takes them apart.",
                record(
                    &papers,
                    &[p7_both],
                    p7_a1,
                    &[SAYS_RIGHT, SAYS_LEFT + p7_both, AND_LEFT + both, AFFIRM, INIT + a1],
                ),
                "granted 1 7",
            ),
            sample(
                "unused-paper",
                "No step names the paper of p8. It lies unused, and p8 is no signer.",
                record(&two[..3], &[t7, t8], t7, &opened(t7, t0)),
                "granted 1 7",
            ),
            sample(
                "unused-paper-of-who-affirms",
                "The goal is that p7 says a0, and p7 affirms it on the way; but a0 is a standing \
                 order, as in B, and the paper of p7 lies unused. To affirm is not to sign: the \
                 record has no signer.",
                record(&two[..3], &[t0, t7], t7, &[SAYS_RIGHT, AFFIRM, INIT + t0]),
                "granted 0",
            ),
            sample(
                "order-that-signs",
                "What B has as a standing order, and what p7 says of it, put in by whoever keeps \
                 the orders: it follows from a0, so the lists are equal in force \
                 (what-is-true-everybody-says.exchange). But it is a says-formula, says left names \
                 it, and p7 is a signer who has signed nothing.",
                record(&two[..3], &[t0, t7], t7, &opened(t7, t0)),
                "granted 1 7",
            ),
            sample(
                "eight-before-seven",
                "The paper of p8 stands before p7's and is opened before it. Signers are listed \
                 by number, so 7 comes first.",
                record(&two, &[t8, t7], by_both, &by_both_steps),
                "granted 2 7 8",
            ),
            sample(
                "signer-first-and-last",
                "The first paper and the last are p8's, and the one between is p7's, and all \
                 three are opened: p8 is one signer, and is listed after p7.",
                record(
                    &three,
                    &[h8, h7, h8_too],
                    by_three,
                    &[
                        &[AND_RIGHT, SAYS_RIGHT, SAYS_LEFT + h8, SAYS_LEFT + h8_too, AFFIRM],
                        &[AND_RIGHT, INIT + h0, INIT + h1][..],
                        &opened(h7, h0),
                    ]
                    .concat(),
                ),
                "granted 2 7 8",
            ),
            sample(
                "four-signers",
                "Papers of p4095, p10, p9 and p0, opened in this order. The number counts and not \
                 its figures: 9 is listed before 10, and 0 first of all.",
                record(&four, &papers_of_four, by_four, &by_four_steps),
                "granted 4 0 9 10 4095",
            ),
            sample(
                "four-papers-one-used",
                "The same papers, of which p0's alone is opened: p0 is the one signer.",
                record(&four[..5], &papers_of_four, of_p0, &opened(of_p0, f0)),
                "granted 1 0",
            ),
            sample(
                "order-names-a-principal",
                "A standing order that speaks of p7 is no paper of p7: the record has no signer.",
                record(
                    &order,
                    &[o0, if_p7_says],
                    o1,
                    &[IMPLIES_LEFT + if_p7_says, SAYS_RIGHT, AFFIRM, INIT + o0, INIT + o1],
                ),
                "granted 0",
            ),
            sample(
                "order-gives-a-word",
                "An order from which it follows that p7 says a1: implies left adds this, and says \
                 left opens it. It is no statement, so p7 has not signed, and the record has no \
                 signer.",
                record(&word[..4], &[w0, p7_says_if], w7, &by_the_order),
                "granted 0",
            ),
            sample(
                "order-gives-a-word-and-paper",
                "The same steps where p7's paper says a1 too. The paper and what the order gives \
                 are one hypothesis, which says left names: p7 is a signer.",
                record(&word[..4], &[w0, p7_says_if, w7], w7, &by_the_order),
                "granted 1 7",
            ),
            sample(
                "order-gives-a-word-and-another-paper",
                "The same steps where p7's paper says a0. It lies unused, and what says left names \
                 is another word of p7's, which is no statement: the record has no signer.",
                record(&word, &[w0, p7_says_if, w7_too], w7, &by_the_order),
                "granted 0",
            ),
        ],
    }
}
