//! Which proofs a file carries, and in which order; statements that stand twice; depth.
use super::{exchange, exchange_k, same_atom, table_k, two_atoms};
use crate::exchange::Exchange;
use crate::sample::{sample, Section};
use builder::steps::*;
use builder::table::Entry::{And, Atom, Says};
use builder::table::Table;

/// K with other proofs.
fn k_with(proofs: &[&[u16]]) -> Exchange {
    let k = exchange_k();
    exchange(&k.table, &k.first, &k.second, proofs)
}

pub fn order_of_proofs() -> Section<Exchange> {
    let (table, a0, a1, both) = table_k();
    // the three proofs of K
    let of_a0 = &[AND_LEFT + both, INIT + a0][..];
    let of_a1 = &[AND_LEFT + both, INIT + a1][..];
    let of_both = &[AND_RIGHT, INIT + a0, INIT + a1][..];

    // atom 0 alone
    let mut atom = Table::default();
    let t0 = atom.number(Atom(0));

    // p7 says a0, and its proof from itself
    let mut paper = Table::default();
    let p0 = paper.number(Atom(0));
    let p7 = paper.number(Says(7, p0));
    let of_p7 = &[SAYS_RIGHT, SAYS_LEFT + p7, AFFIRM, INIT + p0][..];

    Section {
        title: "Which proofs, and in which order",
        about: "Most of these are K with other steps. Its lists are (a0 and a1), and a0 and a1.",
        samples: vec![
            sample(
                "two-empty-lists",
                "Two empty lists are equal, and nothing is to be proved. This is the shortest \
                 file.",
                exchange(&atom, &[], &[], &[]),
                "equal",
            ),
            sample(
                "two-empty-lists-and-a-word",
                "Nothing is to be proved, so the first word is left over.",
                exchange(&atom, &[], &[], &[&[INIT + t0]]),
                "refused 15 place 0",
            ),
            sample(
                "no-steps",
                "A whole proof is due and there is no step.",
                exchange(&atom, &[], &[t0], &[]),
                "refused 9 place 0",
            )
            .no_proof(&[], &[]),
            sample(
                "list-against-itself",
                "Every statement has a proof from itself, and the file carries it, once for each \
                 list. Init is for atoms: a says-formula takes four steps.",
                exchange(&paper, &[p7], &[p7], &[of_p7, of_p7]),
                "equal",
            ),
            sample(
                "list-against-itself-no-steps",
                "The same lists without the proofs. They are equal in force all the same; \
                 refused says only that this file doesn't show it.",
                exchange(&paper, &[p7], &[p7], &[]),
                "refused 9 place 0",
            ),
            sample(
                "one-direction-only",
                "The second list is proved from the first, and then the words end. Lists are \
                 equal only if the first also follows from the second.",
                k_with(&[of_a0, of_a1]),
                "refused 9 place 4",
            ),
            sample(
                "directions-swapped",
                "The first list is proved first. The order is: second list, then first list. So \
                 the first goal is a0, and and right is not for an atom.",
                k_with(&[of_both, of_a0, of_a1]),
                "refused 13 place 0",
            ),
            sample(
                "proofs-swapped",
                "The proofs of a0 and a1 are swapped. Proofs stand in the order of the list: the \
                 first goal is a0, and init names a1.",
                k_with(&[of_a1, of_a0, of_both]),
                "refused 13 place 1",
            ),
            sample(
                "second-list-from-itself",
                "The second list is proved from itself. Hypotheses are the statements of the \
                 other list.",
                k_with(&[&[INIT + a0], &[INIT + a1], of_both]),
                "refused 12 place 0",
            ),
            sample(
                "first-list-from-itself",
                "The same error in the other direction: (a0 and a1) is no hypothesis where it is \
                 to be proved.",
                k_with(&[of_a0, of_a1, &[AND_LEFT + both, AND_RIGHT, INIT + a0, INIT + a1]]),
                "refused 12 place 4",
            ),
            sample(
                "hypothesis-of-the-proof-before",
                "The first proof added a1 to its hypotheses. The second begins again with the \
                 statements of the list, and a1 is none of them.",
                k_with(&[of_a0, &[INIT + a1], of_both]),
                "refused 12 place 2",
            ),
            sample(
                "words-end-inside-a-proof",
                "The words end after the first step of the second proof.",
                k_with(&[of_a0, &[AND_LEFT + both]]),
                "refused 9 place 3",
            ),
            sample(
                "words-end-before-the-last-proof",
                "The lists of K the other way round. The words end where the last proof should \
                 begin.",
                exchange(&table, &[a0, a1], &[both], &[of_both, of_a0]),
                "refused 9 place 5",
            ),
            sample(
                "word-between-proofs",
                "A step too many after the first proof. A proof has no end mark: the word is the \
                 next proof's first, and there a0 is no hypothesis.",
                k_with(&[of_a0, &[INIT + a0], of_a1, of_both]),
                "refused 12 place 2",
            ),
            sample(
                "word-between-proofs-held",
                "The same where a0 is a hypothesis: the next goal is a1.",
                exchange(
                    &table,
                    &[a0, a1],
                    &[a0, a1],
                    &[&[INIT + a0], &[INIT + a0], &[INIT + a1], &[INIT + a0], &[INIT + a1]],
                ),
                "refused 13 place 1",
            ),
            sample(
                "word-between-proofs-of-no-rule",
                "The same with a word of code 12.",
                k_with(&[of_a0, &[NO_RULE], of_a1, of_both]),
                "refused 11 place 2",
            ),
            sample(
                "word-between-proofs-that-fits",
                "The same with a word that fits the next proof as its first step. It is \
                 needless, and it does no harm.",
                k_with(&[of_a0, &[AND_LEFT + both], of_a1, of_both]),
                "equal",
            ),
            sample(
                "word-after-the-last-proof",
                "A step too many after the last proof.",
                k_with(&[of_a0, of_a1, of_both, &[INIT + a0]]),
                "refused 15 place 7",
            ),
            sample(
                "last-word-65535",
                "The last word is 65535, the largest there is: code 15, and part 4095.",
                k_with(&[of_a0, of_a1, &[AND_RIGHT, INIT + a0, 65535]]),
                "refused 11 place 6",
            ),
            sample(
                "part-where-none-is-named",
                "And right names no hypothesis, so its part has to be 0, and it is 2.",
                k_with(&[of_a0, of_a1, &[AND_RIGHT + 2, INIT + a0, INIT + a1]]),
                "refused 11 place 4",
            ),
            sample(
                "named-formula-outside",
                "The first step names formula 3, and the table ends at 2. What is no entry is no \
                 hypothesis.",
                k_with(&[&[AND_LEFT + 3, INIT + a0], of_a1, of_both]),
                "refused 12 place 0",
            ),
        ],
    }
}

pub fn said_twice() -> Section<Exchange> {
    let (table, a0, a1) = two_atoms();

    // two foremen, and the word of both
    let mut foremen = Table::default();
    let f0 = foremen.number(Atom(0));
    let f7 = foremen.number(Says(7, f0));
    let f8 = foremen.number(Says(8, f0));
    let both_say = foremen.number(And(f7, f8));
    let by_p7 = [SAYS_RIGHT, SAYS_LEFT + f7, AFFIRM, INIT + f0];

    Section {
        title: "A statement that stands twice",
        about: "It is one hypothesis, and it has no more force than once. But there is a proof \
                for every position, so it is proved twice.",
        samples: vec![
            sample(
                "statement-twice",
                "The first list has a0 twice, the second once. One proof for the second list, \
                 and two for the first.",
                same_atom(2, 1),
                "equal",
            ),
            sample(
                "statement-twice-proved-once",
                "The same with one proof for the first list: another is still due.",
                Exchange { proofs: vec![vec![INIT + a0]; 2], ..same_atom(2, 1) },
                "refused 9 place 2",
            ),
            sample(
                "statement-twice-in-both",
                "Lists that are the same, with a statement that stands twice: four proofs of a0 \
                 and two of a1, in the order of the lists.",
                exchange(
                    &table,
                    &[a0, a1, a0],
                    &[a0, a1, a0],
                    &[
                        &[INIT + a0],
                        &[INIT + a1],
                        &[INIT + a0],
                        &[INIT + a0],
                        &[INIT + a1],
                        &[INIT + a0],
                    ],
                ),
                "equal",
            ),
            sample(
                "statement-twice-in-both-proved-once",
                "The same, with one proof of a0 for each list. So the third step proves the \
                 second list's last statement, and the fourth goal is a0 where the step names \
                 a1.",
                exchange(
                    &table,
                    &[a0, a1, a0],
                    &[a0, a1, a0],
                    &[&[INIT + a0], &[INIT + a1], &[INIT + a0], &[INIT + a1]],
                ),
                "refused 13 place 3",
            ),
            sample(
                "paper-twice-for-two",
                "The paper of p7 twice does not weigh double: it is not the word of p7 and of p8.",
                exchange(
                    &foremen,
                    &[f7, f7],
                    &[both_say],
                    &[
                        &[&[AND_RIGHT], &by_p7[..], &by_p7].concat(),
                        &[&[AND_LEFT + both_say], &by_p7[..]].concat(),
                        &[&[AND_LEFT + both_say], &by_p7[..]].concat(),
                    ],
                ),
                "refused 14 place 6",
            )
            .no_proof(&[], &[7]),
        ],
    }
}

pub fn depth() -> Section<Exchange> {
    let mut table = Table::default();
    let a0 = table.number(Atom(0));
    let pair = table.number(And(a0, a0));
    // (a0 and a0) from itself: the last step is two deeper than and left is done
    let deep = |times: usize| {
        [&vec![AND_LEFT + pair; times][..], &[AND_RIGHT, INIT + a0, INIT + a0]].concat()
    };
    let against_itself = |proofs: &[&[u16]]| exchange(&table, &[pair], &[pair], proofs);
    // a proof that is too deep, as far as the step before the one that is
    let cut_short = [&vec![AND_LEFT + pair; 511][..], &[AND_RIGHT]].concat();

    Section {
        title: "Depth",
        about: "A proof may be 512 steps deep, and the count starts again with each proof. The \
                list (a0 and a0) against itself, with and left done over and over.",
        samples: vec![
            sample(
                "depth-512-twice",
                "Two proofs, each 512 deep.",
                against_itself(&[&deep(510), &deep(510)]),
                "equal",
            ),
            sample(
                "depth-513-in-the-second-proof",
                "The second proof goes one step deeper. Its first step that is too deep stands \
                 at place 1025.",
                against_itself(&[&deep(510), &deep(511)]),
                "refused 10 place 1025",
            ),
            sample(
                "words-end-at-depth-513",
                "The same, but the words end before the step that would be too deep: 9, not 10, \
                 since there is no such step.",
                against_itself(&[&deep(510), &cut_short]),
                "refused 9 place 1025",
            ),
            sample(
                "depth-513-and-no-rule",
                "The same, and the step that is too deep has code 12: depth is tested before the \
                 code.",
                against_itself(&[&deep(510), &[&cut_short[..], &[NO_RULE]].concat()]),
                "refused 10 place 1025",
            ),
        ],
    }
}
