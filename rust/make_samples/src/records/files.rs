//! Document 01's own samples, and the refusals that they don't have.
use super::{record, record_a};
use crate::record::Record;
use crate::sample::{bare, sample, Kind, Section};
use builder::steps::*;
use builder::table::Entry::{Atom, Says};
use builder::table::Table;

/// Record A with its says left done so many times, one step above the other.
fn deep(times: usize) -> Record {
    let mut table = Table::default();
    let a0 = table.number(Atom(0));
    let p7 = table.number(Says(7, a0));
    let mut steps = vec![SAYS_RIGHT];
    steps.extend(vec![SAYS_LEFT + p7; times]);
    steps.extend([AFFIRM, INIT + a0]);
    record(&table, &[p7], p7, &steps)
}

pub fn of_document_01() -> Section<Record> {
    // "Table T: 0 atom 0; 1 principal 7 says it; 2 principal 8 says it"
    let mut t = Table::default();
    let a0 = t.number(Atom(0));
    let p7 = t.number(Says(7, a0));
    let p8 = t.number(Says(8, a0));
    let steps_a = [SAYS_RIGHT, SAYS_LEFT + p7, AFFIRM, INIT + a0];

    // "M: a table of entries 0 and 0"; but for that it would be granted
    let twice = [(0, 0), (0, 0)];
    // "N: first entry 20487 with second 0"; but for that it would be granted
    let itself = [(20487, 0), (0, 0)];
    // "O, record: table atom 0, atom 1"
    let mut atoms = Table::default();
    let o0 = atoms.number(Atom(0));
    let o1 = atoms.number(Atom(1));

    Section {
        title: "The samples of document 01",
        about: "A to J, M, N and O are records of document 01 (K and L are exchange files), and \
                the last two are its depth sample.",
        samples: vec![
            sample(
                "A",
                "What p7 says, p7 says: the goal becomes an affirmation by p7, which p7's own \
                 paper serves, and then a truth.",
                record_a(),
                "granted 1 7",
            )
            .asked(&[
                (7, "not independent"),
                (8, "independent"),
                (4095, "independent"),
                (4096, "refused 17 place 0"),
                (65535, "refused 17 place 0"),
            ]),
            sample(
                "B",
                "What is true, everybody says. The statement is a standing order and no paper, \
                 so the record has no signer.",
                record(&t, &[a0], p7, &[SAYS_RIGHT, AFFIRM, INIT + a0]),
                "granted 0",
            )
            .asked(&[(7, "not independent"), (8, "independent")]),
            sample(
                "C",
                "That p7 says a0 does not make a0 true: says left serves an affirmation by p7, \
                 and the goal is a truth.",
                record(&t, &[p7], a0, &[SAYS_LEFT + p7]),
                "refused 14 place 0",
            )
            .no_proof(&[], &[7]),
            sample(
                "D",
                "The paper of p8 does not serve an affirmation by p7.",
                record(&t, &[p8], p7, &[SAYS_RIGHT, SAYS_LEFT + p8]),
                "refused 14 place 1",
            )
            .no_proof(&[], &[8]),
            sample(
                "E",
                "Init is for an atom's truth, and this goal is no atom.",
                record(&t, &[a0], p7, &[INIT + a0]),
                "refused 13 place 0",
            ),
            sample(
                "F",
                "Init names a0, and nothing is held.",
                record(&t, &[], a0, &[INIT + a0]),
                "refused 12 place 0",
            )
            .no_proof(&[], &[]),
            sample(
                "G",
                "The steps end while a premise is open: B without its last step.",
                record(&t, &[a0], p7, &[SAYS_RIGHT, AFFIRM]),
                "refused 9 place 2",
            ),
            sample(
                "H",
                "The proof is closed and a word remains: B with one step too many.",
                record(&t, &[a0], p7, &[SAYS_RIGHT, AFFIRM, INIT + a0, INIT + a0]),
                "refused 15 place 3",
            ),
            sample(
                "I",
                "There are twelve rules, with the codes 0 to 11.",
                record(&t, &[a0], a0, &[NO_RULE]),
                "refused 11 place 0",
            )
            .asked(&[(7, "independent"), (8, "independent")]),
            sample(
                "J",
                "The paper of p7 stands there twice. It is one hypothesis, and p7 is one signer.",
                record(&t, &[p7, p7], p7, &steps_a),
                "granted 1 7",
            ),
            sample(
                "M",
                "Two entries of the table are the same.",
                record(&twice, &[0], 0, &[INIT]),
                "refused 5 place 1",
            )
            .asked(&[(7, "refused 5 place 1"), (4096, "refused 5 place 1")]),
            sample(
                "N",
                "The first entry is p7 says itself. An operand has a lower number than the entry \
                 that uses it.",
                record(&itself, &[1], 1, &[INIT + 1]),
                "refused 4 place 0",
            ),
            sample(
                "O",
                "Init names a hypothesis that is held, but another atom than the goal.",
                record(&atoms, &[o1], o0, &[INIT + o1]),
                "refused 13 place 0",
            )
            .no_proof(&[1], &[]),
            sample(
                "depth-512",
                "A proof may be 512 steps deep: record A, with its says left done 509 times.",
                deep(509),
                "granted 1 7",
            ),
            sample(
                "depth-513",
                "The same, one step deeper. The step that is too deep is the last one.",
                deep(510),
                "refused 10 place 512",
            ),
        ],
    }
}

pub fn other_refusals() -> Section<Record> {
    let a = record_a();
    let file = a.bytes();
    let (a0, p7) = (0, 1);
    let outside = 2;

    Section {
        title: "The other refusals",
        about: "Refusals 1, 2, 3, 6 and 7, each by a damaged record A. (8 is about the list that \
                a caller lends; the program lends one that is always long enough.)",
        samples: vec![
            bare(
                "seven-bytes",
                "The first seven bytes of record A.",
                file[..7].to_vec(),
                "refused 1 place 0",
            ),
            sample(
                "no-steps",
                "A record has at least one step.",
                Record { steps: vec![], ..a.clone() },
                "refused 2 place 0",
            ),
            bare(
                "last-byte-missing",
                "Record A without its last byte.",
                file[..file.len() - 1].to_vec(),
                "refused 3 place 0",
            ),
            sample(
                "goal-outside",
                "The table has two entries, 0 and 1, and the goal is 2.",
                Record { goal: outside, ..a.clone() },
                "refused 6 place 0",
            ),
            sample(
                "statement-outside",
                "The second statement, at place 1, is no entry of the table.",
                record(
                    &a.table,
                    &[p7, outside],
                    p7,
                    &[SAYS_RIGHT, SAYS_LEFT + p7, AFFIRM, INIT + a0],
                ),
                "refused 7 place 1",
            )
            .asked(&[(7, "refused 7 place 1"), (4096, "refused 7 place 1")]),
        ],
    }
}
