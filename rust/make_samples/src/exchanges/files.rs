//! Document 01's own samples, and what is tested before the steps: layout, sizes, table,
//! statements.
use super::{exchange, exchange_k, same_atom, two_atoms};
use crate::exchange::Exchange;
use crate::sample::{bare, sample, Kind, Section};
use builder::layout::bytes;
use builder::steps::*;
use builder::table::Entry::{And, Atom};
use builder::table::Table;

pub fn of_document_01() -> Section<Exchange> {
    // "L: table of atom 0"
    let mut atom = Table::default();
    let l0 = atom.number(Atom(0));
    // "M: a table of entries 0 and 0"; but for that it would be equal
    let twice = [(0, 0), (0, 0)];
    // "N: first entry 20487 with second 0"; but for that it would be equal
    let itself = [(20487, 0), (0, 0)];

    Section {
        title: "The samples of document 01",
        about: "K and L, and M and N as exchange files. (M and N stand among the records too; \
                the others there are records.)",
        samples: vec![
            sample(
                "K",
                "One order that says two things has the force of two orders that say one each.",
                exchange_k(),
                "equal",
            ),
            sample(
                "L",
                "From no statement nothing follows that isn't true anyway: a0 is no hypothesis. \
                 That it stands in the other list does not help.",
                exchange(&atom, &[], &[l0], &[&[INIT + l0]]),
                "refused 12 place 0",
            )
            .no_proof(&[], &[]),
            sample(
                "M",
                "Two entries of the table are the same.",
                exchange(&twice, &[0], &[0], &[&[INIT], &[INIT]]),
                "refused 5 place 1",
            ),
            sample(
                "N",
                "The first entry is p7 says itself. An operand has a lower number than the entry \
                 that uses it.",
                exchange(&itself, &[1], &[1], &[&[INIT + 1], &[INIT + 1]]),
                "refused 4 place 0",
            ),
        ],
    }
}

pub fn layout() -> Section<Exchange> {
    let file = exchange_k().bytes();
    let with = |bytes: usize| [&file[..], &vec![0; bytes]].concat();
    // K with another N than its steps have: N is the fourth word
    let says_six = [&file[..6], &[6], &file[7..]].concat();

    // atom 0 twice, and then an entry of a kind that there isn't
    let two_faults = [(0, 0), (0, 0), (6 * 4096, 0)];
    // atom 0 twice
    let twice = [(0, 0), (0, 0)];

    let (atoms, a0, a1) = two_atoms();
    let outside = 2;
    let far_outside = 65535;

    Section {
        title: "Layout, table and statements",
        about: "Refusals 1, 3, 4, 5 and 7, and which counts where two apply.",
        samples: vec![
            bare(
                "seven-bytes",
                "The first seven bytes of K.",
                file[..7].to_vec(),
                "refused 1 place 0",
            ),
            bare(
                "eight-bytes",
                "The first eight bytes of K: its sizes, 3 1 2 7, and nothing after them.",
                file[..8].to_vec(),
                "refused 3 place 0",
            ),
            bare(
                "last-byte-missing",
                "K without its last byte.",
                file[..file.len() - 1].to_vec(),
                "refused 3 place 0",
            ),
            bare("a-byte-too-many", "K and one byte more.", with(1), "refused 3 place 0"),
            bare(
                "65536-bytes-too-many",
                "K and 65,536 bytes more: a length that is counted in 16 bits would not show them.",
                with(65536),
                "refused 3 place 0",
            ),
            bare(
                "steps-miscounted",
                "K, but its sizes say six steps and it has seven.",
                says_six,
                "refused 3 place 0",
            ),
            sample(
                "repeated-and-wrong-entry",
                "Entry 1 repeats entry 0, and entry 2 is of no kind. Test 4 goes through the \
                 whole table before test 5.",
                exchange(&two_faults, &[0], &[0], &[&[INIT], &[INIT]]),
                "refused 4 place 2",
            ),
            sample(
                "repeated-entry-and-statement-outside",
                "Entry 1 repeats entry 0, and a statement is no entry. The table is tested \
                 before the statements.",
                exchange(&twice, &[outside], &[0], &[&[INIT], &[INIT]]),
                "refused 5 place 1",
            ),
            sample(
                "first-list-outside",
                "The table has two entries, 0 and 1, and the second statement of the first list, \
                 at place 1, is 2.",
                exchange(
                    &atoms,
                    &[a0, outside],
                    &[a0],
                    &[&[INIT + a0], &[INIT + a0], &[INIT + outside]],
                ),
                "refused 7 place 1",
            ),
            sample(
                "second-list-outside",
                "The second statement of the second list is no entry. Places run on from the \
                 first list, which has two: this one is 3.",
                exchange(&atoms, &[a0, a1], &[a0, far_outside], &[&[INIT + a0]]),
                "refused 7 place 3",
            ),
            sample(
                "both-lists-outside",
                "A statement of each list is no entry, and there is no step. The first such \
                 statement counts, and statements are tested before steps.",
                exchange(&atoms, &[a0, a1, outside], &[outside, a0], &[]),
                "refused 7 place 2",
            ),
        ],
    }
}

/// The longest exchange file: 4,096 entries, 256 and 256 statements, and 512 proofs of 32 steps
/// each. The lists are (a and b) and (b and a), for 256 pairs of atoms, and each proof takes its
/// pair apart 29 times. The last one does so `more` times more, and as many steps are missing at
/// its end.
fn longest(more: usize) -> Vec<u8> {
    let mut table = Table::default();
    let atoms: Vec<u16> = (0..3584).map(|atom| table.number(Atom(atom))).collect();
    let pairs: Vec<(u16, u16)> =
        atoms[3072..3328].iter().copied().zip(atoms[3328..].iter().copied()).collect();
    let first: Vec<u16> = pairs.iter().map(|&(a, b)| table.number(And(a, b))).collect();
    let second: Vec<u16> = pairs.iter().map(|&(a, b)| table.number(And(b, a))).collect();
    let proof = |from: u16, a: u16, b: u16| {
        [&vec![AND_LEFT + from; 29][..], &[AND_RIGHT, INIT + a, INIT + b]].concat()
    };
    let mut proofs: Vec<Vec<u16>> =
        first.iter().zip(&pairs).map(|(&from, &(a, b))| proof(from, b, a)).collect();
    proofs.extend(second.iter().zip(&pairs).map(|(&from, &(a, b))| proof(from, a, b)));
    let last = proofs.last_mut().expect("the last proof");
    last.truncate(32 - more);
    last.splice(..0, vec![AND_LEFT + second[255]; more]);
    Exchange { table: table.to_vec(), first, second, proofs }.bytes()
}

pub fn limits() -> Section<Exchange> {
    Section {
        title: "Sizes at their limits",
        about: "Refusal 2, by each size, and what is just inside the limits.",
        samples: vec![
            bare(
                "no-formulas",
                "Sizes 0 0 0 0, and nothing after them: a table has at least one entry.",
                bytes(&[0, 0, 0, 0]),
                "refused 2 place 0",
            ),
            bare(
                "4097-formulas",
                "Sizes 4097 0 0 0, and nothing after them: there are too many entries, which \
                 counts before the wrong length.",
                bytes(&[4097, 0, 0, 0]),
                "refused 2 place 0",
            ),
            bare(
                "16385-steps",
                "Sizes 1 0 0 16385, and nothing after them: there are too many steps, which \
                 counts before the wrong length.",
                bytes(&[1, 0, 0, 16385]),
                "refused 2 place 0",
            ),
            bare(
                "first-list-of-256",
                "The atom a0 256 times, and once; each time with its proof, which is one step.",
                same_atom(256, 1).bytes(),
                "equal",
            ),
            bare(
                "first-list-of-257",
                "The same, 257 times, and once.",
                same_atom(257, 1).bytes(),
                "refused 2 place 0",
            ),
            bare(
                "second-list-of-256",
                "The atom a0 once, and 256 times.",
                same_atom(1, 256).bytes(),
                "equal",
            ),
            bare(
                "second-list-of-257",
                "The same, once, and 257 times.",
                same_atom(1, 257).bytes(),
                "refused 2 place 0",
            ),
            bare(
                "longest",
                "The longest exchange file: 4,096 entries, 256 and 256 statements, 16,384 steps, \
                 50,184 bytes. The lists have a pair of atoms at each position, the one as (a \
                 and b), the other as (b and a), and each of the 512 proofs takes 32 steps: and \
                 left 29 times, and right, init, init.",
                longest(0),
                "equal",
            ),
            bare(
                "longest-a-step-short",
                "The same, but the last proof begins with one and left more, and its last step \
                 is missing: a premise is open, and the place is 16,384.",
                longest(1),
                "refused 9 place 16384",
            ),
            bare(
                "longest-and-a-byte",
                "The longest exchange file and one byte more.",
                [&longest(0)[..], &[0]].concat(),
                "refused 3 place 0",
            ),
        ],
    }
}
