//! The worked fold of docs/FOLDING.md: the standing orders of three machine halls, one shorter list
//! of equal force, and an old release.
use crate::exchange::Exchange;
use crate::record::Record;
use crate::sample::{bare, sample, Kind, Section};
use builder::papers::opened;
use builder::steps::*;
use builder::table::Entry::{And, Atom, Implies, Says};
use builder::table::Table;

/// The table, and its entries by what they say; docs/FOLDING.md has their numbers.
struct Orders {
    table: Table,
    sound: u16,
    weighed: u16,
    waste: u16,
    leaves: u16,
    lab_says: u16,
    weigher_says: u16,
    storekeeper_says: u16,
    lab_counts: u16,
    weigher_counts: u16,
    sound_and_weighed: u16,
    release: u16,
    both_say: u16,
    release_on_word: u16,
    both_count: u16,
    release_in_turn: u16,
    waste_leaves: u16,
}

fn orders() -> Orders {
    let mut table = Table::default();
    let sound = table.number(Atom(0));
    let weighed = table.number(Atom(1));
    let waste = table.number(Atom(2));
    let leaves = table.number(Atom(3));
    let lab_says = table.number(Says(7, sound));
    let weigher_says = table.number(Says(8, weighed));
    let storekeeper_says = table.number(Says(9, waste));
    let lab_counts = table.number(Implies(lab_says, sound));
    let weigher_counts = table.number(Implies(weigher_says, weighed));
    let sound_and_weighed = table.number(And(sound, weighed));
    let release = table.number(Implies(sound_and_weighed, leaves));
    let both_say = table.number(And(lab_says, weigher_says));
    let release_on_word = table.number(Implies(both_say, leaves));
    let both_count = table.number(And(lab_counts, weigher_counts));
    let if_weighed = table.number(Implies(weighed, leaves));
    let release_in_turn = table.number(Implies(sound, if_weighed));
    let waste_leaves = table.number(Implies(storekeeper_says, leaves));
    Orders {
        table,
        sound,
        weighed,
        waste,
        leaves,
        lab_says,
        weigher_says,
        storekeeper_says,
        lab_counts,
        weigher_counts,
        sound_and_weighed,
        release,
        both_say,
        release_on_word,
        both_count,
        release_in_turn,
        waste_leaves,
    }
}

/// An order of the form "(K says A) implies B", A and B atoms, from itself.
fn on_word(order: u16, paper: u16, says: u16, then: u16) -> Vec<u16> {
    [&[IMPLIES_RIGHT, IMPLIES_LEFT + order], &opened(paper, says)[..], &[INIT + then]].concat()
}

impl Orders {
    /// The orders of the first hall, then of the second, then of the third.
    fn old_list(&self) -> Vec<u16> {
        let first = [self.lab_counts, self.weigher_counts, self.release];
        let second = [self.lab_counts, self.release_on_word];
        let third = [self.both_count, self.release_in_turn, self.waste_leaves];
        [&first[..], &second, &third].concat()
    }

    /// One shorter list of equal force.
    fn new_list(&self) -> Vec<u16> {
        vec![self.lab_counts, self.weigher_counts, self.release, self.waste_leaves]
    }

    fn lab_counts(&self) -> Vec<u16> {
        on_word(self.lab_counts, self.lab_says, self.sound, self.sound)
    }

    fn weigher_counts(&self) -> Vec<u16> {
        on_word(self.weigher_counts, self.weigher_says, self.weighed, self.weighed)
    }

    fn waste_leaves(&self) -> Vec<u16> {
        on_word(self.waste_leaves, self.storekeeper_says, self.waste, self.leaves)
    }

    /// That the reel may leave, by the order of release, where both its conditions are hypotheses.
    fn by_release(&self) -> Vec<u16> {
        vec![
            IMPLIES_LEFT + self.release,
            AND_RIGHT,
            INIT + self.sound,
            INIT + self.weighed,
            INIT + self.leaves,
        ]
    }

    /// The order of release from itself.
    fn release(&self) -> Vec<u16> {
        [&[IMPLIES_RIGHT, AND_LEFT + self.sound_and_weighed], &self.by_release()[..]].concat()
    }

    fn release_in_turn(&self) -> Vec<u16> {
        [&[IMPLIES_RIGHT, IMPLIES_RIGHT], &self.by_release()[..]].concat()
    }

    fn release_on_word(&self) -> Vec<u16> {
        [
            &[IMPLIES_RIGHT, AND_LEFT + self.both_say, IMPLIES_LEFT + self.lab_counts],
            &opened(self.lab_says, self.sound)[..],
            &[IMPLIES_LEFT + self.weigher_counts],
            &opened(self.weigher_says, self.weighed),
            &self.by_release(),
        ]
        .concat()
    }

    fn both_count(&self, weigher_counts: &[u16]) -> Vec<u16> {
        [&[AND_RIGHT], &self.lab_counts()[..], weigher_counts].concat()
    }
}

/// The fold that is equal: proofs of the new list from the old one, and then of the old one from
/// the new.
fn fold() -> Exchange {
    let orders = orders();
    let second = orders.new_list();
    let proofs = vec![
        orders.lab_counts(),
        orders.weigher_counts(),
        orders.release(),
        orders.waste_leaves(),
        // the first hall
        orders.lab_counts(),
        orders.weigher_counts(),
        orders.release(),
        // the second hall
        orders.lab_counts(),
        orders.release_on_word(),
        // the third hall
        orders.both_count(&orders.weigher_counts()),
        orders.release_in_turn(),
        orders.waste_leaves(),
    ];
    Exchange { first: orders.old_list(), second, proofs, table: orders.table.to_vec() }
}

/// The fold without the order that the weigher's word counts. Where it is needed, the word is
/// believed without it.
fn wrong_fold() -> Exchange {
    let orders = orders();
    let second = vec![orders.lab_counts, orders.release, orders.waste_leaves];
    let believed = [SAYS_LEFT + orders.weigher_says, INIT + orders.weighed];
    let weigher_counts = [&[IMPLIES_RIGHT], &believed[..]].concat();
    let release_on_word = [
        &[IMPLIES_RIGHT, AND_LEFT + orders.both_say, IMPLIES_LEFT + orders.lab_counts],
        &opened(orders.lab_says, orders.sound)[..],
        &[IMPLIES_LEFT + orders.release, AND_RIGHT, INIT + orders.sound],
        &believed,
        &[INIT + orders.leaves],
    ]
    .concat();
    let proofs = vec![
        orders.lab_counts(),
        orders.release(),
        orders.waste_leaves(),
        // the first hall
        orders.lab_counts(),
        weigher_counts.clone(),
        orders.release(),
        // the second hall
        orders.lab_counts(),
        release_on_word,
        // the third hall
        orders.both_count(&weigher_counts),
        orders.release_in_turn(),
        orders.waste_leaves(),
    ];
    Exchange { first: orders.old_list(), second, proofs, table: orders.table.to_vec() }
}

/// The fold without the order about waste, which the last proof names all the same.
fn waste_left_out() -> Exchange {
    let mut fold = fold();
    fold.second.pop();
    fold.proofs.remove(fold.second.len());
    fold
}

/// The fold that is equal, without its last proof.
fn proof_missing() -> Exchange {
    let mut fold = fold();
    fold.proofs.pop();
    fold
}

/// A release by these orders and the papers of the lab and the weigher.
fn released(orders: &Orders, by: &[u16], steps: Vec<u16>) -> Record {
    let statements = [by, &[orders.lab_says, orders.weigher_says]].concat();
    Record { table: orders.table.to_vec(), statements, goal: orders.leaves, steps }
}

const ABOUT: &str =
    "The worked fold of `docs/FOLDING.md`. Read a0 as \"the reel is sound\", a1 as \"the weight \
     is booked\", a2 as \"the reel is waste\", a3 as \"the reel may leave the store\", p7 as the \
     lab, p8 as the weigher, and p9 as the storekeeper.";

/// An old release of the second hall, and what becomes of it.
pub fn releases() -> Section<Record> {
    let orders = orders();
    let by_word = [
        &[IMPLIES_LEFT + orders.release_on_word, AND_RIGHT],
        &opened(orders.lab_says, orders.sound)[..],
        &opened(orders.weigher_says, orders.weighed),
        &[INIT + orders.leaves],
    ]
    .concat();
    // the last steps of that order's proof from the new list, which begin where both papers are
    // hypotheses
    let by_new = orders.release_on_word().split_off(2);
    Section {
        title: "Three machine halls",
        about: ABOUT,
        samples: vec![
            sample(
                "three-halls-release",
                "An old release of the second hall, by two of its orders and the papers of the \
                 lab and the weigher.",
                released(&orders, &[orders.lab_counts, orders.release_on_word], by_word.clone()),
                "granted 2 7 8",
            ),
            sample(
                "three-halls-release-old-steps",
                "The same papers with the new orders, and the steps of the old release: the \
                 first names an order that is no longer there.",
                released(&orders, &orders.new_list(), by_word),
                "refused 12 place 0",
            ),
            sample(
                "three-halls-release-new-steps",
                "The same papers with the new orders, and a proof from them: the goal has kept \
                 one.",
                released(&orders, &orders.new_list(), by_new),
                "granted 2 7 8",
            ),
        ],
    }
}

/// The fold, two wrong ones, and one that does not carry all proofs.
pub fn folds() -> Section<Exchange> {
    Section {
        title: "Three machine halls",
        about: ABOUT,
        samples: vec![
            sample(
                "three-halls",
                "The orders of three halls, one list after the other, against one list of four. \
                 Three orders of the first hall stand in the new list, and so does one of the \
                 third; the others follow from these.",
                fold(),
                "equal",
            ),
            sample(
                "three-halls-wrong-fold",
                "A fold that is too short: the order that the weigher's word counts was left \
                 out, and the class believes the word without it.",
                wrong_fold(),
                "refused 14 place 29",
            )
            .no_proof(&[], &[8]),
            sample(
                "three-halls-waste-left-out",
                "Another fold that is too short: the order about waste was left out, and its proof \
                 names it all the same.",
                waste_left_out(),
                "refused 12 place 89",
            )
            .no_proof(&[], &[9]),
            bare(
                "three-halls-proof-missing",
                "The lists of the first file, without the proof of the third hall's last order. \
                 The lists are equal in force all the same; this file does not carry the proofs.",
                proof_missing().bytes(),
                "refused 9 place 95",
            ),
        ],
    }
}
