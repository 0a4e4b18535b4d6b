//! Records with a right proof, or with one that follows a slip.
use crate::derivations::{longer, Grower, Judgment, Slip};
use crate::identity::identity;
use crate::parts::Parts;
use crate::random_table::RandomTable;
use crate::slips;
use builder::papers::all_of;
use builder::random::Random;
use builder::steps::*;
use builder::table::Entry::{And, False, Implies, Or, Says};

/// A small record: a random goal, a grown proof, what it needs as statements, and what nobody
/// needs.
pub fn small(random: &mut Random, slip: Option<Slip>) -> Parts {
    let mut table = RandomTable::default();
    let unused = random.below(4);
    table.fill(random, unused);
    let levels = random.below(4);
    let goal = match slip {
        Some(_) => slips::goal(random, &mut table, levels),
        None => table.formula(random, levels),
    };
    let steps = match random.below(8) {
        0 => random.between(30, 120),
        1 => 1,
        _ => random.between(1, 24),
    };
    let mut grower = Grower::new(random, &mut table, 60);
    grower.slip = slip;
    let steps = steps.max(grower.least(Judgment::Truth(goal)));
    grower.grow(Judgment::Truth(goal), steps, 1);
    let (statements, steps) = (grower.statements, grower.steps);
    dressed(random, table, statements, goal, steps)
}

/// Principals at the edges of decimal lengths, and of groups of 16 and of 64, by which a checker may
/// keep them.
const EDGES: [u16; 14] = [0, 1, 9, 10, 15, 16, 63, 64, 99, 100, 999, 1000, 4032, 4095];

/// A small record with papers that lie unused, by several principals in any order: mostly a few, now
/// and then as many as there may be statements.
pub fn signed(random: &mut Random) -> Parts {
    let mut parts = small(random, None);
    let room = 256 - parts.first.len();
    let papers = match random.below(32) {
        0 => room,
        1..=4 => random.between(7, 60),
        _ => random.between(2, 6),
    };
    for _ in 0..papers.min(room) {
        let any = random.below(4096) as u16;
        let principal = if random.one_in(3) { any } else { random.pick(&EDGES) };
        let entry = Says(principal, random.below(parts.table.len()) as u16).words();
        let place = parts.table.iter().position(|&other| other == entry);
        parts.first.push(place.unwrap_or(parts.table.len()) as u16);
        if place.is_none() {
            parts.table.push(entry);
        }
    }
    if random.one_in(2) {
        random.shuffle(&mut parts.first);
    }
    parts
}

/// A record whose goal takes some of its statements, each proved from itself. So opened papers stand
/// beside unused ones, often of the same principals; and what is opened may be a paper, or a part of
/// a statement that a rule has added, or both.
pub fn carried(random: &mut Random) -> Parts {
    let mut table = RandomTable::default();
    let count = if random.one_in(16) { random.between(30, 120) } else { random.between(2, 8) };
    let mut statements = vec![];
    for _ in 0..count {
        let statement = paper_or_around(&mut table, random, &statements);
        statements.push(statement);
    }
    let mut used: Vec<u16> = statements.iter().copied().filter(|_| random.one_in(2)).collect();
    if used.is_empty() {
        used.push(statements[0]);
    }
    random.shuffle(&mut used);
    let proofs: Vec<_> = used.iter().map(|&formula| (formula, identity(&table, formula))).collect();
    let (goal, steps) = all_of(&proofs, &mut |entry| table.number(entry));
    dressed(random, table, statements, goal, steps)
}

/// A paper, or a formula around one, which is new or stands among the statements.
fn paper_or_around(table: &mut RandomTable, random: &mut Random, statements: &[u16]) -> u16 {
    let is_paper = |number: &u16| matches!(table.entry(*number), Says(..));
    let stated: Vec<u16> = statements.iter().copied().filter(is_paper).collect();
    let paper = if stated.is_empty() || random.one_in(2) {
        let principal = if random.one_in(4) { random.pick(&EDGES) } else { random.name() };
        let said = table.formula(random, 1);
        table.number(Says(principal, said))
    } else {
        random.pick(&stated)
    };
    let other = table.formula(random, 1);
    itself_or_around(table, random, paper, other)
}

fn itself_or_around(table: &mut RandomTable, random: &mut Random, paper: u16, other: u16) -> u16 {
    let around = match random.below(8) {
        0 => And(paper, other),
        1 => And(other, paper),
        2 => Implies(other, paper),
        3 => Or(paper, other),
        4 => Says(random.name(), paper),
        _ => return paper,
    };
    table.number(around)
}

/// A small record with a contractor, who says several things, some of them about what he says. His
/// papers lie among the statements, or formulas around them, which the proof may name; some are no
/// statements. The rest is made without him, so that mostly he can't matter.
pub fn contracted(random: &mut Random) -> Parts {
    let mut table = RandomTable::default();
    let (goal, mut statements, mut steps) = grown(random, &mut table, 4, 20);
    let (contractor, others) = (random.between(5, 4095) as u16, table.len());
    let mut papers = vec![];
    for _ in 0..random.between(2, 6) {
        let other = random.below(others) as u16;
        let said = match random.below(3) {
            0 if !papers.is_empty() => table.number(Implies(random.pick(&papers), other)),
            1 if !papers.is_empty() => random.pick(&papers),
            _ => other,
        };
        let paper = table.number(Says(contractor, said));
        papers.push(paper);
        if random.below(3) > 0 {
            statements.push(itself_or_around(&mut table, random, paper, other));
        }
    }
    for _ in 0..random.below(4) {
        if !statements.is_empty() {
            steps = longer(&table, random, &statements, steps);
        }
    }
    dressed(random, table, statements, goal, steps)
}

/// A random goal of fewer than so many levels, what a grown proof of it needs as statements, mostly
/// no more than so many, and the proof.
fn grown(
    random: &mut Random,
    table: &mut RandomTable,
    levels: usize,
    statements: usize,
) -> (u16, Vec<u16>, Vec<u16>) {
    let levels = random.below(levels);
    let goal = table.formula(random, levels);
    let steps = random.between(1, 12).max(table.identity_steps(goal));
    let mut grower = Grower::new(random, table, statements);
    grower.grow(Judgment::Truth(goal), steps, 1);
    (goal, grower.statements, grower.steps)
}

/// A record of papers alone: some principal says all that a proof needs. Mostly he then says its goal
/// too, and the steps prove that, or an or around it. Else the papers are opened for the goal itself,
/// as if what he says were true, which is a proof only where it needs no statement.
pub fn of_papers(random: &mut Random) -> Parts {
    let mut table = RandomTable::default();
    let (goal, needed, proof) = grown(random, &mut table, 3, 8);
    let principal = random.name();
    let mut papers: Vec<u16> =
        needed.into_iter().map(|formula| table.number(Says(principal, formula))).collect();
    let opened: Vec<u16> = papers.iter().map(|paper| SAYS_LEFT + paper).collect();
    let (goal, steps) = if random.one_in(3) {
        (goal, [opened, proof].concat())
    } else {
        let said = table.number(Says(principal, goal));
        in_ors(random, &mut table, said, [&[SAYS_RIGHT], &opened[..], &[AFFIRM], &proof].concat())
    };
    while random.one_in(3) {
        let said = table.formula(random, 1);
        papers.push(table.number(Says(random.name(), said)));
    }
    random.shuffle(&mut papers);
    Parts::record(&table, papers, goal, steps).in_other_order(&table, random)
}

/// What has this proof, or an or of which it is a side, or one around that, and so on.
fn in_ors(
    random: &mut Random,
    table: &mut RandomTable,
    mut goal: u16,
    mut steps: Vec<u16>,
) -> (u16, Vec<u16>) {
    while random.one_in(2) {
        let other = table.formula(random, 1);
        let (around, right) = match random.one_in(2) {
            true => (Or(goal, other), OR_RIGHT_FIRST),
            false => (Or(other, goal), OR_RIGHT_SECOND),
        };
        goal = table.number(around);
        steps.insert(0, right);
    }
    (goal, steps)
}

/// "not not (A or not A)" has no proof without its hypothesis twice.
pub fn needs_twice(random: &mut Random) -> Parts {
    let mut table = RandomTable::default();
    let a = table.formula(random, 1);
    let falsehood = table.number(False);
    let not_a = table.number(Implies(a, falsehood));
    let either = table.number(Or(a, not_a));
    let neither = table.number(Implies(either, falsehood));
    let goal = table.number(Implies(neither, falsehood));
    let twice = IMPLIES_LEFT + neither;
    let start = [IMPLIES_RIGHT, twice, OR_RIGHT_SECOND, IMPLIES_RIGHT, twice, OR_RIGHT_FIRST];
    let end = [FALSE_LEFT + falsehood, FALSE_LEFT + falsehood];
    let steps = [&start[..], &identity(&table, a), &end].concat();
    dressed(random, table, vec![], goal, steps)
}

/// The record with unused and repeated statements, unused entries, and its parts in any order.
fn dressed(
    random: &mut Random,
    mut table: RandomTable,
    mut statements: Vec<u16>,
    goal: u16,
    steps: Vec<u16>,
) -> Parts {
    while random.one_in(3) {
        statements.push(table.formula(random, 1));
    }
    while !statements.is_empty() && random.one_in(4) {
        statements.push(random.pick(&statements));
    }
    if random.one_in(2) {
        random.shuffle(&mut statements);
    }
    let unused = table.len() + random.below(4);
    table.fill(random, unused);
    let parts = Parts::record(&table, statements, goal, steps);
    if random.one_in(2) {
        parts.in_other_order(&table, random)
    } else {
        parts
    }
}
