//! Files put together: a table, statements over it, and the proofs.
use super::provable_table::ProvableTable;
use super::prover::{truth, Goal, Prover};
use super::{File, Sizes};
use builder::crowded::{fill_crowded, most_at_one_root};
use builder::layout;
use builder::papers::signed;
use builder::random::Random;
use builder::steps::{code, AND_RIGHT};
use builder::table::Entry::{And, Implies, Or, Says};
use builder::table::Table;

/// Statements to these, up to a count: formulas that have a short proof, so that they may stand in
/// either list of an exchange. About every other one is signed, and few stand twice.
fn more_statements(
    table: &ProvableTable,
    mut statements: Vec<u16>,
    count: usize,
    random: &mut Random,
) -> Vec<u16> {
    while statements.len() < count {
        let n = random.below(table.len()) as u16;
        let is_turn = matches!(table.entry(n), Says(..)) == (statements.len() % 2 == 1);
        let is_wanted = is_turn && !statements.contains(&n);
        if short(table, n) && (is_wanted || random.one_in(50)) {
            statements.push(n);
        }
    }
    statements
}

fn short(table: &ProvableTable, n: u16) -> bool {
    table.least[n as usize].is_some_and(|least| least <= 12)
}

/// The last formula with a short proof, for a goal that is no atom.
fn goal_in(table: &ProvableTable) -> u16 {
    let last = (0..table.len() as u16).rev().find(|&n| short(table, n));
    last.expect("held atoms have short proofs")
}

/// A long proof has every rule.
fn assert_mixed(steps: &[u16]) {
    let has = |rule: u16| steps.iter().any(|&step| code(step) == rule);
    assert!(steps.len() < 1000 || (0..12).all(has));
}

fn record_file(table: &ProvableTable, statements: &[u16], goal: u16, steps: &[u16]) -> File {
    assert_mixed(steps);
    File::record(&layout::record(table, statements, goal, steps))
}

fn exchange_file(table: &ProvableTable, first: &[u16], second: &[u16], steps: &[u16]) -> File {
    assert_mixed(steps);
    File::exchange(&layout::exchange(table, first, second, steps))
}

/// A record over a table, with exactly these sizes.
fn record_over(table: &ProvableTable, base: Vec<u16>, sizes: Sizes, mut random: Random) -> File {
    let statements = more_statements(table, base, sizes.statements, &mut random);
    let goal = goal_in(table);
    let mut prover = Prover { table, held: statements.clone(), random, steps: Vec::new() };
    prover.prove(truth(goal), sizes.steps);
    record_file(table, &statements, goal, &prover.steps)
}

/// An exchange file over a table, with exactly these sizes, the steps spread evenly over the
/// proofs.
fn exchange_over(table: &ProvableTable, base: Vec<u16>, sizes: Sizes, mut random: Random) -> File {
    let first = more_statements(table, base.clone(), sizes.statements, &mut random);
    let second = more_statements(table, base, sizes.statements, &mut random);
    let mut prover = Prover { table, held: Vec::new(), random, steps: Vec::new() };
    let least: usize = first.iter().chain(&second).map(|&n| prover.least(truth(n))).sum();
    let mut spare = sizes.steps - least;
    let mut due = first.len() + second.len();
    for (from, goals) in [(&first, &second), (&second, &first)] {
        prover.held = from.clone();
        for &n in goals {
            let part = spare / due;
            (spare, due) = (spare - part, due - 1);
            prover.prove(truth(n), prover.least(truth(n)) + part);
        }
    }
    exchange_file(table, &first, &second, &prover.steps)
}

fn filled(formulas: usize, random: &mut Random) -> (ProvableTable, Vec<u16>) {
    let (mut table, base) = ProvableTable::begin();
    table.fill(formulas, random);
    (table, base)
}

pub fn record(sizes: Sizes) -> File {
    let mut random = Random::by_remainder(1);
    let (table, base) = filled(sizes.formulas, &mut random);
    record_over(&table, base, sizes, random)
}

pub fn exchange(sizes: Sizes) -> File {
    let mut random = Random::by_remainder(2);
    let (table, base) = filled(sizes.formulas, &mut random);
    exchange_over(&table, base, sizes, random)
}

/// A record with so many papers, each of another principal, in no order, and all of them opened.
pub fn signed_record(papers: usize) -> File {
    let principals: Vec<u16> = (0..papers).map(|paper| (paper * 2017 % 4096) as u16).collect();
    File::record(&signed(0, &principals, &principals))
}

fn crowded(formulas: usize) -> (ProvableTable, Vec<u16>) {
    let (mut table, base) = ProvableTable::begin();
    let mut filled = Table::clone(&table);
    fill_crowded(&mut filled, formulas);
    for number in table.len()..formulas {
        table.add(filled.entry(number as u16));
    }
    assert!(most_at_one_root(&table) > formulas / 2);
    (table, base)
}

/// A record over a table that falls into few roots.
pub fn crowded_record(sizes: Sizes) -> File {
    let (table, base) = crowded(sizes.formulas);
    record_over(&table, base, sizes, Random::by_remainder(3))
}

/// The same for an exchange file.
pub fn crowded_exchange(sizes: Sizes) -> File {
    let (table, base) = crowded(sizes.formulas);
    exchange_over(&table, base, sizes, Random::by_remainder(4))
}

/// A chain of formulas, each around the one before it, whose proofs are up to `depth` deep, in a
/// table with the usual beginning. The last stands at the table's end.
fn chain(depth: usize, random: &mut Random) -> (ProvableTable, Vec<u16>) {
    let (mut table, base) = ProvableTable::begin();
    let mut last = 0;
    while table.least[last as usize].is_some_and(|least| least + 2 <= depth) {
        let other = random.below(4) as u16;
        let around = match random.below(4) {
            0 => Implies(other, last),
            1 => Or(last, 4),
            2 => Or(4, last),
            _ => Says(random.pick(&[7, 8]), last),
        };
        last = table.add(around).unwrap_or(last);
    }
    (table, base)
}

/// And right is the record's first rule so often on each way.
const LEVELS: usize = 4;

/// A record whose proof has 16 branches, each with a step of this depth.
pub fn deep_record(depth: usize) -> File {
    let mut random = Random::by_remainder(5);
    let (mut table, statements) = chain((depth - LEVELS) / 2, &mut random);
    let leaf = table.len() as u16 - 1;
    let mut goal = leaf;
    for _ in 0..LEVELS {
        goal = table.add(And(goal, goal)).expect("a new formula");
    }
    let mut prover = Prover { table: &table, held: statements.clone(), random, steps: Vec::new() };
    branches(&mut prover, LEVELS, truth(leaf), depth - LEVELS);
    record_file(&table, &statements, goal, &prover.steps)
}

/// And right, so many times on each way, and then a proof of a depth.
fn branches(prover: &mut Prover, levels: usize, goal: Goal, depth: usize) {
    if levels == 0 {
        return prover.descend(goal, depth);
    }
    prover.steps.push(AND_RIGHT);
    branches(prover, levels - 1, goal, depth);
    branches(prover, levels - 1, goal, depth);
}

/// An exchange file whose lists have ten statements each whose proofs are of this depth.
pub fn deep_exchange(depth: usize) -> File {
    let mut random = Random::by_remainder(6);
    let (table, base) = chain(depth / 2, &mut random);
    let last = table.len() as u16;
    let with_ten = |from: u16| base.iter().copied().chain(from..from + 10).collect();
    let [first, second]: [Vec<u16>; 2] = [last - 20, last - 10].map(with_ten);
    let mut prover = Prover { table: &table, held: Vec::new(), random, steps: Vec::new() };
    for (from, goals) in [(&first, &second), (&second, &first)] {
        prover.held = from.clone();
        for (i, &n) in goals.iter().enumerate() {
            if i < base.len() {
                prover.prove(truth(n), prover.least(truth(n)));
            } else {
                prover.descend(truth(n), depth);
            }
        }
    }
    exchange_file(&table, &first, &second, &prover.steps)
}
