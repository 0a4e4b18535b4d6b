//! Files of the largest sizes, exactly: 4,096 formulas, 256 statements (in each list), 16,384
//! steps.
use crate::derivations::Grower;
use crate::derivations::Judgment::Truth;
use crate::parts::{Kind, Parts};
use crate::random_table::RandomTable;
use builder::random::Random;
use builder::table::Entry::{And, Atom, Implies, Or, Says};

/// Each of the sizes is the largest or not.
pub fn some_largest(random: &mut Random, kind: Kind) -> Parts {
    let full = [random.one_in(2), random.one_in(2), random.one_in(2)];
    largest(random, kind, full)
}

/// Formulas, statements and steps: as many as there may be, where it is asked, else far fewer.
pub fn largest(random: &mut Random, kind: Kind, full: [bool; 3]) -> Parts {
    let formulas = if full[0] { 4096 } else { random.between(300, 600) };
    let statements = if full[1] { 256 } else { random.between(24, 40) };
    let steps = if full[2] { 16384 } else { random.between(4000, 8000) };
    let mut table = RandomTable::default();
    let stated = supplies(&mut table, random, statements);
    let parts = match kind {
        Kind::Record => {
            let goal = random.pick(&stated);
            let steps = proof(&mut table, random, &stated, goal, steps);
            table.fill(random, formulas);
            Parts::record(&table, stated, goal, steps)
        }
        Kind::Exchange => {
            // the same statements in another order, so that they all stand on either side
            let mut other = stated.clone();
            random.shuffle(&mut other);
            let mut due: Vec<u16> = other.iter().chain(&stated).copied().collect();
            let last = due.pop().expect("there are statements");
            let mut left = steps;
            let mut proofs = vec![];
            for goal in due {
                // mostly as short as can be; a long one now and then
                let least = table.identity_steps(goal);
                let length = least + if random.one_in(20) { random.below(400) } else { 0 };
                let length = if left > length + 8000 { length } else { least };
                proofs.push(proof(&mut table, random, &stated, goal, length));
                left = left.saturating_sub(length);
            }
            let length = left.max(table.identity_steps(last));
            proofs.push(proof(&mut table, random, &stated, last, length));
            table.fill(random, formulas);
            Parts::exchange(&table, stated, other, &proofs)
        }
    };
    if random.one_in(2) {
        parts.in_other_order(&table, random)
    } else {
        parts
    }
}

/// So many statements over a few atoms, some of them equal, some signed, all with a short proof
/// from themselves.
fn supplies(table: &mut RandomTable, random: &mut Random, count: usize) -> Vec<u16> {
    let [p, q, r] = [0, 1, 2].map(|atom| table.number(Atom(atom)));
    let mut stated = vec![p, q];
    stated.extend([And(p, q), Or(q, p), Implies(p, r), Says(7, q)].map(|e| table.number(e)));
    while stated.len() < count {
        let (a, b) = (random.pick(&[p, q, r]), random.pick(&[p, q]));
        let entry = match random.below(8) {
            0 => Atom(random.name()),
            1 => And(a, b),
            2 => Or(a, b),
            3 => Implies(b, a),
            4 => Says(random.name(), b),
            _ => Says(random.below(4096) as u16, a),
        };
        stated.push(table.number(entry));
    }
    random.shuffle(&mut stated);
    stated
}

/// A proof of one of the statements with exactly so many steps, and no new statement.
fn proof(
    table: &mut RandomTable,
    random: &mut Random,
    stated: &[u16],
    goal: u16,
    steps: usize,
) -> Vec<u16> {
    let mut grower = Grower::new(random, table, 0);
    stated.iter().for_each(|&statement| grower.state(statement));
    grower.grow(Truth(goal), steps.max(grower.least(Truth(goal))), 1);
    grower.steps
}
