//! Exchange files whose two lists are of equal force, with all their proofs.
use crate::derivations::{longer, Grower, Judgment, Slip};
use crate::identity::identity;
use crate::parts::Parts;
use crate::random_table::RandomTable;
use crate::slips;
use builder::random::Random;
use builder::steps::*;
use builder::table::Entry::{self, And, False, Implies, Or, Says};

/// A statement of one list and a proof of it from the other.
type Proved = (u16, Vec<u16>);

/// The two lists.
#[derive(Default)]
struct Lists {
    first: Vec<Proved>,
    second: Vec<Proved>,
}

/// A small exchange file; also two empty lists, and one empty list against what needs no
/// hypothesis.
pub fn small(random: &mut Random, slip: Option<Slip>) -> Parts {
    let mut table = RandomTable::default();
    let unused = random.below(3);
    table.fill(random, unused);
    let mut lists = Lists::default();
    if slip.is_some() || random.one_in(3) {
        lists.consequences(&mut table, random, slip);
    }
    for _ in 0..random.pick(&[0, 1, 1, 1, 2, 2, 3, 4]) {
        lists.pair(&mut table, random);
    }
    lists.in_file(table, random)
}

/// A proof that starts with these steps and goes on with proofs.
fn after(start: &[u16], proofs: &[&[u16]]) -> Vec<u16> {
    [start, &proofs.concat()].concat()
}

impl Lists {
    /// Lists with a common part, and on each side formulas that follow from it, with grown proofs.
    fn consequences(&mut self, table: &mut RandomTable, random: &mut Random, slip: Option<Slip>) {
        let mut grower = Grower::new(random, table, 40);
        grower.slip = slip;
        for _ in 0..grower.random.between(1, 3) {
            let goal = match slip {
                Some(_) => slips::goal(grower.random, grower.table, 2),
                None => grower.table.formula(grower.random, 2),
            };
            let length = grower.random.between(1, 16).max(grower.least(Judgment::Truth(goal)));
            grower.grow(Judgment::Truth(goal), length, 1);
            let proof = std::mem::take(&mut grower.steps);
            let list = if grower.random.one_in(2) { &mut self.first } else { &mut self.second };
            list.push((goal, proof));
        }
        let common = grower.statements;
        for formula in common {
            let proof = identity(table, formula);
            self.first.push((formula, proof.clone()));
            self.second.push((formula, proof));
        }
    }

    /// A few statements for each list, which prove one another.
    fn pair(&mut self, table: &mut RandomTable, random: &mut Random) {
        let [a, b, c] = [1, 1, 0].map(|levels| table.formula(random, levels));
        let k = random.name();
        let [by_a, by_b, by_c] = [a, b, c].map(|formula| identity(table, formula));
        let mut number = |entry: Entry| table.number(entry);
        let (first, second): (Vec<Proved>, Vec<Proved>) = match random.below(12) {
            // A | A
            0 => (vec![(a, by_a.clone())], vec![(a, by_a)]),
            // A, B | A and B
            1 => {
                let x = number(And(a, b));
                let of_x = |proof: &[u16]| after(&[AND_LEFT + x], &[proof]);
                let of_both = after(&[AND_RIGHT], &[&by_a, &by_b]);
                (vec![(a, of_x(&by_a)), (b, of_x(&by_b))], vec![(x, of_both)])
            }
            // A, A implies B | A, B
            2 => {
                let x = number(Implies(a, b));
                let of_x = after(&[IMPLIES_RIGHT], &[&by_b]);
                let of_b = after(&[IMPLIES_LEFT + x], &[&by_a, &by_b]);
                (vec![(a, by_a.clone()), (x, of_x)], vec![(a, by_a), (b, of_b)])
            }
            // A | A or A
            3 => {
                let x = number(Or(a, a));
                let side = random.pick(&[OR_RIGHT_FIRST, OR_RIGHT_SECOND]);
                let of_a = after(&[OR_LEFT + x], &[&by_a, &by_a]);
                (vec![(a, of_a)], vec![(x, after(&[side], &[&by_a]))])
            }
            // A | A, K says A
            4 => {
                let x = number(Says(k, a));
                let of_x = after(&[SAYS_RIGHT, AFFIRM], &[&by_a]);
                (vec![(a, by_a.clone())], vec![(a, by_a), (x, of_x)])
            }
            // K says A | K says K says A
            5 => {
                let x = number(Says(k, a));
                let y = number(Says(k, x));
                let open_x = [SAYS_LEFT + x, AFFIRM];
                let of_x = after(&[SAYS_RIGHT, SAYS_LEFT + y], &[&open_x, &by_a]);
                let of_y = after(&[SAYS_RIGHT, AFFIRM, SAYS_RIGHT], &[&open_x, &by_a]);
                (vec![(x, of_x)], vec![(y, of_y)])
            }
            // K says (A and B) | K says A, K says B
            6 => {
                let (both, x, y) = (number(And(a, b)), number(Says(k, a)), number(Says(k, b)));
                let z = number(Says(k, both));
                let open_z = [SAYS_RIGHT, SAYS_LEFT + z, AND_LEFT + both, AFFIRM];
                let of = |proof: &[u16]| after(&open_z, &[proof]);
                let open_both = [SAYS_RIGHT, SAYS_LEFT + x, SAYS_LEFT + y, AFFIRM, AND_RIGHT];
                let of_z = after(&open_both, &[&by_a, &by_b]);
                (vec![(z, of_z)], vec![(x, of(&by_a)), (y, of(&by_b))])
            }
            // false | false, A
            7 if random.one_in(3) => {
                let x = number(False);
                let free = vec![FALSE_LEFT + x];
                (vec![(x, free.clone())], vec![(x, free.clone()), (a, free)])
            }
            // A implies (B implies C) | (A and B) implies C
            8 => {
                let (inner, both) = (number(Implies(b, c)), number(And(a, b)));
                let (x, y) = (number(Implies(a, inner)), number(Implies(both, c)));
                let open_x = [IMPLIES_RIGHT, IMPLIES_RIGHT, IMPLIES_LEFT + y, AND_RIGHT];
                let of_x = after(&open_x, &[&by_a, &by_b, &by_c]);
                let open_y = [IMPLIES_RIGHT, AND_LEFT + both, IMPLIES_LEFT + x];
                let of_y = after(&open_y, &[&by_a, &[IMPLIES_LEFT + inner], &by_b, &by_c]);
                (vec![(x, of_x)], vec![(y, of_y)])
            }
            // (A or B) implies C | A implies C, B implies C
            9 => {
                let (either, y, z) =
                    (number(Or(a, b)), number(Implies(a, c)), number(Implies(b, c)));
                let x = number(Implies(either, c));
                let of = |side: u16, proof: &[u16]| {
                    after(&[IMPLIES_RIGHT, IMPLIES_LEFT + x, side], &[proof, &by_c])
                };
                let (of_y, of_z) = (of(OR_RIGHT_FIRST, &by_a), of(OR_RIGHT_SECOND, &by_b));
                let cases =
                    [&[IMPLIES_LEFT + y][..], &by_a, &by_c, &[IMPLIES_LEFT + z], &by_b, &by_c];
                let of_x = after(&[IMPLIES_RIGHT, OR_LEFT + either], &cases);
                (vec![(x, of_x)], vec![(y, of_y), (z, of_z)])
            }
            // A, A implies false | false
            10 if random.one_in(3) => {
                let falsehood = number(False);
                let x = number(Implies(a, falsehood));
                let free = vec![FALSE_LEFT + falsehood];
                let of_false = after(&[IMPLIES_LEFT + x], &[&by_a, &free]);
                (vec![(a, free.clone()), (x, free)], vec![(falsehood, of_false)])
            }
            // nothing | A implies A
            _ => (vec![], vec![(number(Implies(a, a)), after(&[IMPLIES_RIGHT], &[&by_a]))]),
        };
        let (one, other) = if random.one_in(2) { (first, second) } else { (second, first) };
        self.first.extend(one);
        self.second.extend(other);
    }

    /// The file: each list in any order, with repeats, and some proofs longer than they need be.
    fn in_file(mut self, mut table: RandomTable, random: &mut Random) -> Parts {
        for list in [&mut self.first, &mut self.second] {
            while !list.is_empty() && random.one_in(4) {
                list.push(list[random.below(list.len())].clone());
            }
            random.shuffle(list);
        }
        let numbers = |list: &[Proved]| list.iter().map(|proved| proved.0).collect::<Vec<u16>>();
        let (first, second) = (numbers(&self.first), numbers(&self.second));
        let mut proofs = vec![];
        for (from, list) in [(&first, self.second), (&second, self.first)] {
            for (_, proof) in list {
                let is_longer = !from.is_empty() && random.one_in(3);
                proofs.push(if is_longer { longer(&table, random, from, proof) } else { proof });
            }
        }
        let unused = table.len().max(1) + random.below(3);
        table.fill(random, unused);
        let parts = Parts::exchange(&table, first, second, &proofs);
        if random.one_in(2) {
            parts.in_other_order(&table, random)
        } else {
            parts
        }
    }
}
