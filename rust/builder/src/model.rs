//! Models with one world, which show that something has no proof: some atoms are true, and some
//! principals say everything. `crates/logic/specs/Countermodels.antt` has the definition.
use crate::table::Entry::{self, And, Atom, False, Implies, Or, Says};

#[derive(Clone, Debug, PartialEq, Eq)]
pub struct Model {
    pub atoms: Vec<u16>,
    pub principals: Vec<u16>,
}

impl Model {
    pub fn new(atoms: &[u16], principals: &[u16]) -> Model {
        Model { atoms: atoms.to_vec(), principals: principals.to_vec() }
    }

    /// For each entry of a table whose operands stand before it, whether it is true.
    pub fn truths(&self, table: &[(u16, u16)]) -> Vec<bool> {
        let mut truths: Vec<bool> = Vec::new();
        for &entry in table {
            let is = |formula: u16| truths[usize::from(formula)];
            truths.push(match Entry::of(entry).expect("a kind below 6") {
                Atom(atom) => self.atoms.contains(&atom),
                False => false,
                Implies(a, b) => !is(a) || is(b),
                And(a, b) => is(a) && is(b),
                Or(a, b) => is(a) || is(b),
                Says(principal, a) => self.principals.contains(&principal) || is(a),
            });
        }
        truths
    }

    /// The first of these formulas that is false where all those are true; so it has no proof from
    /// them.
    pub fn refuted(&self, table: &[(u16, u16)], from: &[u16], of: &[u16]) -> Option<u16> {
        let truths = self.truths(table);
        let is = |formula: &u16| truths[usize::from(*formula)];
        if !from.iter().all(is) {
            return None;
        }
        of.iter().copied().find(|formula| !is(formula))
    }

    pub fn in_words(&self) -> String {
        let atoms = match &listed('a', &self.atoms)[..] {
            [] => "no atom is true".to_string(),
            [one] => format!("only {one} is true"),
            more => format!("only {} are true", joined(more)),
        };
        match &listed('p', &self.principals)[..] {
            [] => format!("suppose that {atoms} and nobody says everything"),
            [one] => format!("suppose that {atoms} and {one} says everything"),
            more => format!("suppose that {atoms} and {} say everything", joined(more)),
        }
    }
}

fn listed(letter: char, numbers: &[u16]) -> Vec<String> {
    numbers.iter().map(|number| format!("{letter}{number}")).collect()
}

/// Two words or more, with commas and an "and".
fn joined(words: &[String]) -> String {
    let (last, before) = words.split_last().expect("words");
    format!("{} and {last}", before.join(", "))
}
