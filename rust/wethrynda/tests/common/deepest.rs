//! Proofs that need most stack: each step on the way down is checked by a call within the call for
//! the step before it, while table, words and hypotheses have the largest arrays.
use builder::steps::*;
use builder::table::Entry::{And, Atom, Implies, Or, Says};
use builder::table::Table;

pub struct Deepest {
    /// 4,096 entries, the first an atom.
    pub table: Table,
    /// 256 statements, the first the atom. The papers are principal 7's, and the proof opens none.
    pub statements: Vec<u16>,
    /// A proof of a goal, from the atom, that is 512 deep.
    pub goal: u16,
    pub proof: Vec<u16>,
    /// Goals with 16,384 steps each, named by the rules of the first 512. Each of these is one
    /// deeper than the step before it, and so is the next, which is refused for that.
    pub too_deep: Vec<(&'static str, u16, Vec<u16>)>,
}

pub fn deepest() -> Deepest {
    let mut table = Table::default();
    let atom = table.number(Atom(0));
    let said = table.number(Says(7, atom));
    let or = table.number(Or(atom, atom));
    let [implies, from_said] = [atom, said].map(|from| table.number(Implies(from, atom)));
    let goal = (0..511).fold(atom, |last, _| table.number(And(last, atom)));
    let ands = table.number(And(goal, atom));
    let says = (0..256).fold(atom, |last, _| table.number(Says(7, last)));
    (1..=4096 - table.len() as u16).for_each(|other| _ = table.number(Atom(other)));
    let affirmed = [vec![SAYS_RIGHT], vec![OR_LEFT + or; 511]].concat();
    let too_deep = [
        ("and right", ands, vec![AND_RIGHT; 512]),
        ("implies left", atom, vec![IMPLIES_LEFT + implies; 512]),
        ("or left", atom, vec![OR_LEFT + or; 512]),
        ("or left of an affirmation", said, affirmed),
        ("says right and affirm", says, [SAYS_RIGHT, AFFIRM].repeat(256)),
        ("says right and implies left", said, [SAYS_RIGHT, IMPLIES_LEFT + from_said].repeat(256)),
    ];
    Deepest {
        table,
        statements: [[atom, said, or, implies], [from_said; 4]].concat().repeat(32),
        goal,
        proof: [vec![AND_RIGHT; 511], vec![INIT + atom; 512]].concat(),
        too_deep: too_deep.map(|(about, goal, steps)| (about, goal, filled(steps))).to_vec(),
    }
}

/// Steps up to the most that a file has.
fn filled(mut steps: Vec<u16>) -> Vec<u16> {
    steps.resize(16_384, INIT);
    steps
}
