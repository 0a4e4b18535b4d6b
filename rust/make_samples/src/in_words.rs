//! What a file holds, in words: rows for the index page.
use builder::steps::{code, names, part, RULES};
use builder::table::Entry::{self, And, Atom, False, Implies, Or, Says};

type Table = [(u16, u16)];

/// A row for each entry of the table.
pub fn entries(table: &Table) -> Vec<String> {
    let numbers: Vec<u16> = (0..).take(table.len()).collect();
    formulas(table, &numbers)
}

/// A row for each formula of a list: its number, and what it spells out.
pub fn formulas(table: &Table, numbers: &[u16]) -> Vec<String> {
    let width = numbers.iter().map(|number| number.to_string().len()).max().unwrap_or(0);
    let row = |&number: &u16| format!("{number:<width$}  {}", formula(table, number));
    numbers.iter().map(row).collect()
}

/// A row for each step: its place, its word, its rule. A long run of one step takes one row, and an
/// empty row parts two proofs.
pub fn steps(table: &Table, proofs: &[&[u16]]) -> Vec<String> {
    let mut places = Vec::new();
    let mut next = 0;
    for proof in proofs.iter().filter(|proof| !proof.is_empty()) {
        if next > 0 {
            places.push(None);
        }
        for run in proof.chunk_by(|one, other| one == other) {
            let last = next + run.len() - 1;
            if run.len() > 9 {
                places.push(Some((format!("{next} to {last}"), run[0])));
            } else {
                let each = (next..).zip(run);
                places.extend(each.map(|(place, &step)| Some((place.to_string(), step))));
            }
            next = last + 1;
        }
    }
    let width = places.iter().flatten().map(|(place, _)| place.len()).max().unwrap_or(0);
    let row =
        |(place, step): (String, u16)| format!("{place:<width$}  {step:>5}  {}", rule(table, step));
    places.into_iter().map(|place| place.map_or(String::new(), row)).collect()
}

/// A step's rule, and the hypothesis that it names.
pub fn rule(table: &Table, step: u16) -> String {
    match RULES.get(usize::from(code(step))) {
        Some(name) if names(step) => format!("{name} {}", formula(table, part(step))),
        Some(name) => name.to_string(),
        None => "no rule".to_string(),
    }
}

/// What an entry spells out. Where it has no meaning, as in a table that is wrong, it is told by
/// its number.
pub fn formula(table: &Table, number: u16) -> String {
    let Some(&entry) = table.get(usize::from(number)) else {
        return "no entry".to_string();
    };
    let operand = |operand: u16| match operand < number {
        true => formula(table, operand),
        false => format!("entry {operand}"),
    };
    match Entry::of(entry) {
        Some(Atom(atom)) => format!("a{atom}"),
        Some(False) => "false".to_string(),
        Some(Implies(a, b)) => format!("({} implies {})", operand(a), operand(b)),
        Some(And(a, b)) => format!("({} and {})", operand(a), operand(b)),
        Some(Or(a, b)) => format!("({} or {})", operand(a), operand(b)),
        Some(Says(principal, a)) => format!("(p{principal} says {})", operand(a)),
        None => format!("entry {number}"),
    }
}
