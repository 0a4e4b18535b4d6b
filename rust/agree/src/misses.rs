//! Near misses: right files with one or a few small faults in their parts. Sizes and length fit the
//! parts; `raw.rs` has those that don't.
use crate::parts::{Kind, Parts};
use builder::random::Random;
use builder::steps::{names, part, rule};

/// Most files get one fault; some two or three, so that the order of the tests shows.
pub fn some_misses(parts: &mut Parts, random: &mut Random) {
    let count = random.pick(&[1, 1, 1, 1, 2, 2, 3]);
    for _ in 0..count {
        match random.below(10) {
            0..=4 => step(parts, random),
            5 => statement(parts, random),
            6 | 7 => entry(parts, random),
            8 if parts.kind == Kind::Record => goal(parts, random),
            8 => proofs(parts, random),
            _ => steps(parts, random),
        }
    }
}

/// A formula number that is wrong, or right but another one.
fn number(parts: &Parts, random: &mut Random) -> u16 {
    let formulas = parts.table.len() as u16;
    match random.below(8) {
        0 => formulas - 1,
        1 => formulas,
        2 => formulas + 1,
        3 => random.pick(&[4095, 4096, 65535, 32768]),
        _ => random.below(formulas as usize) as u16,
    }
}

/// A word changed: by one, to any word, or to another of those it stands among.
fn changed(word: u16, random: &mut Random, another: impl Fn(&mut Random) -> u16) -> u16 {
    match random.below(4) {
        0 => word.wrapping_add(1),
        1 => word.wrapping_sub(1),
        2 => random.word(),
        _ => another(random),
    }
}

/// One step word changed; also to another code with the same part, and to the same code with
/// another part.
fn step(parts: &mut Parts, random: &mut Random) {
    if parts.steps.is_empty() {
        return;
    }
    // the first and the last ones more often
    let last = parts.steps.len() - 1;
    let at = match random.below(4) {
        0 => random.below(3).min(last),
        1 => last - random.below(3).min(last),
        _ => random.below(last + 1),
    };
    let word = parts.steps[at];
    parts.steps[at] = match random.below(6) {
        0 | 1 => random.below(13) as u16 * 4096 + part(word),
        2 if names(word) || random.one_in(4) => rule(word) + part(number(parts, random)),
        3 if !parts.first.is_empty() => rule(word) + part(random.pick(&parts.first)),
        _ => changed(word, random, |random| random.pick(&parts.steps)),
    };
}

/// A statement changed, dropped, doubled, or one more.
fn statement(parts: &mut Parts, random: &mut Random) {
    let new = number(parts, random);
    let of_second = parts.kind == Kind::Exchange && random.one_in(2);
    let list = if of_second { &mut parts.second } else { &mut parts.first };
    let at = random.below(list.len() + 1);
    match random.below(4) {
        0 if at < list.len() => {
            list.remove(at);
        }
        1 if at < list.len() && list.len() < 256 => list.insert(at, list[at]),
        2 if list.len() < 256 => list.insert(at, new),
        _ if at < list.len() => list[at] = new,
        _ => {}
    }
}

fn goal(parts: &mut Parts, random: &mut Random) {
    parts.goal = number(parts, random);
    if random.one_in(3) {
        // both too large: 6 comes before 7
        statement(parts, random);
    }
}

/// An entry changed, repeated, given a bad operand, or exchanged for another.
fn entry(parts: &mut Parts, random: &mut Random) {
    let table = &mut parts.table;
    let count = table.len();
    let (at, other) = (random.below(count), random.below(count));
    let (head, second) = table[at];
    let (kind, first) = (head / 4096, head % 4096);
    match random.below(8) {
        0 => table[at].0 = changed(head, random, |random| random.pick(table).0),
        1 => table[at].1 = changed(second, random, |random| random.pick(table).1),
        2 => table[at].0 = random.below(7) as u16 * 4096 + first,
        // an operand that is the entry's own number, or the next one
        3 => table[at].1 = at as u16 + random.below(2) as u16,
        4 => table[at].0 = kind * 4096 + (at as u16 + random.below(2) as u16) % 4096,
        // the earlier entry again, in the later one's place
        5 => table[at.max(other)] = table[at.min(other)],
        6 => table.swap(at, other),
        _ if count < 4096 => {
            // an entry repeated at the end; now and then a bad one before or after it: 4 comes
            // before 5
            table.push(table[at]);
            if random.one_in(3) {
                table[other].1 = random.word();
            }
        }
        _ => {}
    }
}

/// Steps dropped, doubled, swapped, cut off or added; noise from some step on.
fn steps(parts: &mut Parts, random: &mut Random) {
    let count = parts.steps.len();
    if count == 0 {
        return parts.steps.push(random.word());
    }
    let (at, other) = (random.below(count), random.below(count));
    match random.below(8) {
        0 if count > 1 => {
            parts.steps.remove(at);
        }
        1 if count < 16384 => parts.steps.insert(at, parts.steps[at]),
        2 => parts.steps.swap(at, other),
        3 => parts.steps.truncate(at.max(1)),
        4 | 5 if count < 16384 => {
            let word = if random.one_in(2) { random.word() } else { parts.steps[at] };
            parts.steps.push(word);
        }
        6 => {
            let formulas = parts.table.len();
            for word in &mut parts.steps[at..] {
                *word = random.below(12) as u16 * 4096 + random.below(formulas) as u16;
            }
        }
        _ if at > 0 => parts.steps.swap(at - 1, at),
        _ => {}
    }
}

/// In an exchange file: a proof missing, one too many, two swapped, or a whole direction missing.
fn proofs(parts: &mut Parts, random: &mut Random) {
    let count = parts.proofs.len();
    // an earlier fault may have made the steps fewer
    if count == 0 || parts.proofs[count - 1] >= parts.steps.len() {
        return;
    }
    let mut all: Vec<Vec<u16>> = (0..count)
        .map(|proof| {
            let end = parts.proofs.get(proof + 1).copied().unwrap_or(parts.steps.len());
            parts.steps[parts.proofs[proof]..end].to_vec()
        })
        .collect();
    let (at, other) = (random.below(count), random.below(count));
    match random.below(6) {
        0 => {
            all.remove(at);
        }
        1 => all.insert(at, all[other].clone()),
        2 => all.push(all[at].clone()),
        3 => all.swap(at, other),
        4 => all.truncate(parts.second.len()),
        _ => {
            all.drain(..parts.second.len().min(count));
        }
    }
    parts.proofs.clear();
    parts.steps.clear();
    for proof in all {
        if parts.steps.len() + proof.len() <= 16384 {
            parts.proofs.push(parts.steps.len());
            parts.steps.extend(proof);
        }
    }
}
