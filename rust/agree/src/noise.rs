//! Noise: files that are nearly nothing, or right up to some part and then anything.
use crate::parts::{Kind, Parts};
use crate::random_table::RandomTable;
use crate::raw::LIMITS;
use builder::layout::bytes;
use builder::random::Random;
use builder::steps::{names, part};

pub fn noise(random: &mut Random, kind: Kind) -> Vec<u8> {
    match random.below(10) {
        0 => any_bytes(random),
        1 => sizes_in_front(random),
        2 | 3 => table_of_noise(random, kind),
        _ => steps_of_noise(random, kind),
    }
}

/// Any bytes of any length from 0 to 300, and rarely up to 120,000.
fn any_bytes(random: &mut Random) -> Vec<u8> {
    let length = if random.one_in(400) { random.below(120_001) } else { random.below(301) };
    (0..length).map(|_| random.word() as u8).collect()
}

/// Sizes at limits or small, then words in the right number or nearly so.
fn sizes_in_front(random: &mut Random) -> Vec<u8> {
    let sizes = [0; 4].map(|_| match random.one_in(5) {
        true => random.pick(&LIMITS),
        false => random.below(6) as u16,
    });
    let [f, a, b, c] = sizes.map(usize::from);
    let length = if random.one_in(2) { 2 * f + a + b } else { 2 * f + a + b + c };
    // a long file is seldom worth it
    let length = if length > 300 && !random.one_in(500) { random.below(12) } else { length };
    let mut words = sizes.to_vec();
    words.extend((0..length).map(|_| random.word() & random.pick(&[0xffff, 0x0003, 0x5003])));
    let mut file = bytes(&words);
    if random.one_in(8) {
        file.pop();
    }
    file
}

/// Entries of any kind with operands that are mostly right; statements and steps that don't matter
/// much.
fn table_of_noise(random: &mut Random, kind: Kind) -> Vec<u8> {
    let count = random.between(1, 24);
    let mut table = vec![];
    for own in 0..count {
        let operand = |random: &mut Random| match random.one_in(30) {
            true => random.word() % 4096,
            false => random.below(own + 1) as u16,
        };
        let kinds = if random.one_in(30) { 16 } else { 6 };
        let entry_kind = random.below(kinds) as u16;
        let (first, second) = match entry_kind {
            0 => (random.name(), 0),
            1 => (0, 0),
            5 => (random.name(), operand(random)),
            _ => (operand(random), operand(random)),
        };
        // an operand below the entry is rarer among the first ones: these are atoms
        let leaf = own < 2 || (second as usize >= own && !random.one_in(6));
        table.push(match leaf {
            true => (random.name(), u16::from(random.one_in(60))),
            false => (entry_kind * 4096 + first, second),
        });
    }
    any_parts(random, kind, &table)
}

/// A right table; statements and steps drawn so that the tests of the steps are reached.
fn steps_of_noise(random: &mut Random, kind: Kind) -> Vec<u8> {
    let mut table = RandomTable::default();
    let count = random.between(1, 10);
    table.fill(random, count);
    any_parts(random, kind, &table)
}

fn any_parts(random: &mut Random, kind: Kind, table: &[(u16, u16)]) -> Vec<u8> {
    let count = table.len();
    let number = |random: &mut Random| match random.one_in(60) {
        true => (count + random.below(2)) as u16,
        false => random.below(count) as u16,
    };
    let list =
        |random: &mut Random| (0..random.below(6)).map(|_| number(random)).collect::<Vec<u16>>();
    let (first, second, goal) = (list(random), list(random), number(random));
    let steps: Vec<u16> = (0..random.between(1, 12))
        .map(|_| {
            let codes = if random.one_in(30) { 16 } else { 12 };
            let rule = random.below(codes) as u16 * 4096;
            let any = first.is_empty() || random.one_in(4);
            let named = if any { number(random) } else { random.pick(&first) };
            let named = if names(rule) || random.one_in(30) { named } else { 0 };
            rule + part(named)
        })
        .collect();
    let parts = match kind {
        Kind::Record => Parts::record(table, first, goal, steps),
        Kind::Exchange => Parts::exchange(table, first, second, &[steps]),
    };
    parts.bytes()
}
