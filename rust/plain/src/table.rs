//! Tests 4 and 5, in one pass over the table.

use super::limits::MOST_FORMULAS;
use super::words::Words;
use super::{refuse, Refusal};

/// What an operand of each kind must stay below: the entry's own number where `lower` has all bits,
/// `any` where it has none. No operand is below 0.
#[derive(Clone, Copy)]
struct Bound {
    lower: usize,
    any: usize,
}

const NEVER: Bound = Bound { lower: 0, any: 0 };
const ZERO: Bound = Bound { lower: 0, any: 1 };
const NUMBER: Bound = Bound { lower: 0, any: 4096 };
const LOWER: Bound = Bound { lower: !0, any: 0 };

/// By kind, for the first operand and the second: atom, false, implies, and, or, says, and what is
/// no kind.
const BOUNDS: [[Bound; 2]; 16] = {
    let mut bounds = [[NEVER; 2]; 16];
    bounds[0] = [NUMBER, ZERO];
    bounds[1] = [ZERO, ZERO];
    bounds[2] = [LOWER, LOWER];
    bounds[3] = [LOWER, LOWER];
    bounds[4] = [LOWER, LOWER];
    bounds[5] = [NUMBER, LOWER];
    bounds
};

/// Tests 4 and 5. The set of entries has at least twice as many slots as the table has entries, and
/// not many more, since they are cleared.
pub fn check(heads: Words, seconds: Words) -> Result<(), Refusal> {
    match heads.len() {
        0..=8 => check_with::<16>(heads, seconds),
        9..=64 => check_with::<128>(heads, seconds),
        65..=256 => check_with::<512>(heads, seconds),
        257..=1024 => check_with::<2048>(heads, seconds),
        _ => check_with::<{ 2 * MOST_FORMULAS }>(heads, seconds),
    }
}

/// No entry that passes test 4: its kind would be 15.
const FREE: u32 = u32::MAX;

fn check_with<const SLOTS: usize>(heads: Words, seconds: Words) -> Result<(), Refusal> {
    let mut slots = [FREE; SLOTS];
    // test 5 gives its place once test 4 has passed the whole table
    let mut repeated = None;
    let mut collisions = 0;
    for (i, (head, second)) in heads.iter().zip(seconds.iter()).enumerate() {
        let [first_bound, second_bound] = BOUNDS[(head >> 12) as usize];
        let first_right = ((head & 4095) as usize) < (i & first_bound.lower) + first_bound.any;
        let second_right = (second as usize) < (i & second_bound.lower) + second_bound.any;
        if !(first_right & second_right) {
            return refuse(4, i);
        }
        if repeated.is_none() && !add(&mut slots, key(head, second), &mut collisions) {
            repeated = Some(i);
        }
    }
    if collisions >= MOST_COLLISIONS {
        repeated = repeated_by_order(heads, seconds);
    }
    repeated.map_or(Ok(()), |i| refuse(5, i))
}

#[inline(always)]
fn key(head: u16, second: u16) -> u32 {
    (second as u32) << 16 | head as u32
}

/// So many collisions occur only in a table made for them: then the set stays as it is, and the
/// entries are sorted instead.
const MOST_COLLISIONS: usize = 4 * MOST_FORMULAS;

/// Adds an entry to the set; false where it is there already.
#[inline(always)]
fn add<const SLOTS: usize>(slots: &mut [u32; SLOTS], entry: u32, collisions: &mut usize) -> bool {
    // the high bits of a product with the golden ratio
    let mut slot = ((entry as u64).wrapping_mul(0x9e37_79b9_7f4a_7c15)
        >> (64 - SLOTS.trailing_zeros())) as usize;
    while *collisions < MOST_COLLISIONS {
        let there = &mut slots[slot % SLOTS];
        if *there == FREE {
            *there = entry;
            return true;
        }
        if *there == entry {
            return false;
        }
        *collisions += 1;
        slot += 1;
    }
    true
}

/// The first entry that equals an earlier one: sorted, equal entries stand side by side, the
/// earlier ones first.
#[cold]
#[inline(never)]
fn repeated_by_order(heads: Words, seconds: Words) -> Option<usize> {
    let mut sorted: Vec<(u32, usize)> =
        heads.iter().zip(seconds.iter()).map(|(head, second)| key(head, second)).zip(0..).collect();
    sorted.sort_unstable();
    sorted.windows(2).filter(|pair| pair[0].0 == pair[1].0).map(|pair| pair[1].1).min()
}
