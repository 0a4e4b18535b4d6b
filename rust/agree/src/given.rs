//! One file that both checkers are given, and which one it is by its seed and number.
use crate::parts::{Kind, Parts};
use crate::{deep, exchanges, largest, misses, noise, raw, records, slips};
use builder::random::Random;

/// A file, and how it is given.
#[derive(Clone, Debug)]
pub struct Given {
    /// What it was made as.
    pub family: &'static str,
    pub kind: Kind,
    pub file: Vec<u8>,
    /// The length of the lent list, where it is given as a record.
    pub room: usize,
    /// Whether it is given to the other kind of check too.
    pub to_both: bool,
}

/// What a file is made as, in the order of the table that is printed.
pub const FAMILIES: [&str; 9] =
    ["fixed", "right", "slip", "near miss", "noise", "deep", "papers", "crowded", "largest"];

/// File `number` of a seed: the same on every machine and in every thread.
pub fn given(seed: u64, number: u64) -> Given {
    let random = &mut Random::of(seed, number);
    let kind = if random.one_in(3) { Kind::Exchange } else { Kind::Record };
    match random.below(4000) {
        0 => large(random, kind),
        1..=8 => plain(random, "deep", kind, deep::deep),
        9..=600 => plain(random, "noise", kind, noise::noise),
        601..=1600 => {
            let parts = right(random, kind);
            of_parts(random, "right", &parts)
        }
        1601..=2100 => {
            let slip = Some(slips::any(random));
            let parts = match kind {
                Kind::Record => records::small(random, slip),
                Kind::Exchange => exchanges::small(random, slip),
            };
            of_parts(random, "slip", &parts)
        }
        _ => {
            let parts = right(random, kind);
            near_miss(random, "near miss", parts)
        }
    }
}

/// A record of papers alone, or nearly.
pub fn of_papers(random: &mut Random) -> Given {
    let parts = records::of_papers(random);
    if random.below(3) > 0 {
        of_parts(random, "papers", &parts)
    } else {
        near_miss(random, "papers", parts)
    }
}

/// A file of the largest sizes, or nearly.
pub fn large(random: &mut Random, kind: Kind) -> Given {
    let parts = largest::some_largest(random, kind);
    if random.one_in(2) {
        of_parts(random, "largest", &parts)
    } else {
        near_miss(random, "largest", parts)
    }
}

fn right(random: &mut Random, kind: Kind) -> Parts {
    match kind {
        Kind::Record if random.one_in(40) => records::needs_twice(random),
        Kind::Record if random.one_in(4) => records::signed(random),
        Kind::Record if random.one_in(4) => records::carried(random),
        Kind::Record if random.one_in(4) => records::contracted(random),
        Kind::Record => records::small(random, None),
        Kind::Exchange => exchanges::small(random, None),
    }
}

fn near_miss(random: &mut Random, family: &'static str, mut parts: Parts) -> Given {
    let kind = parts.kind;
    let as_parts = random.below(4) > 0;
    if as_parts {
        misses::some_misses(&mut parts, random);
    }
    let mut given = of_parts(random, family, &parts);
    if !as_parts || random.one_in(16) {
        given.file = raw::missed(parts.words(), kind, random);
    }
    given
}

fn of_parts(random: &mut Random, family: &'static str, parts: &Parts) -> Given {
    let [signers, papers] = [parts.signers(), parts.with_papers()].map(|list| list.len());
    let room = match random.below(12) {
        0 => 0,
        1 => signers.saturating_sub(1),
        2 | 3 => signers,
        // enough for the signers, and too short for all papers, if some lie unused
        4 => random.between(signers, papers),
        5 => papers,
        6 => random.below(300),
        _ => 256,
    };
    Given { family, kind: parts.kind, file: parts.bytes(), room, to_both: random.one_in(16) }
}

type Make = fn(&mut Random, Kind) -> Vec<u8>;

fn plain(random: &mut Random, family: &'static str, kind: Kind, make: Make) -> Given {
    let file = make(random, kind);
    let room = if random.one_in(4) { random.below(4) } else { 256 };
    Given { family, kind, file, room, to_both: random.one_in(4) }
}
