//! The fixed set of the tests: small exhaustive pieces, files with doubled formulas, all small
//! tables in which 7 says something, a run of seeded files, lists of papers, larger exhaustive
//! pieces, records of papers alone, files with crowded tables, and the largest files.
use crate::crowded::{crowded, REPEATS, SIZES};
use crate::given::{given, of_papers, Given};
use crate::largest::largest;
use crate::parts::{Kind, Parts};
use crate::raw::LIMITS;
use crate::{exchanges, records};
use builder::layout::{bytes, record};
use builder::papers::{all_of, opened, signed};
use builder::random::Random;
use builder::samples::{A, K, T};
use builder::steps::*;
use builder::table::Entry::{self, And, Atom, False, Implies, Or, Says};
use builder::table::Table;
use builder::texts::doubled;
use std::iter::successors;

/// How many seeded files the set has.
pub const SEEDED: u64 = 300_000;
pub const SEED: u64 = 2006;

/// How often a formula of the set is doubled: the length of its text passes what the program lends
/// between 16 and 17 times, and the numbers of 32, 64 and 128 bits.
const DOUBLED: [u16; 20] =
    [1, 2, 3, 8, 15, 16, 17, 18, 28, 29, 31, 32, 33, 60, 61, 63, 64, 65, 128, 4000];

/// How many records of papers alone, or nearly, the set has.
const OF_PAPERS: u64 = 20_000;

/// How many files with crowded tables the set has, before the largest, which are its last.
pub const CROWDED: u64 = 24;
pub const LARGEST: u64 = 96;

/// Up to so many statements the proved checker finds the signers in one way, beyond in another.
pub const FEW: usize = 24;

/// Files that are made one by one, by their numbers.
struct Piece {
    count: u64,
    make: Box<dyn Fn(u64) -> Given + Send + Sync>,
}

/// Changes the words of a right file, by a number.
type Change = Box<dyn Fn(&mut Vec<u16>, u64) + Send + Sync>;

pub struct Fixed(Vec<Piece>);

impl Fixed {
    pub fn new() -> Fixed {
        let mut pieces = vec![];
        for (words, kind) in small_files() {
            pieces.extend(near(&words, kind));
        }
        pieces.push(Piece { count: 6 * DOUBLED.len() as u64, make: Box::new(doubled_files) });
        pieces.push(all_sides());
        pieces.push(Piece { count: SEEDED, make: Box::new(|number| given(SEED, number)) });
        pieces.extend(all_short_lists());
        pieces.extend(all_short_lists_in_part());
        pieces.push(all_signed());
        for (words, kind) in [(&A[..], Kind::Record), (&K, Kind::Exchange)] {
            pieces.extend((0..words.len()).map(|at| any_word(words, kind, at)));
        }
        pieces.extend(all_short_proofs());
        let papers = |number| of_papers(&mut Random::of(6, number));
        pieces.push(Piece { count: OF_PAPERS, make: Box::new(papers) });
        pieces.push(Piece { count: CROWDED, make: Box::new(crowded_files) });
        pieces.push(Piece { count: LARGEST, make: Box::new(largest_files) });
        Fixed(pieces)
    }

    pub fn count(&self) -> u64 {
        self.0.iter().map(|piece| piece.count).sum()
    }

    pub fn given(&self, mut number: u64) -> Given {
        for piece in &self.0 {
            if number < piece.count {
                return (piece.make)(number);
            }
            number -= piece.count;
        }
        panic!("the set has no such file")
    }
}

impl Default for Fixed {
    fn default() -> Self {
        Fixed::new()
    }
}

fn fixed(kind: Kind, file: Vec<u8>) -> Given {
    Given { family: "fixed", kind, file, room: 256, to_both: true }
}

/// Right files from which the near misses are made: 01's, one with an unused paper between two that
/// are opened, one that opens what an order gives and what is no statement, and some grown ones.
fn small_files() -> Vec<(Vec<u16>, Kind)> {
    let given = [Atom(0), Says(7, 0), Implies(0, 1)].map(Entry::words);
    let by_order = [&[IMPLIES_LEFT + 2, INIT], &opened(1, 0)[..]].concat();
    let mut files = vec![
        (A.to_vec(), Kind::Record),
        (K.to_vec(), Kind::Exchange),
        (signed(1, &[7, 8, 9], &[9, 7]), Kind::Record),
        (record(&given, &[0, 2], 1, &by_order), Kind::Record),
    ];
    for number in 0..12 {
        let random = &mut Random::of(3, number);
        let parts = match number % 3 {
            0 => records::small(random, None),
            1 => exchanges::small(random, None),
            _ => records::needs_twice(random),
        };
        files.push((parts.words(), parts.kind));
    }
    files
}

/// Every near miss of some sorts: each word changed to each of some values; each word dropped or
/// doubled; each two words swapped; the file cut at each byte, and longer by a few.
fn near(words: &[u16], kind: Kind) -> Vec<Piece> {
    let count = words.len() as u64;
    let piece = |count: u64, change: Change| {
        let words = words.to_vec();
        let make = move |number| {
            let mut words = words.clone();
            change(&mut words, number);
            fixed(kind, bytes(&words))
        };
        Piece { count, make: Box::new(make) }
    };
    let near_values = 2 + 16 + LIMITS.len() as u64 + count;
    let values = move |words: &mut Vec<u16>, number: u64| {
        let (at, value) = ((number / near_values) as usize, (number % near_values) as usize);
        words[at] = match value {
            0 => words[at].wrapping_add(1),
            1 => words[at].wrapping_sub(1),
            // another code with the same part
            2..18 => (value - 2) as u16 * 4096 + part(words[at]),
            _ => *LIMITS.get(value - 18).unwrap_or_else(|| &words[value - 18 - LIMITS.len()]),
        };
    };
    let whole = bytes(words);
    let cut = whole.clone();
    vec![
        piece(near_values * count, Box::new(values)),
        piece(
            count,
            Box::new(|words, at| {
                words.remove(at as usize);
            }),
        ),
        piece(count, Box::new(|words, at| words.insert(at as usize, words[at as usize]))),
        piece(
            count * count,
            Box::new(move |words, number| {
                words.swap((number / count) as usize, (number % count) as usize)
            }),
        ),
        Piece {
            count: whole.len() as u64,
            make: Box::new(move |length| fixed(kind, cut[..length as usize].to_vec())),
        },
        Piece {
            count: 16,
            make: Box::new(move |more| {
                fixed(kind, [&whole[..], &vec![more as u8; more as usize + 1]].concat())
            }),
        },
    ]
}

/// A file with each of the 65,536 words in one place.
fn any_word(words: &[u16], kind: Kind, at: usize) -> Piece {
    let words = words.to_vec();
    let make = move |word: u64| {
        let mut words = words.clone();
        words[at] = word as u16;
        Given { to_both: false, ..fixed(kind, bytes(&words)) }
    };
    Piece { count: 65_536, make: Box::new(make) }
}

/// All step words of length 1 to 3 with codes up to 12 and parts up to 2, over 01's table T and
/// over ones with implies, and, or and false, for a few statements and goals; and over what 7 and 8
/// say of false, with no room, room for one signer, and for two.
fn all_short_proofs() -> Vec<Piece> {
    let over_both = |entry: Entry| [Atom(0), False, entry].map(Entry::words);
    let [implies, and, or] = [Implies(0, 1), And(0, 1), Or(0, 1)].map(over_both);
    let said = [False, Says(7, 0), Says(8, 0)].map(Entry::words);
    let one_room = [(T, 0), (T, 1), (implies, 2), (and, 2), (or, 2), (implies, 0)];
    let rooms = [0, 1, 2].map(|room| (said, 1, room));
    let mut pieces = vec![];
    for (table, goal, room) in
        one_room.map(|(table, goal)| (table, goal, 256)).into_iter().chain(rooms)
    {
        for statements in [vec![0], vec![2, 1]] {
            let parts = Parts::record(&table, statements, goal, vec![]);
            let make = move |number: u64| {
                let mut parts = parts.clone();
                // 0 stands for no word, 1 to 39 for a code and a part
                parts
                    .steps
                    .extend(digits(number, 40).map(|word| (word - 1) / 3 * 4096 + (word - 1) % 3));
                Given { room, to_both: false, ..fixed(Kind::Record, parts.bytes()) }
            };
            pieces.push(Piece { count: 40 * 40 * 40, make: Box::new(make) });
        }
    }
    pieces
}

/// The digits of a number, the last first, without zeros.
fn digits(number: u64, base: u64) -> impl Iterator<Item = u16> {
    let rests = successors(Some(number), move |rest| Some(rest / base));
    let digits = rests.take_while(|rest| *rest > 0).map(move |rest| (rest % base) as u16);
    digits.filter(|digit| *digit > 0)
}

/// The papers of short lists, entries 1 to 5 of the table; entry 0 is an order.
const PAPERS: [Entry; 5] = [Says(4095, 0), Says(9, 0), Says(0, 0), Says(10, 0), Says(9, 1)];

/// A list of statements out of six, an order and the papers, after so many orders. The goal needs
/// none of them, each of the four affirms on the way to it, and says left opens those papers of the
/// list that are asked for: 1, 2, 4, 8 and 16 stand for them.
fn short_list(orders: usize, list: u64, asked: u64) -> Parts {
    let mut table = Table::default();
    table.number(Atom(0));
    PAPERS.into_iter().for_each(|paper| _ = table.number(paper));
    let anyway = table.number(Implies(0, 0));
    // 0 stands for no statement, 1 to 6 for the first six entries
    let listed: Vec<u16> = digits(list, 7).map(|statement| statement - 1).collect();
    let is_opened = |paper: &u16| listed.contains(paper) && asked >> (paper - 1) & 1 == 1;
    let affirmed = |principal: u16| {
        let is_own = |paper: &u16| matches!(table.entry(*paper), Says(own, _) if own == principal);
        let opened = (1..=5).filter(is_own).filter(is_opened).map(|paper| SAYS_LEFT + paper);
        let end = [AFFIRM, IMPLIES_RIGHT, INIT];
        [SAYS_RIGHT].into_iter().chain(opened).chain(end).collect::<Vec<u16>>()
    };
    let proofs = [10, 4095, 0, 9].map(|principal| (principal, affirmed(principal)));
    let proofs = proofs.map(|(principal, proof)| (table.number(Says(principal, anyway)), proof));
    let (goal, steps) = all_of(&proofs, &mut |entry| table.number(entry));
    Parts::record(&table, [vec![0; orders], listed].concat(), goal, steps)
}

/// All lists of up to five statements, alone and after as many orders as are few, with all their
/// papers opened.
fn all_short_lists() -> [Piece; 2] {
    [0, FEW].map(|orders| {
        let make = move |list: u64| {
            let parts = short_list(orders, list, 31);
            Given { to_both: false, ..fixed(Kind::Record, parts.bytes()) }
        };
        Piece { count: 7 * 7 * 7 * 7 * 7, make: Box::new(make) }
    })
}

/// All lists of up to three statements with any papers opened, for a lent list with just room for
/// the signers, with a word less, and with room for all who have papers.
fn all_short_lists_in_part() -> [Piece; 2] {
    [0, FEW].map(|orders| {
        let make = move |number: u64| {
            let parts = short_list(orders, number / 96, number / 3 % 32);
            let room = short_room(number % 3, parts.signers().len(), parts.with_papers().len());
            Given { room, to_both: false, ..fixed(Kind::Record, parts.bytes()) }
        };
        Piece { count: 7 * 7 * 7 * 96, make: Box::new(make) }
    })
}

fn short_room(which: u64, signers: usize, papers: usize) -> usize {
    [signers, signers.saturating_sub(1), papers][which as usize]
}

/// Lists of 1 to 256 papers, each of another principal, the highest first. All of them are opened,
/// or every other one, or one; and the rooms are those of the short lists.
fn all_signed() -> Piece {
    let make = |number: u64| {
        let count = number / 9 + 1;
        let papers: Vec<u16> = (1..=count).rev().map(|k| (k * 4095 / count) as u16).collect();
        let signers = match number / 3 % 3 {
            0 => papers.clone(),
            1 => papers.iter().copied().step_by(2).collect(),
            _ => vec![papers[papers.len() / 2]],
        };
        let room = short_room(number % 3, signers.len(), papers.len());
        let file = bytes(&signed(0, &papers, &signers));
        Given { room, to_both: false, ..fixed(Kind::Record, file) }
    };
    Piece { count: 9 * 256, make: Box::new(make) }
}

/// Records with formulas over themselves, (A and A) and so on, so that a text soon is longer than
/// any memory: such a formula stands in the goal, or it is named, or it is held and no more.
fn doubled_files(number: u64) -> Given {
    let times = DOUBLED[number as usize / 6];
    let mut table = doubled(times, if number & 1 == 0 { And } else { Or });
    let implied = table.number(Implies(times, 0));
    let (goal, steps) = match (number / 2 % 3, number & 1) {
        (0, _) => (implied, vec![IMPLIES_RIGHT, INIT]),
        (1, 0) => (0, vec![AND_LEFT + times, INIT]),
        (1, _) => (0, vec![OR_LEFT + times, INIT, INIT]),
        _ => (0, vec![INIT]),
    };
    let parts = Parts::record(&table, vec![0, times], goal, steps);
    Given { to_both: false, ..fixed(Kind::Record, parts.bytes()) }
}

/// All tables of false, what 7 says of it, and two formulas over those before them, with each goal,
/// which false proves, and with each statement beside false or none: 7 is heard on either side, or
/// on both.
fn all_sides() -> Piece {
    let over = |count: u16| {
        let pairs = (0..count).flat_map(|a| (0..count).map(move |b| (a, b)));
        let of_two = pairs.flat_map(|(a, b)| [Implies(a, b), And(a, b), Or(a, b)]);
        let of_one = (0..count).flat_map(|a| [Says(7, a), Says(8, a)]);
        of_two.chain(of_one).collect::<Vec<Entry>>()
    };
    let (third, fourth) = (over(2), over(3));
    let tables = third.len() * fourth.len();
    let make = move |number: u64| {
        let (table, rest) = (number as usize / 16, number as u16 % 16);
        let (third, fourth) = (third[table / fourth.len()], fourth[table % fourth.len()]);
        let table = [False, Says(7, 0), third, fourth].map(Entry::words);
        let (goal, statement) = (rest / 4, rest % 4);
        // false stands for none
        let statements = if statement == 0 { vec![0] } else { vec![0, statement] };
        let parts = Parts::record(&table, statements, goal, vec![FALSE_LEFT]);
        Given { to_both: false, ..fixed(Kind::Record, parts.bytes()) }
    };
    Piece { count: 16 * tables as u64, make: Box::new(make) }
}

/// Each kind of file and size of a table, with each way to repeat.
fn crowded_files(number: u64) -> Given {
    let kind = if number & 1 == 0 { Kind::Record } else { Kind::Exchange };
    let at = number as usize / 2;
    let parts = crowded(kind, SIZES[at % SIZES.len()], REPEATS[at / SIZES.len()]);
    Given { family: "crowded", ..fixed(kind, parts.bytes()) }
}

/// Each size at its largest or not; the file as it is, or with one formula, statement or step more
/// than there were.
fn largest_files(number: u64) -> Given {
    let random = &mut Random::of(5, number);
    let kind = if number & 1 == 0 { Kind::Record } else { Kind::Exchange };
    let full = [number & 2 > 0, number & 4 > 0, number & 8 > 0];
    let mut parts = largest(random, kind, full);
    match number / 16 {
        3 => parts.table.push((0, 0)),
        4 => parts.first.push(0),
        5 => parts.steps.push(0),
        _ => {}
    }
    Given { family: "largest", ..fixed(kind, parts.bytes()) }
}
