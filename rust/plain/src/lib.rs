//! A plain fast checker of release records and exchange files, as one writes it for speed in safe
//! Rust: words are read where they stand, a hypothesis is a mark at its formula's number, and
//! little more memory is cleared than the file's sizes ask for. It makes all of 01's tests in 01's
//! order, but for 8, which stands after 15, and then 16 (02), or 17 after 7 (02), and keeps nothing
//! between calls. The proved checker is measured against it.
#![forbid(unsafe_code)]
mod independence;
mod limits;
mod sentences;
mod signers;
mod table;
mod walk;
mod words;

use independence::is_independent;
use limits::{MOST_FORMULAS, MOST_STATEMENTS, MOST_STEPS, PRINCIPALS};
use sentences::Sentences;
use signers::Papers;
use walk::{with_marks, Follow, Nothing, Walk};
use words::Words;

/// "A refusal gives its number and a place"
#[derive(Clone, Copy, Debug, PartialEq, Eq)]
pub struct Refusal {
    pub number: u8,
    pub place: usize,
}

fn refuse<T>(number: u8, place: usize) -> Result<T, Refusal> {
    Err(Refusal { number, place })
}

/// The four words that every file begins with, and those after them. Test 1.
fn sizes(file: &[u8]) -> Result<([usize; 4], Words<'_>), Refusal> {
    if file.len() < 8 {
        return refuse(1, 0);
    }
    let (sizes, rest) = Words::of(file).split_at(4);
    Ok(([0, 1, 2, 3].map(|i| sizes.at(i) as usize), rest))
}

/// Checks a record. Granted, the signers stand at the start of the lent list, rising by number, and
/// their count is given; refused, the list is as it was.
pub fn check_record(file: &[u8], signers: &mut [u16]) -> Result<usize, Refusal> {
    check_followed(file, signers, &mut Nothing)
}

/// Checks a record and writes its proof in sentences. Written, the signers stand at the start of
/// the lent list and the text at the start of the lent bytes, and both counts are given; refused,
/// 16 too, both are as they were.
pub fn sentences(
    file: &[u8],
    signers: &mut [u16],
    text: &mut [u8],
) -> Result<(usize, usize), Refusal> {
    let mut sentences = Sentences::new(text);
    let count = check_followed(file, signers, &mut sentences)?;
    Ok((count, sentences.written))
}

/// Whether a record's goal is independent of a principal (02). Its steps are not looked at.
pub fn independent_of(file: &[u8], principal: u16) -> Result<bool, Refusal> {
    let record = Record::read(file)?;
    let formulas = record.heads.len();
    if let Some(position) = record.statements.iter().position(|n| n as usize >= formulas) {
        return refuse(7, position);
    }
    if principal as usize >= PRINCIPALS {
        return refuse(17, 0);
    }
    Ok(is_independent(&record, principal))
}

/// The parts of a record, where they stand.
struct Record<'a> {
    heads: Words<'a>,
    seconds: Words<'a>,
    statements: Words<'a>,
    steps: Words<'a>,
    goal: u16,
}

impl<'a> Record<'a> {
    /// Tests 1 to 6.
    #[inline(always)]
    fn read(file: &'a [u8]) -> Result<Self, Refusal> {
        let ([formulas, count, steps, goal], rest) = sizes(file)?;
        if formulas == 0
            || formulas > MOST_FORMULAS
            || count > MOST_STATEMENTS
            || steps == 0
            || steps > MOST_STEPS
        {
            return refuse(2, 0);
        }
        if file.len() != 2 * (4 + 2 * formulas + count + steps) {
            return refuse(3, 0);
        }
        let (heads, rest) = rest.split_at(formulas);
        let (seconds, rest) = rest.split_at(formulas);
        let (statements, steps) = rest.split_at(count);
        table::check(heads, seconds)?;
        if goal >= formulas {
            return refuse(6, 0);
        }
        Ok(Record { heads, seconds, statements, steps, goal: goal as u16 })
    }
}

fn check_followed(
    file: &[u8],
    signers: &mut [u16],
    follow: &mut impl Follow,
) -> Result<usize, Refusal> {
    let Record { heads, seconds, statements, steps, goal } = Record::read(file)?;
    with_marks(heads.len(), |[held, opened]| {
        hold_all(held, statements)?;
        let mut walk = Walk::new(heads, seconds, steps, held, opened);
        walk.prove(goal, follow)?;
        walk.end()?;
        let papers = Papers { heads, statements, opened };
        // a list as long as the statements has room for every signer
        if signers.len() < statements.len() && signers.len() < papers.signers(&mut []) {
            return refuse(8, 0);
        }
        follow.end(heads, seconds)?;
        Ok(papers.signers(signers))
    })
}

/// Checks an exchange file; `Ok` means equal.
pub fn check_exchange(file: &[u8]) -> Result<(), Refusal> {
    let ([formulas, count, other, steps], rest) = sizes(file)?;
    if formulas == 0
        || formulas > MOST_FORMULAS
        || count > MOST_STATEMENTS
        || other > MOST_STATEMENTS
        || steps > MOST_STEPS
    {
        return refuse(2, 0);
    }
    if file.len() != 2 * (4 + 2 * formulas + count + other + steps) {
        return refuse(3, 0);
    }
    let (heads, rest) = rest.split_at(formulas);
    let (seconds, rest) = rest.split_at(formulas);
    let (first, rest) = rest.split_at(count);
    let (second, steps) = rest.split_at(other);
    table::check(heads, seconds)?;
    with_marks(formulas, |[held]| {
        hold_all(held, first)?;
        if let Some(position) = second.iter().position(|n| n as usize >= formulas) {
            return refuse(7, count + position);
        }
        let mut walk = Walk::new(heads, seconds, steps, held, &mut []);
        second.iter().try_for_each(|goal| walk.prove(goal, &mut Nothing))?;
        walk.hold_instead(first, second);
        first.iter().try_for_each(|goal| walk.prove(goal, &mut Nothing))?;
        walk.end()
    })
}

/// Holds the statements, and makes test 7 on the way.
fn hold_all(held: &mut [bool], statements: Words) -> Result<(), Refusal> {
    for (position, n) in statements.iter().enumerate() {
        match held.get_mut(n as usize) {
            Some(mark) => *mark = true,
            None => return refuse(7, position),
        }
    }
    Ok(())
}
