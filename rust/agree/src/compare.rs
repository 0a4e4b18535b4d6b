//! Both checkers on one file: the answer, and every word of the lent list.
use crate::given::Given;
use crate::parts::Kind;
use std::fmt::Debug;
use wethrynda::{Exchange, Verdict};

/// What a checker says of a file.
#[derive(Clone, Debug, PartialEq, Eq)]
pub enum Answer {
    /// Granted, with these signers in this order.
    Granted(Vec<u16>),
    Equal,
    Refused {
        number: u8,
        place: usize,
    },
    /// The proved checker broke a promise about the lent list, which is a disagreement with any
    /// checker.
    Broken(String),
}

/// The answer of the proved checker, with the lent list looked through.
pub fn proved(file: &[u8], kind: Kind, room: usize) -> Answer {
    match kind {
        Kind::Record => proved_record(file, room),
        Kind::Exchange => match wethrynda::check_exchange(file) {
            Exchange::Equal => Answer::Equal,
            Exchange::Refused { number, place } => Answer::Refused { number, place },
        },
    }
}

/// The answer of the second checker.
pub fn second(file: &[u8], kind: Kind, room: usize) -> Answer {
    match kind {
        Kind::Record => match second::check_record(file, room) {
            Ok(signers) => Answer::Granted(signers),
            Err(refusal) => Answer::Refused { number: refusal.number, place: refusal.place },
        },
        Kind::Exchange => match second::check_exchange(file) {
            Ok(()) => Answer::Equal,
            Err(refusal) => Answer::Refused { number: refusal.number, place: refusal.place },
        },
    }
}

/// "They go into a lent list of 16-bit words, from its start; the words after them don't change";
/// "A refusal .. changes nothing that is lent" (01). The list is full of words beforehand,
/// principals among them. What stands at its start after a grant is compared with the second
/// checker's signers word for word.
fn proved_record(file: &[u8], room: usize) -> Answer {
    let factor = if file.len() % 4 < 2 { 1 } else { 0x9e37 };
    let before: Vec<u16> = (0..room).map(|i| (i as u16).wrapping_mul(factor)).collect();
    let mut lent = before.clone();
    match wethrynda::check_record(file, &mut lent) {
        Verdict::Granted(count) if count > room => {
            Answer::Broken(format!("granted {count} in a list of {room}"))
        }
        Verdict::Granted(count) if lent[count..] != before[count..] => Answer::Broken(format!(
            "granted {count}, and words after the signers changed: {lent:?}"
        )),
        Verdict::Granted(count) => {
            lent.truncate(count);
            Answer::Granted(lent)
        }
        Verdict::Refused { number, place } if lent != before => Answer::Broken(format!(
            "refused {number} place {place}, and the list changed: {lent:?}"
        )),
        Verdict::Refused { number, place } => Answer::Refused { number, place },
    }
}

/// The kinds of check that the file is given to, the other kind after its own.
pub fn kinds(given: &Given) -> impl Iterator<Item = Kind> {
    let other = if given.kind == Kind::Record { Kind::Exchange } else { Kind::Record };
    [Some(given.kind), given.to_both.then_some(other)].into_iter().flatten()
}

/// A file on which the checkers differ, or both break a promise.
#[derive(Clone, Debug)]
pub struct Disagreement {
    pub given: Given,
    /// Which call it was given to, and what was lent.
    pub call: String,
    /// What either of them says.
    pub proved: String,
    pub second: String,
}

impl Disagreement {
    pub fn new<T: Debug>(given: &Given, call: String, [proved, second]: [T; 2]) -> Box<Self> {
        let [proved, second] = [proved, second].map(|answer| format!("{answer:?}"));
        Box::new(Disagreement { given: given.clone(), call, proved, second })
    }
}

impl std::fmt::Display for Disagreement {
    fn fmt(&self, f: &mut std::fmt::Formatter<'_>) -> std::fmt::Result {
        let Disagreement { given: Given { family, file, .. }, call, proved, second } = self;
        let what = if proved == second { "a promise is broken" } else { "the checkers disagree" };
        writeln!(f, "{what}, {call}, family {family}")?;
        writeln!(f, "  proved: {proved}\n  second: {second}")?;
        let hex: String = file.iter().map(|byte| format!("{byte:02x}")).collect();
        write!(f, "  file, {} bytes: {hex}", file.len())
    }
}

/// The answers on which both agree, one for each kind of check; or the first disagreement.
pub fn compared(given: &Given) -> Result<Vec<(Kind, Answer)>, Box<Disagreement>> {
    kinds(given)
        .map(|kind| {
            let proved = proved(&given.file, kind, given.room);
            let second = second(&given.file, kind, given.room);
            if proved == second {
                Ok((kind, proved))
            } else {
                let call = format!("as {kind:?}, {} words lent", given.room);
                Err(Disagreement::new(given, call, [proved, second]))
            }
        })
        .collect()
}
