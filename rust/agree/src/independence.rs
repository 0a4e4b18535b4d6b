//! Both checkers on whether a principal can matter to a record.
use crate::compare::{Answer, Disagreement};
use crate::counts;
use crate::given::Given;
use crate::parts::{Kind, Parts};
use crate::promise;
use builder::random::Random;
use std::collections::BTreeSet;
use wethrynda::Independence;

/// What a call answers: whether it is independent, or a refusal's number and place.
pub type Independent = Result<bool, (u8, usize)>;

pub fn by_proved(file: &[u8], principal: u16) -> Independent {
    match wethrynda::independent_of(file, principal) {
        Independence::Independent => Ok(true),
        Independence::NotIndependent => Ok(false),
        Independence::Refused { number, place } => Err((number, place)),
    }
}

pub fn by_second(file: &[u8], principal: u16) -> Independent {
    second::independent_of(file, principal).map_err(|refusal| (refusal.number, refusal.place))
}

/// The numbers for what is drawn for a file.
pub fn drawn(given: &Given) -> Random {
    Random::of(given.file.len() as u64, given.file.iter().map(|&byte| u64::from(byte)).sum())
}

/// Who is asked about, on a file whose check gave this answer. By turns from file to file it is
/// someone, mostly one who says nothing, the last principal, or a number past it. Where 1 to 7 let
/// the file pass, there is also one who says something in the table; for a grant there are two of
/// these, and two who have papers. The steps are nothing to this, so of the files that are refused
/// for them only some are looked at.
pub fn principals(given: &Given, answer: &Answer) -> Vec<u16> {
    let random = &mut drawn(given);
    let any = random.below(4096) as u16;
    let turn = random.pick(&[any, 4095, 4096, 65_535]);
    let is_grant = match answer {
        Answer::Refused { number: 1..=7, .. } => return vec![turn],
        Answer::Granted(_) => true,
        _ if random.one_in(3) => false,
        _ => return vec![],
    };
    let parts = Parts::of_record(&given.file);
    let mut two_of = |principals: BTreeSet<u16>| {
        let mut principals: Vec<u16> = principals.into_iter().collect();
        random.shuffle(&mut principals);
        principals.into_iter().take(2)
    };
    let speakers = two_of(parts.speakers());
    if is_grant {
        let asked = speakers.chain(two_of(parts.with_papers())).chain([turn]);
        return asked.collect::<BTreeSet<u16>>().into_iter().collect();
    }
    speakers.take(1).chain([turn]).collect()
}

/// How many calls gave which answers, and how the promise was kept.
#[derive(Clone, Debug, Default, PartialEq, Eq)]
pub struct Counts {
    pub calls: counts::Counts<{ ANSWERS.len() }>,
    pub promise: promise::Counts,
}

pub const ANSWERS: [&str; 4] =
    ["independent", "not independent", "refused 17", "refused otherwise"];

impl Counts {
    pub fn add(&mut self, other: &Counts) {
        self.calls.add(&other.calls);
        self.promise.add(&other.promise);
    }
}

/// The place of an answer in their list.
fn which(answer: Independent) -> usize {
    match answer {
        Ok(true) => 0,
        Ok(false) => 1,
        Err((17, _)) => 2,
        Err(_) => 3,
    }
}

/// Compares the independence of a file for which both checks gave these answers, and looks whether
/// its promise is kept.
pub fn compared(given: &Given, answers: &[(Kind, Answer)]) -> Result<Counts, Box<Disagreement>> {
    let mut counts = Counts::default();
    for (_, answer) in answers.iter().filter(|(kind, _)| *kind == Kind::Record) {
        for principal in principals(given, answer) {
            let [proved, second] = [by_proved, by_second].map(|by| by(&given.file, principal));
            if proved != second {
                let call = format!("independent of {principal}");
                return Err(Disagreement::new(given, call, [proved, second]));
            }
            counts.calls.count(which(proved));
            if proved == Ok(true) {
                counts.promise.add(&promise::kept(given, answer, principal)?);
            }
        }
    }
    Ok(counts)
}
