//! Copies of the second checker with a fault each: the fixed set finds every one of them.
//! `build.rs` makes the copies.
use agree::compare::{kinds, proved, Answer};
use agree::fixed::{Fixed, SEED, SEEDED};
use agree::given::{given, Given};
use agree::independence::{self, principals, Independent};
use agree::parts::Kind;
use agree::run::STACK;
use agree::texts::{self, outcome, rooms, Outcome, Room, Written};
use std::panic::{catch_unwind, set_hook, take_hook};
use std::thread;

/// A refusal's number and place; each copy has a type of its own for them.
type Refusal = (u8, usize);

/// A checker with a fault: its name, the fault in a sentence, its four calls.
struct Fault {
    name: &'static str,
    what: &'static str,
    record: fn(&[u8], usize) -> Result<Vec<u16>, Refusal>,
    exchange: fn(&[u8]) -> Result<(), Refusal>,
    sentences: fn(&[u8], &mut [u16], &mut [u8]) -> Written,
    independence: fn(&[u8], u16) -> Independent,
}

macro_rules! fault {
    ($name:ident, $what:expr) => {
        Fault {
            name: stringify!($name),
            what: $what,
            record: |file, room| {
                $name::check_record(file, room).map_err(|refusal| (refusal.number, refusal.place))
            },
            exchange: |file| {
                $name::check_exchange(file).map_err(|refusal| (refusal.number, refusal.place))
            },
            sentences: |file, list, text| {
                $name::sentences(file, list, text)
                    .map_err(|refusal| (refusal.number, refusal.place))
            },
            independence: |file, principal| {
                $name::independent_of(file, principal)
                    .map_err(|refusal| (refusal.number, refusal.place))
            },
        }
    };
}

include!(concat!(env!("OUT_DIR"), "/faults/faults.rs"));

/// The calls that a fault is looked for in.
#[derive(Clone, Copy, PartialEq, Eq)]
enum Calls {
    Checks,
    Sentences,
    Independence,
}

impl Fault {
    /// None where it panics.
    fn answer(&self, file: &[u8], kind: Kind, room: usize) -> Option<Answer> {
        let refused = |(number, place)| Answer::Refused { number, place };
        let answer = || match kind {
            Kind::Record => (self.record)(file, room).map_or_else(refused, Answer::Granted),
            Kind::Exchange => (self.exchange)(file).map_or_else(refused, |()| Answer::Equal),
        };
        catch_unwind(answer).ok()
    }

    /// A fault of the sentences only, or of the independence only: the name says so.
    fn calls(&self) -> Calls {
        match self.name.split_once('_') {
            Some(("text", _)) => Calls::Sentences,
            Some(("independent", _)) => Calls::Independence,
            _ => Calls::Checks,
        }
    }

    /// The right answer and the fault's, in words, where they differ on a file.
    fn shown(&self, given: &Given, right: &Right) -> Option<[String; 2]> {
        match self.calls() {
            Calls::Checks => {
                let wrong = self.answer(&given.file, right.kind, given.room);
                (wrong != right.answer).then(|| [&right.answer, &wrong].map(in_words))
            }
            Calls::Sentences => {
                right.texts.iter().find_map(|(room, text)| self.shown_by(given, *room, text))
            }
            Calls::Independence => right.independence.iter().find_map(|&(principal, answer)| {
                let right = Some(answer);
                let wrong = catch_unwind(|| (self.independence)(&given.file, principal)).ok();
                (wrong != right).then(|| [right, wrong].map(independent_in_words))
            }),
        }
    }

    /// The same for the sentences where so much is lent.
    fn shown_by(&self, given: &Given, room: Room, right: &Outcome) -> Option<[String; 2]> {
        let wrong = catch_unwind(|| outcome(&given.file, room, &self.sentences)).ok();
        let in_words = |outcome: &Outcome| match outcome.answer {
            Ok((signers, bytes)) => format!("{signers} and {bytes} bytes"),
            Err((number, place)) => format!("{number} place {place}"),
        };
        match wrong {
            None => Some([in_words(right), "panic".to_string()]),
            Some(wrong) if wrong == *right => None,
            Some(wrong) if wrong.answer == right.answer => {
                Some([in_words(right), "left otherwise".to_string()])
            }
            Some(wrong) => Some([in_words(right), in_words(&wrong)]),
        }
    }
}

/// What the proved checker says of a file: as one of a kind, of a record's sentences, and of
/// principals.
struct Right {
    kind: Kind,
    answer: Option<Answer>,
    texts: Vec<(Room, Outcome)>,
    independence: Vec<(u16, Independent)>,
}

impl Right {
    /// With what is asked for.
    fn of(given: &Given, kind: Kind, is_asked: impl Fn(Calls) -> bool) -> Right {
        let answer = proved(&given.file, kind, given.room);
        let is_asked = |calls| kind == Kind::Record && is_asked(calls);
        let rooms = if is_asked(Calls::Sentences) { rooms(given, &answer) } else { vec![] };
        let asked = if is_asked(Calls::Independence) { principals(given, &answer) } else { vec![] };
        let text = |room| (room, outcome(&given.file, room, &texts::by_proved));
        let independent = |k| (k, independence::by_proved(&given.file, k));
        Right {
            kind,
            answer: Some(answer),
            texts: rooms.into_iter().map(text).collect(),
            independence: asked.into_iter().map(independent).collect(),
        }
    }
}

fn in_words(answer: &Option<Answer>) -> String {
    match answer {
        None => "panic".to_string(),
        Some(Answer::Granted(signers)) => {
            let listed: String = signers.iter().map(|signer| format!(" {signer}")).collect();
            format!("granted {}{listed}", signers.len())
        }
        Some(Answer::Equal) => "equal".to_string(),
        Some(Answer::Refused { number, place }) => format!("{number} place {place}"),
        Some(Answer::Broken(what)) => what.clone(),
    }
}

fn independent_in_words(answer: Option<Independent>) -> String {
    match answer {
        None => "panic".to_string(),
        Some(Ok(true)) => "independent".to_string(),
        Some(Ok(false)) => "not independent".to_string(),
        Some(Err((number, place))) => format!("{number} place {place}"),
    }
}

/// A file that finds a fault: its number, what it was made as, the right answer and the fault's.
struct Found {
    number: u64,
    family: &'static str,
    answers: [String; 2],
}

/// The fault that only a text longer than any memory shows. The fixed set has such texts, and no
/// seeded file has one.
const IN_THE_SET_ONLY: &str = "text_length_wraps";

/// Goes through files until each fault that is looked for has shown; for each fault the first file
/// that finds it.
fn find_all(
    files: u64,
    make: impl Fn(u64) -> Given,
    is_looked_for: impl Fn(&Fault) -> bool,
) -> Vec<Option<Found>> {
    let mut found: Vec<Option<Found>> = FAULTS.iter().map(|_| None).collect();
    let mut left: Vec<usize> =
        (0..FAULTS.len()).filter(|&fault| is_looked_for(&FAULTS[fault])).collect();
    for number in 0..files {
        if left.is_empty() {
            break;
        }
        let given = make(number);
        for kind in kinds(&given) {
            let is_asked = |calls| left.iter().any(|&fault| FAULTS[fault].calls() == calls);
            let right = Right::of(&given, kind, is_asked);
            left.retain(|&fault| {
                let shown = FAULTS[fault].shown(&given, &right);
                found[fault] = shown.map(|answers| Found { number, family: given.family, answers });
                found[fault].is_none()
            });
        }
    }
    found
}

/// The fixed set finds each fault, and so do its seeded files alone, without the exhaustive pieces,
/// but for one fault.
#[test]
fn the_fixed_set_finds_each_fault() {
    assert_eq!(FAULTS.len(), 149);
    let fixed = Fixed::new();
    // a fault that is found by a panic is an error below; the message would only be in the way
    let hook = take_hook();
    set_hook(Box::new(|_| {}));
    let found = thread::scope(|scope| {
        let in_set = || find_all(fixed.count(), |number| fixed.given(number), |_| true);
        let in_seeded = || {
            find_all(SEEDED, |number| given(SEED, number), |fault| fault.name != IN_THE_SET_ONLY)
        };
        let start = |search| {
            thread::Builder::new()
                .stack_size(STACK)
                .spawn_scoped(scope, search)
                .expect("a thread starts")
        };
        let searches: [Box<dyn Fn() -> Vec<Option<Found>> + Send>; 2] =
            [Box::new(in_set), Box::new(in_seeded)];
        searches.map(start).map(|search| search.join())
    });
    set_hook(hook);
    let [in_set, in_seeded] = found.map(|search| search.expect("the search ends"));
    println!(
        "{:<32} {:>8}  {:>8}  {:<10} {:<20} {:<20} the fault",
        "name", "file", "seeded", "family", "right answer", "its answer"
    );
    let mut never = vec![];
    for (fault, both) in FAULTS.iter().zip(in_set.iter().zip(&in_seeded)) {
        let (Some(first), seeded) = both else {
            never.push(fault.name);
            continue;
        };
        if seeded.is_none() && fault.name != IN_THE_SET_ONLY {
            never.push(fault.name);
        }
        assert!(
            seeded.iter().chain([first]).all(|found| found.answers[1] != "panic"),
            "{} is found by a panic",
            fault.name
        );
        let in_seeded = seeded.as_ref().map_or("-".to_string(), |found| found.number.to_string());
        let [right, wrong] = &first.answers;
        let (name, what) = (fault.name, fault.what);
        println!(
            "{name:<32} {:>8}  {in_seeded:>8}  {:<10} {right:<20} {wrong:<20} {what}",
            first.number, first.family
        );
    }
    assert_eq!(never, Vec::<&str>::new(), "no file finds these");
}
