//! Both checkers on a record's proof in sentences: the answer, and every word and every byte of
//! what is lent.
use crate::compare::{Answer, Disagreement};
use crate::counts;
use crate::given::Given;
use crate::parts::Kind;
use builder::texts::MOST_TEXT;
use std::fmt;
use wethrynda::Sentences;

/// What is lent for one call: a list of so many words, and so many bytes.
#[derive(Clone, Copy, Debug, PartialEq, Eq)]
pub struct Room {
    pub words: usize,
    pub bytes: usize,
}

/// What such a call answers: the counts of signers and bytes, or a refusal's number and place.
pub type Written = Result<(usize, usize), (u8, usize)>;

/// A call that writes sentences, into a list and bytes that are lent.
pub type Call<'a> = &'a dyn Fn(&[u8], &mut [u16], &mut [u8]) -> Written;

/// What a call answers, and all that is lent as it is afterwards.
#[derive(Clone, PartialEq, Eq)]
pub struct Outcome {
    pub answer: Written,
    list: Vec<u16>,
    text: Vec<u8>,
}

impl fmt::Debug for Outcome {
    fn fmt(&self, f: &mut fmt::Formatter<'_>) -> fmt::Result {
        let shown = &self.text[..self.text.len().min(2000)];
        write!(f, "{:?}, list {:?}, text {:?}", self.answer, self.list, shown.escape_ascii())
    }
}

/// One call, on a list full of words, principals among them, and on bytes that no text has.
pub fn outcome(file: &[u8], room: Room, call: Call) -> Outcome {
    let mut list: Vec<u16> = (0..room.words).map(|i| (i as u16).wrapping_mul(0x9e37)).collect();
    let mut text: Vec<u8> = (0..room.bytes).map(|i| 128 + (i % 127) as u8).collect();
    let answer = call(file, &mut list, &mut text);
    Outcome { answer, list, text }
}

pub fn by_proved(file: &[u8], list: &mut [u16], text: &mut [u8]) -> Written {
    match wethrynda::write_sentences(file, list, text) {
        Sentences::Written { signers, bytes } => Ok((signers, bytes)),
        Sentences::Refused { number, place } => Err((number, place)),
    }
}

pub fn by_second(file: &[u8], list: &mut [u16], text: &mut [u8]) -> Written {
    second::sentences(file, list, text).map_err(|refusal| (refusal.number, refusal.place))
}

/// What is lent for a file whose check, with so long a list, gave this answer. For a grant there is
/// room just for all of it, and then a byte is missing; and, by turns from file to file, there is
/// more room, none for the text, and too little for the signers. Most refusals are those of the
/// check, which are compared anyway, so of them only a few are looked at.
pub fn rooms(given: &Given, answer: &Answer) -> Vec<Room> {
    let room = |words, bytes| Room { words, bytes };
    match answer {
        Answer::Granted(signers) => {
            let count = signers.len();
            let Some(bytes) = length(&given.file, count) else {
                return vec![room(given.room, 0), room(count, MOST_TEXT)];
            };
            let less = bytes.saturating_sub(1);
            let turn = match given.file.iter().map(|&byte| usize::from(byte)).sum::<usize>() % 4 {
                0 if count > 0 => room(count - 1, less),
                1 if count > 0 => room(count - 1, bytes),
                0 | 2 => room(given.room, 0),
                _ => room(given.room, bytes + 1 + bytes / 2),
            };
            vec![room(count, bytes), room(given.room, less), turn]
        }
        Answer::Refused { number: 8 | 15, .. } => vec![room(given.room, 0), room(given.room, 99)],
        Answer::Refused { .. } if given.file.len() % 16 == 8 => vec![room(given.room, 0)],
        _ => vec![],
    }
}

/// The length of a granted record's text, by the second checker; none where the program would lend
/// too few bytes. Such texts are not compared: 16 is the answer.
fn length(file: &[u8], signers: usize) -> Option<usize> {
    let in_bytes = |most| by_second(file, &mut vec![0; signers], &mut vec![0; most]).ok();
    let (_, bytes) = in_bytes(MOST_TEXT >> 6).or_else(|| in_bytes(MOST_TEXT))?;
    Some(bytes)
}

/// How many calls gave which answers.
pub type Counts = counts::Counts<{ ANSWERS.len() }>;

pub const ANSWERS: [&str; 5] =
    ["written", "refused 8", "refused 16", TOO_LONG, "refused otherwise"];

/// The text is longer than what the program lends.
pub const TOO_LONG: &str = "refused 16, too long";

/// The place of an answer in their list.
fn which(room: Room, answer: Written) -> usize {
    match answer {
        Ok(_) => 0,
        Err((8, _)) => 1,
        Err((16, _)) if room.bytes < MOST_TEXT => 2,
        Err((16, _)) => 3,
        Err(_) => 4,
    }
}

/// Compares the sentences of a file for which both checks gave these answers.
pub fn compared(given: &Given, answers: &[(Kind, Answer)]) -> Result<Counts, Box<Disagreement>> {
    let mut counts = Counts::default();
    let of_records = answers.iter().filter(|(kind, _)| *kind == Kind::Record);
    for room in of_records.flat_map(|(_, answer)| rooms(given, answer)) {
        let proved = outcome(&given.file, room, &by_proved);
        let second = outcome(&given.file, room, &by_second);
        if proved != second {
            let call = format!("as sentences, {room:?} lent");
            return Err(Disagreement::new(given, call, [proved, second]));
        }
        counts.count(which(room, proved.answer));
    }
    Ok(counts)
}
