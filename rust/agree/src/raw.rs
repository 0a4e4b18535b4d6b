//! Near misses that don't keep to the parts: sizes, length, words and bytes changed as they stand.
use crate::parts::Kind;
use builder::layout::bytes;
use builder::random::Random;

/// The words of a right file, with one such fault, as bytes.
pub fn missed(mut words: Vec<u16>, kind: Kind, random: &mut Random) -> Vec<u8> {
    let (at, other) = (random.below(words.len()), random.below(words.len()));
    match random.below(14) {
        0 => words[at] = words[at].wrapping_add(1),
        1 => words[at] = words[at].wrapping_sub(1),
        2 => words[at] = random.word(),
        3 => words[at] = words[other],
        4 => words.swap(at, other),
        5 => {
            words.remove(at);
        }
        6 => words.insert(at, words[at]),
        7 => {
            let size = &mut words[random.below(4)];
            *size = if random.one_in(2) { size.wrapping_add(1) } else { size.wrapping_sub(1) };
        }
        8 => words[random.below(4)] = random.pick(&LIMITS),
        9 => {
            // two sizes are at their limits or past them
            words[random.below(4)] = random.pick(&LIMITS);
            words[random.below(4)] = random.pick(&LIMITS);
        }
        10 => other_sizes(&mut words, kind, random),
        11 => {
            let mut file = bytes(&words);
            file.truncate(random.below(file.len()));
            return file;
        }
        12 => {
            let mut file = bytes(&words);
            let more = if random.one_in(40) { 65536 } else { random.between(1, 9) };
            file.extend((0..more).map(|_| random.word() as u8));
            return file;
        }
        _ => {
            // a byte changed, and now and then one dropped, so that the length is odd
            let mut file = bytes(&words);
            let at = random.below(file.len());
            if random.one_in(2) {
                file[at] = random.word() as u8;
            } else {
                file.remove(at);
            }
            return file;
        }
    }
    bytes(&words)
}

/// The limits of the sizes, and one more and one less.
pub const LIMITS: [u16; 16] =
    [0, 1, 2, 255, 256, 257, 4095, 4096, 4097, 16383, 16384, 16385, 32767, 32768, 65534, 65535];

/// Sizes that ask for the same length, so that the words are read as other parts.
fn other_sizes(words: &mut [u16], kind: Kind, random: &mut Random) {
    let places: &[usize] = if kind == Kind::Record { &[1, 2] } else { &[1, 2, 3] };
    let (from, to) = (random.pick(places), random.pick(places));
    let moved = 1 + random.below(2) as u16;
    if random.one_in(2) && words[0] > 1 {
        words[0] -= 1;
        words[to] = words[to].wrapping_add(2);
    } else if words[from] >= moved {
        words[from] -= moved;
        words[to] = words[to].wrapping_add(moved);
    }
}
