//! "A file of 16-bit words, low byte first": four sizes, then lists of words.

use super::refusal::{refuse_if, Refusal};
use std::ops::RangeInclusive;

/// How many formulas, statements (of one list) and step words a file may have. A record has at
/// least one step.
pub const FORMULAS: RangeInclusive<usize> = 1..=4096;
pub const STATEMENTS: RangeInclusive<usize> = 0..=256;
pub const MOST_STEPS: usize = 16_384;

/// The words of some bytes; an odd last byte is left out.
fn words(bytes: &[u8]) -> impl Iterator<Item = u16> + '_ {
    bytes.chunks_exact(2).map(|pair| u16::from_le_bytes([pair[0], pair[1]]))
}

/// The first four words. Test 1: "The file has fewer than 8 bytes (place 0)."
pub fn sizes(file: &[u8]) -> Result<[u16; 4], Refusal> {
    refuse_if(file.len() < 8, 1, 0)?;
    let mut sizes = [0; 4];
    sizes.iter_mut().zip(words(file)).for_each(|(size, word)| *size = word);
    Ok(sizes)
}

/// The lists of the given lengths that follow the sizes. Test 3: the file has the bytes of the
/// sizes and these lists, no more and no fewer.
pub fn lists<const COUNT: usize>(
    file: &[u8],
    lengths: [usize; COUNT],
) -> Result<[Vec<u16>; COUNT], Refusal> {
    refuse_if(file.len() != 2 * (4 + lengths.iter().sum::<usize>()), 3, 0)?;
    let mut rest = words(file).skip(4);
    Ok(lengths.map(|length| rest.by_ref().take(length).collect()))
}
