//! The layouts of document 01, from parts to words to bytes. Nothing says that the parts are right.
//! A table is the heads and seconds of its entries.

/// "The record": F, S, N and the goal; heads, seconds, statements, steps.
pub fn record(table: &[(u16, u16)], statements: &[u16], goal: u16, steps: &[u16]) -> Vec<u16> {
    let sizes = [size(table.len()), size(statements.len()), size(steps.len()), goal];
    words(sizes, table, &[statements, steps])
}

/// "The exchange file": F, S1, S2 and N; heads, seconds, the first list, the second list, steps.
pub fn exchange(table: &[(u16, u16)], first: &[u16], second: &[u16], steps: &[u16]) -> Vec<u16> {
    let sizes = [table.len(), first.len(), second.len(), steps.len()].map(size);
    words(sizes, table, &[first, second, steps])
}

fn size(count: usize) -> u16 {
    u16::try_from(count).expect("a size is a word")
}

fn words(sizes: [u16; 4], table: &[(u16, u16)], lists: &[&[u16]]) -> Vec<u16> {
    let (heads, seconds): (Vec<u16>, Vec<u16>) = table.iter().copied().unzip();
    [&sizes[..], &heads, &seconds, &lists.concat()].concat()
}

/// "A file of 16-bit words, low byte first"
pub fn bytes(words: &[u16]) -> Vec<u8> {
    words.iter().flat_map(|word| word.to_le_bytes()).collect()
}
