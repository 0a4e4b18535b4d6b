//! Samples of document 01, in the words that it writes.

/// "Table T: 0 atom 0; 1 principal 7 says it; 2 principal 8 says it: heads 0, 20487, 20488, seconds
/// 0, 0, 0"
pub const T: [(u16, u16); 3] = [(0, 0), (20487, 0), (20488, 0)];

/// "Record A uses entries 0 and 1 only, as words: 2 1 4 1, 0 20487, 0 0, 1, 40960 45057 4096 0."
pub const A: [u16; 13] = [2, 1, 4, 1, 0, 20487, 0, 0, 1, 40960, 45057, 4096, 0];

/// "K m, exchange, table atom 0, atom 1, their and (head 12288, second 1): lists [2] and [0, 1],
/// steps 24578 0 24578 1 20480 0 1"
pub const K: [u16; 20] =
    [3, 1, 2, 7, 0, 1, 12288, 0, 0, 1, 2, 0, 1, 24578, 0, 24578, 1, 20480, 0, 1];
