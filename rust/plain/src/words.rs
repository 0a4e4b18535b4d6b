//! "A file of 16-bit words, low byte first": read where they stand, without a copy.

#[derive(Clone, Copy)]
pub struct Words<'a>(&'a [[u8; 2]]);

impl<'a> Words<'a> {
    /// The words of a file; an odd last byte belongs to none, and test 3 sees it.
    pub fn of(file: &'a [u8]) -> Self {
        Words(file.as_chunks().0)
    }

    pub fn len(self) -> usize {
        self.0.len()
    }

    pub fn split_at(self, count: usize) -> (Self, Self) {
        let (front, rest) = self.0.split_at(count);
        (Words(front), Words(rest))
    }

    #[inline(always)]
    pub fn get(self, i: usize) -> Option<u16> {
        self.0.get(i).map(|&bytes| u16::from_le_bytes(bytes))
    }

    #[inline(always)]
    pub fn at(self, i: usize) -> u16 {
        u16::from_le_bytes(self.0[i])
    }

    #[inline(always)]
    pub fn iter(self) -> impl Iterator<Item = u16> + 'a {
        self.0.iter().map(|&bytes| u16::from_le_bytes(bytes))
    }
}
