//! How often each of some things occurred, which a list names elsewhere.

#[derive(Clone, Debug, PartialEq, Eq)]
pub struct Counts<const N: usize>([u64; N]);

impl<const N: usize> Default for Counts<N> {
    fn default() -> Self {
        Counts([0; N])
    }
}

impl<const N: usize> Counts<N> {
    /// One more of the thing that has this place in the list of names.
    pub fn count(&mut self, place: usize) {
        self.0[place] += 1;
    }

    pub fn add(&mut self, other: &Self) {
        self.0.iter_mut().zip(other.0).for_each(|(mine, theirs)| *mine += theirs);
    }

    /// Each count, after its name.
    pub fn named(&self, names: [&'static str; N]) -> impl Iterator<Item = (&'static str, u64)> {
        names.into_iter().zip(self.0)
    }
}
