//! What a refused file is answered.

/// "A refusal gives its number and a place." Numbers are those of 01's list; places count from 0.
#[derive(Clone, Copy, Debug, PartialEq, Eq)]
pub struct Refusal {
    pub number: u8,
    pub place: usize,
}

/// One test of 01's list: passes when `fault` is false, else refuses with the test's number and the
/// place.
pub fn refuse_if(fault: bool, number: u8, place: usize) -> Result<(), Refusal> {
    if fault {
        Err(Refusal { number, place })
    } else {
        Ok(())
    }
}

/// A test that looks for the first fault: `fault` is its place, if there is one.
pub fn refuse_at(fault: Option<usize>, number: u8) -> Result<(), Refusal> {
    fault.map_or(Ok(()), |place| Err(Refusal { number, place }))
}
