//! "Turned back": a refusal is a number and, for some, an entry.

/// The refusals of a run are numbered from 1 to this: document 01 has 1 to 18, and of document 02 M-105 has 19 and 20, M-108 has 21, and M-109 has 22 and 23.
pub const REFUSALS: u64 = 23;

#[derive(Clone, Copy, PartialEq, Eq, Debug)]
pub struct Refusal {
    pub number: u64,
    /// The first offending entry, 0 where the table names none.
    pub entry: u64,
}

/// A step is answered with a value or turned back.
pub type Answer = Result<u64, Refusal>;

/// A refusal whose row in the table says "0".
pub fn plain(number: u64) -> Refusal {
    Refusal { number, entry: 0 }
}

/// A refusal whose row in the table says "entry".
pub fn at_entry(number: u64, entry: u64) -> Refusal {
    Refusal { number, entry }
}

/// Turns back with `number` at the first offending entry, if there is one.
pub fn first_offender(number: u64, offender: Option<u64>) -> Result<(), Refusal> {
    match offender {
        Some(entry) => Err(at_entry(number, entry)),
        None => Ok(()),
    }
}
