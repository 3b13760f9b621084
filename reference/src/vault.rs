//! A sound vault: the jobs it holds and the jobs it signed, and checks 11
//! to 14 on them. Each check returns its first offending entry.

use crate::record::{Label, Record, Tape};
use std::collections::BTreeSet;

#[derive(Clone, Default, PartialEq, Eq, Debug)]
pub struct Vault {
    pub held: BTreeSet<usize>,
    pub signed: BTreeSet<usize>,
}

impl Vault {
    /// "created if a held job has it as an output"
    fn created(&self, book: &[Record], tape: &Tape) -> bool {
        self.held.iter().any(|job| book[*job].makes_tape(tape))
    }

    /// "retired if a held job has its label as an input"
    fn retired(&self, book: &[Record], label: &Label) -> bool {
        self.held.iter().any(|job| book[*job].takes_label(label))
    }

    /// Check 11.
    pub fn input_not_created(&self, book: &[Record], job: usize) -> Option<u64> {
        let mut inputs = book[job].inputs.iter();
        inputs
            .find(|input| !self.created(book, &input.tape))
            .map(|input| input.number)
    }

    /// Check 12.
    pub fn input_retired(&self, book: &[Record], job: usize) -> Option<u64> {
        let mut inputs = book[job].inputs.iter();
        inputs
            .find(|input| self.retired(book, &input.tape.label))
            .map(|input| input.number)
    }

    /// Check 13. The job itself is not signed here when this is asked, so
    /// every signed job is another one.
    pub fn input_reserved(&self, book: &[Record], job: usize) -> Option<u64> {
        let reserved = |label| self.signed.iter().any(|s| book[*s].takes_label(label));
        let mut inputs = book[job].inputs.iter();
        inputs
            .find(|input| reserved(&input.tape.label))
            .map(|input| input.number)
    }

    /// Check 14. The job itself may be held here: then it made the label.
    pub fn output_made_or_reserved(&self, book: &[Record], job: usize) -> Option<u64> {
        let made = |label| self.held.iter().any(|h| book[*h].makes_label(label));
        let reserved = |label| self.signed.iter().any(|s| book[*s].makes_label(label));
        let mut outputs = book[job].outputs.iter();
        outputs
            .find(|output| made(&output.tape.label) || reserved(&output.tape.label))
            .map(|output| output.number)
    }
}
