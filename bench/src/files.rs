//! The run files that are measured. Each is lawful, and as long as document 01 allows where length is the point.
mod deep_chain;
mod dependencies;
mod equivocation;
mod growing;
mod late;
mod mixed;
mod mixed_preflights;
mod repeats;
mod shared_labels;
mod tapes;
mod trimming;
mod writer;

pub use growing::growing;
use reference::settings::HEADER_BYTES;
use reference::step::step_length_in;
use writer::Run;

/// Orders are random, but the same in every run.
const SEED: u64 = 0;

pub struct File {
    pub name: String,
    pub version: u16,
    pub bytes: Vec<u8>,
    /// For each step, the refusal that it is meant to get, 0 where it is meant to be accepted.
    pub intended: Vec<u8>,
    /// How many steps prepare the ledger for the others.
    pub preparation: usize,
}

impl File {
    pub fn steps(&self) -> usize {
        self.intended.len()
    }

    /// The file without the steps from the one of this number on, which is counted from 0.
    pub fn cut(mut self, steps: usize) -> File {
        self.intended.truncate(steps);
        let mut end = HEADER_BYTES;
        for _ in &self.intended {
            end += step_length_in(self.version, self.bytes[end]).expect("a known kind");
        }
        self.bytes.truncate(end);
        self
    }

    /// How many steps are meant to get the refusal.
    pub fn refused(&self, refusal: u8) -> usize {
        self.intended.iter().filter(|&&r| r == refusal).count()
    }
}

/// How many jobs are booked in the files that show how the cost grows.
pub const SIZES: [usize; 8] = [1, 2, 4, 8, 16, 32, 64, 128];

/// The files of the first table.
pub fn measured() -> Vec<File> {
    vec![
        late::file(),
        mixed_preflights::file(),
        deep_chain::file(),
        repeats::file(),
        shared_labels::file(),
        mixed::file(),
        trimming::file(),
        dependencies::file(),
        equivocation::file(),
        Run::new(16, 5, 0).named("header_only"),
    ]
}

/// The files of the second table.
pub fn growth() -> Vec<File> {
    SIZES.iter().map(|&booked| growing(booked)).collect()
}
