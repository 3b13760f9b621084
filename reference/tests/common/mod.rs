//! Short words for writing run files.
#![allow(dead_code)]

use reference::record::{medium, reads, Bytes};
use reference::step::Step;
pub use reference::write::*;

/// An accession of one tape, with a drive that reads its medium.
pub fn accession(label: &[u8; 8], frames: u32) -> Bytes {
    let drive = (5..=9).find(|drive| reads(*drive, medium(label)));
    record(0, drive.unwrap(), &[], &[(label, frames)])
}

/// A migration of one tape to another, both L7.
pub fn migration(from: &[u8; 8], to: &[u8; 8], frames: u32) -> Bytes {
    record(1, 7, &[(from, frames)], &[(to, frames)])
}

/// The printed answers (refusal and value) of a run of these steps.
pub fn answers(n: u8, b: u8, faulty: u16, steps: &[Step]) -> Vec<(u64, u64)> {
    let text = text(&run_file(n, b, faulty, steps));
    text.lines()
        .map(|line| {
            let words: Vec<u64> = line.split(' ').map(|w| w.parse().unwrap()).collect();
            assert_eq!(words.len(), 3);
            (words[1], words[2])
        })
        .collect()
}

/// The answer to the last of these steps.
pub fn last(n: u8, b: u8, faulty: u16, steps: &[Step]) -> (u64, u64) {
    *answers(n, b, faulty, steps).last().unwrap()
}

/// The answer to a proposal, alone in its run.
pub fn proposed(record: Bytes) -> (u64, u64) {
    last(1, 0, 0, &[propose(record)])
}

pub fn text(file: &[u8]) -> String {
    String::from_utf8(reference::run(file)).unwrap()
}
