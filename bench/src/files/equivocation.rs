//! Questions which vaults equivocate: 128 jobs in quarrels of four, which the faulty vaults sign one after another; after each signature the question is asked
//! a hundred times.
use super::tapes::Reels;
use super::writer::Run;
use super::File;
use reference::step::kind;
use reference::write::{accession, migration};
use std::ops::Range;

const FAULTY: Range<u8> = 11..16;

/// How often the question is asked after a signature.
const QUESTIONS: usize = 99;

pub fn file() -> File {
    let mut run = Run::new(16, 5, 0xf800);
    let mut reels = Reels::new();
    let quarrels: Vec<[u8; 4]> = (0..32).map(|_| book(&mut run, &mut reels)).collect();
    for quarrel in &quarrels {
        settle(&mut run, *quarrel);
    }
    run.prepared();
    let jobs = quarrels.iter().flat_map(|quarrel| &quarrel[1..]);
    let signatures = jobs.flat_map(|job| FAULTY.map(|vault| (vault, *job)));
    for (vault, job) in signatures {
        if !run.has_room(kind::FAULTY_SIGNATURE) {
            break;
        }
        run.faulty_signature(vault, job, 0);
        for _ in 0..QUESTIONS {
            if run.has_room(kind::EQUIVOCATING) {
                run.equivocating(0);
            }
        }
    }
    run.named("equivocation")
}

/// An accession of two tapes, and migrations of the first, of both and of the second.
fn book(run: &mut Run, reels: &mut Reels) -> [u8; 4] {
    let [first, second, _, _] = reels.four(5);
    let mut migrate =
        |run: &mut Run, tapes: &[_]| run.book(&migration(6, tapes, &reels.copies(tapes, 6)));
    [
        run.book(&accession(7, &[first, second])),
        migrate(run, &[first]),
        migrate(run, &[first, second]),
        migrate(run, &[second]),
    ]
}

/// The accession is held at all correct vaults, and each signs a migration of one tape or the other.
fn settle(run: &mut Run, quarrel: [u8; 4]) {
    run.carry_out(quarrel[0], 0..FAULTY.start, 0..FAULTY.start);
    run.preflights(0..6, quarrel[1], 0);
    run.preflights(6..FAULTY.start, quarrel[3], 0);
}
