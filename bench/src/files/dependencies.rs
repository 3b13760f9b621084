//! What a vault misses, at one that holds nearly the whole journal but the makers of what it is asked for: migrations of four tapes, each made by another
//! accession.
use super::late::book_pair;
use super::tapes::Reels;
use super::writer::Run;
use super::File;
use reference::record::Tape;
use reference::step::kind;
use reference::write::{accession, migration};

const TARGETS: usize = 8;
const PAIRS: usize = 55;
const SIGNERS: std::ops::Range<u8> = 0..11;

pub fn file() -> File {
    let mut reels = Reels::new();
    let mut run = Run::new(16, 5, 0);
    let sources: Vec<[Tape; 4]> = (0..TARGETS).map(|_| reels.four(5)).collect();
    for target in 0..TARGETS {
        let inputs: Vec<Tape> = (0..4).map(|i| sources[(target + i) % TARGETS][i]).collect();
        let outputs = reels.copies(&inputs, 6);
        run.book(&migration(6, &inputs, &outputs));
    }
    let pairs: Vec<(u8, u8)> = (0..PAIRS)
        .map(|_| book_pair(&mut run, &mut reels))
        .collect();
    let makers: Vec<u8> = sources
        .iter()
        .map(|tapes| run.book(&accession(7, tapes)))
        .collect();
    for (parent, child) in pairs {
        run.carry_out(parent, SIGNERS, SIGNERS);
        run.carry_out(child, SIGNERS, 0..3);
    }
    for job in makers {
        run.carry_out(job, SIGNERS, 1..3);
    }
    run.prepared();
    for target in (0..TARGETS as u8).cycle() {
        if !run.has_room(kind::DEPENDENCIES) {
            break;
        }
        run.dependencies(0, target, 0);
    }
    run.named("dependencies")
}
