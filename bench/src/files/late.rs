//! Preflights that are refused as late as may be, at one vault that holds nearly the whole journal: migrations of four tapes
//! onto four, whose inputs were made by the last accessions and whose last output the last job has reserved.
use super::tapes::Reels;
use super::writer::Run;
use super::File;
use reference::record::{Bytes, Tape};
use reference::step::kind;
use reference::write::{accession, migration};

const TARGETS: usize = 8;
const PAIRS: usize = 55;
const SIGNERS: std::ops::Range<u8> = 0..11;

pub fn file() -> File {
    let mut reels = Reels::new();
    let mut run = Run::new(16, 5, 0);
    let sources: Vec<[Tape; 4]> = (0..TARGETS).map(|_| reels.four(5)).collect();
    let reserved = reels.four(5);
    for target in 0..TARGETS {
        run.book(&target_record(&mut reels, &sources, target, reserved[3]));
    }
    let pairs: Vec<(u8, u8)> = (0..PAIRS)
        .map(|_| book_pair(&mut run, &mut reels))
        .collect();
    let mut accessions = vec![run.book(&accession(7, &reels.four(5)))];
    accessions.extend(sources.iter().map(|tapes| run.book(&accession(7, tapes))));
    let last = run.book(&accession(7, &reserved));

    for (parent, child) in pairs {
        run.carry_out(parent, SIGNERS, SIGNERS);
        run.carry_out(child, SIGNERS, 0..3);
    }
    for job in accessions {
        run.carry_out(job, SIGNERS, SIGNERS);
    }
    run.preflight(0, last, 0);
    run.prepared();
    for target in (0..TARGETS as u8).cycle() {
        if !run.has_room(kind::PREFLIGHT) {
            break;
        }
        run.preflight(0, target, 14);
    }
    run.named("preflights_late")
}

fn target_record(reels: &mut Reels, sources: &[[Tape; 4]], target: usize, rival: Tape) -> Bytes {
    let inputs: Vec<Tape> = (0..4)
        .map(|i| sources[(target + i) % sources.len()][i])
        .collect();
    let mut outputs = reels.copies(&inputs, 6);
    outputs[3].label = rival.label;
    migration(6, &inputs, &outputs)
}

/// An accession of four tapes and their migration.
pub fn book_pair(run: &mut Run, reels: &mut Reels) -> (u8, u8) {
    let tapes = reels.four(5);
    let copies = reels.copies(&tapes, 6);
    let parent = run.book(&accession(7, &tapes));
    (parent, run.book(&migration(6, &tapes, &copies)))
}
