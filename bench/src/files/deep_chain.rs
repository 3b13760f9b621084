//! A master copied 127 times, from oldest tape to newest, and the generations of every copy over and over.
use super::tapes::Reels;
use super::writer::Run;
use super::{File, SEED};
use reference::engine::BOOK_RECORDS;
use reference::random::Random;
use reference::record::Tape;
use reference::step::kind;
use reference::write::{accession, migration};

const JOBS: u8 = BOOK_RECORDS as u8;
const FRAMES: u64 = 1000;

pub fn file() -> File {
    let mut run = Run::new(4, 1, 0);
    book_chain(&mut run);
    for job in 0..JOBS {
        run.carry_out(job, 0..3, 0..3);
    }
    run.prepared();
    let mut jobs: Vec<u8> = (0..JOBS).collect();
    Random::new(SEED).shuffle(&mut jobs);
    for &job in jobs.iter().cycle() {
        if !run.has_room(kind::GENERATIONS) {
            break;
        }
        run.generations(job, 0);
    }
    run.named("deep_chain")
}

/// Each job makes a tape for the next job and one for the job after that. A drive reads the medium before its own too.
fn book_chain(run: &mut Run) {
    let mut reels = Reels::new();
    let mut made: Vec<[Tape; 2]> = vec![[reels.fresh(5, 2 * FRAMES), reels.fresh(5, FRAMES)]];
    run.book(&accession(5, &made[0]));
    for job in 1..usize::from(JOBS) {
        let medium = 5 + job as u8 / 26;
        let mut inputs = vec![made[job - 1][0]];
        if job >= 2 {
            inputs.push(made[job - 2][1]);
        }
        let outputs = [reels.fresh(medium, FRAMES), reels.fresh(medium, FRAMES)];
        run.book(&migration(medium, &inputs, &outputs));
        made.push(outputs);
    }
}
