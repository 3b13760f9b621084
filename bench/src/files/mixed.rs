//! All of document 01's kinds of step, as a federation with two faulty vaults might take them: jobs from proposal to acknowledgement,
//! with the mistakes and the repetitions of a careless network.
use super::tapes::{with_frames, Reels};
use super::writer::Run;
use super::{File, SEED};
use reference::engine::BOOK_RECORDS;
use reference::random::Random;
use reference::record::{Bytes, Tape};
use reference::step::kind;
use reference::write::{accession, migration, set_of};

const JOBS: u8 = BOOK_RECORDS as u8;
/// Correct vaults that sign; with the faulty vaults 14 and 15 they are eleven.
const SIGNERS: std::ops::Range<u8> = 0..9;

pub fn file() -> File {
    let mut run = Run::new(16, 5, set_of(14..16));
    let mut reels = Reels::new();
    let mut records = Vec::new();
    let mut tapes = Vec::new();
    for job in 0..JOBS {
        let record = if job % 2 == 0 {
            tapes = reels.four(5)[..1 + usize::from(job / 2 % 4)].to_vec();
            accession(7, &tapes)
        } else {
            migration(6, &tapes, &reels.copies(&tapes, 6))
        };
        records.push(record);
        follow(&mut run, &record);
        if job % 8 == 3 {
            mistakes(&mut run, &mut reels, job);
        }
    }
    let surplus = accession(7, &reels.four(5));
    run.propose(&surplus, 10);
    run.prepared();
    let mut random = Random::new(SEED);
    for action in (0..10).cycle() {
        if !run.has_room(kind::PROPOSE) {
            break;
        }
        repeat(&mut run, &mut random, &records, action);
    }
    run.named("mixed")
}

/// A job from its proposal until it is finished.
fn follow(run: &mut Run, record: &Bytes) {
    let job = run.book(record);
    let signers = set_of(SIGNERS) | set_of(14..16);
    run.show(job, 0);
    run.preflights(SIGNERS, job, 0);
    run.generations(job, 18);
    run.commit(0, job, set_of(SIGNERS), 16);
    run.faulty_signature(14, job, 0);
    run.commit(1, job, signers, 15);
    run.faulty_signature(15, job, 0);
    run.show(job, 0);
    for vault in 0..10 {
        run.commit(vault, job, signers, 0);
    }
    run.faulty_acknowledgement(14, job, 0);
    run.show(job, 0);
    run.generations(job, 0);
    run.draw(job % 17, 0);
}

/// Steps that are refused, after `job`, a migration, is held by vault 0.
fn mistakes(run: &mut Run, reels: &mut Reels, job: u8) {
    let tape = reels.fresh(5, 1000);
    let copy = reels.fresh(6, 1000);
    malformed(run, tape, copy);
    run.propose(&migration(6, &[tape], &[tape]), 7);
    run.propose(&migration(9, &[tape], &[copy]), 8);
    run.propose(&migration(6, &[tape], &[with_frames(copy, 999)]), 9);
    run.preflight(16, job, 3);
    run.preflight(0, job + 1, 4);
    run.preflight(14, job, 5);
    run.commit(15, job, 0, 5);
    run.commit(16, job, 0, 3);
    run.faulty_signature(0, job, 5);
    run.faulty_acknowledgement(3, job, 5);
    run.faulty_acknowledgement(14, job + 1, 4);
    run.show(job + 1, 4);
    run.generations(255, 4);
    run.draw(17, 17);
    // Holds the job without having signed it.
    run.preflight(9, job, 12);
    run.preflight(9, job - 1, 14);
    run.preflight(12, job, 11);
}

fn malformed(run: &mut Run, tape: Tape, copy: Tape) {
    run.propose(&migration(6, &[tape], &[with_frames(copy, 0)]), 6);
    let mut five = migration(6, &[tape], &[copy]);
    five[2] = 5;
    run.propose(&five, 6);
}

/// One of ten steps after all jobs are finished.
fn repeat(run: &mut Run, random: &mut Random, records: &[Bytes], action: u8) {
    let job = random.below(records.len() as u64) as u8;
    let vault = random.below(9) as u8;
    match action {
        0 | 1 => run.preflight(vault, job, 0),
        2 => run.commit(vault, job, set_of(SIGNERS) | set_of(14..16), 0),
        3 => run.faulty_signature(14, job, 0),
        4 => run.faulty_acknowledgement(15, job, 0),
        5 => run.show(job, 0),
        6 => run.draw(vault, 0),
        7 => run.generations(job, 0),
        8 => run.preflight(9, job, if job % 2 == 1 { 12 } else { 14 }),
        _ if random.below(8) == 0 => run.propose(&records[usize::from(job)], 0),
        _ => run.commit(vault, job, set_of(0..16), 15),
    }
}
