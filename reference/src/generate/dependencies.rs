//! What a vault misses is asked for: of jobs whose inputs come from jobs that
//! it holds, from jobs that others hold, and from jobs that nobody holds.

use super::build::Builder;
use super::records::{new_accession, new_migration, some_tapes};
use super::traffic::misplaced_in;
use crate::record::Tape;
use crate::write::dependencies;

/// Asked of some of these jobs at some of the vaults.
pub fn ask_around(builder: &mut Builder, jobs: &[u8]) {
    let often = *builder.random.pick(&[10, 40, 100]);
    for vault in builder.vaults() {
        for job in jobs {
            if builder.random.chance(often) {
                let _ = builder.step(dependencies(vault, *job));
            }
        }
    }
}

/// Up to four accessions that not every vault holds, a job made from some of
/// their tapes, and what each vault misses for it; at times once more when
/// some have been told.
pub fn scattered(builder: &mut Builder) {
    let mut tapes: Vec<Tape> = Vec::new();
    let mut jobs = Vec::new();
    let held = *builder.random.pick(&[20, 50, 80]);
    for _ in 0..builder.random.between(1, 4) {
        let record = new_accession(builder);
        let Some(job) = builder.propose(record) else {
            return;
        };
        builder.sign_around(job, 100);
        builder.hold_around(job, held);
        let made = &builder.engine.book[usize::from(job)].outputs;
        let one = builder.random.below(made.len() as u64) as usize;
        tapes.push(made[one].tape);
        jobs.push(job);
    }
    if builder.random.chance(20) {
        tapes[0].frames += 1;
    }
    let Some(record) = new_migration(builder, &tapes) else {
        return;
    };
    jobs.extend(builder.propose(record));
    ask_around(builder, &jobs);
    if builder.random.chance(60) {
        let standing = builder.standing();
        let inputs = some_tapes(&mut builder.random, &standing, 2);
        if let Some(rival) = new_migration(builder, &inputs) {
            jobs.extend(builder.push(rival));
        }
    }
    for job in &jobs {
        builder.sign_around(*job, 40);
        builder.hold_around(*job, 40);
    }
    ask_around(builder, &jobs);
}

/// A question that mostly is in place, of a job that may be any.
pub fn odd_question(builder: &mut Builder, job: u8) {
    let (vault, job) = misplaced_in(builder, job, 10);
    let _ = builder.step(dependencies(vault, job));
}
