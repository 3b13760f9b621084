//! Signatures released where a rival is held, and where not, and what takes
//! the tapes that they freed.

use super::build::Builder;
use super::records::{new_migration, some_tapes};
use super::traffic::misplaced_in;
use crate::record::Tape;
use crate::write::release;

/// Up to b of the sound vaults sign rivals of the first job, and all others the
/// first, which is then held around: the rivals have lost.
pub fn outvote(builder: &mut Builder, jobs: &[u8]) {
    let mut vaults = builder.vaults();
    vaults.sort_by_key(|vault| builder.is_faulty(*vault));
    let dissenters = builder.random.between(0, builder.engine.settings.b) as usize;
    for (i, vault) in vaults.into_iter().enumerate() {
        let own = if i < dissenters { &jobs[1..] } else { jobs };
        for job in own {
            let _ = builder.sign(vault, *job);
        }
    }
    builder.hold_around(jobs[0], 95);
}

/// Each of these jobs is released for each, itself among them, at some of the
/// vaults; then they are asked for again, and so is what some of them gave up.
pub fn release_around(builder: &mut Builder, jobs: &[u8]) {
    let often = *builder.random.pick(&[10, 40, 100]);
    for vault in builder.vaults() {
        for job in jobs {
            for rival in jobs {
                if builder.random.chance(often) {
                    let _ = builder.step(release(vault, *job, *rival));
                }
            }
        }
    }
    for job in jobs {
        builder.sign_around(*job, 30);
    }
    take_freed(builder, jobs);
}

/// A job that takes tapes which these jobs wanted and which still stand.
fn take_freed(builder: &mut Builder, jobs: &[u8]) {
    let standing = builder.standing();
    let book = &builder.engine.book;
    let freed: Vec<Tape> = jobs
        .iter()
        .flat_map(|job| book[usize::from(*job)].inputs.iter())
        .map(|input| input.tape)
        .filter(|tape| standing.contains(tape))
        .collect();
    if freed.is_empty() {
        return;
    }
    let inputs = some_tapes(&mut builder.random, &freed, 2);
    if let Some(record) = new_migration(builder, &inputs) {
        builder.push(record);
    }
}

/// A release that mostly is in place, of jobs that may be any.
pub fn odd_release(builder: &mut Builder, job: u8) {
    let (vault, job) = misplaced_in(builder, job, 10);
    let any = builder.any_job();
    let (_, rival) = misplaced_in(builder, any, 10);
    let _ = builder.step(release(vault, job, rival));
}
