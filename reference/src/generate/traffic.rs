//! Traffic that makes sense, with its repeats and small mistakes.

use super::build::Builder;
use super::clients::{busy_client, odd_request};
use super::dependencies::{odd_question, scattered};
use super::equivocation::ask;
use super::records::{new_accession, new_migration, some_tapes};
use super::releases::odd_release;
use crate::settings::MOST_VAULTS;
use crate::write::{
    draw, faulty_acknowledgement, faulty_signature, generations, preflight, show, snapshot,
};

pub fn traffic(builder: &mut Builder) {
    let actions = builder.random.between(5, 60);
    for _ in 0..actions {
        action(builder);
    }
}

pub fn action(builder: &mut Builder) {
    let job = recent_job(builder);
    match builder.random.below(31) {
        0..=2 => {
            let record = new_accession(builder);
            builder.push(record);
        }
        3..=7 => migrate(builder),
        8 => {
            let record = new_accession(builder);
            builder.propose(record);
        }
        9 => builder.sign_around(job, 60),
        10 => builder.hold_around(job, 50),
        11 | 12 => {
            let vault = builder.any_vault();
            let _ = builder.sign(vault, job);
        }
        13 => {
            let vault = builder.any_vault();
            let _ = builder.hold(vault, job);
        }
        14 | 15 => odd_commit(builder, job),
        16 => repeat(builder, job),
        17 => misplaced(builder, job),
        18 | 19 => visit(builder),
        20 => odd_release(builder, job),
        21..=23 => odd_question(builder, job),
        24 => scattered(builder),
        25 => odd_request(builder, job),
        26 if builder.random.chance(40) => busy_client(builder),
        27 => ask(builder),
        _ => look(builder, job),
    }
}

/// Mostly one of the last few jobs.
fn recent_job(builder: &mut Builder) -> u8 {
    let booked = builder.engine.book.len() as u64;
    if booked == 0 || builder.random.chance(30) {
        return builder.any_job();
    }
    (booked - 1 - builder.random.below(booked.min(4))) as u8
}

/// A migration of standing tapes, or of tapes some booked job would make.
fn migrate(builder: &mut Builder) {
    let mut tapes = builder.standing();
    if tapes.is_empty() || builder.random.chance(15) {
        let book = &builder.engine.book;
        tapes = book
            .iter()
            .flat_map(|record| record.outputs.iter().map(|output| output.tape))
            .collect();
    }
    if tapes.is_empty() {
        return;
    }
    let inputs = some_tapes(&mut builder.random, &tapes, 4);
    if let Some(record) = new_migration(builder, &inputs) {
        builder.push(record);
    }
}

/// A commit whose set of signers is not the real one.
pub fn odd_commit(builder: &mut Builder, job: u8) {
    let vault = builder.any_vault();
    let real = builder.signers(job);
    let one = 1u16 << builder.random.below(MOST_VAULTS);
    let signers = match builder.random.below(8) {
        0 | 1 => fewer(builder, real, 0),
        2 | 3 => fewer(builder, real, 1),
        4 => real ^ one,
        5 => real.swap_bytes(),
        6 => fewer(builder, real, 2) | one,
        _ => builder.random.word() as u16,
    };
    let _ = builder.commit(vault, job, signers);
}

/// The set without some vaults, so that it is `short` below the threshold.
fn fewer(builder: &mut Builder, set: u16, short: u64) -> u16 {
    let aim = builder.engine.settings.threshold().saturating_sub(short);
    let mut set = set;
    for vault in builder.vaults() {
        if u64::from(set.count_ones()) > aim {
            set &= !(1 << vault);
        }
    }
    set
}

/// Says once more what was said before.
pub fn repeat(builder: &mut Builder, job: u8) {
    let record = builder.engine.book.get(usize::from(job));
    if let Some(record) = record.map(|record| record.bytes) {
        builder.propose(record);
    }
    for _ in 0..2 {
        let vault = builder.any_vault();
        let _ = builder.sign(vault, job);
        let _ = builder.hold(vault, job);
        let _ = builder.hold(vault, job);
        let _ = builder.sign(vault, job);
    }
}

/// A vault and a job: this one, or so often one out of range or any.
pub fn misplaced_in(builder: &mut Builder, job: u8, percent: u64) -> (u8, u8) {
    let n = builder.engine.settings.n as u8;
    let booked = builder.engine.book.len() as u8;
    let vault = match builder.random.chance(percent) {
        true if builder.random.chance(50) => n,
        true => builder.random.byte(),
        false => builder.any_vault(),
    };
    let job = match builder.random.chance(percent) {
        true if builder.random.chance(50) => booked,
        true => builder.random.byte(),
        false => job,
    };
    (vault, job)
}

/// Vaults and jobs out of range, and steps at vaults of the wrong sort.
pub fn misplaced(builder: &mut Builder, job: u8) {
    let (vault, job) = misplaced_in(builder, job, 50);
    let signers = builder.signers(job);
    let _ = match builder.random.below(4) {
        0 => builder.step(preflight(vault, job)),
        1 => builder.commit(vault, job, signers),
        2 => builder.step(faulty_signature(vault, job)),
        _ => builder.step(faulty_acknowledgement(vault, job)),
    };
    if builder.random.chance(30) {
        let _ = builder.step(show(job));
        let _ = builder.step(generations(job));
    }
}

/// Some visits of the snapshot: a few, or a round and more.
pub fn visit(builder: &mut Builder) {
    let most = *builder.random.pick(&[1, 2, builder.engine.settings.n + 1]);
    for _ in 0..builder.random.between(1, most) {
        let _ = builder.step(snapshot());
    }
}

/// Steps that change nothing.
pub fn look(builder: &mut Builder, job: u8) {
    let _ = match builder.random.below(5) {
        0 | 1 => builder.step(show(job)),
        2 => {
            let u = builder.random.below(builder.engine.settings.n + 2) as u8;
            builder.step(draw(u))
        }
        _ => builder.step(generations(job)),
    };
}

/// Shows every booked job and asks for its generations.
pub fn look_at_all(builder: &mut Builder) {
    for job in 0..builder.engine.book.len() as u8 {
        let _ = builder.step(show(job));
        let _ = builder.step(generations(job));
    }
}
