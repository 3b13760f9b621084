//! Jobs that can't both be done, and faulty vaults that sign them all.

use super::build::Builder;
use super::dependencies::ask_around;
use super::equivocation::sign_for_rivals;
use super::records::*;
use super::releases::{outvote, release_around};
use super::traffic::{look_at_all, odd_commit, repeat};
use crate::record::{medium, parse, reads, Bytes, Tape};
use crate::settings::MOST_VAULTS;
use crate::write::{accession, migration};

pub fn conflicts(builder: &mut Builder) {
    let rounds = builder.random.between(1, 6);
    for _ in 0..rounds {
        for _ in 0..builder.random.between(1, 2) {
            let record = new_accession(builder);
            builder.push(record);
        }
        let rivals = rivals(builder);
        contest(builder, &rivals);
    }
    look_at_all(builder);
}

/// Two or more records that stand in each other's way.
fn rivals(builder: &mut Builder) -> Vec<Bytes> {
    let standing = builder.standing();
    let choice = builder.random.below(9);
    if standing.is_empty() || choice == 0 {
        return same_accession(builder);
    }
    let tapes = some_tapes(&mut builder.random, &standing, 4);
    match choice {
        1 => same_outputs(builder, &tapes),
        2 => label_in_use(builder),
        3 => other_frames(builder, &tapes),
        4 => retired_already(builder),
        5 => same_inputs_and_outputs(builder, &tapes),
        6 => overlapping(builder, &standing),
        _ => (0..builder.random.between(2, 3))
            .filter_map(|_| new_migration(builder, &tapes))
            .collect(),
    }
}

/// Accessions that share some of their labels.
fn same_accession(builder: &mut Builder) -> Vec<Bytes> {
    let outputs = fresh_tapes(builder, 7, 4);
    let mut others = fresh_tapes(builder, 7, 4);
    let first = builder.random.below(3) as usize;
    for i in first..outputs.len().min(others.len()) {
        others[i].label = outputs[i].label;
    }
    // The labels may all be the same: then another drive makes another job.
    let drive_6_reads = others.iter().all(|t| reads(6, medium(&t.label)));
    let drive = if drive_6_reads { 6 } else { 7 };
    vec![accession(7, &outputs), accession(drive, &others)]
}

/// One to `most` new tapes that the drive reads and writes.
fn fresh_tapes(builder: &mut Builder, drive: u8, most: u64) -> Vec<Tape> {
    let media = media_written(drive);
    (0..builder.random.between(1, most))
        .map(|_| {
            let medium = *builder.random.pick(&media);
            Tape {
                label: builder.fresh_label(medium),
                frames: frames(&mut builder.random),
            }
        })
        .collect()
}

/// A migration, and an accession of some of its output labels.
fn same_outputs(builder: &mut Builder, tapes: &[Tape]) -> Vec<Bytes> {
    let Some(moved) = new_migration(builder, tapes) else {
        return Vec::new();
    };
    let mut outputs = outputs_of(&moved);
    builder.random.shuffle(&mut outputs);
    outputs[0].frames = frames(&mut builder.random);
    let Some(drive) = drive_for(&mut builder.random, &outputs) else {
        return vec![moved];
    };
    vec![moved, accession(drive, &outputs)]
}

fn outputs_of(bytes: &Bytes) -> Vec<Tape> {
    let record = parse(bytes).expect("made well-formed");
    record.outputs.iter().map(|output| output.tape).collect()
}

/// An output whose label some tape has or had, input of a rival or not.
fn label_in_use(builder: &mut Builder) -> Vec<Bytes> {
    let engine = &builder.engine;
    let made: Vec<Tape> = engine
        .arrival
        .iter()
        .flat_map(|job| engine.book[*job].outputs.iter().map(|output| output.tape))
        .collect();
    let used = *builder.random.pick(&made);
    let mut outputs = vec![used];
    if builder.random.chance(50) {
        outputs[0].frames = frames(&mut builder.random);
    }
    let drive = drive_for(&mut builder.random, &outputs).expect("one tape");
    let media = media_read(drive);
    for _ in 0..builder.random.below(3) {
        let medium = *builder.random.pick(&media);
        let label = builder.fresh_label(medium);
        outputs.push(Tape { label, frames: 7 });
    }
    builder.random.shuffle(&mut outputs);
    let mut rivals = vec![accession(drive, &outputs)];
    rivals.extend(new_migration(builder, &[used]));
    builder.random.shuffle(&mut rivals);
    rivals
}

/// The right labels, but not all with the frames that were made.
fn other_frames(builder: &mut Builder, tapes: &[Tape]) -> Vec<Bytes> {
    let mut wrong = tapes.to_vec();
    let first = builder.random.below(wrong.len() as u64) as usize;
    for tape in &mut wrong[first..] {
        if builder.random.chance(80) {
            tape.frames = frames(&mut builder.random);
        }
    }
    let mut rivals: Vec<Bytes> = new_migration(builder, &wrong).into_iter().collect();
    rivals.extend(new_migration(builder, tapes));
    rivals
}

/// Inputs of a job that has arrived, taken once more.
fn retired_already(builder: &mut Builder) -> Vec<Bytes> {
    let engine = &builder.engine;
    let gone: Vec<Tape> = engine
        .arrival
        .iter()
        .flat_map(|job| engine.book[*job].inputs.iter().map(|input| input.tape))
        .collect();
    if gone.is_empty() {
        return Vec::new();
    }
    let mut inputs = some_tapes(&mut builder.random, &gone, 2);
    let standing = builder.standing();
    if !standing.is_empty() && builder.random.chance(50) {
        inputs.extend(some_tapes(&mut builder.random, &standing, 2));
        builder.random.shuffle(&mut inputs);
    }
    new_migration(builder, &inputs).into_iter().collect()
}

/// Rivals for inputs and outputs at once.
fn same_inputs_and_outputs(builder: &mut Builder, tapes: &[Tape]) -> Vec<Bytes> {
    let Some(first) = new_migration(builder, tapes) else {
        return Vec::new();
    };
    let outputs = outputs_of(&first);
    let labels: Vec<_> = outputs.iter().map(|tape| tape.label).collect();
    let total = outputs.iter().map(|tape| tape.frames).sum();
    let others = share(&mut builder.random, total, &labels);
    let mut inputs = tapes.to_vec();
    builder.random.shuffle(&mut inputs);
    vec![first, migration(first[1], &inputs, &others)]
}

/// Migrations that share some of their inputs.
fn overlapping(builder: &mut Builder, standing: &[Tape]) -> Vec<Bytes> {
    let mut rivals = Vec::new();
    for _ in 0..3 {
        let tapes = some_tapes(&mut builder.random, standing, 4);
        rivals.extend(new_migration(builder, &tapes));
    }
    rivals
}

/// The sound vaults divide, the faulty ones sign everything.
fn contest(builder: &mut Builder, rivals: &[Bytes]) {
    let mut jobs: Vec<u8> = rivals
        .iter()
        .filter_map(|rival| builder.propose(*rival))
        .collect();
    if jobs.is_empty() {
        return;
    }
    if builder.random.chance(30) {
        outvote(builder, &jobs);
        release_around(builder, &jobs);
        sign_for_rivals(builder, &jobs);
        return settle(builder, &jobs);
    }
    let first = jobs[0];
    // Where the first is favoured it is certified, else often none is.
    let favour = *builder.random.pick(&[0, 50, 90, 100]);
    let asked_for_all = *builder.random.pick(&[0, 40, 100]);
    let mut asked = [0u16; 256];
    for vault in builder.vaults() {
        if builder.random.chance(favour) {
            let place = jobs.iter().position(|job| *job == first).unwrap();
            jobs.swap(0, place);
        } else {
            builder.random.shuffle(&mut jobs);
        }
        let all = builder.is_faulty(vault) || builder.random.chance(asked_for_all);
        let count = if all { jobs.len() } else { 1 };
        for job in jobs.clone().into_iter().take(count) {
            let _ = builder.sign(vault, job);
            asked[usize::from(job)] |= 1 << vault;
        }
    }
    hopeful_commits(builder, &jobs, &asked);
    sign_for_rivals(builder, &jobs);
    settle(builder, &jobs);
}

/// Commits that name all who were asked: a ledger that lets too many sign
/// would let two rivals through.
fn hopeful_commits(builder: &mut Builder, jobs: &[u8], asked: &[u16; 256]) {
    for job in jobs {
        if builder.random.chance(60) {
            let vault = builder.any_vault();
            let _ = builder.commit(vault, *job, asked[usize::from(*job)]);
        }
    }
}

/// Commits of all the rivals, perhaps releases, and more preflights afterwards.
fn settle(builder: &mut Builder, jobs: &[u8]) {
    let held = *builder.random.pick(&[30, 60, 100]);
    for job in jobs {
        builder.hold_around(*job, held);
        if builder.random.chance(50) {
            odd_commit(builder, *job);
        }
    }
    if builder.random.chance(60) {
        release_around(builder, jobs);
    }
    if builder.random.chance(40) {
        ask_around(builder, jobs);
    }
    for job in jobs {
        builder.sign_around(*job, 60);
        if builder.random.chance(30) {
            repeat(builder, *job);
        }
        if builder.random.chance(30) {
            let everyone = u16::MAX >> (MOST_VAULTS - builder.engine.settings.n);
            let vault = builder.any_vault();
            let _ = builder.commit(vault, *job, everyone);
        }
        builder.hold_around(*job, held);
    }
}
