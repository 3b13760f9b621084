//! Commits at vaults that lack the parent, then preflights there.

use super::build::Builder;
use super::dependencies::ask_around;
use super::records::*;
use super::traffic::look_at_all;
use crate::record::Tape;
use crate::write::accession;

pub fn orphans(builder: &mut Builder) {
    for _ in 0..builder.random.between(1, 4) {
        let without = left_out(builder);
        let record = new_accession(builder);
        let Some(parent) = builder.propose(record) else {
            return;
        };
        make_apart(builder, parent, &without);
        let tapes = made_by(builder, parent);
        let Some(child) = family(builder, &tapes) else {
            continue;
        };
        make_apart(builder, child, &without);
        // The child may be committed where its parent is not held.
        for vault in &without {
            if builder.random.chance(70) {
                let _ = builder.hold(*vault, child);
            }
        }
        after(builder, parent, child, &without);
    }
    look_at_all(builder);
}

/// Up to b sound vaults that shall not see the parent.
fn left_out(builder: &mut Builder) -> Vec<u8> {
    let b = builder.engine.settings.b as usize;
    let mut vaults = builder.vaults();
    vaults.retain(|vault| !builder.is_faulty(*vault));
    vaults.truncate(b);
    vaults
}

/// Signed and held by all but the vaults left out.
fn make_apart(builder: &mut Builder, job: u8, without: &[u8]) {
    let mut vaults = builder.vaults();
    vaults.retain(|vault| !without.contains(vault));
    for vault in &vaults {
        let _ = builder.sign(*vault, job);
    }
    for vault in &vaults {
        let _ = builder.hold(*vault, job);
    }
}

fn made_by(builder: &Builder, job: u8) -> Vec<Tape> {
    let record = &builder.engine.book[usize::from(job)];
    record.outputs.iter().map(|output| output.tape).collect()
}

/// A job made from some of these tapes, proposed.
fn family(builder: &mut Builder, tapes: &[Tape]) -> Option<u8> {
    let inputs = some_tapes(&mut builder.random, tapes, 4);
    let record = new_migration(builder, &inputs)?;
    builder.propose(record)
}

/// Preflights of parent, child, sibling, grandchild, and of an accession
/// that makes the parent's labels again.
fn after(builder: &mut Builder, parent: u8, child: u8, without: &[u8]) {
    let parents_tapes = made_by(builder, parent);
    let childs_tapes = made_by(builder, child);
    let mut jobs = vec![parent, child];
    jobs.extend(family(builder, &parents_tapes));
    let grandchild = family(builder, &childs_tapes);
    jobs.extend(grandchild);
    if builder.random.chance(50) {
        let mut again = parents_tapes.clone();
        again[0].frames = frames(&mut builder.random);
        if let Some(drive) = drive_for(&mut builder.random, &again) {
            jobs.extend(builder.propose(accession(drive, &again)));
        }
    }
    builder.random.shuffle(&mut jobs);
    ask_around(builder, &jobs);
    for job in &jobs {
        for vault in without {
            let _ = builder.sign(*vault, *job);
        }
    }
    if let Some(grandchild) = grandchild {
        builder.sign_around(grandchild, 95);
        builder.hold_around(grandchild, 80);
    }
    let late = *builder.random.pick(&jobs);
    builder.sign_around(late, 80);
    builder.hold_around(late, 80);
    builder.hold_around(parent, 60);
    builder.sign_around(child, 60);
}
