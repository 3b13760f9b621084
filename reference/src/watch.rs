//! Compares the ledger with the single register and stops loudly.

use crate::engine::Engine;
use crate::record::{Kind, Tape};
use crate::register::Register;
use std::collections::BTreeSet;

/// The ledger and the register must agree after step `number`. The whole
/// comparison is made where a job has just arrived or been taken.
pub fn after_step(number: u64, engine: &Engine, register: &Register, grown: bool) {
    if let Some(why) = &register.stopped {
        panic!("register: after step {number} the register stopped: {why}");
    }
    must_agree(number, "jobs", &engine.arrival, &register.taken);
    must_agree(number, "records", &engine.book.len(), &register.table.len());
    if grown {
        in_full(number, engine, register);
    }
}

/// Everything that demand 3 compares.
pub fn in_full(number: u64, engine: &Engine, register: &Register) {
    let booked: Vec<_> = engine.book.iter().map(|record| record.bytes).collect();
    must_agree(number, "records", &booked, &register.table);

    let taken: BTreeSet<usize> = register.taken.iter().copied().collect();
    must_agree(number, "jobs held", &jobs_held(engine), &taken);

    let (standing, accessioned, trimmed) = along_arrival(engine);
    must_agree(number, "standing tapes", &standing, &register.standing);
    let register_accessioned = register.frames_accessioned;
    must_agree(
        number,
        "frames accessioned",
        &accessioned,
        &register_accessioned,
    );
    let frames_standing: u64 = standing.iter().map(|tape| tape.frames).sum();
    // "frames standing plus frames trimmed by the jobs in arrival order equal frames accessioned"
    must_agree(
        number,
        "frames standing with those trimmed, and accessioned",
        &(frames_standing + trimmed),
        &register_accessioned,
    );
}

fn must_agree<T: PartialEq + std::fmt::Debug>(number: u64, what: &str, ledger: &T, register: &T) {
    if ledger != register {
        panic!(
            "register: after step {number} {what} differ: ledger {ledger:?}, register {register:?}"
        );
    }
}

/// The jobs held by sound vaults.
fn jobs_held(engine: &Engine) -> BTreeSet<usize> {
    let vaults = engine.vaults.iter().enumerate();
    vaults
        .filter(|(i, _)| !engine.settings.is_faulty(*i as u64))
        .flat_map(|(_, vault)| vault.held.iter().copied())
        .collect()
}

/// Standing tapes, frames accessioned and frames trimmed, anew along the arrival order:
/// "a tape stands once a job has made it and until one retires its label".
pub fn along_arrival(engine: &Engine) -> (BTreeSet<Tape>, u64, u64) {
    let mut standing: Vec<Tape> = Vec::new();
    let mut accessioned = 0;
    let mut trimmed = 0;
    for job in &engine.arrival {
        let record = &engine.book[*job];
        standing.retain(|tape| !record.takes_label(&tape.label));
        standing.extend(record.outputs.iter().map(|output| output.tape));
        if record.kind == Kind::Accession {
            accessioned += record.output_frames();
        }
        trimmed += record.trimmed;
    }
    (standing.into_iter().collect(), accessioned, trimmed)
}
