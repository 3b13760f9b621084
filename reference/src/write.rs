//! The bytes of a run file. Nothing written here need pass any check.

use crate::record::{entry_start, Bytes, Label, Tape, ENTRY_BYTES, FIRST_OUTPUT};
use crate::record::{HEAD_BYTES, LABEL_BYTES, LONG_RECORD_BYTES, RECORD_BYTES};
use crate::settings::NAME;
use crate::step::Step;

/// The version 1 run file of these settings and steps.
pub fn run_file(n: u8, b: u8, faulty: u16, steps: &[Step]) -> Vec<u8> {
    run_file_in(1, n, b, faulty, steps)
}

/// The run file of the version.
pub fn run_file_in(version: u16, n: u8, b: u8, faulty: u16, steps: &[Step]) -> Vec<u8> {
    let mut file = header_in(version, n, b, faulty);
    for step in steps {
        file.extend(step.encode_in(version));
    }
    file
}

pub fn header(n: u8, b: u8, faulty: u16) -> Vec<u8> {
    header_in(1, n, b, faulty)
}

pub fn header_in(version: u16, n: u8, b: u8, faulty: u16) -> Vec<u8> {
    let mut bytes = NAME.to_vec();
    bytes.extend(version.to_le_bytes());
    bytes.extend([n, b]);
    bytes.extend(faulty.to_le_bytes());
    bytes
}

/// The set that names these vaults.
pub fn set_of(vaults: impl IntoIterator<Item = u8>) -> u16 {
    vaults.into_iter().fold(0, |set, vault| set | 1 << vault)
}

/// A tape as a record has it.
pub type Written<'a> = (&'a Label, u32);

pub fn record(kind: u8, drive: u8, inputs: &[Written], outputs: &[Written]) -> Bytes {
    let mut bytes = [0; LONG_RECORD_BYTES];
    let head = [kind, drive, inputs.len() as u8, outputs.len() as u8];
    bytes[..HEAD_BYTES].copy_from_slice(&head);
    for (i, tape) in inputs.iter().enumerate() {
        write_entry(&mut bytes, i, tape);
    }
    for (i, tape) in outputs.iter().enumerate() {
        write_entry(&mut bytes, FIRST_OUTPUT + i, tape);
    }
    bytes
}

/// The record with so many frames trimmed, which a version 1 file does not show.
pub fn trimmed(mut record: Bytes, frames: u32) -> Bytes {
    record[RECORD_BYTES..].copy_from_slice(&frames.to_le_bytes());
    record
}

fn write_entry(bytes: &mut Bytes, number: usize, (label, frames): &Written) {
    let entry = &mut bytes[entry_start(number)..][..ENTRY_BYTES];
    entry[..LABEL_BYTES].copy_from_slice(*label);
    entry[LABEL_BYTES..].copy_from_slice(&frames.to_le_bytes());
}

pub fn accession(drive: u8, outputs: &[Tape]) -> Bytes {
    record(0, drive, &[], &written(outputs))
}

pub fn migration(drive: u8, inputs: &[Tape], outputs: &[Tape]) -> Bytes {
    record(1, drive, &written(inputs), &written(outputs))
}

fn written(tapes: &[Tape]) -> Vec<Written<'_>> {
    let one = |tape: &Tape| tape.frames as u32;
    tapes.iter().map(|tape| (&tape.label, one(tape))).collect()
}

pub fn propose(record: Bytes) -> Step {
    let record = Box::new(record);
    Step::Propose { record }
}

pub fn preflight(vault: u8, job: u8) -> Step {
    Step::Preflight { vault, job }
}

pub fn commit(vault: u8, job: u8, signers: u16) -> Step {
    Step::Commit {
        vault,
        job,
        signers,
    }
}

pub fn faulty_signature(vault: u8, job: u8) -> Step {
    Step::FaultySignature { vault, job }
}

pub fn faulty_acknowledgement(vault: u8, job: u8) -> Step {
    Step::FaultyAcknowledgement { vault, job }
}

pub fn show(job: u8) -> Step {
    Step::Show { job }
}

pub fn draw(u: u8) -> Step {
    Step::Draw { u }
}

pub fn snapshot() -> Step {
    Step::Snapshot
}

pub fn release(vault: u8, job: u8, rival: u8) -> Step {
    Step::Release { vault, job, rival }
}

pub fn client_preflight(vault: u8, job: u8, client: u8) -> Step {
    Step::ClientPreflight { vault, job, client }
}

pub fn equivocating() -> Step {
    Step::Equivocating
}

pub fn generations(job: u8) -> Step {
    Step::Generations { job }
}

pub fn dependencies(vault: u8, job: u8) -> Step {
    Step::Dependencies { vault, job }
}
