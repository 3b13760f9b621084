//! Writes a run file, and with each step the refusal that it is meant to get.
use super::File;
use reference::record::Bytes;
use reference::settings::LONGEST_FILE;
use reference::step::{step_length_in, Step};
use reference::write::{self, header_in, set_of};
use std::ops::Range;

pub struct Run {
    version: u16,
    bytes: Vec<u8>,
    intended: Vec<u8>,
    preparation: usize,
    booked: u8,
}

impl Run {
    pub fn new(n: u8, b: u8, faulty: u16) -> Run {
        Run::of_version(1, n, b, faulty)
    }

    pub fn of_version(version: u16, n: u8, b: u8, faulty: u16) -> Run {
        Run {
            version,
            bytes: header_in(version, n, b, faulty),
            intended: Vec::new(),
            preparation: 0,
            booked: 0,
        }
    }

    pub fn named(self, name: &str) -> File {
        assert!(self.bytes.len() <= LONGEST_FILE, "{name} is too long");
        File {
            name: name.to_string(),
            version: self.version,
            bytes: self.bytes,
            intended: self.intended,
            preparation: self.preparation,
        }
    }

    /// The steps so far prepare the ledger for the others.
    pub fn prepared(&mut self) {
        self.preparation = self.intended.len();
    }

    /// Whether the file may have one more step of the kind.
    pub fn has_room(&self, kind: u8) -> bool {
        let length = step_length_in(self.version, kind).expect("a known kind");
        self.bytes.len() + length <= LONGEST_FILE
    }

    fn step(&mut self, intended: u8, step: Step) {
        self.bytes.extend(step.encode_in(self.version));
        self.intended.push(intended);
    }

    /// Proposes a new record and answers its number.
    pub fn book(&mut self, record: &Bytes) -> u8 {
        self.propose(record, 0);
        self.booked += 1;
        self.booked - 1
    }

    /// Proposes a record that is booked, or refused.
    pub fn propose(&mut self, record: &Bytes, intended: u8) {
        self.step(intended, write::propose(*record));
    }

    pub fn preflight(&mut self, vault: u8, job: u8, intended: u8) {
        self.step(intended, write::preflight(vault, job));
    }

    pub fn commit(&mut self, vault: u8, job: u8, signers: u16, intended: u8) {
        self.step(intended, write::commit(vault, job, signers));
    }

    pub fn faulty_signature(&mut self, vault: u8, job: u8, intended: u8) {
        self.step(intended, write::faulty_signature(vault, job));
    }

    pub fn faulty_acknowledgement(&mut self, vault: u8, job: u8, intended: u8) {
        self.step(intended, write::faulty_acknowledgement(vault, job));
    }

    pub fn show(&mut self, job: u8, intended: u8) {
        self.step(intended, write::show(job));
    }

    pub fn draw(&mut self, absent: u8, intended: u8) {
        self.step(intended, write::draw(absent));
    }

    pub fn generations(&mut self, job: u8, intended: u8) {
        self.step(intended, write::generations(job));
    }

    pub fn dependencies(&mut self, vault: u8, job: u8, intended: u8) {
        self.step(intended, write::dependencies(vault, job));
    }

    pub fn equivocating(&mut self, intended: u8) {
        self.step(intended, write::equivocating());
    }

    /// Preflights at the vaults.
    pub fn preflights(&mut self, vaults: Range<u8>, job: u8, intended: u8) {
        for vault in vaults {
            self.preflight(vault, job, intended);
        }
    }

    /// The signers sign the job and the holders hold it.
    pub fn carry_out(&mut self, job: u8, signers: Range<u8>, holders: Range<u8>) {
        self.preflights(signers.clone(), job, 0);
        for vault in holders {
            self.commit(vault, job, set_of(signers.clone()), 0);
        }
    }
}
