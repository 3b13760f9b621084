//! A run file in the making, and the ledger that its steps lead to.

use crate::engine::Engine;
use crate::random::Random;
use crate::record::{Bytes, Label, Medium, Tape};
use crate::refusal::Answer;
use crate::settings::{Settings, MOST_VAULTS};
use crate::step::{decode, Step};
use crate::watch::along_arrival;
use crate::write::{self, header_in, set_of};

pub struct Builder {
    pub random: Random,
    pub engine: Engine,
    pub bytes: Vec<u8>,
    labels: u64,
}

/// Right settings: n, b and the faulty set.
pub fn federation(random: &mut Random) -> (u8, u8, u16) {
    let n = if random.chance(60) {
        random.between(1, 7)
    } else {
        random.between(1, MOST_VAULTS)
    };
    let most = (n - 1) / 3;
    let b = if random.chance(70) {
        most
    } else {
        random.between(0, most)
    };
    let faulty = if random.chance(75) {
        b
    } else {
        random.between(0, b)
    };
    let mut vaults: Vec<u8> = (0..n as u8).collect();
    random.shuffle(&mut vaults);
    vaults.truncate(faulty as usize);
    (n as u8, b as u8, set_of(vaults))
}

impl Builder {
    pub fn new(mut random: Random, n: u8, b: u8, faulty: u16) -> Builder {
        let version = if random.chance(40) { 2 } else { 1 };
        let settings = Settings {
            n: u64::from(n),
            b: u64::from(b),
            faulty,
            version,
        };
        Builder {
            random,
            engine: Engine::new(settings),
            bytes: header_in(version, n, b, faulty),
            labels: 0,
        }
    }

    /// The ledger takes the step as the file has it.
    pub fn step(&mut self, step: Step) -> Answer {
        let version = self.version();
        let bytes = step.encode_in(version);
        let (written, _) = decode(version, &bytes).expect("a whole step");
        self.bytes.extend(bytes);
        self.engine.take(&written)
    }

    pub fn version(&self) -> u16 {
        self.engine.settings.version
    }

    /// Proposes a record; its number if it was booked.
    pub fn propose(&mut self, record: Bytes) -> Option<u8> {
        let answer = self.step(write::propose(record));
        answer.ok().map(|job| job as u8)
    }

    /// The vault's signature: a preflight or a faulty vault's own step.
    pub fn sign(&mut self, vault: u8, job: u8) -> Answer {
        if self.is_faulty(vault) {
            self.step(write::faulty_signature(vault, job))
        } else {
            self.step(write::preflight(vault, job))
        }
    }

    /// A commit with the real signers or a faulty acknowledgement.
    pub fn hold(&mut self, vault: u8, job: u8) -> Answer {
        if self.is_faulty(vault) {
            self.step(write::faulty_acknowledgement(vault, job))
        } else {
            let signers = self.signers(job);
            self.commit(vault, job, signers)
        }
    }

    pub fn commit(&mut self, vault: u8, job: u8, signers: u16) -> Answer {
        self.step(write::commit(vault, job, signers))
    }

    /// Some of the vaults sign, in any order.
    pub fn sign_around(&mut self, job: u8, percent: u64) {
        for vault in self.vaults() {
            if self.random.chance(percent) {
                let _ = self.sign(vault, job);
            }
        }
    }

    /// Some of the vaults hold the job or acknowledge it, in any order.
    pub fn hold_around(&mut self, job: u8, percent: u64) {
        for vault in self.vaults() {
            if self.random.chance(percent) {
                let _ = self.hold(vault, job);
            }
        }
    }

    /// Proposes, signs and holds at most vaults; the number if booked.
    pub fn push(&mut self, record: Bytes) -> Option<u8> {
        let job = self.propose(record)?;
        self.sign_around(job, 97);
        self.hold_around(job, 95);
        Some(job)
    }

    /// All vaults in a random order.
    pub fn vaults(&mut self) -> Vec<u8> {
        let mut vaults: Vec<u8> = (0..self.engine.settings.n as u8).collect();
        self.random.shuffle(&mut vaults);
        vaults
    }

    pub fn any_vault(&mut self) -> u8 {
        self.random.below(self.engine.settings.n) as u8
    }

    /// A booked job, or 0 if there is none.
    pub fn any_job(&mut self) -> u8 {
        let booked = self.engine.book.len().max(1) as u64;
        self.random.below(booked) as u8
    }

    pub fn is_faulty(&self, vault: u8) -> bool {
        self.engine.settings.is_faulty(u64::from(vault))
    }

    /// The set of all that signed the job.
    pub fn signers(&self, job: u8) -> u16 {
        match self.engine.signatures.get(usize::from(job)) {
            Some(vaults) => set_of(vaults.iter().map(|vault| *vault as u8)),
            None => 0,
        }
    }

    /// The tapes that stand along the arrival order.
    pub fn standing(&self) -> Vec<Tape> {
        along_arrival(&self.engine).0.into_iter().collect()
    }

    /// A label that no earlier call gave.
    pub fn fresh_label(&mut self, medium: Medium) -> Label {
        const LETTERS: &[u8; 36] = b"ABCDEFGHIJKLMNOPQRSTUVWXYZ0123456789";
        let mut label = *b"AAAAAAL5";
        let mut rest = self.labels;
        for i in (2..6).rev() {
            label[i] = LETTERS[(rest % 36) as usize];
            rest /= 36;
        }
        label[0] = *self.random.pick(LETTERS);
        label[6..].copy_from_slice(&medium);
        self.labels += 1;
        label
    }
}
