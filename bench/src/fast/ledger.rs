//! The vaults and the booked jobs, and the steps upon them.
use super::draw;
use super::equivocation::{equivocators, Signed};
use super::federation::Federation;
use super::index::{Index, Jobs, Tapes};
use super::record::{self, Record};
use super::repeats::{Place, Repeats};
use super::text::Answer;
use reference::engine::BOOK_RECORDS;
use reference::settings::MOST_VAULTS;

// A set of jobs has a bit for each.
const _: () = assert!(BOOK_RECORDS <= Jobs::BITS as usize);

const CLIENTS: usize = 8;

/// What a correct vault keeps.
#[derive(Clone, Copy, Default)]
pub struct Vault {
    pub held: Jobs,
    pub signed: Jobs,
}

/// A set of vaults and its size.
#[derive(Clone, Copy, Default)]
struct Votes {
    vaults: u16,
    count: u8,
}

impl Votes {
    #[inline]
    fn add(&mut self, vault: u8) {
        let bit = 1 << vault;
        self.count += u8::from(self.vaults & bit == 0);
        self.vaults |= bit;
    }
}

/// What is kept of a booked job.
struct Booked {
    tapes: Tapes,
    signatures: Votes,
    acknowledgements: Votes,
    /// Found when the job arrives.
    generation: u8,
}

pub struct Ledger<'a> {
    federation: Federation,
    jobs: Vec<Booked>,
    vaults: [Vault; MOST_VAULTS as usize],
    /// The jobs that some correct vault holds.
    arrived: Jobs,
    index: Index,
    repeats: Repeats<'a>,
    /// The vault that a snapshot visits next, and the jobs that its round has seen.
    next: u8,
    seen: Jobs,
    /// For each vault and client, its last fifteen counted requests, the newest lowest: a bit where a request brought a new signature.
    histories: [[u16; CLIENTS]; MOST_VAULTS as usize],
    /// The vaults that equivocate, where no signature has come since they were found.
    named: Option<u16>,
}

impl<'a> Ledger<'a> {
    pub fn new(federation: Federation) -> Ledger<'a> {
        Ledger {
            federation,
            jobs: Vec::new(),
            vaults: [Vault::default(); MOST_VAULTS as usize],
            arrived: 0,
            index: Index::new(),
            repeats: Repeats::new(),
            next: 0,
            seen: 0,
            histories: [[0; CLIENTS]; MOST_VAULTS as usize],
            named: None,
        }
    }

    #[inline]
    pub fn record_bytes(&self) -> usize {
        self.federation.record_bytes
    }

    /// A booked equal has passed checks 6 to 9, so it may be sought first.
    pub fn propose(&mut self, record: &'a Record) -> Answer {
        let slot = match self.repeats.find(record) {
            Place::Booked(number) => return Answer::done(number.into()),
            Place::Free(slot) => slot,
        };
        let job = match record::Job::examine(record) {
            Ok(job) => job,
            Err(refusal) => return refusal,
        };
        if self.jobs.len() == BOOK_RECORDS {
            return Answer::refused(10, 0);
        }
        let number = self.jobs.len() as u8;
        self.repeats.book(slot, record);
        self.jobs.push(Booked {
            tapes: self.index.book(&job, number),
            signatures: Votes::default(),
            acknowledgements: Votes::default(),
            generation: 0,
        });
        Answer::done(number.into())
    }

    #[inline]
    pub fn preflight(&mut self, vault: u8, job: u8) -> Answer {
        if let Some(refusal) = self.gate(vault, job, false) {
            return refusal;
        }
        let state = &mut self.vaults[usize::from(vault)];
        let booked = &mut self.jobs[usize::from(job)];
        let bit = 1 << job;
        if state.signed & bit == 0 {
            if let Some(refusal) = self.index.refusal(*state, &booked.tapes) {
                return refusal;
            }
            state.signed |= bit;
            booked.signatures.add(vault);
            self.named = None;
        }
        Answer::done(booked.signatures.count.into())
    }

    #[inline]
    pub fn commit(&mut self, vault: u8, job: u8, signers: u16) -> Answer {
        if let Some(refusal) = self.gate(vault, job, false) {
            return refusal;
        }
        let booked = &mut self.jobs[usize::from(job)];
        if signers & !booked.signatures.vaults != 0 {
            return Answer::refused(15, 0);
        }
        if signers.count_ones() < self.federation.threshold().into() {
            return Answer::refused(16, 0);
        }
        self.vaults[usize::from(vault)].held |= 1 << job;
        booked.acknowledgements.add(vault);
        let count = booked.acknowledgements.count;
        if self.arrived >> job & 1 == 0 {
            self.arrive(job);
        }
        Answer::done(count.into())
    }

    /// The creators of the inputs have arrived: a correct signer held them.
    fn arrive(&mut self, job: u8) {
        let creator_generation = |&tape: &u16| {
            let creator = (self.index.makers(tape) & self.arrived).trailing_zeros();
            self.jobs[creator as usize].generation
        };
        let inputs = self.jobs[usize::from(job)].tapes.input_tapes();
        let oldest = inputs.iter().map(creator_generation).max();
        self.jobs[usize::from(job)].generation = oldest.map_or(0, |oldest| oldest + 1);
        self.arrived |= 1 << job;
    }

    #[inline]
    pub fn faulty_signature(&mut self, vault: u8, job: u8) -> Answer {
        if let Some(refusal) = self.gate(vault, job, true) {
            return refusal;
        }
        let signatures = &mut self.jobs[usize::from(job)].signatures;
        let before = signatures.count;
        signatures.add(vault);
        if signatures.count != before {
            self.named = None;
        }
        Answer::done(signatures.count.into())
    }

    #[inline]
    pub fn faulty_acknowledgement(&mut self, vault: u8, job: u8) -> Answer {
        if let Some(refusal) = self.gate(vault, job, true) {
            return refusal;
        }
        let acknowledgements = &mut self.jobs[usize::from(job)].acknowledgements;
        acknowledgements.add(vault);
        Answer::done(acknowledgements.count.into())
    }

    #[inline]
    pub fn show(&self, job: u8) -> Answer {
        let Some(booked) = self.jobs.get(usize::from(job)) else {
            return Answer::refused(4, 0);
        };
        let threshold = self.federation.threshold();
        if booked.acknowledgements.count >= threshold {
            return Answer::done(2);
        }
        Answer::done(u16::from(booked.signatures.count >= threshold))
    }

    #[inline]
    pub fn draw(&self, absent: u8) -> Answer {
        let Federation { n, b, .. } = self.federation;
        if absent > n {
            return Answer::refused(17, 0);
        }
        Answer::done(draw::chance(n, b, absent))
    }

    #[inline]
    pub fn generations(&self, job: u8) -> Answer {
        match self.jobs.get(usize::from(job)) {
            None => Answer::refused(4, 0),
            Some(_) if self.arrived >> job & 1 == 0 => Answer::refused(18, 0),
            Some(booked) => Answer::done(booked.generation.into()),
        }
    }

    /// A faulty vault holds nothing.
    #[inline]
    pub fn snapshot(&mut self) -> Answer {
        if self.next == 0 {
            self.seen = 0;
        }
        self.seen |= self.vaults[usize::from(self.next)].held;
        self.next = if self.next + 1 == self.federation.n {
            0
        } else {
            self.next + 1
        };
        Answer::done(self.seen.count_ones() as u16)
    }

    #[inline]
    pub fn release(&mut self, vault: u8, job: u8, rival: u8) -> Answer {
        if let Some(refusal) = self.gate(vault, job, false) {
            return refusal;
        }
        if usize::from(rival) >= self.jobs.len() {
            return Answer::refused(4, 0);
        }
        let state = &mut self.vaults[usize::from(vault)];
        let booked = &self.jobs[usize::from(job)];
        let bit = 1 << job;
        if state.signed & bit == 0 {
            return Answer::refused(19, 0);
        }
        let held_rivals = self.index.rivals(&booked.tapes) & !bit & state.held;
        if held_rivals >> rival & 1 == 0 {
            return Answer::refused(20, 0);
        }
        state.signed &= !bit;
        Answer::done(booked.signatures.count.into())
    }

    /// The jobs that the vault misses, and how many they are.
    #[inline]
    pub fn dependencies(&self, vault: u8, job: u8) -> (Answer, Jobs) {
        if let Some(refusal) = self.gate(vault, job, false) {
            return (refusal, 0);
        }
        let mut state = self.vaults[usize::from(vault)];
        if state.signed >> job & 1 == 1 {
            return (Answer::done(0), 0);
        }
        let tapes = &self.jobs[usize::from(job)].tapes;
        let missing = self.index.missing(state.held, self.arrived, tapes);
        state.held |= missing;
        match self.index.refusal(state, tapes) {
            Some(_) => (Answer::refused(21, 0), 0),
            None => (Answer::done(missing.count_ones() as u16), missing),
        }
    }

    #[inline]
    pub fn client_preflight(&mut self, vault: u8, job: u8, client: u8) -> Answer {
        if let Some(refusal) = self.gate(vault, job, false) {
            return refusal;
        }
        if usize::from(client) >= CLIENTS {
            return Answer::refused(22, 0);
        }
        let history = &mut self.histories[usize::from(vault)][usize::from(client)];
        let spent = history.count_ones() >= 4;
        *history = *history << 1 & 0x7fff;
        let state = &mut self.vaults[usize::from(vault)];
        let booked = &mut self.jobs[usize::from(job)];
        let bit = 1 << job;
        if state.signed & bit == 0 {
            if spent {
                return Answer::refused(23, 0);
            }
            if let Some(refusal) = self.index.refusal(*state, &booked.tapes) {
                return refusal;
            }
            *history |= 1;
            state.signed |= bit;
            booked.signatures.add(vault);
        }
        Answer::done(booked.signatures.count.into())
    }

    /// The vaults that equivocate, and how many they are.
    #[inline]
    pub fn equivocating(&mut self) -> (Answer, Jobs) {
        let vaults = match self.named {
            Some(vaults) => vaults,
            None => self.equivocators(),
        };
        self.named = Some(vaults);
        (Answer::done(vaults.count_ones() as u16), Jobs::from(vaults))
    }

    fn equivocators(&self) -> u16 {
        let threshold = self.federation.threshold();
        let signed = |(k, booked): (usize, &Booked)| Signed {
            rivals: self.index.rivals(&booked.tapes) & !(1 << k),
            signers: booked.signatures.vaults,
            certified: booked.signatures.count >= threshold,
        };
        let jobs: Vec<Signed> = self.jobs.iter().enumerate().map(signed).collect();
        equivocators(&jobs)
    }

    /// Checks 3, 5 and 4, of a step that is for faulty vaults or for correct ones.
    #[inline]
    fn gate(&self, vault: u8, job: u8, faulty: bool) -> Option<Answer> {
        if vault >= self.federation.n {
            return Some(Answer::refused(3, 0));
        }
        if self.federation.is_faulty(vault) != faulty {
            return Some(Answer::refused(5, 0));
        }
        if usize::from(job) >= self.jobs.len() {
            return Some(Answer::refused(4, 0));
        }
        None
    }
}
