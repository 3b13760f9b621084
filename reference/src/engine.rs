//! The ledger: the book, the vaults, signatures, acknowledgements and the
//! arrival order, and what each kind of step does to them.

mod dependencies;
mod equivocation;

use crate::draw::thousandths;
use crate::record::{check, Bytes, Kind, Record};
use crate::refusal::{first_offender, plain, Answer, Refusal};
use crate::settings::{vaults_in, Settings};
use crate::step::Step;
use crate::vault::Vault;
use std::collections::{BTreeMap, BTreeSet};

pub const BOOK_RECORDS: usize = 128;

#[derive(Clone, Debug)]
pub struct Engine {
    pub settings: Settings,
    pub book: Vec<Record>,
    /// One for each vault; those of faulty vaults stay empty.
    pub vaults: Vec<Vault>,
    /// For each booked job, the vaults that signed it.
    pub signatures: Vec<BTreeSet<u64>>,
    /// For each booked job, the vaults that acknowledged it.
    pub acknowledgements: Vec<BTreeSet<u64>>,
    /// Jobs in the order in which a sound vault first held them.
    pub arrival: Vec<usize>,
    /// The generation of each job of `arrival`.
    generations: Vec<u64>,
    /// The vault that a snapshot visits next.
    next: usize,
    /// The jobs that this round of the snapshot has seen.
    seen: BTreeSet<usize>,
    /// What the last step lists, ascending.
    pub listed: Vec<usize>,
    /// The counted requests of a client at a vault: whether each brought a
    /// new signature.
    requests: BTreeMap<(usize, u8), Vec<bool>>,
    /// The vaults that kind 13 named, where the last step asked for them.
    named: Option<Vec<u64>>,
}

impl Engine {
    pub fn new(settings: Settings) -> Engine {
        Engine {
            settings,
            book: Vec::new(),
            vaults: vec![Vault::default(); settings.n as usize],
            signatures: Vec::new(),
            acknowledgements: Vec::new(),
            arrival: Vec::new(),
            generations: Vec::new(),
            next: 0,
            seen: BTreeSet::new(),
            listed: Vec::new(),
            requests: BTreeMap::new(),
            named: None,
        }
    }

    pub fn take(&mut self, step: &Step) -> Answer {
        self.listed.clear();
        if *step != Step::Equivocating {
            self.named = None;
        }
        match step {
            Step::Propose { record } => self.propose(record),
            Step::Preflight { vault, job } => self.preflight(*vault, *job),
            Step::Commit {
                vault,
                job,
                signers,
            } => self.commit(*vault, *job, *signers),
            Step::FaultySignature { vault, job } => self.faulty_signature(*vault, *job),
            Step::FaultyAcknowledgement { vault, job } => self.faulty_acknowledgement(*vault, *job),
            Step::Show { job } => self.show(*job),
            Step::Draw { u } => self.draw(*u),
            Step::Generations { job } => self.generations(*job),
            Step::Snapshot => self.snapshot(),
            Step::Release { vault, job, rival } => self.release(*vault, *job, *rival),
            Step::Dependencies { vault, job } => self.dependencies(*vault, *job),
            Step::ClientPreflight { vault, job, client } => {
                self.client_preflight(*vault, *job, *client)
            }
            Step::Equivocating => self.equivocating(),
        }
    }

    /// Order: 6 to 9, then a booked equal, then 10.
    fn propose(&mut self, bytes: &Bytes) -> Answer {
        let record = check(bytes)?;
        if let Some(job) = self.book.iter().position(|b| b.bytes == record.bytes) {
            return Ok(job as u64);
        }
        if self.book.len() >= BOOK_RECORDS {
            return Err(plain(10));
        }
        self.book.push(record);
        self.signatures.push(BTreeSet::new());
        self.acknowledgements.push(BTreeSet::new());
        Ok(self.book.len() as u64 - 1)
    }

    /// Order: 3, 5, 4, 11 to 14.
    fn preflight(&mut self, vault: u8, job: u8) -> Answer {
        let vault = self.vault(vault)?;
        self.must_be_sound(vault)?;
        let job = self.booked(job)?;
        // "A job signed here before is accepted again and changes nothing."
        if !self.vaults[vault].signed.contains(&job) {
            self.admissible_at(vault, job)?;
            self.vaults[vault].signed.insert(job);
            self.signatures[job].insert(vault as u64);
        }
        Ok(self.signatures[job].len() as u64)
    }

    /// "Each check is tried on all its entries before the next check."
    fn admissible_at(&self, vault: usize, job: usize) -> Result<(), Refusal> {
        let vault = &self.vaults[vault];
        first_offender(11, vault.input_not_created(&self.book, job))?;
        first_offender(12, vault.input_retired(&self.book, job))?;
        first_offender(13, vault.input_reserved(&self.book, job))?;
        first_offender(14, vault.output_made_or_reserved(&self.book, job))
    }

    /// Order: 3, 5, 4, 15, 16. Admissibility is not tested again.
    fn commit(&mut self, vault: u8, job: u8, signers: u16) -> Answer {
        let vault = self.vault(vault)?;
        self.must_be_sound(vault)?;
        let job = self.booked(job)?;
        let signers = vaults_in(signers);
        if signers.iter().any(|s| !self.signatures[job].contains(s)) {
            return Err(plain(15));
        }
        if (signers.len() as u64) < self.settings.threshold() {
            return Err(plain(16));
        }
        self.vaults[vault].held.insert(job);
        self.acknowledgements[job].insert(vault as u64);
        if !self.arrival.contains(&job) {
            self.arrive(job);
        }
        Ok(self.acknowledgements[job].len() as u64)
    }

    /// A job is held by a sound vault for the first time.
    fn arrive(&mut self, job: usize) {
        let generation = self.generation_on_arrival(job);
        self.arrival.push(job);
        self.generations.push(generation);
    }

    /// "0 for an accession, else one more than the largest among the jobs
    /// that created its inputs". Those arrived earlier (demand 3), so that
    /// the number is known on arrival and never changes.
    fn generation_on_arrival(&self, job: usize) -> u64 {
        if self.book[job].kind == Kind::Accession {
            return 0;
        }
        let mut largest = 0;
        for (position, creator) in self.arrival.iter().enumerate() {
            let mut inputs = self.book[job].inputs.iter();
            if inputs.any(|input| self.book[*creator].makes_tape(&input.tape)) {
                largest = largest.max(self.generations[position]);
            }
        }
        largest + 1
    }

    /// Order: 3, 5, 4.
    fn faulty_signature(&mut self, vault: u8, job: u8) -> Answer {
        let vault = self.vault(vault)?;
        self.must_be_faulty(vault)?;
        let job = self.booked(job)?;
        self.signatures[job].insert(vault as u64);
        Ok(self.signatures[job].len() as u64)
    }

    /// Order: 3, 5, 4.
    fn faulty_acknowledgement(&mut self, vault: u8, job: u8) -> Answer {
        let vault = self.vault(vault)?;
        self.must_be_faulty(vault)?;
        let job = self.booked(job)?;
        self.acknowledgements[job].insert(vault as u64);
        Ok(self.acknowledgements[job].len() as u64)
    }

    /// 0 open, 1 certified, 2 finished.
    fn show(&self, job: u8) -> Answer {
        let job = self.booked(job)?;
        let threshold = self.settings.threshold();
        if self.acknowledgements[job].len() as u64 >= threshold {
            return Ok(2);
        }
        if self.signatures[job].len() as u64 >= threshold {
            return Ok(1);
        }
        Ok(0)
    }

    fn draw(&self, u: u8) -> Answer {
        let u = u64::from(u);
        if u > self.settings.n {
            return Err(plain(17));
        }
        Ok(thousandths(self.settings.n, self.settings.b, u))
    }

    /// Order: 4, 18.
    fn generations(&self, job: u8) -> Answer {
        let job = self.booked(job)?;
        let position = self.arrival.iter().position(|arrived| *arrived == job);
        match position {
            Some(position) => Ok(self.generations[position]),
            None => Err(plain(18)),
        }
    }

    /// "visits the next vault, beginning at 0, and sees the jobs held there;
    /// a step that comes to a faulty vault adds no job, and that vault counts
    /// as visited. After the last vault the following such step begins anew."
    fn snapshot(&mut self) -> Answer {
        if self.next == 0 {
            self.seen.clear();
        }
        if !self.settings.is_faulty(self.next as u64) {
            self.seen.extend(&self.vaults[self.next].held);
        }
        self.next = (self.next + 1) % self.vaults.len();
        Ok(self.seen.len() as u64)
    }

    /// Order: 3, 5, 4 of either job, 19, 20. "The signature already given
    /// stays valid and keeps its count": the vault alone forgets it.
    fn release(&mut self, vault: u8, job: u8, rival: u8) -> Answer {
        let vault = self.vault(vault)?;
        self.must_be_sound(vault)?;
        let job = self.booked(job)?;
        let rival = self.booked(rival)?;
        if !self.vaults[vault].signed.contains(&job) {
            return Err(plain(19));
        }
        if !self.are_rivals(job, rival) || !self.vaults[vault].held.contains(&rival) {
            return Err(plain(20));
        }
        self.vaults[vault].signed.remove(&job);
        Ok(self.signatures[job].len() as u64)
    }

    /// "Two different jobs are rivals if they share an input label or an
    /// output label."
    fn are_rivals(&self, job: usize, other: usize) -> bool {
        job != other && self.book[job].shares_label(&self.book[other])
    }

    /// Order: 3, 5, 4, 22, a job signed here before, 23, 11 to 14. "A request
    /// turned back with 3, 4, 5 or 22 counts for no desk; every other one
    /// counts, 23 included."
    fn client_preflight(&mut self, vault: u8, job: u8, client: u8) -> Answer {
        let vault = self.vault(vault)?;
        self.must_be_sound(vault)?;
        let job = self.booked(job)?;
        if client > 7 {
            return Err(plain(22));
        }
        let answer = self.sign_within_quota(vault, job, client);
        let requests = self.requests.entry((vault, client)).or_default();
        requests.push(answer == Ok(true));
        answer.map(|_| self.signatures[job].len() as u64)
    }

    /// Whether the vault signs now; it has signed before where it does not.
    fn sign_within_quota(&mut self, vault: usize, job: usize, client: u8) -> Result<bool, Refusal> {
        if self.vaults[vault].signed.contains(&job) {
            return Ok(false);
        }
        if self.lately_signed(vault, client) >= 4 {
            return Err(plain(23));
        }
        self.admissible_at(vault, job)?;
        self.vaults[vault].signed.insert(job);
        self.signatures[job].insert(vault as u64);
        Ok(true)
    }

    /// How many "of the desk's previous fifteen requests there brought a new
    /// signature".
    fn lately_signed(&self, vault: usize, client: u8) -> usize {
        let Some(requests) = self.requests.get(&(vault, client)) else {
            return 0;
        };
        let lately = requests.iter().rev().take(15);
        lately.filter(|signed| **signed).count()
    }

    /// Check 3.
    fn vault(&self, vault: u8) -> Result<usize, Refusal> {
        if u64::from(vault) >= self.settings.n {
            return Err(plain(3));
        }
        Ok(usize::from(vault))
    }

    /// Check 4. The book lent here is always whole.
    fn booked(&self, job: u8) -> Result<usize, Refusal> {
        if usize::from(job) >= self.book.len() {
            return Err(plain(4));
        }
        Ok(usize::from(job))
    }

    /// Check 5 for kinds 2, 3 and 10 to 12.
    fn must_be_sound(&self, vault: usize) -> Result<(), Refusal> {
        if self.settings.is_faulty(vault as u64) {
            return Err(plain(5));
        }
        Ok(())
    }

    /// Check 5 for kinds 4 and 5.
    fn must_be_faulty(&self, vault: usize) -> Result<(), Refusal> {
        if !self.settings.is_faulty(vault as u64) {
            return Err(plain(5));
        }
        Ok(())
    }
}
