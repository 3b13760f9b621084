//! Kind 11, "Which papers must a vault see first": the set is found by trying
//! sets of jobs, the smallest first.

use super::Engine;
use crate::record::FIRST_OUTPUT;
use crate::refusal::{plain, Answer};
use std::collections::BTreeSet;

/// A set that works has for each input a job that makes it, and works without
/// the others: to hold less never fails checks 12 to 14. So no smallest set
/// has more jobs than a record has inputs.
const MOST: usize = FIRST_OUTPUT;

/// Of so many jobs all sets are tried. Where there are more, only those that
/// make an input, since a set works without the others.
const ALL_TRIED: usize = 9;

impl Engine {
    /// Order: 3, 5, 4, 21.
    pub(super) fn dependencies(&mut self, vault: u8, job: u8) -> Answer {
        let vault = self.vault(vault)?;
        self.must_be_sound(vault)?;
        let job = self.booked(job)?;
        self.listed = self.smallest_set(vault, job).ok_or(plain(21))?;
        Ok(self.listed.len() as u64)
    }

    /// "the smallest set of them which, once held by this vault too, makes
    /// preflight accept the job". Says loudly where two of one size do.
    fn smallest_set(&self, vault: usize, job: usize) -> Option<Vec<usize>> {
        let considered = self.considered(job);
        let mut trial = self.clone();
        for size in 0..=MOST {
            let mut working = sets_of(&considered, size);
            working.retain(|set| trial.accepts_with(vault, job, &self.vaults[vault].held, set));
            if working.len() > 1 {
                panic!("job {job} at vault {vault}: {working:?} all work");
            }
            if working.len() == 1 {
                return working.pop();
            }
        }
        None
    }

    /// "considers jobs that at least one sound vault holds"
    fn considered(&self, job: usize) -> Vec<usize> {
        let vaults = self.vaults.iter().enumerate();
        let sound = vaults.filter(|(i, _)| !self.settings.is_faulty(*i as u64));
        let held: BTreeSet<usize> = sound.flat_map(|(_, v)| v.held.iter().copied()).collect();
        let inputs = &self.book[job].inputs;
        let makes_input = |k: &usize| inputs.iter().any(|i| self.book[*k].makes_tape(&i.tape));
        let few = held.len() <= ALL_TRIED;
        held.into_iter().filter(|k| few || makes_input(k)).collect()
    }

    /// Whether preflight accepts the job where the vault holds the set too.
    fn accepts_with(
        &mut self,
        vault: usize,
        job: usize,
        held: &BTreeSet<usize>,
        set: &[usize],
    ) -> bool {
        self.vaults[vault].held = held.iter().chain(set).copied().collect();
        self.vaults[vault].signed.contains(&job) || self.admissible_at(vault, job).is_ok()
    }
}

/// All sets of so many of these jobs, each in the order of the jobs.
fn sets_of(jobs: &[usize], size: usize) -> Vec<Vec<usize>> {
    if size == 0 {
        return vec![Vec::new()];
    }
    let mut sets = Vec::new();
    for (i, job) in jobs.iter().enumerate() {
        for mut set in sets_of(&jobs[i + 1..], size - 1) {
            set.insert(0, *job);
            sets.push(set);
        }
    }
    sets
}
