//! Kind 13, "Naming a two-faced vault": the rule is followed pair by pair.

use super::Engine;
use crate::refusal::Answer;

impl Engine {
    /// Check: 4, and the book lent here is always whole. The answer to the
    /// same question right before is the same, since nothing has changed.
    pub(super) fn equivocating(&mut self) -> Answer {
        if self.named.is_none() {
            let vaults = 0..self.settings.n;
            self.named = Some(vaults.filter(|vault| self.is_named(*vault)).collect());
        }
        let named = self.named.iter().flatten();
        self.listed = named.map(|vault| *vault as usize).collect();
        Ok(self.listed.len() as u64)
    }

    /// "each vault whose recorded signatures include two rival jobs neither of
    /// which has a certified rival outside that pair"
    fn is_named(&self, vault: u64) -> bool {
        let jobs = 0..self.book.len();
        let signed: Vec<usize> = jobs
            .filter(|job| self.signatures[*job].contains(&vault))
            .collect();
        signed.iter().any(|one| {
            let mut others = signed.iter();
            others.any(|other| self.are_rivals(*one, *other) && self.is_unexcused([*one, *other]))
        })
    }

    fn is_unexcused(&self, pair: [usize; 2]) -> bool {
        let mut outside = (0..self.book.len()).filter(|job| !pair.contains(job));
        !outside
            .any(|job| self.is_certified(job) && pair.iter().any(|one| self.are_rivals(*one, job)))
    }

    /// "A job is certified with n − b signatures"
    fn is_certified(&self, job: usize) -> bool {
        self.signatures[job].len() as u64 >= self.settings.threshold()
    }
}
