//! Which vaults signed two rivals that no certified job outside the pair excuses, by sets of jobs.
use super::index::Jobs;

/// What is asked of a booked job.
pub struct Signed {
    pub rivals: Jobs,
    pub signers: u16,
    pub certified: bool,
}

pub fn equivocators(jobs: &[Signed]) -> u16 {
    let certified = set(jobs, |job| job.certified);
    let alone = set(jobs, |job| job.rivals & certified == 0);
    let with_one = set(jobs, |job| at_most_one(job.rivals & certified));
    let mut named = 0;
    for (k, job) in jobs.iter().enumerate() {
        let near = if job.certified { with_one } else { alone };
        let partners = match (alone >> k & 1, with_one >> k & 1) {
            (1, _) => job.rivals & near,
            (_, 1) => job.rivals & near & certified,
            _ => 0,
        };
        named |= job.signers & signers(jobs, partners, job.signers);
    }
    named
}

fn set(jobs: &[Signed], test: impl Fn(&Signed) -> bool) -> Jobs {
    let bits = jobs.iter().enumerate();
    bits.fold(0, |set, (k, job)| set | Jobs::from(test(job)) << k)
}

fn at_most_one(set: Jobs) -> bool {
    set & set.wrapping_sub(1) == 0
}

/// Who signed one of the set, until all of those wanted are found.
fn signers(jobs: &[Signed], mut set: Jobs, wanted: u16) -> u16 {
    let mut found = 0;
    while set != 0 && wanted & !found != 0 {
        found |= jobs[set.trailing_zeros() as usize].signers;
        set &= set - 1;
    }
    found
}
