//! Requests of clients, and clients that ask for more than their quota.

use super::build::Builder;
use super::records::new_accession;
use super::traffic::misplaced_in;
use crate::write::{client_preflight, preflight};

/// A request that mostly is in place, of any client or of none.
pub fn odd_request(builder: &mut Builder, job: u8) {
    let (vault, job) = misplaced_in(builder, job, 10);
    let client = match builder.random.chance(10) {
        true => builder.random.byte(),
        false => builder.random.below(9) as u8,
    };
    let _ = builder.step(client_preflight(vault, job, client));
}

/// One client asks one vault for new jobs until it is turned back, and goes on
/// asking; others ask in between, for these jobs and for any.
pub fn busy_client(builder: &mut Builder) {
    let vault = builder.any_vault();
    let client = builder.random.below(8) as u8;
    let mut jobs = Vec::new();
    for _ in 0..builder.random.between(5, 8) {
        let record = new_accession(builder);
        jobs.extend(builder.propose(record));
    }
    let Some(&last) = jobs.last() else {
        return;
    };
    let patient = *builder.random.pick(&[50, 90, 100]);
    for _ in 0..builder.random.between(12, 40) {
        let job = match builder.random.below(10) {
            0 => builder.any_job(),
            1..=3 => last,
            _ => *builder.random.pick(&jobs),
        };
        if builder.random.chance(patient) {
            let _ = builder.step(client_preflight(vault, job, client));
        } else {
            interrupt(builder, vault, job, client);
        }
    }
}

/// What is no request of that client at that vault, or of no booked job.
fn interrupt(builder: &mut Builder, vault: u8, job: u8, busy: u8) {
    let other = builder.any_vault();
    let client = match builder.random.chance(30) {
        true => busy + 8,
        false => builder.random.below(10) as u8,
    };
    let any = builder.any_job();
    let _ = match builder.random.below(6) {
        0 => builder.step(preflight(vault, job)),
        1 => builder.step(client_preflight(other, job, client)),
        2 => builder.step(client_preflight(vault, any, client)),
        3 => builder.step(client_preflight(vault, 200, client)),
        4 => builder.hold(vault, any),
        _ => builder.step(client_preflight(vault, job, client)),
    };
}
