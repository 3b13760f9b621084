//! Document 01's run program, written for speed.
//!
//! State is changed in place, sets are bits, and what the checks ask is kept in an index as records are booked, so that no
//! step scans the journal.
mod draw;
mod equivocation;
mod federation;
mod index;
mod ledger;
mod record;
mod repeats;
mod table;
mod text;

use federation::Federation;
use ledger::Ledger;
use reference::step::kind;
use text::{Answer, Lines};

/// Leaves in `out` the text that is printed for the run file.
pub fn run(input: &[u8], out: &mut Vec<u8>) {
    out.clear();
    match Federation::read(input) {
        Some((federation, steps)) => take_steps(Ledger::new(federation), steps, out),
        None => out.extend_from_slice(b"0 1 0\n"),
    }
}

fn take_steps<'a>(mut ledger: Ledger<'a>, mut rest: &'a [u8], out: &mut Vec<u8>) {
    let mut lines = Lines::new(out, rest.len());
    while !rest.is_empty() {
        if let [kind::DEPENDENCIES, vault, job, ref after @ ..] = *rest {
            let (answer, jobs) = ledger.dependencies(vault, job);
            lines.put(answer);
            lines.list(jobs);
            rest = after;
            continue;
        }
        if let [kind::EQUIVOCATING, ref after @ ..] = *rest {
            let (answer, vaults) = ledger.equivocating();
            lines.put(answer);
            lines.list(vaults);
            rest = after;
            continue;
        }
        match step(&mut ledger, rest) {
            Some((answer, after)) => {
                lines.put(answer);
                rest = after;
            }
            None => return lines.put(Answer::refused(2, 0)),
        }
    }
}

/// Takes the first step and answers what follows it; none where its kind is unknown or its body cut short.
#[inline(always)]
fn step<'a>(ledger: &mut Ledger<'a>, rest: &'a [u8]) -> Option<(Answer, &'a [u8])> {
    Some(match *rest {
        [kind::PROPOSE, ref body @ ..] => {
            let (record, rest) = body.split_at_checked(ledger.record_bytes())?;
            (ledger.propose(record), rest)
        }
        [kind::PREFLIGHT, vault, job, ref rest @ ..] => (ledger.preflight(vault, job), rest),
        [kind::COMMIT, vault, job, low, high, ref rest @ ..] => {
            let signers = u16::from_le_bytes([low, high]);
            (ledger.commit(vault, job, signers), rest)
        }
        [kind::FAULTY_SIGNATURE, vault, job, ref rest @ ..] => {
            (ledger.faulty_signature(vault, job), rest)
        }
        [kind::FAULTY_ACKNOWLEDGEMENT, vault, job, ref rest @ ..] => {
            (ledger.faulty_acknowledgement(vault, job), rest)
        }
        [kind::SHOW, job, ref rest @ ..] => (ledger.show(job), rest),
        [kind::DRAW, absent, ref rest @ ..] => (ledger.draw(absent), rest),
        [kind::GENERATIONS, job, ref rest @ ..] => (ledger.generations(job), rest),
        [kind::SNAPSHOT, ref rest @ ..] => (ledger.snapshot(), rest),
        [kind::RELEASE, vault, job, rival, ref rest @ ..] => {
            (ledger.release(vault, job, rival), rest)
        }
        [kind::CLIENT_PREFLIGHT, vault, job, client, ref rest @ ..] => {
            (ledger.client_preflight(vault, job, client), rest)
        }
        _ => return None,
    })
}
