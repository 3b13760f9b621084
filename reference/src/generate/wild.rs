//! Random kinds and bodies.

use super::build::Builder;
use super::damage::damaged_record;
use super::records::new_accession;
use super::traffic::{action, odd_commit};
use crate::step::{decode, kind, Step, KINDS};

/// Wild steps, and perhaps an unknown kind at the end.
pub fn wild(builder: &mut Builder) {
    tame(builder);
    if builder.random.chance(70) {
        let mut last: Vec<u8> = (0..builder.random.below(6))
            .map(|_| builder.random.byte())
            .collect();
        let unknown = KINDS[KINDS.len() - 1].0 + 1;
        let kinds = [0, 1, 2, 3, unknown, unknown + 1, 128, 255];
        last.insert(0, *builder.random.pick(&kinds));
        builder.bytes.extend(last);
    }
}

/// Wild steps that are all well-formed.
pub fn tame(builder: &mut Builder) {
    for _ in 0..builder.random.between(5, 150) {
        match builder.random.below(12) {
            0 => action(builder),
            1 => {
                let job = builder.any_job();
                odd_commit(builder, job);
            }
            2 => {
                let record = new_accession(builder);
                builder.propose(record);
            }
            3 => {
                let record = damaged_record(builder);
                builder.propose(record);
            }
            _ => {
                let step = any_step(builder);
                let _ = builder.step(step);
            }
        }
    }
}

/// A step of any kind but 1; its bytes are mostly near what is in use, and
/// those that it does not have are left over.
fn any_step(builder: &mut Builder) -> Step {
    let (kind, _) = *builder.random.pick(&KINDS[1..]);
    let n = builder.engine.settings.n;
    let booked = builder.engine.book.len() as u64;
    let near = |builder: &mut Builder, bound: u64| {
        if builder.random.chance(4) {
            builder.random.byte()
        } else {
            builder.random.below(bound + 1) as u8
        }
    };
    let first = if kind < kind::SHOW || kind >= kind::RELEASE {
        near(builder, n)
    } else {
        near(builder, booked.max(n))
    };
    let job = near(builder, booked);
    let real = builder.signers(job);
    let signers = match builder.random.below(3) {
        0 => real,
        1 => real & builder.random.word() as u16,
        _ => builder.random.word() as u16 & builder.random.word() as u16,
    };
    let [low, high] = signers.to_le_bytes();
    let third = match kind {
        kind::RELEASE => near(builder, booked),
        kind::CLIENT_PREFLIGHT => near(builder, 8),
        _ => low,
    };
    let bytes = [kind, first, job, third, high];
    decode(builder.version(), &bytes)
        .expect("all but a proposal have short bodies")
        .0
}
