//! Deep chains: each job is made from the one or two before it.

use super::build::Builder;
use super::records::*;
use super::traffic::look_at_all;
use crate::engine::BOOK_RECORDS;
use crate::record::{Bytes, Tape};
use crate::write::{accession, generations, migration};

pub fn chains(builder: &mut Builder) {
    let depth =
        *builder
            .random
            .pick(&[3, 10, 40, BOOK_RECORDS - 1, BOOK_RECORDS, BOOK_RECORDS + 1]);
    let fresh = *builder.random.pick(&[0, 3, 10]);
    let mut last = begin(builder);
    // The tape of one frame that the job before the last left over.
    let mut before: Option<Tape> = None;
    for _ in 1..depth {
        if builder.random.chance(fresh) {
            begin(builder);
            continue;
        }
        let mut inputs = vec![last];
        inputs.extend(before);
        builder.random.shuffle(&mut inputs);
        let Some((big, small)) = link(builder, &inputs) else {
            break;
        };
        last = big;
        before = builder.random.chance(80).then_some(small);
    }
    look_at_all(builder);
}

/// An accession to start from.
fn begin(builder: &mut Builder) -> Tape {
    let label = builder.fresh_label(*b"L7");
    let tape = Tape {
        label,
        frames: 1_000_000,
    };
    push_certain(builder, accession(7, &[tape]));
    tape
}

/// A job that makes one big tape and one of a single frame.
fn link(builder: &mut Builder, inputs: &[Tape]) -> Option<(Tape, Tape)> {
    let total: u64 = inputs.iter().map(|tape| tape.frames).sum();
    let drive = drive_for(&mut builder.random, inputs)?;
    // L7 can be read by drives 7 and 8, which both write it.
    let big = Tape {
        label: builder.fresh_label(*b"L7"),
        frames: total - 1,
    };
    let small = Tape {
        label: builder.fresh_label(*b"L7"),
        frames: 1,
    };
    let outputs = if builder.random.chance(50) {
        [big, small]
    } else {
        [small, big]
    };
    push_certain(builder, migration(drive, inputs, &outputs));
    Some((big, small))
}

/// Proposed, signed by all and held by all, so that the chain goes on.
fn push_certain(builder: &mut Builder, record: Bytes) {
    let Some(job) = builder.propose(record) else {
        return;
    };
    for vault in builder.vaults() {
        let _ = builder.sign(vault, job);
    }
    for vault in builder.vaults() {
        let _ = builder.hold(vault, job);
    }
    if builder.random.chance(20) {
        let _ = builder.step(generations(job));
    }
}
