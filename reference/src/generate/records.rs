//! Records that pass checks 6 to 9.

use super::build::Builder;
use crate::random::Random;
use crate::record::{medium, reads, writes, Bytes, Label, Medium, Tape, MEDIA};
use crate::write::{accession, migration, trimmed};

const MOST: u64 = u32::MAX as u64;

pub fn frames(random: &mut Random) -> u64 {
    match random.below(8) {
        0 => 1,
        1 => MOST,
        2 => MOST - random.below(3),
        3 => 1 << 31,
        4 | 5 => random.between(2, 2000),
        _ => random.between(1, MOST),
    }
}

pub fn media_read(drive: u8) -> Vec<Medium> {
    MEDIA.into_iter().filter(|m| reads(drive, *m)).collect()
}

pub fn media_written(drive: u8) -> Vec<Medium> {
    MEDIA.into_iter().filter(|m| writes(drive, *m)).collect()
}

/// A drive that reads all these tapes, if there is one.
pub fn drive_for(random: &mut Random, tapes: &[Tape]) -> Option<u8> {
    let reads_all = |drive: &u8| tapes.iter().all(|t| reads(*drive, medium(&t.label)));
    let drives: Vec<u8> = (5..=9).filter(reads_all).collect();
    if drives.is_empty() {
        return None;
    }
    Some(*random.pick(&drives))
}

/// An accession of one to four new tapes.
pub fn new_accession(builder: &mut Builder) -> Bytes {
    let drive = builder.random.between(5, 9) as u8;
    let count = builder.random.between(1, 4);
    let media = media_read(drive);
    let outputs: Vec<Tape> = (0..count)
        .map(|_| {
            let medium = *builder.random.pick(&media);
            let label = builder.fresh_label(medium);
            let frames = frames(&mut builder.random);
            Tape { label, frames }
        })
        .collect();
    accession(drive, &outputs)
}

/// A migration of these tapes to new ones, if a drive reads them all.
pub fn new_migration(builder: &mut Builder, inputs: &[Tape]) -> Option<Bytes> {
    let drive = drive_for(&mut builder.random, inputs)?;
    let sum: u64 = inputs.iter().map(|tape| tape.frames).sum();
    // Some of version 2 trim, anything from one frame to all but one.
    let trims = builder.version() == 2 && sum > 1 && builder.random.chance(50);
    let cut = match trims {
        true => builder.random.between(1, (sum - 1).min(MOST)),
        false => 0,
    };
    let total = sum - cut;
    let fewest = total.div_ceil(MOST);
    let count = builder.random.between(fewest, total.min(4));
    let media = media_written(drive);
    let labels: Vec<Label> = (0..count)
        .map(|_| {
            let medium = *builder.random.pick(&media);
            builder.fresh_label(medium)
        })
        .collect();
    let outputs = share(&mut builder.random, total, &labels);
    Some(trimmed(migration(drive, inputs, &outputs), cut as u32))
}

/// Shares the total out among the labels, each between 1 and the most.
pub fn share(random: &mut Random, total: u64, labels: &[Label]) -> Vec<Tape> {
    let mut left = total;
    let mut tapes = Vec::new();
    for (i, label) in labels.iter().enumerate() {
        let after = (labels.len() - 1 - i) as u64;
        let low = left.saturating_sub(after * MOST).max(1);
        let high = (left - after).min(MOST);
        let frames = random.between(low, high);
        tapes.push(Tape {
            label: *label,
            frames,
        });
        left -= frames;
    }
    tapes
}

/// Up to `most` of these tapes that one drive can read together.
pub fn some_tapes(random: &mut Random, tapes: &[Tape], most: u64) -> Vec<Tape> {
    let mut shuffled = tapes.to_vec();
    random.shuffle(&mut shuffled);
    let wanted = random.between(1, most) as usize;
    let mut chosen: Vec<Tape> = Vec::new();
    for tape in shuffled {
        chosen.push(tape);
        if drive_for(random, &chosen).is_none() {
            chosen.pop();
        }
        if chosen.len() == wanted {
            break;
        }
    }
    chosen
}
