//! Records that fail checks 6 to 9 on purpose, and damaged files.

use super::build::Builder;
use super::records::*;
use super::traffic::{action, look_at_all};
use super::FAMILIES;
use crate::random::Random;
use crate::record::{
    entry_start, Bytes, Medium, Tape, FIRST_OUTPUT, HEAD_BYTES, LABEL_BYTES, LONG_RECORD_BYTES,
    MEDIA,
};
use crate::settings::HEADER_BYTES;
use crate::write::migration;

pub fn damaged_records(builder: &mut Builder) {
    for _ in 0..builder.random.between(8, 30) {
        let record = damaged_record(builder);
        if let Some(job) = builder.propose(record) {
            if builder.random.chance(30) {
                builder.sign_around(job, 95);
                builder.hold_around(job, 95);
            }
        }
        if builder.random.chance(30) {
            action(builder);
        }
    }
    look_at_all(builder);
}

/// A right record of up to four inputs and outputs, then harmed.
pub fn damaged_record(builder: &mut Builder) -> Bytes {
    let mut record = right_record(builder);
    let random = &mut builder.random;
    match random.below(14) {
        0 => record[0] = *random.pick(&[2, 255, 1 - record[0]]),
        1 => record[1] = *random.pick(&[0, 4, 5, 6, 7, 8, 9, 10, 255]),
        2 => wrong_count(random, &mut record),
        3 => wrong_frames(random, &mut record),
        4 => wrong_label(random, &mut record),
        5 => record[random.between(HEAD_BYTES as u64, LONG_RECORD_BYTES as u64 - 1) as usize] = 1,
        6 | 7 => equal_labels(random, &mut record),
        8 | 9 => other_media(random, &mut record),
        10 => {
            equal_labels(random, &mut record);
            other_media(random, &mut record);
        }
        11 => {
            other_media(random, &mut record);
            wrong_frames(random, &mut record);
        }
        12 => {
            let at = random.below(LONG_RECORD_BYTES as u64) as usize;
            record[at] ^= 1 << random.below(8);
        }
        _ => return wide_sums(builder),
    }
    record
}

fn right_record(builder: &mut Builder) -> Bytes {
    if builder.random.chance(30) {
        return new_accession(builder);
    }
    let mut inputs = Vec::new();
    for _ in 0..builder.random.between(1, 4) {
        let label = builder.fresh_label(*b"L7");
        let frames = frames(&mut builder.random);
        inputs.push(Tape { label, frames });
    }
    new_migration(builder, &inputs).expect("drives 7 and 8 read L7")
}

/// Five inputs, none, one too few or one too many.
fn wrong_count(random: &mut Random, record: &mut Bytes) {
    let half = random.between(2, 3) as usize;
    let count = record[half];
    record[half] = match random.below(4) {
        0 => 5,
        1 => 0,
        2 => count.wrapping_sub(1),
        _ => count + 1,
    };
}

/// The numbers of the used entries, as far as the counts are right.
fn used(record: &Bytes) -> Vec<usize> {
    let half = |first: usize, count: u8| first..first + usize::from(count).min(FIRST_OUTPUT);
    half(0, record[2])
        .chain(half(FIRST_OUTPUT, record[3]))
        .collect()
}

fn wrong_frames(random: &mut Random, record: &mut Bytes) {
    let at = entry_start(*random.pick(&used(record))) + LABEL_BYTES;
    let right = u32::from_le_bytes(record[at..at + 4].try_into().unwrap());
    let wrong = match random.below(4) {
        0 | 1 => 0,
        2 => right.wrapping_add(1),
        _ => u32::MAX,
    };
    record[at..at + 4].copy_from_slice(&wrong.to_le_bytes());
}

/// Endings that are nearly a medium.
const NO_MEDIA: [Medium; 8] = [
    *b"M5", *b"M6", *b"M7", *b"M9", *b"m8", *b"N8", *b"L4", *b"8M",
];

/// An ending that is no medium, or a byte just outside (or just inside) what a label may have there.
fn wrong_label(random: &mut Random, record: &mut Bytes) {
    let entry = *random.pick(&used(record));
    if random.chance(25) {
        let end = entry_start(entry) + LABEL_BYTES;
        record[end - 2..end].copy_from_slice(&random.pick(&NO_MEDIA)[..]);
        return;
    }
    let byte = random.below(LABEL_BYTES as u64) as usize;
    let near: &[u8] = match byte {
        6 => b"KLMNlm1",
        7 => b"456789:LM\x05",
        _ => b"/09:@AZ[az \x00\xff",
    };
    record[entry_start(entry) + byte] = *random.pick(near);
}

/// One or two used entries get the label of another.
fn equal_labels(random: &mut Random, record: &mut Bytes) {
    for _ in 0..random.between(1, 2) {
        let from = entry_start(*random.pick(&used(record)));
        let to = entry_start(*random.pick(&used(record)));
        record.copy_within(from..from + LABEL_BYTES, to);
    }
}

/// One or more used entries get another medium.
fn other_media(random: &mut Random, record: &mut Bytes) {
    for _ in 0..random.between(1, 3) {
        let end = entry_start(*random.pick(&used(record))) + LABEL_BYTES;
        record[end - 2..end].copy_from_slice(&random.pick(&MEDIA)[..]);
    }
}

/// Sums above 32 bits that agree, differ a little, or agree only modulo
/// 2 to the 32nd.
fn wide_sums(builder: &mut Builder) -> Bytes {
    let mut tapes = Vec::new();
    for _ in 0..8 {
        let label = builder.fresh_label(*b"L7");
        tapes.push(Tape {
            label,
            frames: u64::from(u32::MAX),
        });
    }
    let (inputs, outputs) = tapes.split_at_mut(4);
    let random = &mut builder.random;
    let little = random.between(1, 1000);
    match random.below(4) {
        0 => {}
        1 => outputs[random.below(4) as usize].frames -= little,
        choice => {
            // 2^31 + 2^31 + little against little.
            inputs[0].frames = 1 << 31;
            inputs[1].frames = 1 << 31;
            inputs[2].frames = little;
            outputs[0].frames = little;
            return if choice == 2 {
                migration(7, &inputs[..3], &outputs[..1])
            } else {
                migration(8, &outputs[..1], &inputs[..3])
            };
        }
    }
    migration(7, inputs, outputs)
}

/// A file of another family.
fn another(random: &mut Random, own: u64) -> Vec<u8> {
    let mut seed = random.word();
    while (17..FAMILIES).contains(&(seed % FAMILIES)) || seed % FAMILIES == own {
        seed = seed.wrapping_add(5);
    }
    super::file(seed)
}

/// Another file with a few bytes changed, most often early ones.
pub fn damaged_file(random: &mut Random, own: u64) -> Vec<u8> {
    let mut file = another(random, own);
    for _ in 0..random.between(1, 3) {
        let length = file.len() as u64;
        let span = *random.pick(&[HEADER_BYTES as u64, 120, 400, length]);
        let at = random.below(span.min(length)) as usize;
        file[at] = match random.below(3) {
            0 => random.byte(),
            1 => file[at] ^ 1 << random.below(8),
            _ => file[at].wrapping_add(1),
        };
    }
    file
}

/// Another file cut anywhere.
pub fn cut_file(random: &mut Random, own: u64) -> Vec<u8> {
    let mut file = another(random, own);
    let length = file.len() as u64;
    let span = *random.pick(&[12, 200, length, length]);
    file.truncate(random.below(span.min(length)) as usize);
    file
}
