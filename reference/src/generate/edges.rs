//! Full books, settings, draws and sizes near their edges.

use super::build::{federation, Builder};
use super::damage::damaged_record;
use super::records::new_accession;
use super::traffic::{action, misplaced, repeat, traffic};
use crate::engine::BOOK_RECORDS;
use crate::random::Random;
use crate::record::Bytes;
use crate::settings::{HEADER_BYTES, LONGEST_FILE, MOST_VAULTS};
use crate::write::{draw, generations, header_in, set_of, show};

/// Two distinct jobs less than the book holds, up to two more; then repeats of the first and of others.
pub fn full_book(builder: &mut Builder) {
    let count = BOOK_RECORDS - 2 + *builder.random.pick(&[0, 1, 2, 2, 3, 3, 4, 4]);
    let mut records: Vec<Bytes> = Vec::new();
    for _ in 0..count {
        let record = new_accession(builder);
        records.push(record);
        builder.propose(record);
        if builder.random.chance(5) {
            repeat(builder, 0);
        }
    }
    builder.propose(records[0]);
    for _ in 0..builder.random.between(5, 40) {
        after_full(builder, &records);
    }
}

fn after_full(builder: &mut Builder, records: &[Bytes]) {
    let job = (BOOK_RECORDS - 4) as u8 + builder.random.below(7) as u8;
    match builder.random.below(8) {
        0 | 1 => {
            let record = *builder.random.pick(records);
            builder.propose(record);
        }
        2 => {
            let record = damaged_record(builder);
            builder.propose(record);
        }
        3 => {
            let record = new_accession(builder);
            builder.propose(record);
        }
        4 => {
            builder.sign_around(job, 90);
            builder.hold_around(job, 90);
        }
        5 => misplaced(builder, job),
        6 => {
            let _ = builder.step(show(job));
            let _ = builder.step(generations(job));
        }
        _ => action(builder),
    }
}

/// A header out of range in one way, then steps of a right federation.
pub fn settings(random: &mut Random, turn: u64) -> Vec<u8> {
    let (n, b, faulty) = federation(random);
    let inner = Random::new(random.word());
    let mut builder = Builder::new(inner, n, b, faulty);
    traffic(&mut builder);
    let version = builder.version();
    let mut file = builder.bytes;
    let mut change =
        |n, b, faulty| file[..HEADER_BYTES].copy_from_slice(&header_in(version, n, b, faulty));
    match turn % 13 {
        0 => change(3 * b.max(1), b.max(1), 0),
        1 => change(n, n.div_ceil(3), faulty),
        2 => change(*random.pick(&[0, 17, 17, 16, 18, 255]), b, faulty),
        3 | 4 => change(n.max(6), wide_bound(random), faulty),
        5 if b > 0 && u64::from(n) < MOST_VAULTS => change(n, b, 1 << n),
        5 => change(7, 2, 1 << 7),
        6 => change(n, b, some_faulty(random, n, b + 1)),
        7 => change(n, b, some_faulty(random, n, b)),
        8 => file[random.below(3) as usize] ^= 1 << random.below(8),
        9 if random.chance(50) => file[3] = 3,
        9 => file[random.between(3, 4) as usize] ^= 1 << random.below(8),
        10 => change(n, b, random.word() as u16),
        11 => file.truncate(random.between(0, 10) as usize),
        _ => file.truncate(HEADER_BYTES),
    }
    file
}

/// A bound whose threefold is small in 8 bits: 3 times 86 is 258, 3 times
/// 171 is 513.
fn wide_bound(random: &mut Random) -> u8 {
    *random.pick(&[85, 86, 86, 87, 88, 128, 171, 171, 172, 255])
}

/// Names so many vaults, from a random one on.
fn some_faulty(random: &mut Random, n: u8, count: u8) -> u16 {
    let first = random.below(u64::from(n)) as u8;
    set_of((0..count).map(|i| (first + i) % n))
}

/// Draws for all u from 0 to n + 2, and 255, in every federation in turn.
pub fn draws(random: Random, turn: u64) -> Vec<u8> {
    let mut federations = Vec::new();
    for n in (1..=MOST_VAULTS as u8).rev() {
        for b in (0..n).filter(|b| 3 * b < n).rev() {
            federations.push((n, b));
        }
    }
    let (n, b) = federations[turn as usize % federations.len()];
    let mut builder = Builder::new(random, n, b, 0);
    for u in 0..=n + 2 {
        let _ = builder.step(draw(u));
    }
    let _ = builder.step(draw(255));
    if builder.random.chance(30) {
        traffic(&mut builder);
    }
    builder.bytes
}

/// Files of 65,535 to 65,538 bytes, the last step whole or cut.
pub fn sizes(builder: &mut Builder, turn: u64) {
    let length = LONGEST_FILE - 1 + [1, 2, 0, 3][turn as usize % 4];
    traffic(builder);
    while builder.bytes.len() + 600 < length {
        let job = builder.any_job();
        let vault = builder.any_vault();
        let _ = match builder.random.below(6) {
            0 => builder.sign(vault, job),
            1 => builder.hold(vault, job),
            2 => builder.step(generations(job)),
            3 => builder.step(draw(vault)),
            4 if builder.random.chance(2) => {
                action(builder);
                Ok(0)
            }
            _ => builder.step(show(job)),
        };
    }
    // A step of three bytes makes the rest even, unless a cut is wanted.
    if (length - builder.bytes.len()) % 2 == 1 && builder.random.chance(80) {
        let _ = builder.sign(0, 0);
    }
    while builder.bytes.len() < length {
        let _ = builder.step(draw(1));
    }
    builder.bytes.truncate(length);
}
