//! Run files made from a seed, to compare two programs on. The ledger of
//! this crate runs along while a file is written, so that the steps can be
//! aimed at states that matter; what it answers is never written down.

mod build;
mod chains;
mod clients;
mod conflicts;
mod damage;
mod dependencies;
mod edges;
mod equivocation;
mod orphans;
mod records;
mod releases;
mod traffic;
mod wild;

use crate::random::Random;
use build::Builder;

/// A seed's rest modulo this chooses the family of its file.
const FAMILIES: u64 = 24;

/// The run file of a seed.
pub fn file(seed: u64) -> Vec<u8> {
    let mut random = Random::new(seed);
    // Counts a family's files, for families that go through a list.
    let turn = seed / FAMILIES;
    match seed % FAMILIES {
        0..=4 => with(random, traffic::traffic),
        5..=9 => with(random, conflicts::conflicts),
        10..=12 => with(random, orphans::orphans),
        13 | 14 => with(random, damage::damaged_records),
        15 | 16 => with(random, wild::wild),
        17 => damage::damaged_file(&mut random, 17),
        18 => damage::cut_file(&mut random, 18),
        19 => with(random, chains::chains),
        20 => with(random, edges::full_book),
        21 => edges::settings(&mut random, turn),
        22 => edges::draws(random, turn),
        _ => match turn % 4 {
            0 => with(random, |builder| edges::sizes(builder, turn / 4)),
            _ => with(random, mixture),
        },
    }
}

/// A family's file for a federation that is drawn as well.
fn with(mut random: Random, family: impl Fn(&mut Builder)) -> Vec<u8> {
    let (n, b, faulty) = build::federation(&mut random);
    let mut builder = Builder::new(random, n, b, faulty);
    family(&mut builder);
    builder.bytes
}

/// Several families, one after the other, in one file.
fn mixture(builder: &mut Builder) {
    let families = [
        traffic::traffic,
        conflicts::conflicts,
        orphans::orphans,
        damage::damaged_records,
        wild::tame,
    ];
    for _ in 0..3 {
        let family = *builder.random.pick(&families);
        family(builder);
    }
}
