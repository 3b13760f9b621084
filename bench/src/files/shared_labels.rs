//! Sixteen quarrels of eight jobs each over the same labels: accessions of one label, migrations of one tape.
use super::tapes::{with_frames, Reels};
use super::writer::Run;
use super::{File, SEED};
use reference::random::Random;
use reference::step::kind;
use reference::write::{accession, migration, set_of};

/// The vaults that sign the winning migration; the others sign its rival.
const SIGNERS: std::ops::Range<u8> = 0..11;

/// The jobs of a quarrel by their numbers.
#[derive(Clone, Copy)]
struct Quarrel {
    accession: u8,
    /// Accessions of its first and of its second label with other frames.
    rivals: [u8; 2],
    migration: u8,
    /// Migrations of the same tape, the first signed by a minority.
    minority: u8,
    late: u8,
    /// Migrates the first rival's tape, which nobody made.
    orphan: u8,
    /// Migrates the second tape onto a label that the migration makes.
    remake: u8,
}

pub fn file() -> File {
    let mut run = Run::new(16, 5, 0);
    let mut reels = Reels::new();
    let mut quarrels = Vec::new();
    for _ in 0..16 {
        let quarrel = book(&mut run, &mut reels);
        settle(&mut run, quarrel);
        quarrels.push(quarrel);
    }
    run.prepared();
    let mut random = Random::new(SEED);
    for action in (0..12).cycle() {
        if !run.has_room(kind::COMMIT) {
            break;
        }
        let (quarrel, vault) = (*random.pick(&quarrels), random.below(16) as u8);
        again(&mut run, quarrel, vault, action);
    }
    run.named("shared_labels")
}

fn book(run: &mut Run, reels: &mut Reels) -> Quarrel {
    let [first, second, third, fourth] = reels.four(5);
    let other = with_frames(first, 7);
    let copies = reels.copies(&[first], 6);
    let rivals = [[other, third], [fourth, with_frames(second, 8)]];
    let mut migrate = |run: &mut Run| run.book(&migration(6, &[first], &reels.copies(&[first], 6)));
    Quarrel {
        accession: run.book(&accession(7, &[first, second])),
        rivals: rivals.map(|tapes| run.book(&accession(7, &tapes))),
        migration: run.book(&migration(6, &[first], &copies)),
        minority: migrate(run),
        late: migrate(run),
        orphan: run.book(&migration(6, &[other], &[with_frames(third, 7)])),
        remake: run.book(&migration(
            6,
            &[second],
            &[with_frames(copies[0], second.frames)],
        )),
    }
}

fn settle(run: &mut Run, quarrel: Quarrel) {
    run.carry_out(quarrel.accession, 0..16, 0..16);
    for rival in quarrel.rivals {
        run.preflights(0..16, rival, 14);
    }
    run.preflights(SIGNERS, quarrel.migration, 0);
    run.preflights(SIGNERS, quarrel.minority, 13);
    run.preflights(SIGNERS.end..16, quarrel.minority, 0);
    run.commit(0, quarrel.minority, set_of(SIGNERS.end..16), 16);
    for vault in 0..16 {
        run.commit(vault, quarrel.migration, set_of(SIGNERS), 0);
    }
    run.preflights(0..16, quarrel.late, 12);
    run.preflights(0..16, quarrel.orphan, 11);
    run.preflights(0..16, quarrel.remake, 14);
}

/// One of twelve steps in a settled quarrel.
fn again(run: &mut Run, quarrel: Quarrel, vault: u8, action: u8) {
    // A vault that holds a migration which it has not signed finds the tape retired.
    let retired_unless = |signed: bool| if signed { 0 } else { 12 };
    let signs = SIGNERS.contains(&vault);
    match action {
        0 => run.preflight(vault, quarrel.accession, 0),
        1 => run.preflight(vault, quarrel.rivals[0], 14),
        2 => run.preflight(vault, quarrel.rivals[1], 14),
        3 => run.preflight(vault, quarrel.migration, retired_unless(signs)),
        4 => run.preflight(vault, quarrel.minority, retired_unless(!signs)),
        5 => run.preflight(vault, quarrel.late, 12),
        6 => run.preflight(vault, quarrel.orphan, 11),
        7 => run.preflight(vault, quarrel.remake, 14),
        8 => run.commit(vault, quarrel.accession, set_of(0..16), 0),
        9 => run.commit(vault, quarrel.migration, set_of(SIGNERS), 0),
        10 => run.commit(vault, quarrel.minority, set_of(SIGNERS.end..16), 16),
        _ => run.commit(vault, quarrel.minority, set_of(0..16), 15),
    }
}
