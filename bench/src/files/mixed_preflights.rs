//! Preflights all over a settled federation, in turn accepted again and refused by each of checks 11 to 14. All vaults hold
//! and have signed the same jobs, so a job's answer is the same at each.
use super::tapes::Reels;
use super::writer::Run;
use super::{File, SEED};
use reference::random::Random;
use reference::record::{Bytes, Tape};
use reference::step::kind;
use reference::write::{accession, migration};

const ACCESSIONS: usize = 16;
const MIGRATIONS: usize = 12;
const RIVALS: usize = 22;

/// What becomes of a job.
#[derive(Clone, Copy, PartialEq)]
enum Fate {
    Accession,
    Held,
    Signed,
    Refused(u8),
}

/// Tapes of the accessions by what becomes of them.
struct Shelves {
    standing: Vec<Tape>,
    retired: Vec<Tape>,
    reserved: Vec<Tape>,
}

pub fn file() -> File {
    let mut random = Random::new(SEED);
    let mut run = Run::new(16, 5, 0);
    let mut records = records();
    random.shuffle(&mut records);
    let jobs: Vec<(Fate, u8)> = records
        .iter()
        .map(|(fate, record)| (*fate, run.book(record)))
        .collect();
    settle(&mut run, &jobs);
    run.prepared();
    let turns = [0, 11, 12, 13, 14].map(|refusal| (refusal, answered(&jobs, refusal)));
    for (refusal, jobs) in turns.iter().cycle() {
        if !run.has_room(kind::PREFLIGHT) {
            break;
        }
        let vault = random.below(16) as u8;
        run.preflight(vault, *random.pick(jobs), *refusal);
    }
    run.named("preflights_mixed")
}

fn records() -> Vec<(Fate, Bytes)> {
    let mut reels = Reels::new();
    let mut records = Vec::new();
    let mut tapes = Vec::new();
    for _ in 0..ACCESSIONS {
        let four = reels.four(5);
        tapes.extend(four);
        records.push((Fate::Accession, accession(7, &four)));
    }
    let (moved, standing) = tapes.split_at(4 * MIGRATIONS);
    let (retired, reserved) = moved.split_at(2 * MIGRATIONS);
    for (fate, tapes) in [(Fate::Held, retired), (Fate::Signed, reserved)] {
        for pair in tapes.chunks(2) {
            let copies = reels.copies(pair, 6);
            records.push((fate, migration(6, pair, &copies)));
        }
    }
    let shelves = Shelves {
        standing: standing.to_vec(),
        retired: retired.to_vec(),
        reserved: reserved.to_vec(),
    };
    for i in 0..4 * RIVALS {
        let refusal = 11 + (i % 4) as u8;
        let record = rival(&mut reels, &shelves, refusal, i / 4);
        records.push((Fate::Refused(refusal), record));
    }
    records
}

/// A migration of four tapes onto four, of which one is refused.
fn rival(reels: &mut Reels, shelves: &Shelves, refusal: u8, i: usize) -> Bytes {
    let mut inputs: Vec<Tape> = (0..4)
        .map(|k| shelves.standing[(i + k) % shelves.standing.len()])
        .collect();
    let retired = shelves.retired[i % shelves.retired.len()];
    match refusal {
        // Of the right label with frames that no job made.
        11 => inputs[i % 4].frames += 100,
        12 => inputs[i % 4] = retired,
        13 => inputs[i % 4] = shelves.reserved[i % shelves.reserved.len()],
        _ => {}
    }
    let mut outputs = reels.copies(&inputs, 6);
    if refusal == 14 {
        outputs[i % 4].label = retired.label;
    }
    migration(6, &inputs, &outputs)
}

fn settle(run: &mut Run, jobs: &[(Fate, u8)]) {
    for fate in [Fate::Accession, Fate::Held, Fate::Signed] {
        let holders = if fate == Fate::Signed { 0..0 } else { 0..16 };
        for &(_, job) in jobs.iter().filter(|(f, _)| *f == fate) {
            run.carry_out(job, 0..16, holders.clone());
        }
    }
}

fn answered(jobs: &[(Fate, u8)], refusal: u8) -> Vec<u8> {
    jobs.iter()
        .filter(|(fate, _)| match fate {
            Fate::Refused(by) => *by == refusal,
            _ => refusal == 0,
        })
        .map(|&(_, job)| job)
        .collect()
}
