//! Preflights that are refused as late as may be, with few or many jobs booked, all but the first held where it is refused.
use super::late::book_pair;
use super::tapes::{with_frames, Reels};
use super::writer::Run;
use super::File;
use reference::step::kind;
use reference::write::{accession, migration};

/// `booked` is 1 or an even number up to 128.
pub fn growing(booked: usize) -> File {
    let mut run = Run::new(16, 5, 0);
    if booked == 1 {
        own_output(&mut run);
    } else {
        last_output(&mut run, booked);
    }
    run.prepared();
    while run.has_room(kind::PREFLIGHT) {
        run.preflight(0, 0, 14);
    }
    run.named(&format!("growing({booked})"))
}

/// An accession held by a vault that has not signed it: its tapes are made there.
fn own_output(run: &mut Run) {
    let only = run.book(&accession(7, &Reels::new().four(5)));
    run.carry_out(only, 1..12, 0..1);
}

/// Job 0 migrates three tapes of the last job onto four, the last of which the last job has made.
fn last_output(run: &mut Run, booked: usize) {
    let mut reels = Reels::new();
    let tapes = reels.four(5);
    let mut outputs = reels.copies(&tapes[..3], 6);
    outputs[2].frames -= 1;
    outputs.push(with_frames(tapes[3], 1));
    run.book(&migration(6, &tapes[..3], &outputs));
    let pairs: Vec<(u8, u8)> = (0..booked / 2 - 1)
        .map(|_| book_pair(run, &mut reels))
        .collect();
    let last = run.book(&accession(7, &tapes));
    for (parent, child) in pairs {
        run.carry_out(parent, 0..11, 0..11);
        run.carry_out(child, 0..11, 0..1);
    }
    run.carry_out(last, 0..11, 0..1);
}
