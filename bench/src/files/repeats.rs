//! A full journal of records that differ only in their last label, and proposals of them again.
use super::tapes::Reels;
use super::writer::Run;
use super::{File, SEED};
use reference::engine::BOOK_RECORDS;
use reference::random::Random;
use reference::record::Bytes;
use reference::step::kind;
use reference::write::migration;

pub fn file() -> File {
    let mut run = Run::new(16, 5, 0);
    let records = records();
    for record in &records {
        run.book(record);
    }
    run.prepared();
    let mut random = Random::new(SEED);
    while run.has_room(kind::PROPOSE) {
        run.propose(random.pick(&records), 0);
    }
    run.named("repeats")
}

fn records() -> Vec<Bytes> {
    let mut reels = Reels::new();
    let inputs = reels.four(5);
    let mut outputs = reels.four(6);
    let mut rival = || {
        outputs[3].label = reels.fresh(6, 1).label;
        migration(6, &inputs, &outputs)
    };
    (0..BOOK_RECORDS).map(|_| rival()).collect()
}
