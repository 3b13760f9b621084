//! Finds a booked record again by its hash.
use super::record::Record;
use super::table::mix;
use reference::engine::BOOK_RECORDS;
use reference::record::RECORD_BYTES;

/// Half of the slots stay free.
const SLOTS: usize = 2 * BOOK_RECORDS;

pub struct Repeats<'a> {
    /// One more than the number of the job that lies here, 0 where none does.
    slots: [u8; SLOTS],
    /// The booked records, where they stand in the run file.
    records: Vec<&'a Record>,
}

/// Where a record is, or where it would go.
pub enum Place {
    Booked(u8),
    Free(usize),
}

impl<'a> Repeats<'a> {
    pub fn new() -> Repeats<'a> {
        Repeats {
            slots: [0; SLOTS],
            records: Vec::new(),
        }
    }

    pub fn find(&self, record: &Record) -> Place {
        let mut slot = hash(record) as usize % SLOTS;
        loop {
            match self.slots[slot] {
                0 => return Place::Free(slot),
                after if self.records[usize::from(after) - 1] == record => {
                    return Place::Booked(after - 1)
                }
                _ => slot = (slot + 1) % SLOTS,
            }
        }
    }

    /// Books the record at a free place that `find` answered for it.
    pub fn book(&mut self, slot: usize, record: &'a Record) {
        self.records.push(record);
        self.slots[slot] = self.records.len() as u8;
    }
}

/// Two lanes, so that one multiplication need not wait for the other.
fn hash(record: &Record) -> u64 {
    let word = |at: usize| {
        let bytes = record[at..at + 8].try_into().expect("eight bytes");
        u64::from_le_bytes(bytes)
    };
    let (mut one, mut other) = (word(RECORD_BYTES - 8), 0);
    for at in [0, 32, 64] {
        one = mix(one ^ word(at), word(at + 8));
        other = mix(other ^ word(at + 16), word(at + 24));
    }
    mix(one, other)
}
