//! A small table by open addressing: keys get the numbers from 0 in the order in which they are first seen.
use reference::engine::BOOK_RECORDS;
use reference::record::ENTRIES;

pub trait Key: Copy + Eq {
    fn hash(self) -> u64;
}

/// Multiplies and folds the upper half of the product onto the lower. The constants have their ones well spread, and no
/// text equals them.
#[inline]
pub fn mix(a: u64, b: u64) -> u64 {
    let product = u128::from(a ^ 0x9e37_79b9_7f4a_7c15) * u128::from(b ^ 0xe703_7ed1_a0b4_28db);
    product as u64 ^ (product >> 64) as u64
}

impl Key for u64 {
    fn hash(self) -> u64 {
        mix(self, 0)
    }
}

impl Key for (u64, u32) {
    fn hash(self) -> u64 {
        mix(self.0, u64::from(self.1))
    }
}

/// Half of the slots stay free where every entry of a full journal is used.
const SLOTS: usize = 2 * BOOK_RECORDS * ENTRIES;

pub struct Table<K> {
    /// One more than the number of the key that lies here, 0 where none does.
    slots: [u16; SLOTS],
    keys: Vec<K>,
}

impl<K: Key> Table<K> {
    pub fn new() -> Table<K> {
        Table {
            slots: [0; SLOTS],
            keys: Vec::new(),
        }
    }

    /// The key's number, and whether it is new.
    pub fn number(&mut self, key: K) -> (usize, bool) {
        let mut slot = key.hash() as usize % SLOTS;
        loop {
            match usize::from(self.slots[slot]) {
                0 => break,
                after if self.keys[after - 1] == key => return (after - 1, false),
                _ => slot = (slot + 1) % SLOTS,
            }
        }
        self.keys.push(key);
        self.slots[slot] = self.keys.len() as u16;
        (self.keys.len() - 1, true)
    }
}
