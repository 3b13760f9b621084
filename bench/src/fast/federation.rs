//! The settings in a run file's header.
use reference::record::record_bytes;
use reference::settings::{LONGEST_FILE, MOST_VAULTS};

#[derive(Clone, Copy)]
pub struct Federation {
    pub n: u8,
    pub b: u8,
    pub faulty: u16,
    /// How long a record is.
    pub record_bytes: usize,
}

impl Federation {
    /// The settings and the steps after them; none where refusal 1 is due.
    pub fn read(input: &[u8]) -> Option<(Federation, &[u8])> {
        let &[b'V', b'L', b'T', version @ 1..=2, 0, n, b, low, high, ref steps @ ..] = input else {
            return None;
        };
        let faulty = u16::from_le_bytes([low, high]);
        let federation = Federation {
            n,
            b,
            faulty,
            record_bytes: record_bytes(version.into()),
        };
        (input.len() <= LONGEST_FILE && federation.is_lawful()).then_some((federation, steps))
    }

    fn is_lawful(self) -> bool {
        let (n, b) = (u32::from(self.n), u32::from(self.b));
        // Widened, because 2 to the 16th does not fit 16 bits.
        n <= MOST_VAULTS as u32
            && 3 * b < n
            && u32::from(self.faulty) >> n == 0
            && self.faulty.count_ones() <= b
    }

    /// How many signatures certify a job, and how many acknowledgements finish it.
    pub fn threshold(self) -> u8 {
        self.n - self.b
    }

    pub fn is_faulty(self, vault: u8) -> bool {
        self.faulty >> vault & 1 == 1
    }
}
