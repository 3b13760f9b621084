//! The federation's settings, as the header of a run file gives them.

pub const NAME: [u8; 3] = *b"VLT";
/// "a book and its sequence of steps have one version"
pub const VERSIONS: [u16; 2] = [1, 2];
pub const HEADER_BYTES: usize = 9;
pub const LONGEST_FILE: usize = 65_536;
pub const MOST_VAULTS: u64 = 16;

#[derive(Clone, Copy, PartialEq, Eq, Debug)]
pub struct Settings {
    pub n: u64,
    pub b: u64,
    /// Bit i for vault i.
    pub faulty: u16,
    pub version: u16,
}

impl Settings {
    /// "Threshold and quorum are both n − b."
    pub fn threshold(&self) -> u64 {
        self.n - self.b
    }

    pub fn is_faulty(&self, vault: u64) -> bool {
        vaults_in(self.faulty).contains(&vault)
    }

    fn right(&self) -> bool {
        let faulty = vaults_in(self.faulty);
        (1..=MOST_VAULTS).contains(&self.n)
            && 3 * self.b < self.n
            && faulty.len() as u64 <= self.b
            && faulty.iter().all(|vault| *vault < self.n)
    }
}

/// The vaults that a 16-bit set names.
pub fn vaults_in(set: u16) -> Vec<u64> {
    (0..MOST_VAULTS).filter(|i| set >> i & 1 == 1).collect()
}

/// The settings, or nothing where refusal 1 is due.
pub fn read_header(input: &[u8]) -> Option<Settings> {
    if input.len() > LONGEST_FILE || input.len() < HEADER_BYTES {
        return None;
    }
    let version = u16::from_le_bytes([input[3], input[4]]);
    if input[..3] != NAME || !VERSIONS.contains(&version) {
        return None;
    }
    let settings = Settings {
        n: u64::from(input[5]),
        b: u64::from(input[6]),
        faulty: u16::from_le_bytes([input[7], input[8]]),
        version,
    };
    settings.right().then_some(settings)
}
