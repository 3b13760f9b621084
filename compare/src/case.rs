//! A run file to compare on, and how to make it again.

use reference::{generate, whole_run};

#[derive(Clone, Copy, Debug)]
pub enum Case {
    Seed(u64),
    /// The whole run's first bytes.
    Prefix(usize),
    /// The whole run with one byte changed.
    Change {
        at: usize,
        value: u8,
    },
}

impl Case {
    pub fn file(&self) -> Vec<u8> {
        match self {
            Case::Seed(seed) => generate::file(*seed),
            Case::Prefix(length) => whole_run()[..*length].to_vec(),
            Case::Change { at, value } => {
                let mut file = whole_run();
                file[*at] = *value;
                file
            }
        }
    }

    pub fn name(&self) -> String {
        match self {
            Case::Seed(seed) => format!("seed {seed}"),
            Case::Prefix(length) => format!("the whole run's first {length} bytes"),
            Case::Change { at, value } => format!("the whole run with byte {at} set to {value}"),
        }
    }

    /// The command that writes the file again.
    pub fn command(&self) -> String {
        let generate = "cargo run --release --offline -p reference --bin generate --";
        match self {
            Case::Seed(seed) => format!("{generate} {seed} > FILE"),
            Case::Prefix(length) => format!("{generate} whole | head -c {length} > FILE"),
            Case::Change { at, value } => format!("{generate} whole {at} {value} > FILE"),
        }
    }
}

pub fn seeds(first: u64, count: u64) -> Vec<Case> {
    (0..count).map(|i| Case::Seed(first + i)).collect()
}

pub fn prefixes() -> Vec<Case> {
    (0..=whole_run().len()).map(Case::Prefix).collect()
}

/// Every position with all 255 other values.
pub fn changes() -> Vec<Case> {
    let mut cases = Vec::new();
    for (at, right) in whole_run().into_iter().enumerate() {
        for value in 0..=255 {
            if value != right {
                cases.push(Case::Change { at, value });
            }
        }
    }
    cases
}
