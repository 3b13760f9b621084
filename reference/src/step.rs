//! "Then steps, each a kind byte and its body".

use crate::record::{record_bytes, Bytes, LONG_RECORD_BYTES, RECORD_BYTES};

pub mod kind {
    pub const PROPOSE: u8 = 1;
    pub const PREFLIGHT: u8 = 2;
    pub const COMMIT: u8 = 3;
    pub const FAULTY_SIGNATURE: u8 = 4;
    pub const FAULTY_ACKNOWLEDGEMENT: u8 = 5;
    pub const SHOW: u8 = 6;
    pub const DRAW: u8 = 7;
    pub const GENERATIONS: u8 = 8;
    pub const SNAPSHOT: u8 = 9;
    pub const RELEASE: u8 = 10;
    pub const DEPENDENCIES: u8 = 11;
    pub const CLIENT_PREFLIGHT: u8 = 12;
    pub const EQUIVOCATING: u8 = 13;
}

/// Every kind and the length of its body in a version 1 file.
pub const KINDS: [(u8, usize); 13] = [
    (kind::PROPOSE, RECORD_BYTES),
    (kind::PREFLIGHT, 2),
    (kind::COMMIT, 4),
    (kind::FAULTY_SIGNATURE, 2),
    (kind::FAULTY_ACKNOWLEDGEMENT, 2),
    (kind::SHOW, 1),
    (kind::DRAW, 1),
    (kind::GENERATIONS, 1),
    (kind::SNAPSHOT, 0),
    (kind::RELEASE, 3),
    (kind::DEPENDENCIES, 2),
    (kind::CLIENT_PREFLIGHT, 3),
    (kind::EQUIVOCATING, 0),
];

#[derive(Clone, PartialEq, Eq, Debug)]
pub enum Step {
    Propose {
        record: Box<Bytes>,
    },
    Preflight {
        vault: u8,
        job: u8,
    },
    Commit {
        vault: u8,
        job: u8,
        signers: u16,
    },
    FaultySignature {
        vault: u8,
        job: u8,
    },
    FaultyAcknowledgement {
        vault: u8,
        job: u8,
    },
    Show {
        job: u8,
    },
    Draw {
        u: u8,
    },
    Generations {
        job: u8,
    },
    /// "Stock-take while jobs go on".
    Snapshot,
    /// "A superseded signature can be released."
    Release {
        vault: u8,
        job: u8,
        rival: u8,
    },
    /// "Which papers must a vault see first."
    Dependencies {
        vault: u8,
        job: u8,
    },
    /// "a preflight from one of desks 0 to 7"
    ClientPreflight {
        vault: u8,
        job: u8,
        client: u8,
    },
    /// "Naming a two-faced vault."
    Equivocating,
}

/// The length of a step, kind and body, or nothing if the kind is unknown.
pub fn step_length(kind: u8) -> Option<usize> {
    step_length_in(1, kind)
}

/// The same in a file of the version: only a record's length differs.
pub fn step_length_in(version: u16, kind: u8) -> Option<usize> {
    let (_, body) = KINDS.iter().find(|(known, _)| *known == kind)?;
    match kind {
        kind::PROPOSE => Some(1 + record_bytes(version)),
        _ => Some(1 + body),
    }
}

/// The first step of `bytes` and its whole length; nothing where refusal 2
/// is due.
pub fn decode(version: u16, bytes: &[u8]) -> Option<(Step, usize)> {
    let length = step_length_in(version, bytes[0])?;
    let body = bytes.get(1..length)?;
    Some((read_body(bytes[0], body), length))
}

fn read_body(kind: u8, body: &[u8]) -> Step {
    match (kind, body) {
        (kind::PROPOSE, record) => Step::Propose {
            record: Box::new(widened(record)),
        },
        (kind::PREFLIGHT, &[vault, job]) => Step::Preflight { vault, job },
        (kind::COMMIT, &[vault, job, low, high]) => Step::Commit {
            vault,
            job,
            signers: u16::from_le_bytes([low, high]),
        },
        (kind::FAULTY_SIGNATURE, &[vault, job]) => Step::FaultySignature { vault, job },
        (kind::FAULTY_ACKNOWLEDGEMENT, &[vault, job]) => Step::FaultyAcknowledgement { vault, job },
        (kind::SHOW, &[job]) => Step::Show { job },
        (kind::DRAW, &[u]) => Step::Draw { u },
        (kind::GENERATIONS, &[job]) => Step::Generations { job },
        (kind::SNAPSHOT, &[]) => Step::Snapshot,
        (kind::RELEASE, &[vault, job, rival]) => Step::Release { vault, job, rival },
        (kind::DEPENDENCIES, &[vault, job]) => Step::Dependencies { vault, job },
        (kind::CLIENT_PREFLIGHT, &[vault, job, client]) => {
            Step::ClientPreflight { vault, job, client }
        }
        (kind::EQUIVOCATING, &[]) => Step::Equivocating,
        _ => unreachable!("kind {kind} has another length in the table"),
    }
}

/// A record as it is kept: one of version 1 has 0 trimmed.
fn widened(record: &[u8]) -> Bytes {
    let mut bytes = [0; LONG_RECORD_BYTES];
    bytes[..record.len()].copy_from_slice(record);
    bytes
}

impl Step {
    pub fn kind(&self) -> u8 {
        match self {
            Step::Propose { .. } => kind::PROPOSE,
            Step::Preflight { .. } => kind::PREFLIGHT,
            Step::Commit { .. } => kind::COMMIT,
            Step::FaultySignature { .. } => kind::FAULTY_SIGNATURE,
            Step::FaultyAcknowledgement { .. } => kind::FAULTY_ACKNOWLEDGEMENT,
            Step::Show { .. } => kind::SHOW,
            Step::Draw { .. } => kind::DRAW,
            Step::Generations { .. } => kind::GENERATIONS,
            Step::Snapshot => kind::SNAPSHOT,
            Step::Release { .. } => kind::RELEASE,
            Step::Dependencies { .. } => kind::DEPENDENCIES,
            Step::ClientPreflight { .. } => kind::CLIENT_PREFLIGHT,
            Step::Equivocating => kind::EQUIVOCATING,
        }
    }

    /// The step as a version 1 run file has it.
    pub fn encode(&self) -> Vec<u8> {
        self.encode_in(1)
    }

    /// The step as a run file of the version has it.
    pub fn encode_in(&self, version: u16) -> Vec<u8> {
        let mut bytes = vec![self.kind()];
        match self {
            Step::Propose { record } => bytes.extend(&record[..record_bytes(version)]),
            Step::Preflight { vault, job }
            | Step::FaultySignature { vault, job }
            | Step::FaultyAcknowledgement { vault, job }
            | Step::Dependencies { vault, job } => bytes.extend([*vault, *job]),
            Step::Commit {
                vault,
                job,
                signers,
            } => {
                bytes.extend([*vault, *job]);
                bytes.extend(signers.to_le_bytes());
            }
            Step::Show { job } | Step::Generations { job } => bytes.push(*job),
            Step::Draw { u } => bytes.push(*u),
            Step::Snapshot | Step::Equivocating => {}
            Step::Release { vault, job, rival } => bytes.extend([*vault, *job, *rival]),
            Step::ClientPreflight { vault, job, client } => {
                bytes.extend([*vault, *job, *client]);
            }
        }
        bytes
    }
}
