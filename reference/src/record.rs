//! A job record: its bytes, its tapes, and checks 6 to 9.

use crate::refusal::{first_offender, plain, Refusal};

/// A version 1 record.
pub const RECORD_BYTES: usize = HEAD_BYTES + ENTRIES * ENTRY_BYTES;
/// A version 2 record: "32 bits of trimmed frames follow the last entry".
pub const LONG_RECORD_BYTES: usize = RECORD_BYTES + 4;
/// Kind, drive, number of inputs, number of outputs.
pub const HEAD_BYTES: usize = 4;
pub const LABEL_BYTES: usize = 8;
pub const ENTRY_BYTES: usize = LABEL_BYTES + 4;
/// Inputs lie in entries 0 to 3, outputs in 4 to 7.
pub const ENTRIES: usize = 2 * FIRST_OUTPUT;
pub const FIRST_OUTPUT: usize = 4;

/// A record of either version; "Version 1 stays readable and its jobs have 0 trimmed".
pub type Bytes = [u8; LONG_RECORD_BYTES];
pub type Label = [u8; LABEL_BYTES];

/// The last two characters of a label.
pub type Medium = [u8; 2];

/// "The label's last two characters are `L5` to `L9` or `M8`, so a medium is one of six".
pub const MEDIA: [Medium; 6] = [*b"L5", *b"L6", *b"L7", *b"L8", *b"L9", *b"M8"];

/// A tape is a label and its frames.
#[derive(Clone, Copy, PartialEq, Eq, PartialOrd, Ord, Debug)]
pub struct Tape {
    pub label: Label,
    pub frames: u64,
}

/// A used entry: where it stands in the record (0 to 7), and its tape.
#[derive(Clone, Copy, PartialEq, Eq, Debug)]
pub struct Entry {
    pub number: u64,
    pub tape: Tape,
}

#[derive(Clone, Copy, PartialEq, Eq, Debug)]
pub enum Kind {
    Accession,
    Migration,
}

#[derive(Clone, PartialEq, Eq, Debug)]
pub struct Record {
    pub bytes: Bytes,
    pub kind: Kind,
    pub drive: u8,
    pub inputs: Vec<Entry>,
    pub outputs: Vec<Entry>,
    pub trimmed: u64,
}

/// How many bytes a record has in a run file of the version.
pub fn record_bytes(version: u16) -> usize {
    match version {
        1 => RECORD_BYTES,
        2 => LONG_RECORD_BYTES,
        _ => unreachable!("no run file has version {version}"),
    }
}

impl Record {
    pub fn makes_tape(&self, tape: &Tape) -> bool {
        self.outputs.iter().any(|output| output.tape == *tape)
    }

    pub fn makes_label(&self, label: &Label) -> bool {
        self.outputs
            .iter()
            .any(|output| output.tape.label == *label)
    }

    pub fn takes_label(&self, label: &Label) -> bool {
        self.inputs.iter().any(|input| input.tape.label == *label)
    }

    /// Both have the label among their inputs, or both among their outputs.
    pub fn shares_label(&self, other: &Record) -> bool {
        let taken = |input: &Entry| other.takes_label(&input.tape.label);
        let made = |output: &Entry| other.makes_label(&output.tape.label);
        self.inputs.iter().any(taken) || self.outputs.iter().any(made)
    }

    pub fn output_frames(&self) -> u64 {
        frames_of(&self.outputs)
    }
}

/// Checks 6 to 9 in their order; the record if they pass.
pub fn check(bytes: &Bytes) -> Result<Record, Refusal> {
    let record = parse(bytes).ok_or(plain(6))?;
    first_offender(7, label_again(&record))?;
    first_offender(8, drive_cannot(&record))?;
    if !balanced(&record) {
        return Err(plain(9));
    }
    Ok(record)
}

/// Check 6: the record, or nothing if it is malformed.
pub fn parse(bytes: &Bytes) -> Option<Record> {
    let kind = match bytes[0] {
        0 => Kind::Accession,
        1 => Kind::Migration,
        _ => return None,
    };
    let drive = bytes[1];
    let inputs = bytes[2] as usize;
    let outputs = bytes[3] as usize;
    let inputs_right = match kind {
        Kind::Accession => inputs == 0,
        Kind::Migration => (1..=FIRST_OUTPUT).contains(&inputs),
    };
    let trimmed = u32::from_le_bytes(bytes[RECORD_BYTES..].try_into().unwrap());
    // "an accession has 0 trimmed, else 6"
    if kind == Kind::Accession && trimmed != 0 {
        return None;
    }
    if !(5..=9).contains(&drive) || !inputs_right || !(1..=FIRST_OUTPUT).contains(&outputs) {
        return None;
    }
    Some(Record {
        bytes: *bytes,
        kind,
        drive,
        inputs: parse_half(bytes, 0, inputs)?,
        outputs: parse_half(bytes, FIRST_OUTPUT, outputs)?,
        trimmed: u64::from(trimmed),
    })
}

/// Where an entry begins in its record.
pub fn entry_start(number: usize) -> usize {
    HEAD_BYTES + number * ENTRY_BYTES
}

/// The used entries of a half of four; nothing if one of the four is wrong.
fn parse_half(bytes: &Bytes, first: usize, used: usize) -> Option<Vec<Entry>> {
    let mut entries = Vec::new();
    for number in first..first + FIRST_OUTPUT {
        let start = entry_start(number);
        let entry = &bytes[start..start + ENTRY_BYTES];
        if number < first + used {
            entries.push(Entry {
                number: number as u64,
                tape: parse_tape(entry)?,
            });
        } else if entry.iter().any(|byte| *byte != 0) {
            return None;
        }
    }
    Some(entries)
}

fn parse_tape(entry: &[u8]) -> Option<Tape> {
    let label: Label = entry[..LABEL_BYTES].try_into().unwrap();
    let frames = u32::from_le_bytes(entry[LABEL_BYTES..].try_into().unwrap());
    if !label_well_formed(&label) || frames == 0 {
        return None;
    }
    Some(Tape {
        label,
        frames: u64::from(frames),
    })
}

/// "six of A–Z or 0–9", then the medium.
fn label_well_formed(label: &Label) -> bool {
    let six = label[..6]
        .iter()
        .all(|c| c.is_ascii_uppercase() || c.is_ascii_digit());
    six && MEDIA.contains(&medium(label))
}

pub fn medium(label: &Label) -> Medium {
    [label[6], label[7]]
}

/// Check 7: the first entry whose label an earlier used entry has.
fn label_again(record: &Record) -> Option<u64> {
    let mut earlier: Vec<Label> = Vec::new();
    for entry in record.inputs.iter().chain(&record.outputs) {
        if earlier.contains(&entry.tape.label) {
            return Some(entry.number);
        }
        earlier.push(entry.tape.label);
    }
    None
}

/// The house table: drive, media it reads, media it writes. Of M8 "Drive 8, and no other, reads and writes them."
const HOUSE_TABLE: [(u8, &[&Medium], &[&Medium]); 5] = [
    (5, &[b"L5"], &[b"L5"]),
    (6, &[b"L5", b"L6"], &[b"L5", b"L6"]),
    (7, &[b"L5", b"L6", b"L7"], &[b"L6", b"L7"]),
    (8, &[b"L7", b"L8", b"M8"], &[b"L7", b"L8", b"M8"]),
    (9, &[b"L8", b"L9"], &[b"L8", b"L9"]),
];

pub fn reads(drive: u8, medium: Medium) -> bool {
    HOUSE_TABLE
        .iter()
        .any(|(d, reads, _)| *d == drive && reads.contains(&&medium))
}

pub fn writes(drive: u8, medium: Medium) -> bool {
    HOUSE_TABLE
        .iter()
        .any(|(d, _, writes)| *d == drive && writes.contains(&&medium))
}

/// Check 8: the first entry that the drive can't read or write.
fn drive_cannot(record: &Record) -> Option<u64> {
    for input in &record.inputs {
        if !reads(record.drive, medium(&input.tape.label)) {
            return Some(input.number);
        }
    }
    for output in &record.outputs {
        let medium = medium(&output.tape.label);
        // "outputs of an accession must be readable, of a migration writable"
        let can = match record.kind {
            Kind::Accession => reads(record.drive, medium),
            Kind::Migration => writes(record.drive, medium),
        };
        if !can {
            return Some(output.number);
        }
    }
    None
}

/// Check 9: "In a migration input frames equal output frames plus trimmed".
fn balanced(record: &Record) -> bool {
    match record.kind {
        Kind::Accession => true,
        Kind::Migration => frames_of(&record.inputs) == frames_of(&record.outputs) + record.trimmed,
    }
}

fn frames_of(entries: &[Entry]) -> u64 {
    entries.iter().map(|entry| entry.tape.frames).sum()
}
