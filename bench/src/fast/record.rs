//! Job records and checks 6 to 9.
use super::text::Answer;
use reference::record::{ENTRIES, ENTRY_BYTES, FIRST_OUTPUT, LABEL_BYTES};

/// The bytes of a record, as many as its version has.
pub type Record = [u8];

#[derive(Clone, Copy, Default)]
pub struct Entry {
    /// The eight bytes of the label, the first in the low byte.
    pub label: u64,
    pub frames: u32,
}

/// A record that has been read: its used entries, inputs first, in their places.
pub struct Job {
    entries: [Entry; ENTRIES],
    drive: u8,
    inputs: usize,
    outputs: usize,
    trimmed: u32,
}

/// The media that each drive reads and writes, bits 0 to 4 for L5 to L9, bit 5 for M8; drives from 5.
const READS: [u8; 5] = [0b000001, 0b000011, 0b000111, 0b101100, 0b011000];
const WRITES: [u8; 5] = [0b000001, 0b000011, 0b000110, 0b101100, 0b011000];

impl Job {
    /// The job in a record that passes checks 6 to 9.
    pub fn examine(record: &Record) -> Result<Job, Answer> {
        let job = Job::read(record).ok_or(Answer::refused(6, 0))?;
        if let Some(entry) = job.repeated_label() {
            return Err(Answer::refused(7, entry));
        }
        if let Some(entry) = job.foreign_medium() {
            return Err(Answer::refused(8, entry));
        }
        if !job.is_balanced() {
            return Err(Answer::refused(9, 0));
        }
        Ok(job)
    }

    pub fn inputs(&self) -> &[Entry] {
        &self.entries[..self.inputs]
    }

    pub fn outputs(&self) -> &[Entry] {
        &self.entries[FIRST_OUTPUT..FIRST_OUTPUT + self.outputs]
    }

    /// None where the record is malformed.
    fn read(record: &Record) -> Option<Job> {
        let (&[kind, drive, inputs, outputs], entries) = record.split_first_chunk()?;
        let inputs_fit = match kind {
            0 => inputs == 0,
            1 => matches!(inputs, 1..=4),
            _ => false,
        };
        if !inputs_fit || !matches!(outputs, 1..=4) || !matches!(drive, 5..=9) {
            return None;
        }
        let mut job = Job {
            entries: [Entry::default(); ENTRIES],
            drive,
            inputs: usize::from(inputs),
            outputs: usize::from(outputs),
            trimmed: 0,
        };
        // A version 1 record ends with its entries.
        let (entries, trimmed) = entries.split_at(ENTRIES * ENTRY_BYTES);
        if let Ok(trimmed) = trimmed.try_into() {
            job.trimmed = u32::from_le_bytes(trimmed);
        }
        if job.inputs == 0 && job.trimmed != 0 {
            return None;
        }
        for (i, bytes) in entries.chunks_exact(ENTRY_BYTES).enumerate() {
            let entry = read_entry(bytes);
            let used = job.is_used(i);
            if used != is_proper(entry) || (!used && (entry.label != 0 || entry.frames != 0)) {
                return None;
            }
            job.entries[i] = entry;
        }
        Some(job)
    }

    fn is_used(&self, i: usize) -> bool {
        i < self.inputs || (FIRST_OUTPUT..FIRST_OUTPUT + self.outputs).contains(&i)
    }

    fn used(&self) -> impl Iterator<Item = usize> {
        (0..self.inputs).chain(FIRST_OUTPUT..FIRST_OUTPUT + self.outputs)
    }

    /// Check 7. An unused entry has no label that a used one could have.
    fn repeated_label(&self) -> Option<usize> {
        let labels = self.entries.map(|entry| entry.label);
        self.used().find(|&i| labels[..i].contains(&labels[i]))
    }

    /// Check 8. Only the outputs of a migration are written.
    fn foreign_medium(&self) -> Option<usize> {
        let drive = usize::from(self.drive - 5);
        self.used().find(|&i| {
            let written = FIRST_OUTPUT <= i && self.inputs > 0;
            let media = if written { WRITES[drive] } else { READS[drive] };
            medium(self.entries[i].label).is_none_or(|bit| media >> bit & 1 == 0)
        })
    }

    /// Check 9.
    fn is_balanced(&self) -> bool {
        self.inputs == 0
            || frames(self.inputs()) == frames(self.outputs()) + u64::from(self.trimmed)
    }
}

fn read_entry(bytes: &[u8]) -> Entry {
    let (label, frames) = bytes.split_at(LABEL_BYTES);
    Entry {
        label: u64::from_le_bytes(label.try_into().expect("eight bytes")),
        frames: u32::from_le_bytes(frames.try_into().expect("four bytes")),
    }
}

fn frames(entries: &[Entry]) -> u64 {
    entries.iter().map(|entry| u64::from(entry.frames)).sum()
}

/// The bit of the medium that the label's last two characters name.
fn medium(label: u64) -> Option<u8> {
    match [(label >> 48) as u8, (label >> 56) as u8] {
        [b'L', digit @ b'5'..=b'9'] => Some(digit - b'5'),
        [b'M', b'8'] => Some(5),
        _ => None,
    }
}

fn is_proper(entry: Entry) -> bool {
    entry.frames > 0 && is_label(entry.label)
}

const HIGH_BITS: u64 = 0x8080_8080_8080_8080;

/// The high bits of those bytes that lie between two characters. All bytes are below 128, so no sum carries.
fn between(bytes: u64, first: u8, last: u8) -> u64 {
    let at_least = bytes + u64::from_ne_bytes([0x80 - first; 8]);
    let above = bytes + u64::from_ne_bytes([0x7f - last; 8]);
    at_least & !above & HIGH_BITS
}

fn is_label(label: u64) -> bool {
    let name = HIGH_BITS >> 16;
    label & HIGH_BITS == 0
        && (between(label, b'A', b'Z') | between(label, b'0', b'9')) & name == name
        && medium(label).is_some()
}

#[cfg(test)]
mod tests {
    use super::*;

    #[test]
    fn every_ending_of_a_label() {
        for ending in 0..=u16::MAX {
            let mut label = *b"VAA009..";
            label[6..].copy_from_slice(&ending.to_be_bytes());
            let allowed =
                [b"L5", b"L6", b"L7", b"L8", b"L9", b"M8"].contains(&&ending.to_be_bytes());
            assert_eq!(is_label(u64::from_le_bytes(label)), allowed);
        }
    }

    #[test]
    fn every_byte_of_a_name() {
        for place in 0..6 {
            for byte in 0..=255u8 {
                let mut label = *b"VAA009L5";
                label[place] = byte;
                let allowed = byte.is_ascii_uppercase() || byte.is_ascii_digit();
                assert_eq!(is_label(u64::from_le_bytes(label)), allowed);
            }
        }
    }
}
