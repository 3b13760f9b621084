//! Document 02, M-110: "Frame counts known only within ranges", by trying
//! every choice.

use crate::record::{self, Bytes, Kind, ENTRIES, FIRST_OUTPUT, LABEL_BYTES};
use crate::refusal::{at_entry, plain, Refusal};
use std::collections::BTreeSet;
use std::ops::RangeInclusive;

/// A lowest and a highest count.
pub type Range = (u32, u32);

#[derive(Clone, Copy, PartialEq, Eq, Debug)]
pub struct Estimate {
    /// The job, "with frames read as the lowest count".
    pub lowest: Bytes,
    pub highest: [u32; ENTRIES],
    pub trimmed: u32,
}

impl Estimate {
    pub fn range(&self, number: usize) -> Range {
        (lowest(&self.lowest, number), self.highest[number])
    }

    fn counts(&self, number: usize) -> RangeInclusive<u32> {
        let (lowest, highest) = self.range(number);
        lowest..=highest
    }

    fn used(&self, number: usize) -> bool {
        let half = number / FIRST_OUTPUT;
        number % FIRST_OUTPUT < self.lowest[2 + half].into()
    }

    /// "An unused entry's highest is 0, else 6"; "an accession has 0 trimmed".
    fn bounded(&self) -> bool {
        let unused = (0..ENTRIES).filter(|number| !self.used(*number));
        let accession = self.lowest[0] == 0;
        unused.map(|number| self.highest[number]).all(|h| h == 0)
            && (!accession || self.trimmed == 0)
    }

    /// Checks 6 to 8. Whether the lowest counts balance is not asked.
    fn check(&self) -> Result<Kind, Refusal> {
        let record = record::parse(&self.lowest).ok_or(plain(6))?;
        if !self.bounded() {
            return Err(plain(6));
        }
        match record::check(&self.lowest) {
            Err(why) if why.number != 9 => Err(why),
            _ => Ok(record.kind),
        }
    }
}

/// The frames that stand in a record's entry.
fn lowest(bytes: &Bytes, number: usize) -> u32 {
    let start = record::entry_start(number) + LABEL_BYTES;
    u32::from_le_bytes(bytes[start..start + 4].try_into().unwrap())
}

/// Each entry's counts in balancing choices.
struct Seen {
    counts: [BTreeSet<u32>; ENTRIES],
}

impl Seen {
    /// All choices that begin with `choice`.
    fn look(&mut self, e: &Estimate, kind: Kind, choice: &mut Vec<u32>) {
        if choice.len() < ENTRIES {
            for count in e.counts(choice.len()) {
                choice.push(count);
                self.look(e, kind, choice);
                choice.pop();
            }
        } else if balances(e, kind, choice) {
            for (counts, count) in self.counts.iter_mut().zip(choice) {
                counts.insert(*count);
            }
        }
    }
}

/// "In a migration input frames equal output frames plus trimmed".
fn balances(e: &Estimate, kind: Kind, choice: &[u32]) -> bool {
    let (inputs, outputs) = choice.split_at(FIRST_OUTPUT);
    let sum = |half: &[u32]| half.iter().map(|count| u64::from(*count)).sum::<u64>();
    kind == Kind::Accession || sum(inputs) == sum(outputs) + u64::from(e.trimmed)
}

/// Whether some choice balances, and if so each entry's tightest range. It
/// takes as long as there are choices.
pub fn tighten(e: &Estimate) -> Result<[Range; ENTRIES], Refusal> {
    let kind = e.check()?;
    if let Some(number) = (0..ENTRIES).find(|number| e.counts(*number).is_empty()) {
        return Err(at_entry(24, number as u64));
    }
    let counts = Default::default();
    let mut seen = Seen { counts };
    seen.look(e, kind, &mut Vec::new());
    if seen.counts[0].is_empty() {
        return Err(plain(25));
    }
    Ok(seen.counts.map(|counts| {
        let (lowest, highest) = (*counts.first().unwrap(), *counts.last().unwrap());
        // "so does every number between"
        assert!(counts.into_iter().eq(lowest..=highest));
        (lowest, highest)
    }))
}
