//! The lines that are printed. A line is put together in two words and stored at once: the step's number is kept in digits,
//! and what follows it on the line is made at compile time.
use super::index::Jobs;
use reference::engine::BOOK_RECORDS;
use reference::record::ENTRIES;
use reference::refusal::REFUSALS;

/// Room for a step's line, to begin with: what is listed may need more.
const LINE: usize = 23;

/// What a step answers, as the end of its line: a space, 0 or the refusal, a space, the value and the end of the line.
#[derive(Clone, Copy)]
pub struct Answer(u64);

/// No value exceeds the thousandths of a draw.
const VALUES: usize = 1001;
static DONE: [u64; VALUES] = done_endings();
/// By refusal, of which none is 0, and entry.
type Endings = [[u64; ENTRIES]; REFUSALS as usize + 1];
static REFUSED: Endings = refused_endings();
/// A job alone on its line.
static LISTED: [u64; BOOK_RECORDS] = listed_jobs();

impl Answer {
    #[inline(always)]
    pub fn done(value: u16) -> Answer {
        Answer(DONE[usize::from(value)])
    }

    #[inline(always)]
    pub fn refused(refusal: usize, entry: usize) -> Answer {
        Answer(REFUSED[refusal][entry])
    }
}

const fn push_byte(word: u64, byte: u8) -> u64 {
    word | (byte as u64) << (64 - word.leading_zeros() / 8 * 8)
}

const fn push_number(word: u64, number: usize) -> u64 {
    let before = if number < 10 {
        word
    } else {
        push_number(word, number / 10)
    };
    push_byte(before, b'0' + (number % 10) as u8)
}

const fn ending(number: usize, value: usize) -> u64 {
    let number = push_number(b' ' as u64, number);
    push_byte(push_number(push_byte(number, b' '), value), b'\n')
}

const fn done_endings() -> [u64; VALUES] {
    let mut endings = [0; VALUES];
    let mut value = 0;
    while value < VALUES {
        endings[value] = ending(0, value);
        value += 1;
    }
    endings
}

const fn refused_endings() -> Endings {
    let mut endings = [[0; ENTRIES]; REFUSALS as usize + 1];
    let mut cell = 0;
    while cell < ENTRIES * endings.len() {
        let (refusal, entry) = (cell / ENTRIES, cell % ENTRIES);
        endings[refusal][entry] = ending(refusal, entry);
        cell += 1;
    }
    endings
}

const fn listed_jobs() -> [u64; BOOK_RECORDS] {
    let mut lines = [0; BOOK_RECORDS];
    let mut job = 0;
    while job < BOOK_RECORDS {
        lines[job] = push_byte(push_number(0, job), b'\n');
        job += 1;
    }
    lines
}

pub struct Lines<'a> {
    out: &'a mut Vec<u8>,
    /// The digits of the last line's number, the first in the low byte.
    digits: u64,
    /// How many bits lie below the last digit.
    low: u32,
}

impl<'a> Lines<'a> {
    /// Makes room for the lines of this many bytes of steps: a step has one byte or more.
    pub fn new(out: &'a mut Vec<u8>, steps: usize) -> Lines<'a> {
        out.reserve((steps + 1) * LINE + 16);
        Lines {
            out,
            digits: u64::from(b'0'),
            low: 0,
        }
    }

    #[inline(always)]
    pub fn put(&mut self, Answer(ending): Answer) {
        self.count();
        let shift = self.low + 8;
        let mut line = [0; 16];
        line[..8].copy_from_slice(&(self.digits | ending << shift).to_le_bytes());
        line[8..].copy_from_slice(&(ending >> (64 - shift)).to_le_bytes());
        let end = self.out.len() + (shift + 71 - ending.leading_zeros()) as usize / 8;
        // A store of fixed size, cut afterwards, is quicker than a copy of variable size.
        self.out.extend_from_slice(&line);
        self.out.truncate(end);
    }

    /// Each job alone on a line, ascending.
    #[inline(always)]
    pub fn list(&mut self, mut jobs: Jobs) {
        while jobs != 0 {
            let line = LISTED[jobs.trailing_zeros() as usize];
            let end = self.out.len() + (64 - line.leading_zeros()) as usize / 8;
            // The last byte of a line is the end, 10: four bits of it are zeros.
            self.out.extend_from_slice(&line.to_le_bytes());
            self.out.truncate(end + 1);
            jobs &= jobs - 1;
        }
    }

    #[inline(always)]
    fn count(&mut self) {
        self.digits += 1 << self.low;
        if self.digits >> self.low > u64::from(b'9') {
            self.carry();
        }
    }

    #[cold]
    fn carry(&mut self) {
        let mut low = self.low;
        while (self.digits >> low) as u8 > b'9' {
            self.digits -= 10 << low;
            if low == 0 {
                self.digits = self.digits << 8 | u64::from(b'1');
                self.low += 8;
                return;
            }
            low -= 8;
            self.digits += 1 << low;
        }
    }
}

#[cfg(test)]
mod tests {
    use super::*;

    #[test]
    fn lines_are_numbered() {
        let mut out = Vec::new();
        let mut lines = Lines::new(&mut out, 0);
        let mut expected = String::new();
        for step in 1..=32_768 {
            lines.put(Answer::done(step % 1001));
            expected += &format!("{step} 0 {}\n", step % 1001);
        }
        assert!(out == expected.as_bytes());
    }

    #[test]
    fn refusals_have_their_entries() {
        let mut out = Vec::new();
        let mut lines = Lines::new(&mut out, 0);
        lines.put(Answer::refused(2, 0));
        lines.put(Answer::refused(14, 7));
        assert_eq!(out, b"1 2 0\n2 14 7\n");
    }
}
