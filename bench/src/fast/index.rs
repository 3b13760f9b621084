//! Which booked jobs make a tape, have a label as an input, or have it as an output; and checks 11 to 14 by them.
use super::ledger::Vault;
use super::record::{Entry, Job};
use super::table::Table;
use super::text::Answer;
use reference::record::FIRST_OUTPUT;

/// A set of jobs, bit k for job k.
pub type Jobs = u128;

/// The jobs that have a label as an input, and as an output.
#[derive(Clone, Copy, Default)]
struct Users {
    inputs: Jobs,
    outputs: Jobs,
}

pub struct Index {
    labels: Table<u64>,
    users: Vec<Users>,
    tapes: Table<(u64, u32)>,
    makers: Vec<Jobs>,
}

/// A job's tapes by their numbers in the index.
#[derive(Clone, Copy)]
pub struct Tapes {
    input_labels: [u16; FIRST_OUTPUT],
    input_tapes: [u16; FIRST_OUTPUT],
    output_labels: [u16; FIRST_OUTPUT],
    inputs: u8,
    outputs: u8,
}

impl Tapes {
    fn input_labels(&self) -> &[u16] {
        &self.input_labels[..usize::from(self.inputs)]
    }

    pub fn input_tapes(&self) -> &[u16] {
        &self.input_tapes[..usize::from(self.inputs)]
    }

    fn output_labels(&self) -> &[u16] {
        &self.output_labels[..usize::from(self.outputs)]
    }
}

impl Index {
    pub fn new() -> Index {
        Index {
            labels: Table::new(),
            users: Vec::new(),
            tapes: Table::new(),
            makers: Vec::new(),
        }
    }

    /// Enters a job that is booked under a number.
    pub fn book(&mut self, job: &Job, number: u8) -> Tapes {
        let bit = 1 << number;
        let mut tapes = Tapes {
            input_labels: [0; FIRST_OUTPUT],
            input_tapes: [0; FIRST_OUTPUT],
            output_labels: [0; FIRST_OUTPUT],
            inputs: job.inputs().len() as u8,
            outputs: job.outputs().len() as u8,
        };
        for (i, &entry) in job.inputs().iter().enumerate() {
            let label = self.label(entry);
            self.users[label].inputs |= bit;
            tapes.input_labels[i] = label as u16;
            tapes.input_tapes[i] = self.tape(entry) as u16;
        }
        for (i, &entry) in job.outputs().iter().enumerate() {
            let label = self.label(entry);
            self.users[label].outputs |= bit;
            tapes.output_labels[i] = label as u16;
            let tape = self.tape(entry);
            self.makers[tape] |= bit;
        }
        tapes
    }

    fn label(&mut self, entry: Entry) -> usize {
        let (label, new) = self.labels.number(entry.label);
        if new {
            self.users.push(Users::default());
        }
        label
    }

    fn tape(&mut self, entry: Entry) -> usize {
        let (tape, new) = self.tapes.number((entry.label, entry.frames));
        if new {
            self.makers.push(0);
        }
        tape
    }

    #[inline]
    pub fn makers(&self, tape: u16) -> Jobs {
        self.makers[usize::from(tape)]
    }

    #[inline]
    fn users(&self, label: u16) -> Users {
        self.users[usize::from(label)]
    }

    /// The jobs that have one of the inputs' labels as an input, or one of the outputs' as an output: the job itself is among them.
    #[inline]
    pub fn rivals(&self, tapes: &Tapes) -> Jobs {
        let inputs = |jobs: Jobs, &label: &u16| jobs | self.users(label).inputs;
        let outputs = |jobs: Jobs, &label: &u16| jobs | self.users(label).outputs;
        let by_input = tapes.input_labels().iter().fold(0, inputs);
        tapes.output_labels().iter().fold(by_input, outputs)
    }

    /// The jobs held elsewhere that make an input which no held job makes.
    #[inline]
    pub fn missing(&self, held: Jobs, elsewhere: Jobs, tapes: &Tapes) -> Jobs {
        let makers = tapes.input_tapes().iter().map(|&tape| self.makers(tape));
        let lacking = makers.filter(|makers| makers & held == 0);
        lacking.fold(0, |jobs, makers| jobs | makers & elsewhere)
    }

    /// The first of checks 11 to 14 that the job fails at the vault, which has not signed it.
    #[inline(always)]
    pub fn refusal(&self, vault: Vault, tapes: &Tapes) -> Option<Answer> {
        let missing = |&tape: &u16| self.makers(tape) & vault.held == 0;
        if let Some(entry) = tapes.input_tapes().iter().position(missing) {
            return Some(Answer::refused(11, entry));
        }
        let known = vault.held | vault.signed;
        // Both checks on all labels at once first: most jobs that come so far have no rival.
        let inputs = |jobs: Jobs, &label: &u16| jobs | self.users(label).inputs;
        if tapes.input_labels().iter().fold(0, inputs) & known != 0 {
            return Some(self.consumed(vault, tapes.input_labels()));
        }
        let made = |&label: &u16| self.users(label).outputs & known != 0;
        let remade = tapes.output_labels().iter().position(made)?;
        Some(Answer::refused(14, FIRST_OUTPUT + remade))
    }

    /// Check 12 or 13, one of which fails.
    fn consumed(&self, vault: Vault, labels: &[u16]) -> Answer {
        let first = |known: Jobs| {
            let by_known = |&label: &u16| self.users(label).inputs & known != 0;
            labels.iter().position(by_known)
        };
        match first(vault.held) {
            Some(entry) => Answer::refused(12, entry),
            None => Answer::refused(13, first(vault.signed).unwrap_or(0)),
        }
    }
}
