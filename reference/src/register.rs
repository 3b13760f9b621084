//! The single register: it takes jobs one at a time and knows nothing of
//! vaults or signatures.

use crate::record::{check, Bytes, Kind, Label, Record, Tape};
use crate::step::Step;
use std::collections::BTreeSet;

#[derive(Clone, Default, Debug)]
pub struct Register {
    pub table: Vec<Bytes>,
    pub taken: Vec<usize>,
    pub standing: BTreeSet<Tape>,
    pub made: BTreeSet<Label>,
    pub frames_accessioned: u64,
    /// Why the register stopped, if it did.
    pub stopped: Option<String>,
}

impl Register {
    /// It is fed the step and whether it was answered 0, nothing else.
    pub fn feed(&mut self, step: &Step, answered_0: bool) {
        if self.stopped.is_some() || !answered_0 {
            return;
        }
        match step {
            Step::Propose { record } => self.propose(record),
            Step::Commit { job, .. } => self.commit(usize::from(*job)),
            _ => {}
        }
    }

    fn propose(&mut self, record: &Bytes) {
        if !self.table.contains(record) {
            self.table.push(*record);
        }
    }

    fn commit(&mut self, job: usize) {
        if self.taken.contains(&job) {
            return;
        }
        match self.admissible(job) {
            Ok(record) => self.join(job, &record),
            Err(why) => self.stopped = Some(why),
        }
    }

    /// In the table, checks 6 to 9, inputs standing, output labels new.
    fn admissible(&self, job: usize) -> Result<Record, String> {
        let Some(bytes) = self.table.get(job) else {
            return Err(format!("job {job} is not in the table"));
        };
        let record = check(bytes).map_err(|r| format!("job {job} fails check {}", r.number))?;
        for input in &record.inputs {
            if !self.standing.contains(&input.tape) {
                return Err(format!("input {} of job {job} doesn't stand", input.number));
            }
        }
        for output in &record.outputs {
            if self.made.contains(&output.tape.label) {
                return Err(format!("output {} of job {job} isn't new", output.number));
            }
        }
        Ok(record)
    }

    fn join(&mut self, job: usize, record: &Record) {
        self.taken.push(job);
        for input in &record.inputs {
            self.standing.remove(&input.tape);
        }
        for output in &record.outputs {
            self.standing.insert(output.tape);
            self.made.insert(output.tape.label);
        }
        if record.kind == Kind::Accession {
            self.frames_accessioned += record.output_frames();
        }
    }
}
