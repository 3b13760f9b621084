//! The release list of a run: the tapes that are free to be overwritten.

use crate::engine::Engine;
use crate::record::{check, Label};
use crate::refusal::plain;
use crate::register::Register;
use crate::run::{print, Ran};
use std::collections::BTreeSet;

/// "for each input tape of each finished job a line: label, frames, the job's number, single spaces; by job and then by entry; then a line
/// with the number of tapes. A file that refusal 1 or 2 turns back or cuts short gets that line and no list".
pub fn releases(ran: &Ran) -> Vec<u8> {
    let half = |number| number == plain(1).number || number == plain(2).number;
    if let Some(line) = ran.lines.iter().find(|line| half(line.refusal)) {
        return print(std::slice::from_ref(line));
    }
    let engine = ran.engine.as_ref().expect("check 1 let it through");
    list(engine, &ran.register)
}

/// Who acknowledged is the ledger's; the jobs and their tapes are the register's. Panics where a listed tape stands, or a label is listed twice.
fn list(engine: &Engine, register: &Register) -> Vec<u8> {
    let mut text = String::new();
    let mut labels: BTreeSet<Label> = BTreeSet::new();
    let mut taken = register.taken.clone();
    taken.sort_unstable();
    for job in taken {
        if (engine.acknowledgements[job].len() as u64) < engine.settings.threshold() {
            continue;
        }
        let record = check(&register.table[job]).expect("the register took it");
        for input in &record.inputs {
            let tape = &input.tape;
            let label = String::from_utf8_lossy(&tape.label).into_owned();
            let stands = register.standing.iter().any(|t| t.label == tape.label);
            assert!(!stands, "register: {label} is listed and stands");
            assert!(labels.insert(tape.label), "{label} is listed twice");
            text += &format!("{label} {} {job}\n", tape.frames);
        }
    }
    text += &format!("{}\n", labels.len());
    text.into_bytes()
}
