//! The release list: what is listed, in which order, and what gets no list.

mod common;
use common::*;
use reference::step::Step;
use reference::write::{faulty_acknowledgement, run_file};
use reference::{ran, releases};

const A: &[u8; 8] = b"AAAAAAL7";
const B: &[u8; 8] = b"BBBBBBL7";
const C: &[u8; 8] = b"CCCCCCL7";

/// Vaults 0 to 2 sign the job; those below `holders` then hold it.
fn carried(job: u8, holders: u8) -> Vec<Step> {
    let mut steps: Vec<Step> = (0..3).map(|vault| preflight(vault, job)).collect();
    steps.extend((0..holders).map(|vault| commit(vault, job, 7)));
    steps
}

/// The list of four vaults of which the last is faulty.
fn listed(parts: &[Vec<Step>]) -> String {
    let file = run_file(4, 1, 8, &parts.concat());
    String::from_utf8(releases(&ran(&file))).expect("a text")
}

fn chain(holders: u8) -> Vec<Vec<Step>> {
    vec![
        vec![propose(accession(A, 5))],
        carried(0, 3),
        vec![propose(migration(A, B, 5))],
        carried(1, holders),
    ]
}

#[test]
fn inputs_of_finished_jobs() {
    assert_eq!(listed(&chain(3)), "AAAAAAL7 5 1\n1\n");
    let mut parts = chain(3);
    parts.push(vec![propose(migration(B, C, 5))]);
    parts.push(carried(2, 3));
    assert_eq!(listed(&parts), "AAAAAAL7 5 1\nBBBBBBL7 5 2\n2\n");
}

#[test]
fn certified_is_not_enough() {
    assert_eq!(listed(&chain(0)), "0\n");
    assert_eq!(listed(&chain(2)), "0\n");
}

/// "faulty acknowledgements count as document 01 counts them"
#[test]
fn faulty_acknowledgements_count() {
    let mut parts = chain(2);
    parts.push(vec![faulty_acknowledgement(3, 1)]);
    assert_eq!(listed(&parts), "AAAAAAL7 5 1\n1\n");
}

/// "blanks are never ordered from half a file"
#[test]
fn half_a_file_gets_no_list() {
    let steps = chain(3).concat();
    let mut file = run_file(4, 1, 8, &steps);
    file.push(0);
    let line = format!("{} 2 0\n", steps.len() + 1);
    assert_eq!(releases(&ran(&file)), line.as_bytes());
    let file = run_file(4, 2, 8, &steps);
    assert_eq!(releases(&ran(&file)), b"0 1 0\n");
}
