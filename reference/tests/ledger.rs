//! What steps do to one another: "Plausible and wrong", and the generator.

mod common;
use common::*;

const A: &[u8; 8] = b"AAAAAAL7";
const B: &[u8; 8] = b"BBBBBBL7";
const C: &[u8; 8] = b"CCCCCCL7";

#[test]
fn a_vault_without_the_parent_holds_a_certified_job() {
    let steps = [
        propose(accession(A, 1)),
        propose(migration(A, B, 1)),
        propose(migration(B, C, 1)),
        preflight(0, 0),
        preflight(1, 0),
        faulty_signature(3, 0),
        commit(0, 0, 11),
        commit(1, 0, 11),
        preflight(0, 1),
        preflight(1, 1),
        faulty_signature(3, 1),
        commit(2, 1, 11),
        preflight(2, 1),
        preflight(2, 2),
        generations(1),
    ];
    let answers = answers(4, 1, 8, &steps);
    assert_eq!(answers[11..], [(0, 1), (11, 0), (0, 1), (0, 1)]);
}

#[test]
fn repeats_change_nothing() {
    let steps = [
        propose(accession(A, 1)),
        propose(accession(A, 1)),
        preflight(0, 0),
        preflight(0, 0),
        commit(0, 0, 1),
        commit(0, 0, 1),
        // Held, yet signed before: accepted again.
        preflight(0, 0),
        show(0),
    ];
    assert_eq!(
        answers(1, 0, 0, &steps),
        [
            (0, 0),
            (0, 0),
            (0, 1),
            (0, 1),
            (0, 1),
            (0, 1),
            (0, 1),
            (0, 2)
        ]
    );
}

#[test]
fn show_goes_from_open_to_certified_to_finished() {
    let steps = [
        propose(accession(A, 1)),
        preflight(0, 0),
        preflight(1, 0),
        show(0),
        preflight(2, 0),
        show(0),
        commit(0, 0, 7),
        commit(1, 0, 7),
        show(0),
        faulty_acknowledgement(3, 0),
        show(0),
    ];
    let answers = answers(4, 1, 8, &steps);
    let shown: Vec<u64> = [3, 5, 8, 10].iter().map(|i| answers[*i].1).collect();
    assert_eq!(shown, [0, 1, 1, 2]);
}

#[test]
fn generations_follow_the_largest_parent() {
    let both = record(1, 7, &[(C, 1), (B, 1)], &[(b"DDDDDDL7", 2)]);
    let mut steps = vec![
        propose(accession(A, 1)),
        propose(accession(C, 1)),
        propose(migration(A, B, 1)),
        propose(both),
    ];
    for job in 0..4 {
        steps.extend([preflight(0, job), commit(0, job, 1)]);
    }
    steps.extend((0..4).map(generations));
    let answers = answers(1, 0, 0, &steps);
    assert_eq!(answers[12..], [(0, 0), (0, 0), (0, 1), (0, 2)]);
}

#[cfg(feature = "generator")]
#[test]
fn generated_files_run_beside_the_register() {
    for seed in 0..300 {
        let file = reference::generate::file(seed);
        assert_eq!(file, reference::generate::file(seed));
        // Panics if the ledger and the register differ.
        reference::run(&file);
    }
}
