//! Document 01, "Near each edge".

mod common;
use common::*;

#[test]
fn the_whole_run() {
    assert_eq!(reference::whole_run().len(), 245);
    assert_eq!(reference::whole_text().lines().count(), 12);
}

#[test]
fn c1_n_3_b_1_is_refused() {
    assert_eq!(text(&run_file(3, 1, 0, &[show(0)])), "0 1 0\n");
}

/// With so many signatures a commit is answered 0 for the first time.
fn threshold(n: u8, b: u8) -> usize {
    let mut steps = vec![propose(accession(b"VAA001L5", 1))];
    for vault in 0..n {
        steps.push(preflight(vault, 0));
        steps.push(commit(0, 0, (1 << (vault + 1)) - 1));
    }
    let answers = answers(n, b, 0, &steps);
    let commits = answers.iter().skip(2).step_by(2);
    1 + commits.take_while(|answer| **answer == (16, 0)).count()
}

#[test]
fn c2_n_4_b_1_has_threshold_3() {
    assert_eq!(threshold(4, 1), 3);
}

#[test]
fn c3_n_6_b_1_has_threshold_5() {
    assert_eq!(threshold(6, 1), 5);
}

#[test]
fn c4_frames_0_are_refused() {
    assert_eq!(proposed(accession(b"VAA001L5", 0)), (6, 0));
}

#[test]
fn c5_frames_4294967295_are_accepted() {
    assert_eq!(proposed(accession(b"VAA001L5", 4_294_967_295)), (0, 0));
}

#[test]
fn c6_drive_8_with_an_l6_input_is_refused() {
    let bytes = record(1, 8, &[(b"VAA001L6", 9)], &[(b"VAB001L8", 9)]);
    assert_eq!(proposed(bytes), (8, 0));
}

#[test]
fn c7_drive_7_with_an_l5_output() {
    let migration = record(1, 7, &[(b"VAA001L7", 9)], &[(b"VAB001L5", 9)]);
    assert_eq!(proposed(migration), (8, 4));
    let accession = record(0, 7, &[], &[(b"VAB001L5", 9)]);
    assert_eq!(proposed(accession), (0, 0));
}

#[test]
fn c8_draws_of_n_4_b_1() {
    assert_eq!(last(4, 1, 0, &[draw(0)]), (0, 0));
    assert_eq!(last(4, 1, 0, &[draw(1)]), (0, 750));
}

#[test]
fn c9_a_half_goes_to_the_even_thousandth() {
    assert_eq!(last(16, 3, 0, &[draw(1)]), (0, 812));
}

#[test]
fn c10_signers_11_name_three_vaults() {
    assert_eq!(reference::settings::vaults_in(11), vec![0, 1, 3]);
}

#[test]
fn files_near_each_edge() {
    for edge in reference::edges::all() {
        assert_eq!(text(&edge.file), edge.text, "{}", edge.name);
    }
}
