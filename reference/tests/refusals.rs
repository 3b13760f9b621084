//! Document 01, "Turned back": every refusal, and their order.

mod common;
use common::*;
use reference::settings::HEADER_BYTES;
use reference::step::{Step, KINDS};

const A: &[u8; 8] = b"AAAAAAL7";
const B: &[u8; 8] = b"BBBBBBL7";
const C: &[u8; 8] = b"CCCCCCL7";
const D: &[u8; 8] = b"DDDDDDL7";

/// The answer to `step` with one vault, which holds job 0 (it makes A and
/// B, one frame each) and has signed job 1 (it moves A to C).
fn after(steps: &[Step]) -> (u64, u64) {
    let mut all = vec![
        propose(record(0, 7, &[], &[(A, 1), (B, 1)])),
        propose(migration(A, C, 1)),
        preflight(0, 0),
        commit(0, 0, 1),
        preflight(0, 1),
    ];
    all.extend_from_slice(steps);
    last(1, 0, 0, &all)
}

#[test]
fn refusal_1_of_headers() {
    let right = run_file(4, 1, 8, &[show(0)]);
    assert_eq!(text(&right), "1 4 0\n");
    for length in 0..HEADER_BYTES {
        assert_eq!(text(&right[..length]), "0 1 0\n");
    }
    // Name, version, n 0 and 17, 3b not below n, b 86, faulty sets.
    let wrong: [(usize, u8); 12] = [
        (0, b'v'),
        (2, b'S'),
        (3, 0),
        (3, 3),
        (4, 1),
        (5, 0),
        (5, 3),
        (5, 17),
        (6, 2),
        (6, 86),
        (7, 3),
        (7, 16),
    ];
    for (at, value) in wrong {
        let mut file = right.clone();
        file[at] = value;
        assert_eq!(text(&file), "0 1 0\n", "byte {at} set to {value}");
    }
}

#[test]
fn refusal_2_ends_the_run() {
    let before = run_file(1, 0, 0, &[draw(0)]);
    let (last, _) = KINDS[KINDS.len() - 1];
    for kind in [0, last + 1, 255] {
        let file = [&before[..], &[kind, 7, 0]].concat();
        assert_eq!(text(&file), "1 0 0\n2 2 0\n");
    }
    // The bodies cut short, each by one byte.
    for (kind, body) in KINDS.into_iter().filter(|(_, body)| *body > 0) {
        let file = [&before[..], &[kind], &vec![99; body - 1]].concat();
        assert_eq!(text(&file), "1 0 0\n2 2 0\n");
    }
}

#[test]
fn refusals_3_5_and_4_in_this_order() {
    let booked = propose(accession(A, 1));
    let sound: [fn(u8, u8) -> Step; 5] = [
        preflight,
        |vault, job| commit(vault, job, 0),
        |vault, job| release(vault, job, 0),
        |vault, rival| release(vault, 0, rival),
        |vault, job| client_preflight(vault, job, 8),
    ];
    for step in sound {
        for (vault, job, refusal) in [(4, 9, 3), (3, 9, 5), (2, 9, 4), (255, 0, 3)] {
            let steps = [booked.clone(), step(vault, job)];
            assert_eq!(last(4, 1, 8, &steps), (refusal, 0));
        }
    }
    for step in [faulty_signature, faulty_acknowledgement] {
        for (vault, job, refusal) in [(4, 9, 3), (2, 9, 5), (3, 9, 4), (3, 1, 4)] {
            let steps = [booked.clone(), step(vault, job)];
            assert_eq!(last(4, 1, 8, &steps), (refusal, 0));
        }
    }
    for step in [show(1), generations(1), show(255)] {
        assert_eq!(last(4, 1, 8, &[booked.clone(), step]), (4, 0));
    }
}

#[test]
fn refusal_6_of_malformed_records() {
    let right = migration(A, B, 5);
    assert_eq!(proposed(right), (0, 0));
    // Kind, drive, counts, label, frames, unused entries of both halves.
    let wrong: [(usize, u8); 16] = [
        (0, 2),
        (0, 0),
        (1, 4),
        (1, 10),
        (2, 0),
        (2, 2),
        (3, 0),
        (3, 5),
        (4, b'a'),
        (9, b'/'),
        (10, b'M'),
        (11, b'4'),
        (11, b':'),
        (12, 0),
        (16, 1),
        (99, 1),
    ];
    for (at, value) in wrong {
        let mut bytes = right;
        bytes[at] = value;
        assert_eq!(proposed(bytes), (6, 0), "byte {at} set to {value}");
    }
}

#[test]
fn refusal_7_names_the_later_entry() {
    let across = record(1, 7, &[(A, 2)], &[(B, 1), (A, 1)]);
    assert_eq!(proposed(across), (7, 5));
    let within = record(1, 7, &[(A, 1), (B, 1), (B, 1)], &[(A, 3)]);
    assert_eq!(proposed(within), (7, 2));
    // Before 8 and 9.
    let all = record(1, 5, &[(A, 1)], &[(A, 3)]);
    assert_eq!(proposed(all), (7, 4));
}

#[test]
fn refusal_8_names_the_first_entry() {
    let inputs = record(1, 8, &[(A, 1), (b"BBBBBBL6", 1)], &[(b"CCCCCCL5", 9)]);
    assert_eq!(proposed(inputs), (8, 1));
    let outputs = record(0, 9, &[], &[(b"AAAAAAL9", 1), (b"BBBBBBL8", 1), (C, 1)]);
    assert_eq!(proposed(outputs), (8, 6));
}

#[test]
fn refusal_9_and_sums_above_32_bits() {
    assert_eq!(proposed(record(1, 7, &[(A, 2)], &[(B, 1)])), (9, 0));
    let modulo = record(1, 7, &[(A, 1 << 31), (B, 1 << 31), (C, 5)], &[(D, 5)]);
    assert_eq!(proposed(modulo), (9, 0));
    let most = u32::MAX;
    let wide = record(1, 7, &[(A, most), (B, most)], &[(C, most), (D, most)]);
    assert_eq!(proposed(wide), (0, 0));
}

#[test]
fn refusal_10_comes_after_6_to_9_and_after_an_equal() {
    let mut steps: Vec<Step> = (1..=128).map(|i| propose(accession(A, i))).collect();
    steps.push(propose(accession(A, 129)));
    steps.push(propose(accession(A, 0)));
    steps.push(propose(accession(A, 128)));
    assert_eq!(answers(1, 0, 0, &steps)[128..], [(10, 0), (6, 0), (0, 127)]);
}

#[test]
fn refusal_11_wants_the_frames_too() {
    let steps = [propose(migration(B, D, 1)), preflight(0, 2)];
    assert_eq!(after(&steps), (0, 1));
    let steps = [propose(migration(B, D, 2)), preflight(0, 2)];
    assert_eq!(after(&steps), (11, 0));
    let two = record(1, 7, &[(B, 1), (D, 1)], &[(b"EEEEEEL7", 2)]);
    assert_eq!(after(&[propose(two), preflight(0, 2)]), (11, 1));
}

#[test]
fn refusal_12_of_a_retired_input() {
    let two = record(1, 7, &[(B, 1), (A, 1)], &[(D, 2)]);
    let steps = [commit(0, 1, 1), propose(two), preflight(0, 2)];
    assert_eq!(after(&steps), (12, 1));
}

#[test]
fn refusal_13_of_a_reserved_input() {
    let two = record(1, 7, &[(B, 1), (A, 1)], &[(C, 2)]);
    assert_eq!(after(&[propose(two), preflight(0, 2)]), (13, 1));
}

#[test]
fn refusal_14_of_outputs_made_or_reserved() {
    let made = record(0, 7, &[], &[(D, 1), (B, 5)]);
    assert_eq!(after(&[propose(made), preflight(0, 2)]), (14, 5));
    let reserved = record(0, 7, &[], &[(C, 1)]);
    assert_eq!(after(&[propose(reserved), preflight(0, 2)]), (14, 4));
}

#[test]
fn refusals_15_and_16_of_signers() {
    let mut steps = vec![
        propose(accession(A, 1)),
        preflight(0, 0),
        preflight(1, 0),
        faulty_signature(3, 0),
    ];
    for (signers, answer) in [
        (0, (16, 0)),
        (3, (16, 0)),
        (4, (15, 0)),
        (1 << 15 | 11, (15, 0)),
        (15, (15, 0)),
        (11, (0, 1)),
    ] {
        steps.push(commit(2, 0, signers));
        assert_eq!(last(4, 1, 8, &steps), answer);
    }
}

#[test]
fn refusal_17_of_u_above_n() {
    assert_eq!(last(4, 1, 0, &[draw(4)]), (0, 1000));
    assert_eq!(last(4, 1, 0, &[draw(5)]), (17, 0));
    assert_eq!(last(4, 1, 0, &[draw(255)]), (17, 0));
}

#[test]
fn refusal_18_until_a_sound_vault_holds_it() {
    let mut steps = vec![
        propose(accession(A, 1)),
        faulty_acknowledgement(3, 0),
        faulty_signature(3, 0),
        preflight(0, 0),
        preflight(1, 0),
        generations(0),
    ];
    assert_eq!(last(4, 1, 8, &steps), (18, 0));
    steps.push(commit(2, 0, 11));
    assert_eq!(last(4, 1, 8, &steps), (0, 2));
    steps.push(generations(0));
    assert_eq!(last(4, 1, 8, &steps), (0, 0));
}

/// Vault 0 signs job 1 (it moves A to C) and then holds job 2 (it moves B and
/// A to D), which the other vaults have signed.
fn superseded(steps: &[Step]) -> (u64, u64) {
    let two = record(1, 7, &[(B, 1), (A, 1)], &[(D, 2)]);
    let mut all = vec![
        propose(record(0, 7, &[], &[(A, 1), (B, 1)])),
        propose(migration(A, C, 1)),
        propose(two),
    ];
    all.extend((0..4).map(|vault| preflight(vault, 0)));
    all.extend((0..4).map(|vault| commit(vault, 0, 15)));
    all.push(preflight(0, 1));
    all.extend((1..4).map(|vault| preflight(vault, 2)));
    all.push(commit(0, 2, 14));
    all.extend_from_slice(steps);
    last(4, 1, 0, &all)
}

#[test]
fn refusals_19_and_20_of_a_release() {
    assert_eq!(superseded(&[release(0, 1, 2)]), (0, 1));
    // Not signed here: before 20, and again once it is released.
    assert_eq!(superseded(&[release(1, 1, 1)]), (19, 0));
    assert_eq!(superseded(&[release(0, 1, 2), release(0, 1, 2)]), (19, 0));
    // Itself, the creator of what it takes, and a rival that is not held.
    assert_eq!(superseded(&[release(0, 1, 1)]), (20, 0));
    assert_eq!(superseded(&[release(0, 1, 0)]), (20, 0));
    assert_eq!(superseded(&[release(1, 2, 1)]), (20, 0));
    // Signed, and its rival is held elsewhere only.
    let rival = propose(record(1, 7, &[(A, 1)], &[(b"EEEEEEL7", 1)]));
    assert_eq!(superseded(&[rival, release(0, 1, 3)]), (20, 0));
}

#[test]
fn a_released_signature_counts_on() {
    // 16 and not 15: vault 0 has signed job 1.
    assert_eq!(superseded(&[release(0, 1, 2), commit(0, 1, 1)]), (16, 0));
    assert_eq!(superseded(&[release(0, 1, 2), preflight(0, 1)]), (12, 0));
    // What it reserved is free: C may be made by another.
    let again = propose(record(0, 7, &[], &[(C, 5)]));
    assert_eq!(superseded(&[again.clone(), preflight(0, 3)]), (14, 4));
    let steps = [release(0, 1, 2), again, preflight(0, 3)];
    assert_eq!(superseded(&steps), (0, 1));
}

/// The answer to the last of these steps at one vault where the six jobs 0 to
/// 5 are booked, each of a tape of its own.
fn asked(steps: &[Step]) -> (u64, u64) {
    let labels = [A, B, C, D, b"EEEEEEL7", b"FFFFFFL7"];
    let one = |label| propose(accession(label, 1));
    let mut all: Vec<Step> = labels.into_iter().map(one).collect();
    all.extend_from_slice(steps);
    last(1, 0, 0, &all)
}

/// Client 0's requests for these jobs.
fn requests(jobs: &[u8]) -> Vec<Step> {
    let one = |job: &u8| client_preflight(0, *job, 0);
    jobs.iter().map(one).collect()
}

#[test]
fn refusal_22_of_no_client() {
    for client in [8, 9, 255] {
        assert_eq!(asked(&[client_preflight(0, 0, client)]), (22, 0));
        assert_eq!(asked(&[client_preflight(0, 6, client)]), (4, 0));
        // Before a job signed here is accepted.
        let steps = [preflight(0, 0), client_preflight(0, 0, client)];
        assert_eq!(asked(&steps), (22, 0));
    }
    assert_eq!(asked(&[client_preflight(0, 0, 7)]), (0, 1));
}

#[test]
fn refusal_23_where_four_of_fifteen_brought_a_signature() {
    for others in 0..=12 {
        let mut jobs = vec![0, 1, 2, 3];
        jobs.extend(vec![4; others]);
        jobs.push(5);
        let within = others == 12;
        let answer = if within { (0, 1) } else { (23, 0) };
        assert_eq!(asked(&requests(&jobs)), answer, "{others} others");
    }
}

#[test]
fn refusal_23_comes_after_a_signed_job_and_before_11_to_14() {
    assert_eq!(asked(&requests(&[0, 1, 2, 3, 2])), (0, 1));
    // Job 6 makes A too, which job 0 reserves.
    let again = propose(accession(A, 2));
    let mut steps = vec![again];
    steps.extend(requests(&[0, 6]));
    assert_eq!(asked(&steps), (14, 4));
    steps.extend(requests(&[1, 2, 3, 6]));
    assert_eq!(asked(&steps), (23, 0));
}

#[test]
fn what_counts_for_a_client() {
    // Refused by 14, and a job that was signed before: eleven and one more.
    let mut steps = vec![propose(accession(A, 2))];
    steps.extend(requests(&[0, 1, 2, 3]));
    steps.extend(requests(&[6, 0, 6, 0, 6, 0, 6, 0, 6, 0, 6, 0]));
    steps.extend(requests(&[4]));
    assert_eq!(asked(&steps), (0, 1));
    // Those that count for no client leave it over its quota.
    let mut steps = requests(&[0, 1, 2, 3]);
    for _ in 0..20 {
        steps.extend([
            client_preflight(1, 4, 0),
            client_preflight(0, 9, 0),
            client_preflight(0, 4, 8),
        ]);
    }
    steps.extend(requests(&[4]));
    assert_eq!(asked(&steps), (23, 0));
}

#[test]
fn a_quota_is_one_clients_at_one_vault() {
    let mut steps = requests(&[0, 1, 2, 3]);
    assert_eq!(
        asked(&[&steps[..], &[client_preflight(0, 4, 1)]].concat()),
        (0, 1)
    );
    assert_eq!(asked(&[&steps[..], &[preflight(0, 4)]].concat()), (0, 1));
    // Signatures by kind 2 bring a client nothing.
    steps = (0..4).map(|job| preflight(0, job)).collect();
    steps.extend(requests(&[4]));
    assert_eq!(asked(&steps), (0, 1));
    // Another vault has another list.
    let one = |job| propose(accession(job, 1));
    let mut steps: Vec<Step> = [A, B, C, D, b"EEEEEEL7"].into_iter().map(one).collect();
    steps.extend(requests(&[0, 1, 2, 3]));
    steps.push(client_preflight(1, 4, 0));
    assert_eq!(last(2, 0, 0, &steps), (0, 1));
}
