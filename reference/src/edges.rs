//! Run files near each edge of document 01 and of the change requests, with the text that they ask for, worked out here and not by any of the
//! programs. The documents' figures are written out, so that no constant of this crate vouches for itself.

use crate::record::Bytes;
use crate::step::Step;
use crate::whole::{whole_run, whole_text};
use crate::write::*;
use std::fmt::Write;

pub struct Edge {
    pub name: &'static str,
    pub file: Vec<u8>,
    pub text: String,
}

/// Answers as they are printed: a refusal or 0, and a value.
type Answer = (u32, u32);

pub fn all() -> Vec<Edge> {
    vec![
        edge("65,536 bytes", longest(), &longest_answers()),
        too_long(),
        edge("the 129th new job", full_book(), &full_book_answers()),
        edge("four inputs", four_inputs(4), &[(0, 0)]),
        edge("a count of five", four_inputs(5), &[(6, 0)]),
        edge("a header alone", run_file(4, 1, 8, &[]), &[]),
        edge("one vault, a whole life", one_vault(), &ONE_VAULT),
        edge("kind 0", unknown(0), &[(4, 0), (2, 0)]),
        edge("kind 255", unknown(255), &[(4, 0), (2, 0)]),
        edge("a body cut short", cut_short(), &[(0, 0), (2, 0)]),
        edge("a chain of 128 jobs", chain(), &chain_answers()),
        edge("labels that end in M", type_m(), &TYPE_M),
        edge("snapshots of four vaults", rounds(), &ROUNDS),
        edge(
            "one vault, each visit a round",
            short_rounds(),
            &SHORT_ROUNDS,
        ),
        edge("nothing but visits", visits(), &[(0, 0); 65_527]),
        edge("a superseded signature", superseded(), &SUPERSEDED),
        edge("rivals by an output", remade(), &REMADE),
        missing_after_whole_run(),
        edge("missing before any commit", unheld(), &UNHELD),
        missing_makers(),
        edge("makers in the way", in_the_way(), &IN_THE_WAY),
        edge("a busy client", busy(), &busy_answers()),
        edge("a client beside others", beside(), &BESIDE),
        equivocating_once(),
        equivocating_excused(),
        equivocating_five(),
        edge("nothing but questions", questions(), &[(0, 0); 65_527]),
        edge("a draw of 937.5", a_half(1), &[(0, 938)]),
        edge("a draw of 812.5", a_half(3), &[(0, 812)]),
        edge("a draw of 687.5", a_half(5), &[(0, 688)]),
        edge("trimmed frames", trimming(), &TRIMMING),
        edge(
            "128 records of 104 bytes",
            full_long_book(),
            &full_book_answers(),
        ),
        edge(
            "a version 2 proposal of 100 bytes",
            short_by_4(),
            &[(0, 0), (2, 0)],
        ),
        version(0),
        version(3),
        version(258),
        one_run_whole(),
    ]
}

fn edge(name: &'static str, file: Vec<u8>, answers: &[Answer]) -> Edge {
    let mut text = String::new();
    for (i, (refusal, value)) in answers.iter().enumerate() {
        writeln!(text, "{} {refusal} {value}", i + 1).expect("a string takes all");
    }
    Edge { name, file, text }
}

/// A step of three bytes, then steps of two.
fn longest() -> Vec<u8> {
    let mut steps = vec![preflight(0, 0)];
    steps.extend(vec![draw(1); 32_762]);
    let file = run_file(1, 0, 0, &steps);
    assert_eq!(file.len(), 65_536);
    file
}

/// No job is booked; where the only vault is away every quorum fails.
fn longest_answers() -> Vec<Answer> {
    let mut answers = vec![(4, 0)];
    answers.extend(vec![(0, 1000); 32_762]);
    answers
}

fn too_long() -> Edge {
    let mut file = longest();
    file.push(7);
    Edge {
        name: "65,537 bytes",
        file,
        text: "0 1 0\n".to_string(),
    }
}

fn full_book() -> Vec<u8> {
    let new = |i: u32| propose(record(0, 5, &[], &[(b"VAA001L5", i + 1)]));
    let mut steps: Vec<Step> = (0..129).map(new).collect();
    steps.extend([new(0), new(127), show(127), show(128)]);
    run_file(1, 0, 0, &steps)
}

fn full_book_answers() -> Vec<Answer> {
    let mut answers: Vec<Answer> = (0..128).map(|i| (0, i)).collect();
    answers.extend([(10, 0), (0, 0), (0, 127), (0, 0), (4, 0)]);
    answers
}

fn four_inputs(count: u8) -> Vec<u8> {
    let inputs: [Written; 4] = [
        (b"AAAAAAL7", 1),
        (b"BBBBBBL7", 2),
        (b"CCCCCCL7", 3),
        (b"DDDDDDL7", 4),
    ];
    let mut bytes: Bytes = record(1, 7, &inputs, &[(b"EEEEEEL7", 10)]);
    bytes[2] = count;
    run_file(1, 0, 0, &[propose(bytes)])
}

const ONE_VAULT: [Answer; 12] = [
    (0, 0),
    (0, 0),
    (0, 1),
    (0, 1),
    (0, 1),
    (0, 2),
    (0, 0),
    (0, 1),
    (0, 1),
    (0, 1),
    (0, 1),
    (0, 1),
];

/// Proposed, open, signed, certified, held, finished, then a job that takes its tape.
fn one_vault() -> Vec<u8> {
    let steps = [
        propose(record(0, 7, &[], &[(b"VAA001L7", 9)])),
        show(0),
        preflight(0, 0),
        show(0),
        commit(0, 0, 1),
        show(0),
        generations(0),
        propose(record(1, 7, &[(b"VAA001L7", 9)], &[(b"VAB001L7", 9)])),
        preflight(0, 1),
        commit(0, 1, 1),
        generations(1),
        preflight(0, 1),
    ];
    run_file(1, 0, 0, &steps)
}

/// What follows the unknown kind is not looked at.
fn unknown(kind: u8) -> Vec<u8> {
    let mut file = run_file(4, 1, 0, &[show(0)]);
    file.extend([kind, 6, 0, 6, 0]);
    file
}

/// A preflight that lacks its last byte.
fn cut_short() -> Vec<u8> {
    let mut file = run_file(4, 1, 0, &[draw(0), preflight(0, 0)]);
    file.pop();
    file
}

fn label(i: u32) -> [u8; 8] {
    let label = format!("C{i:05}L7").into_bytes();
    label.try_into().expect("eight characters")
}

/// Each job takes the tape of the one before.
fn chain() -> Vec<u8> {
    let mut steps = Vec::new();
    for i in 0..128 {
        let made = label(i);
        let job = i as u8;
        let record = match i {
            0 => record(0, 7, &[], &[(&made, 9)]),
            _ => record(1, 7, &[(&label(i - 1), 9)], &[(&made, 9)]),
        };
        steps.extend([
            propose(record),
            preflight(0, job),
            commit(0, job, 1),
            generations(job),
        ]);
    }
    run_file(1, 0, 0, &steps)
}

fn chain_answers() -> Vec<Answer> {
    (0..128)
        .flat_map(|i| [(0, i), (0, 1), (0, 1), (0, i)])
        .collect()
}

/// Document 02, M-100. "Drive 8, and no other, reads and writes them."
const TYPE_M: [Answer; 15] = [
    (0, 0),
    (8, 4),
    (8, 4),
    (8, 4),
    (8, 4),
    (6, 0),
    (6, 0),
    (6, 0),
    (6, 0),
    (0, 1),
    (0, 2),
    (0, 3),
    (0, 4),
    (8, 0),
    (8, 5),
];

/// M8 taken in by each drive; M5, M6, M7 and M9; migrations from M8 and to it, and an accession of labels that differ in the medium; drive 9
/// again.
fn type_m() -> Vec<u8> {
    let m8 = (b"VAA001M8", 9);
    let l8 = (b"VAA001L8", 9);
    let l7 = (b"VAA001L7", 9);
    let taken_in = |drive: u8, label: &[u8; 8]| propose(record(0, drive, &[], &[(label, 9)]));
    let steps = [
        taken_in(8, b"VAA001M8"),
        taken_in(5, b"VAA001M8"),
        taken_in(6, b"VAA001M8"),
        taken_in(7, b"VAA001M8"),
        taken_in(9, b"VAA001M8"),
        taken_in(8, b"VAA001M5"),
        taken_in(8, b"VAA001M6"),
        taken_in(8, b"VAA001M7"),
        taken_in(8, b"VAA001M9"),
        propose(record(1, 8, &[m8], &[l8])),
        propose(record(1, 8, &[l7], &[m8])),
        propose(record(1, 8, &[l8], &[m8])),
        propose(record(0, 8, &[], &[l8, m8])),
        propose(record(1, 9, &[m8], &[l8])),
        propose(record(0, 9, &[], &[l8, m8])),
    ];
    run_file(1, 0, 0, &steps)
}

/// Empty books: a round, and the first visit of the next. Then job 0 is held at vault 0, after its visit, and at vault 2; vault 3, which is faulty,
/// acknowledges jobs 0 and 1, which nobody sees there.
fn rounds() -> Vec<u8> {
    let mut steps = vec![snapshot(); 5];
    steps.extend([
        propose(record(0, 7, &[], &[(b"VAA001L7", 9)])),
        propose(record(0, 7, &[], &[(b"VAB001L7", 9)])),
        preflight(0, 0),
        preflight(1, 0),
        faulty_signature(3, 0),
        commit(0, 0, 11),
        snapshot(),
        commit(2, 0, 11),
        faulty_acknowledgement(3, 0),
        faulty_acknowledgement(3, 1),
        snapshot(),
        show(0),
        snapshot(),
        snapshot(),
        snapshot(),
        draw(0),
        snapshot(),
        snapshot(),
    ]);
    run_file(4, 1, 8, &steps)
}

const ROUNDS: [Answer; 23] = [
    (0, 0),
    (0, 0),
    (0, 0),
    (0, 0),
    (0, 0),
    (0, 0),
    (0, 1),
    (0, 1),
    (0, 2),
    (0, 3),
    (0, 1),
    // Vault 1: job 0 came to vault 0 after its visit.
    (0, 0),
    (0, 2),
    (0, 3),
    (0, 1),
    // Vault 2, and vault 3 after it.
    (0, 1),
    (0, 2),
    (0, 1),
    // The next round: job 0 is seen at vaults 0 and 2, and counts once.
    (0, 1),
    (0, 1),
    (0, 0),
    (0, 1),
    (0, 1),
];

fn short_rounds() -> Vec<u8> {
    let steps = [
        propose(record(0, 7, &[], &[(b"VAA001L7", 9)])),
        snapshot(),
        preflight(0, 0),
        snapshot(),
        commit(0, 0, 1),
        snapshot(),
        snapshot(),
    ];
    run_file(1, 0, 0, &steps)
}

const SHORT_ROUNDS: [Answer; 7] = [(0, 0), (0, 0), (0, 1), (0, 0), (0, 1), (0, 1), (0, 1)];

/// As many steps as a file can have.
fn visits() -> Vec<u8> {
    let file = run_file(4, 1, 8, &vec![snapshot(); 65_527]);
    assert_eq!(file.len(), 65_536);
    file
}

/// Document 02, M-105: job 0 takes in two tapes, 1 moves the first, 2 moves both and 3 the second. Vault 2 signs 2; 1 is certified by the other vaults
/// and held by vault 2, which releases 2 and can then sign 3. What it signed of 2 counts on.
fn superseded() -> Vec<u8> {
    let (a, b) = ((b"VAA001L7", 1000), (b"VAA002L7", 500));
    let mut steps = vec![
        propose(record(0, 7, &[], &[a, b])),
        propose(record(1, 7, &[a], &[(b"VAB001L7", 1000)])),
        propose(record(1, 7, &[a, b], &[(b"VAB002L7", 1500)])),
        propose(record(1, 7, &[b], &[(b"VAB003L7", 500)])),
    ];
    steps.extend((0..3).map(|vault| preflight(vault, 0)));
    steps.extend((0..3).map(|vault| commit(vault, 0, 7)));
    steps.extend([
        preflight(2, 2),
        preflight(0, 1),
        preflight(1, 1),
        faulty_signature(3, 1),
        release(2, 2, 1),
        commit(2, 1, 11),
        preflight(2, 3),
        release(2, 2, 1),
        preflight(2, 3),
        preflight(2, 2),
        release(2, 2, 1),
        release(2, 3, 1),
        release(2, 3, 0),
        release(2, 3, 200),
        release(2, 200, 1),
        release(3, 3, 1),
        release(4, 3, 1),
        commit(2, 2, 4),
        release(2, 3, 3),
        show(2),
    ]);
    run_file(4, 1, 8, &steps)
}

const SUPERSEDED: [Answer; 30] = [
    (0, 0),
    (0, 1),
    (0, 2),
    (0, 3),
    (0, 1),
    (0, 2),
    (0, 3),
    (0, 1),
    (0, 2),
    (0, 3),
    (0, 1),
    (0, 1),
    (0, 2),
    (0, 3),
    // The rival is not held yet.
    (20, 0),
    (0, 1),
    (13, 0),
    (0, 1),
    (0, 1),
    (12, 0),
    (19, 0),
    (20, 0),
    // Job 0 made what job 3 takes: no rival.
    (20, 0),
    (4, 0),
    (4, 0),
    (5, 0),
    (3, 0),
    // Vault 2 has signed job 2, but alone.
    (16, 0),
    (20, 0),
    (0, 0),
];

/// Document 02, M-113. In M-105's run vault 2 signed jobs 2 and 3, which are rivals, and released 2 for job 1, which is certified: nobody is named. Vault 3
/// signed 1, and then 2 as well: no job outside that pair is certified, so it is named.
fn equivocating_once() -> Edge {
    let mut file = superseded();
    let asked = [equivocating(), faulty_signature(3, 2), equivocating()];
    file.extend(asked.iter().flat_map(|step| step.encode()));
    let mut text = edge("", Vec::new(), &SUPERSEDED).text;
    text += "31 0 0\n32 0 2\n33 0 1\n3\n";
    Edge {
        name: "a vault that signs the winner and the loser",
        file,
        text,
    }
}

/// The same jobs. Job 1, which is a rival of 2 alone, is certified by 0, 1 and 2, and vault 3 signs only 2 and 3.
fn equivocating_excused() -> Edge {
    let (a, b) = ((b"VAA001L7", 1000), (b"VAA002L7", 500));
    let mut steps = vec![
        equivocating(),
        propose(record(0, 7, &[], &[a, b])),
        propose(record(1, 7, &[a], &[(b"VAB001L7", 1000)])),
        propose(record(1, 7, &[a, b], &[(b"VAB002L7", 1500)])),
        propose(record(1, 7, &[b], &[(b"VAB003L7", 500)])),
    ];
    steps.extend((0..3).map(|vault| preflight(vault, 0)));
    steps.extend((0..3).map(|vault| commit(vault, 0, 7)));
    steps.extend([
        faulty_signature(3, 2),
        faulty_signature(3, 3),
        equivocating(),
    ]);
    steps.extend((0..2).map(|vault| preflight(vault, 1)));
    steps.push(equivocating());
    steps.extend([preflight(2, 1), equivocating()]);
    Edge {
        name: "a vault that a certified rival excuses",
        file: run_file(4, 1, 8, &steps),
        text: "1 0 0\n2 0 0\n3 0 1\n4 0 2\n5 0 3\n6 0 1\n7 0 2\n8 0 3\n9 0 1\n10 0 2\n11 0 3\n12 0 1\n13 0 1\n14 0 1\n3\n15 0 1\n16 0 2\n17 0 1\n3\n18 0 3\n19 0 0\n"
            .to_string(),
    }
}

/// Five of 16 vaults sign two accessions of one label.
fn equivocating_five() -> Edge {
    let mut steps = vec![
        propose(record(0, 7, &[], &[(b"VAA001L7", 1)])),
        propose(record(0, 7, &[], &[(b"VAA001L7", 2)])),
    ];
    let mut text = "1 0 0\n2 0 1\n".to_string();
    for (i, vault) in [15, 9, 10, 0, 1].into_iter().enumerate() {
        steps.extend([faulty_signature(vault, 0), faulty_signature(vault, 1)]);
        let (step, signed) = (2 * i + 3, i + 1);
        text += &format!("{step} 0 {signed}\n{} 0 {signed}\n", step + 1);
    }
    steps.extend([equivocating(), show(0)]);
    text += "13 0 5\n0\n1\n9\n10\n15\n14 0 0\n";
    Edge {
        name: "five of 16 vaults named",
        file: run_file(16, 5, 0x8603, &steps),
        text,
    }
}

/// As many steps as a file can have.
fn questions() -> Vec<u8> {
    run_file(4, 1, 8, &vec![equivocating(); 65_527])
}

/// Two accessions that share a label: the one that lost frees its other.
fn remade() -> Vec<u8> {
    let steps = [
        propose(record(0, 7, &[], &[(b"VAA001L7", 9)])),
        propose(record(0, 7, &[], &[(b"VAA001L7", 8), (b"VAA002L7", 8)])),
        propose(record(0, 7, &[], &[(b"VAA002L7", 7)])),
        preflight(0, 1),
        preflight(1, 0),
        preflight(2, 0),
        preflight(3, 0),
        preflight(0, 2),
        commit(0, 0, 14),
        release(0, 1, 2),
        release(0, 1, 0),
        preflight(0, 1),
        preflight(0, 2),
    ];
    run_file(4, 1, 0, &steps)
}

const REMADE: [Answer; 13] = [
    (0, 0),
    (0, 1),
    (0, 2),
    (0, 1),
    (0, 1),
    (0, 2),
    (0, 3),
    (14, 4),
    (0, 1),
    // A rival, but not held.
    (20, 0),
    (0, 1),
    (14, 4),
    (0, 1),
];

/// Document 02, M-108, after document 01's run: vault 1 lacks job 0 for job 1; vault 0 has signed both; vault 2 is handed job 0, which it never signed and
/// so can never sign, and lacks nothing for job 1.
fn missing_after_whole_run() -> Edge {
    let mut file = whole_run();
    let steps = [
        dependencies(1, 1),
        dependencies(0, 1),
        dependencies(1, 0),
        commit(2, 0, 11),
        dependencies(2, 0),
        dependencies(2, 1),
        dependencies(3, 1),
        dependencies(4, 1),
        dependencies(0, 2),
    ];
    file.extend(steps.iter().flat_map(Step::encode));
    let more = "13 0 1\n0\n14 0 0\n15 0 0\n16 0 2\n17 21 0\n18 0 0\n19 5 0\n20 3 0\n21 4 0\n";
    Edge {
        name: "missing after one run whole",
        file,
        text: whole_text().to_string() + more,
    }
}

/// A faulty vault's acknowledgement supplies nothing.
fn unheld() -> Vec<u8> {
    let (old, new) = ((b"VAA001L7", 9), (b"VAB001L7", 9));
    let steps = [
        propose(record(0, 7, &[], &[old])),
        propose(record(1, 7, &[old], &[new])),
        dependencies(0, 1),
        dependencies(0, 0),
        faulty_acknowledgement(3, 0),
        dependencies(0, 1),
    ];
    run_file(4, 1, 8, &steps)
}

const UNHELD: [Answer; 6] = [(0, 0), (0, 1), (21, 0), (0, 0), (0, 1), (21, 0)];

/// Job 4 takes the tapes of jobs 0 to 3, job 5 one of them with other frames. Vault 0 holds jobs 1 and 3, vault 1 all four, vault 2 none. Job 6 takes what job
/// 4 makes, which nobody holds.
fn missing_makers() -> Edge {
    let tapes: [Written; 4] = [
        (b"AAAAAAL7", 1),
        (b"BBBBBBL7", 2),
        (b"CCCCCCL7", 3),
        (b"DDDDDDL7", 4),
    ];
    let mut steps: Vec<Step> = tapes
        .iter()
        .map(|tape| propose(record(0, 7, &[], &[*tape])))
        .collect();
    steps.push(propose(record(1, 7, &tapes, &[(b"EEEEEEL7", 10)])));
    steps.push(propose(record(
        1,
        7,
        &[(b"AAAAAAL7", 2)],
        &[(b"FFFFFFL7", 2)],
    )));
    steps.push(propose(record(
        1,
        7,
        &[(b"EEEEEEL7", 10)],
        &[(b"GGGGGGL7", 10)],
    )));
    for job in 0..4 {
        steps.extend((0..3).map(|vault| preflight(vault, job)));
        steps.push(commit(1, job, 7));
        if job % 2 == 1 {
            steps.push(commit(0, job, 7));
        }
    }
    steps.extend([
        dependencies(2, 4),
        dependencies(0, 4),
        dependencies(1, 4),
        dependencies(0, 5),
        dependencies(0, 6),
    ]);
    let mut text = String::new();
    for i in 1..=7 {
        writeln!(text, "{i} 0 {}", i - 1).expect("a string takes all");
    }
    let mut i = 8;
    for job in 0..4 {
        for value in [1, 2, 3, 1] {
            writeln!(text, "{i} 0 {value}").expect("a string takes all");
            i += 1;
        }
        if job % 2 == 1 {
            writeln!(text, "{i} 0 2").expect("a string takes all");
            i += 1;
        }
    }
    text += "26 0 4\n0\n1\n2\n3\n27 0 2\n0\n2\n28 0 0\n29 21 0\n30 21 0\n";
    Edge {
        name: "four makers missing, and two",
        file: run_file(4, 1, 0, &steps),
        text,
    }
}

/// Job 1 makes two tapes and retires the one it takes, A. Job 2 takes A and one of the two; job 3 takes one and makes the other's label; job 4 takes one alone.
/// Vault 3 holds job 0, which made A and B, and not job 1.
fn in_the_way() -> Vec<u8> {
    let (a, b) = ((b"AAAAAAL7", 9), (b"BBBBBBL7", 5));
    let (c, d) = ((b"CCCCCCL7", 4), (b"DDDDDDL7", 5));
    let mut steps = vec![
        propose(record(0, 7, &[], &[a, b])),
        propose(record(1, 7, &[a], &[c, d])),
        propose(record(1, 7, &[a, c], &[(b"EEEEEEL7", 13)])),
        propose(record(1, 7, &[c], &[(b"DDDDDDL7", 4)])),
        propose(record(1, 7, &[c], &[(b"FFFFFFL7", 4)])),
    ];
    steps.extend((0..3).map(|vault| preflight(vault, 0)));
    steps.extend((0..4).map(|vault| commit(vault, 0, 7)));
    steps.extend((0..3).map(|vault| preflight(vault, 1)));
    steps.extend([
        commit(0, 1, 7),
        dependencies(3, 2),
        dependencies(3, 3),
        dependencies(3, 1),
        dependencies(0, 4),
        dependencies(3, 0),
    ]);
    run_file(4, 1, 0, &steps)
}

const IN_THE_WAY: [Answer; 21] = [
    (0, 0),
    (0, 1),
    (0, 2),
    (0, 3),
    (0, 4),
    (0, 1),
    (0, 2),
    (0, 3),
    (0, 1),
    (0, 2),
    (0, 3),
    (0, 4),
    (0, 1),
    (0, 2),
    (0, 3),
    (0, 1),
    // Each input has a maker, which retires the other.
    (21, 0),
    // The maker makes the output's label too.
    (21, 0),
    (0, 0),
    (0, 0),
    // Held, and not signed.
    (21, 0),
];

/// Six accessions of one tape each, booked at one vault that is correct.
fn six_accessions() -> Vec<Step> {
    let labels: [&[u8; 8]; 6] = [
        b"VAA000L7",
        b"VAA001L7",
        b"VAA002L7",
        b"VAA003L7",
        b"VAA004L7",
        b"VAA005L7",
    ];
    let one = |label| propose(record(0, 7, &[], &[(label, 1)]));
    labels.into_iter().map(one).collect()
}

const SIX_BOOKED: [Answer; 6] = [(0, 0), (0, 1), (0, 2), (0, 3), (0, 4), (0, 5)];

/// Document 02, M-109: client 0 gets jobs 0 to 3, and job 4 only after twelve refusals; then job 5 at once, since two of the first four are past.
fn busy() -> Vec<u8> {
    let mut steps = six_accessions();
    steps.extend((0..4).map(|job| client_preflight(0, job, 0)));
    steps.extend(vec![client_preflight(0, 4, 0); 13]);
    steps.push(client_preflight(0, 5, 0));
    run_file(1, 0, 0, &steps)
}

fn busy_answers() -> Vec<Answer> {
    let mut answers = SIX_BOOKED.to_vec();
    answers.extend([(0, 1); 4]);
    answers.extend([(23, 0); 12]);
    answers.extend([(0, 1); 2]);
    answers
}

/// Client 0 is over its quota: client 1 is not, a signed job is accepted, client 8 is none, and a preflight of kind 2 has no quota. Each request of client
/// 0 counts, also those of a signed job; those that name no booked job, no such vault or no client do not, so the thirteenth is accepted.
fn beside() -> Vec<u8> {
    let mut steps = six_accessions();
    steps.extend((0..4).map(|job| client_preflight(0, job, 0)));
    steps.extend([
        client_preflight(0, 4, 0),
        client_preflight(0, 4, 1),
        client_preflight(0, 4, 0),
        client_preflight(0, 3, 0),
        client_preflight(0, 5, 8),
        client_preflight(0, 200, 8),
        client_preflight(0, 200, 0),
        client_preflight(1, 5, 0),
        client_preflight(0, 5, 0),
        preflight(0, 5),
        client_preflight(0, 5, 0),
        propose(record(0, 7, &[], &[(b"VAA006L7", 1)])),
    ]);
    steps.extend(vec![client_preflight(0, 6, 0); 8]);
    run_file(1, 0, 0, &steps)
}

const BESIDE: [Answer; 30] = [
    (0, 0),
    (0, 1),
    (0, 2),
    (0, 3),
    (0, 4),
    (0, 5),
    (0, 1),
    (0, 1),
    (0, 1),
    (0, 1),
    (23, 0),
    (0, 1),
    // Signed meanwhile, so accepted.
    (0, 1),
    (0, 1),
    (22, 0),
    (4, 0),
    (4, 0),
    (3, 0),
    (23, 0),
    (0, 1),
    (0, 1),
    (0, 6),
    // Five counted since the fourth signature: seven more are turned back.
    (23, 0),
    (23, 0),
    (23, 0),
    (23, 0),
    (23, 0),
    (23, 0),
    (23, 0),
    (0, 1),
];

/// One of 16 vaults is away: of 16 quorums 16 − b want it. No other draw is an exact half.
fn a_half(b: u8) -> Vec<u8> {
    run_file(16, b, 0, &[draw(1)])
}

/// Document 02, M-102. A migration of 1000 frames to 990 with 10 trimmed, with 9 and with 11: of records that differ in the trimmed frames alone
/// only one can balance. An accession with none trimmed and with one; sums above 32 bits; a whole life of the accession and of the job that trims.
fn trimming() -> Vec<u8> {
    let from = (b"VAA001L7", 1000);
    let moved = |to: u32, cut: u32| {
        let record = record(1, 7, &[from], &[(b"VAB001L7", to)]);
        propose(trimmed(record, cut))
    };
    let accession = |cut: u32| propose(trimmed(record(0, 7, &[], &[from]), cut));
    let wide = |cut: u32| {
        let inputs: [Written; 2] = [(b"VAC001L7", u32::MAX), (b"VAD001L7", 5)];
        propose(trimmed(record(1, 7, &inputs, &[(b"VAE001L7", 5)]), cut))
    };
    let steps = [
        accession(0),
        accession(1),
        moved(990, 10),
        moved(990, 9),
        moved(990, 11),
        moved(1000, 0),
        moved(999, 1),
        moved(990, 10),
        wide(u32::MAX),
        wide(0),
        preflight(0, 0),
        commit(0, 0, 1),
        preflight(0, 1),
        commit(0, 1, 1),
        show(1),
        generations(1),
        preflight(0, 2),
    ];
    run_file_in(2, 1, 0, 0, &steps)
}

const TRIMMING: [Answer; 17] = [
    (0, 0),
    (6, 0),
    (0, 1),
    (9, 0),
    (9, 0),
    (0, 2),
    (0, 3),
    (0, 1),
    (0, 4),
    (9, 0),
    (0, 1),
    (0, 1),
    (0, 1),
    (0, 1),
    (0, 2),
    (0, 1),
    (12, 0),
];

/// As `full_book`, of records that trim more and more.
fn full_long_book() -> Vec<u8> {
    let new = |i: u32| {
        let record = record(1, 5, &[(b"VAA001L5", 1000)], &[(b"VAB001L5", 1000 - i)]);
        propose(trimmed(record, i))
    };
    let mut steps: Vec<Step> = (0..129).map(new).collect();
    steps.extend([new(0), new(127), show(127), show(128)]);
    run_file_in(2, 1, 0, 0, &steps)
}

/// The second proposal lacks its trimmed frames.
fn short_by_4() -> Vec<u8> {
    let proposal = propose(record(0, 7, &[], &[(b"VAA001L7", 9)]));
    let mut file = run_file_in(2, 1, 0, 0, &[proposal.clone(), proposal]);
    file.truncate(file.len() - 4);
    file
}

/// There are versions 1 and 2.
fn version(version: u16) -> Edge {
    let mut file = run_file(1, 0, 0, &[show(0)]);
    file[3..5].copy_from_slice(&version.to_le_bytes());
    Edge {
        name: "another version",
        file,
        text: "0 1 0\n".to_string(),
    }
}

fn one_run_whole() -> Edge {
    Edge {
        name: "one run whole",
        file: whole_run(),
        text: whole_text().to_string(),
    }
}
