//! The intended refusals of every measured file, by both programs.
use bench::fast;
use bench::files::{growth, measured, File};
use proved::Buffer;
use reference::engine::BOOK_RECORDS;
use reference::refusal::REFUSALS;
use reference::settings::{HEADER_BYTES, LONGEST_FILE};
use reference::step::{kind, step_length, step_length_in};

fn fast_text(input: &[u8]) -> String {
    let mut out = Vec::new();
    fast::run(input, &mut out);
    String::from_utf8(out).expect("digits")
}

/// The refusal on each line.
fn refusals(text: &str) -> Vec<u8> {
    let refusal = |line: &str| {
        line.split(' ')
            .nth(1)
            .and_then(|figure| figure.parse().ok())
    };
    text.lines()
        .filter(|line| line.contains(' '))
        .map(|line| refusal(line).expect("a figure"))
        .collect()
}

fn check(file: &File) {
    let text = fast_text(&file.bytes);
    let refusals = refusals(&text);
    assert_eq!(refusals.len(), file.steps(), "{}", file.name);
    for (i, (given, intended)) in refusals.iter().zip(&file.intended).enumerate() {
        assert_eq!(given, intended, "{} step {}", file.name, i + 1);
    }
    let mut proved = Buffer::default();
    let proved = proved.text(&file.bytes).expect("a text");
    assert!(text.as_bytes() == proved, "{}", file.name);
}

#[test]
fn measured_files_have_the_intended_refusals() {
    for file in measured().iter().chain(&growth()) {
        check(file);
    }
}

fn file(name: &str) -> File {
    let named = |file: &File| file.name == name;
    measured()
        .into_iter()
        .find(named)
        .expect("a file of that name")
}

#[test]
fn files_are_as_large_as_meant() {
    for file in measured().iter().chain(&growth()) {
        let room = LONGEST_FILE - file.bytes.len();
        let longest_step = step_length_in(file.version, kind::PROPOSE).expect("a known kind");
        let full = room < longest_step;
        assert!(full || file.name == "header_only", "{}", file.name);
    }
    assert_eq!(file("header_only").bytes.len(), HEADER_BYTES);
    assert!(file("preflights_late").refused(14) > 14_000);
    for refusal in [11, 12, 13, 14] {
        assert!(file("preflights_mixed").refused(refusal) > 3_000);
    }
    assert!(file("repeats").steps() - BOOK_RECORDS > 500);
    let listed = fast_text(&file("dependencies").bytes);
    assert!(listed.lines().filter(|line| line.ends_with(" 0 4")).count() > 9_000);
    for refusal in 2..=REFUSALS as u8 {
        // Its steps are those of document 01: no release, no missing dependencies, no client.
        let expected = !matches!(refusal, 2 | 13 | 19..=23);
        assert_eq!(file("mixed").refused(refusal) > 0, expected, "{refusal}");
    }
}

#[test]
fn late_preflights_are_refused_at_the_last_entry() {
    let text = fast_text(&file("preflights_late").bytes);
    let refused: Vec<&str> = text.lines().filter(|line| !line.contains(" 0 ")).collect();
    assert!(refused.iter().all(|line| line.ends_with(" 14 7")));
    assert!(refused.len() > 14_000);
}

#[test]
fn a_chain_ages_by_one_with_each_job() {
    let file = file("deep_chain");
    let text = fast_text(&file.bytes);
    let length = step_length(kind::GENERATIONS).expect("a known kind");
    let asked = &file.bytes[file.bytes.len() - length * BOOK_RECORDS..];
    let last = text.lines().skip(file.steps() - BOOK_RECORDS);
    for (step, line) in asked.chunks(length).zip(last) {
        assert_eq!(step[0], kind::GENERATIONS);
        assert!(line.ends_with(&format!(" 0 {}", step[1])));
    }
}
