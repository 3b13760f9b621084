//! Document 02, M-110: the table of estimates worked out by hand, every small
//! estimate of two shapes by trying all choices, and what the proved program
//! `estimate_cases` prints of them.

use reference::estimates::{tighten, Estimate, Range};
use reference::record::{Label, ENTRIES, FIRST_OUTPUT};
use reference::write;

const STORED: &str = include_str!("../../crates/estimate_cases/stdout");

const TABLE: &str = "\
0 0 1000-1000 0-0 0-0 0-0 600-700 300-400 0-0 0-0
0 0 1000-1000 0-0 0-0 0-0 550-650 300-400 0-0 0-0
0 0 400-1300 0-0 0-0 0-0 100-900 300-400 0-0 0-0
0 0 4400-5000 0-0 0-0 0-0 100-700 300-400 0-0 0-0
0 0 19-20 0-0 0-0 0-0 1-2 0-0 0-0 0-0
0 0 15-20 0-0 0-0 0-0 15-20 0-0 0-0 0-0
0 0 7-7 0-0 0-0 0-0 7-7 0-0 0-0 0-0
25 0 10-10 0-0 0-0 0-0 11-20 0-0 0-0 0-0
25 0 10-10 0-0 0-0 0-0 1-9 0-0 0-0 0-0
0 0 10-10 0-0 0-0 0-0 9-9 0-0 0-0 0-0
25 0 1-10 0-0 0-0 0-0 1-10 0-0 0-0 0-0
24 4 1-10 0-0 0-0 0-0 5-4 0-0 0-0 0-0
24 4 100-100 0-0 0-0 0-0 5-4 0-0 0-0 0-0
24 0 6-5 0-0 0-0 0-0 5-4 0-0 0-0 0-0
24 5 1-10 0-0 0-0 0-0 4-4 9-8 0-0 0-0
6 0 5-5 0-1 0-0 0-0 5-5 0-0 0-0 0-0
6 0 5-5 0-0 0-0 0-0 5-4 0-0 0-0 0-1
6 0 5-5 1-1 0-0 0-0 5-5 0-0 0-0 0-0
6 0 5-5 0-0 0-0 0-0 0-5 0-0 0-0 0-0
6 0 0-0 0-0 0-0 0-0 5-5 0-0 0-0 0-0
6 0 5-5 0-0 0-0 0-0 5-5 0-0 0-0 0-0
6 0 0-0 0-0 0-0 0-0 5-6 7-8 0-0 0-0
0 0 0-0 0-0 0-0 0-0 5-6 7-900 0-0 0-0
0 0 0-0 0-0 0-0 0-0 1-4294967295 4294967295-4294967295 0-0 0-0
24 5 0-0 0-0 0-0 0-0 5-6 7-6 0-0 0-0
7 6 5-9 5-4 0-0 0-0 1-9 1-9 1-9 0-0
8 0 5-9 5-4 0-0 0-0 1-9 1-9 1-9 0-0
24 1 5-9 5-4 0-0 0-0 1-9 1-9 1-9 0-0
0 0 4294967295-4294967295 4294967295-4294967295 4294967295-4294967295 4294967295-4294967295 4294967295-4294967295 4294967295-4294967295 4294967295-4294967295 4294967295-4294967295
25 0 4294967295-4294967295 4294967295-4294967295 4294967295-4294967295 4294967295-4294967295 4294967295-4294967295 4294967295-4294967295 4294967295-4294967295 4294967295-4294967295
0 0 4294967295-4294967295 4294967295-4294967295 4294967295-4294967295 4294967295-4294967295 4294967295-4294967295 4294967295-4294967295 4294967295-4294967295 4294967294-4294967294
0 0 4294967295-4294967295 4294967295-4294967295 4294967295-4294967295 4294967295-4294967295 4294967295-4294967295 4294967295-4294967295 1-4294967294 1-4294967294
0 0 4294967295-4294967295 4294967295-4294967295 4294967295-4294967295 4294967295-4294967295 4294967295-4294967295 4294967295-4294967295 4294967295-4294967295 4294967295-4294967295
0 0 1-4294967295 1-4294967295 1-4294967295 1-4294967295 1-4294967295 1-4294967295 1-4294967295 1-4294967295
25 0 1-4294967295 1-4294967295 1-4294967295 1-4294967295 4294967295-4294967295 4294967295-4294967295 4294967295-4294967295 1-1
";

/// VAA001L6 in entry 0, VAB001L6 in entry 1 and so on.
fn label(number: usize) -> Label {
    let mut label = *b"VAA001L6";
    label[2] += number as u8;
    label
}

fn estimate(kind: u8, inputs: &[Range], outputs: &[Range], trimmed: u32) -> Estimate {
    let labels: Vec<Label> = (0..ENTRIES).map(label).collect();
    let written = |half: &[Range], first: usize| {
        let lowest = half.iter().map(|range| range.0);
        labels[first..].iter().zip(lowest).collect::<Vec<_>>()
    };
    let mut highest = [0; ENTRIES];
    for (first, half) in [(0, inputs), (FIRST_OUTPUT, outputs)] {
        for (i, range) in half.iter().enumerate() {
            highest[first + i] = range.1;
        }
    }
    Estimate {
        lowest: write::record(
            kind,
            6,
            &written(inputs, 0),
            &written(outputs, FIRST_OUTPUT),
        ),
        highest,
        trimmed,
    }
}

/// The two figures of the answer and the ranges, as they were where it is a
/// refusal.
fn line(e: &Estimate) -> String {
    let (figures, ranges) = match tighten(e) {
        Ok(ranges) => ("0 0".to_string(), ranges),
        Err(why) => (
            format!("{} {}", why.number, why.entry),
            std::array::from_fn(|number| e.range(number)),
        ),
    };
    let ranges = ranges.map(|(lowest, highest)| format!(" {lowest}-{highest}"));
    figures + &ranges.concat() + "\n"
}

/// From 1 or 2 to 1, 2, 3 or 4.
fn small(digit: u32) -> Range {
    (1 + digit % 2, 1 + digit / 2)
}

/// Three ranges by three octal digits, and what is trimmed by the next: one
/// input and two outputs, then two inputs and one output.
fn pair(k: u32) -> [Estimate; 2] {
    let [a, b, c] = [k % 8, k / 8 % 8, k / 64 % 8].map(small);
    let trimmed = k / 512;
    let split = estimate(1, &[a], &[b, c], trimmed);
    [split, estimate(1, &[a, b], &[c], trimmed)]
}

fn sweep() -> impl Iterator<Item = Estimate> {
    (0..1024).flat_map(pair)
}

#[test]
fn the_program_prints_the_table_and_what_all_choices_say() {
    let swept: String = sweep().map(|e| line(&e)).collect();
    let text = TABLE.to_string() + &swept;
    for (tried, stored) in text.lines().zip(STORED.lines()) {
        assert_eq!(tried, stored);
    }
    assert_eq!(text, STORED);
}

/// Rows of the table that have few choices are found by trying them.
#[test]
fn rows_of_the_table() {
    let told = |kind, inputs: &[Range], outputs: &[Range], trimmed| {
        let line = line(&estimate(kind, inputs, outputs, trimmed));
        assert!(TABLE.contains(&line), "{line}");
        line
    };
    told(1, &[(1000, 1000)], &[(100, 900), (300, 400)], 0);
    told(1, &[(1000, 1000)], &[(100, 900), (300, 400)], 50);
    told(1, &[(10, 20)], &[(1, 5)], 18);
    told(1, &[(10, 20)], &[(15, 30)], 0);
    told(1, &[(10, 10)], &[(1, 9)], 1);
    told(0, &[], &[(5, 6), (7, 900)], 0);
    let refused = [
        (told(1, &[(10, 10)], &[(11, 20)], 0), "25 0 "),
        (told(1, &[(1, 10)], &[(1, 10)], 10), "25 0 "),
        (told(1, &[(1, 10)], &[(5, 4)], 0), "24 4 "),
        (told(1, &[(100, 100)], &[(5, 4)], 0), "24 4 "),
        (told(1, &[(5, 5)], &[(0, 5)], 0), "6 0 "),
        (told(0, &[], &[(5, 6), (7, 8)], 1), "6 0 "),
        (told(0, &[], &[(5, 6), (7, 6)], 0), "24 5 "),
    ];
    for (line, figures) in refused {
        assert!(line.starts_with(figures), "{line}");
    }
}

/// The sweep has answers of every kind, and ranges that are tightened.
#[test]
fn the_sweep_is_not_idle() {
    let lines: Vec<String> = sweep().map(|e| line(&e)).collect();
    for figures in ["0 0 ", "24 0 ", "24 1 ", "24 4 ", "24 5 ", "25 0 "] {
        assert!(lines.iter().any(|line| line.starts_with(figures)));
    }
    let changed = |e: &Estimate| {
        let as_it_was = std::array::from_fn(|number| e.range(number));
        tighten(e).is_ok_and(|ranges| ranges != as_it_was)
    };
    assert!(sweep().filter(changed).count() > 100);
}
