//! Test loads: the draws of `docs/LOADS.md`, the kept loads with their texts, and the proved programs on both.
//! The programs must have been built, by `rt ci`, or by `rt run` in crates/loads and crates/custody.

use reference::loads::{answer, load, Draws};
use std::io::Write;
use std::path::PathBuf;
use std::process::{Command, Stdio};

fn file(name: &str) -> Vec<u8> {
    let path = PathBuf::from(env!("CARGO_MANIFEST_DIR"))
        .join("loads")
        .join(name);
    std::fs::read(path).unwrap()
}

fn request(seed: u64, n: u8, b: u8) -> Vec<u8> {
    let mut bytes = seed.to_le_bytes().to_vec();
    bytes.extend([n, b]);
    bytes
}

/// What a proved program writes for this input.
fn proved(program: &str, input: &[u8]) -> Vec<u8> {
    let path = PathBuf::from(env!("CARGO_MANIFEST_DIR"))
        .join("../crates")
        .join(program)
        .join("out")
        .join(program);
    let mut child = Command::new(&path)
        .stdin(Stdio::piped())
        .stdout(Stdio::piped())
        .spawn()
        .unwrap_or_else(|e| panic!("{}: {e}; run `rt ci` first", path.display()));
    // a program that has read enough may have closed its input
    let _ = child.stdin.take().unwrap().write_all(input);
    child.wait_with_output().unwrap().stdout
}

#[test]
fn the_first_draws() {
    let mut draws = Draws::new(0);
    assert_eq!((draws.draw(), draws.draw()), (335_903_614, 436_792_849));
    assert_eq!(Draws::new(1).draw(), 1_817_669_548);
}

/// Seed, n and b of the kept loads.
const KEPT: [(u64, u8, u8); 2] = [(0, 4, 1), (1, 16, 5)];

/// A kept load, and the text of its run.
fn kept(seed: u64, n: u8, b: u8) -> (Vec<u8>, Vec<u8>) {
    let name = format!("seed-{seed}-n-{n}-b-{b}");
    (file(&format!("{name}.load")), file(&format!("{name}.text")))
}

#[test]
fn the_kept_loads() {
    for (seed, n, b) in KEPT {
        let (bytes, text) = kept(seed, n, b);
        assert_eq!(load(seed, n, b), bytes);
        assert_eq!(reference::run(&bytes), text);
        assert_eq!(proved("loads", &request(seed, n, b)), bytes);
    }
}

#[test]
fn the_proved_run_prints_the_kept_texts() {
    for (seed, n, b) in KEPT {
        let (bytes, text) = kept(seed, n, b);
        assert_eq!(proved("custody", &bytes), text);
    }
}

/// Of 200 steps at least 176 are answered 0, none with 2, and 4 preflights are refused.
#[test]
fn what_a_load_is_worth() {
    for n in 1..=16 {
        for b in (0..n).take_while(|b| 3 * b < n) {
            for seed in [0, 1, 7, u64::MAX] {
                let text = String::from_utf8(reference::run(&load(seed, n, b))).unwrap();
                let numbers: Vec<&str> =
                    text.lines().map(|l| l.split(' ').nth(1).unwrap()).collect();
                let count = |wanted| numbers.iter().filter(|number| **number == wanted).count();
                assert_eq!(numbers.len(), 200);
                assert!(
                    (176..=196).contains(&count("0")),
                    "{} answered 0",
                    count("0")
                );
                assert_eq!((count("2"), count("13"), count("14")), (0, 3, 1));
            }
        }
    }
}

#[test]
fn the_proved_program_makes_the_same_loads() {
    for seed in [0, 1, 2, 0x0123_4567_89ab_cdef, u64::MAX] {
        for (n, b) in [(1, 0), (4, 1), (7, 2), (15, 4), (16, 5)] {
            assert_eq!(proved("loads", &request(seed, n, b)), load(seed, n, b));
        }
    }
}

#[test]
fn what_is_no_request_prints_refusal_1() {
    let mut requests: Vec<Vec<u8>> = [(3, 1), (0, 0), (17, 0), (17, 5), (255, 84), (4, 255)]
        .map(|(n, b)| request(5, n, b))
        .to_vec();
    let good = request(5, 4, 1);
    requests.push(Vec::new());
    requests.push(good[..9].to_vec());
    requests.push([good.clone(), vec![0]].concat());
    requests.push(good.repeat(100));
    for input in requests {
        assert_eq!(answer(&input), b"0 1 0\n");
        assert_eq!(proved("loads", &input), b"0 1 0\n");
    }
}
