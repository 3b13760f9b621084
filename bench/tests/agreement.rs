//! The fast program and the proved one on generated run files, and on the edges of the format.
use bench::fast;
use proved::Buffer;
use reference::refusal::REFUSALS;
use reference::write::{draw, header, run_file};
use reference::{edges, generate};
use std::collections::BTreeSet;

#[derive(Default)]
struct Texts {
    proved: Buffer,
    fast: Vec<u8>,
    refusals: BTreeSet<u64>,
}

impl Texts {
    fn compare(&mut self, input: &[u8]) {
        let proved = self.proved.text(input).expect("a text");
        fast::run(input, &mut self.fast);
        let text = String::from_utf8_lossy(&self.fast);
        assert_eq!(text, String::from_utf8_lossy(proved));
        for line in text.lines().filter(|line| line.contains(' ')) {
            let refusal = line.split(' ').nth(1).expect("three figures");
            self.refusals.insert(refusal.parse().expect("a figure"));
        }
    }
}

#[test]
fn generated_runs() {
    let mut texts = Texts::default();
    for seed in 0..2000 {
        texts.compare(&generate::file(seed));
    }
    assert_eq!(texts.refusals, (0..=REFUSALS).collect());
}

#[test]
fn headers() {
    let mut texts = Texts::default();
    let draws: Vec<_> = (0..=18).map(draw).collect();
    for n in 0..=18 {
        for b in 0..=7 {
            for faulty in [0, 1, 0x8000, 0x0007, 0x001f, 0x003f, 0xffff, 1 << (n % 16)] {
                texts.compare(&run_file(n, b, faulty, &draws));
            }
        }
    }
    let header = header(4, 1, 8);
    for length in 0..header.len() {
        texts.compare(&header[..length]);
    }
}

#[test]
fn files_near_each_edge() {
    let mut texts = Texts::default();
    for edge in edges::all() {
        texts.compare(&edge.file);
        assert!(texts.fast == edge.text.as_bytes(), "{}", edge.name);
    }
}
