//! Test loads, from `docs/LOADS.md` alone.

use crate::record::{Bytes, Label};
use crate::step::Step;
use crate::write::{record, run_file, set_of};

/// The seed is the state before the first draw.
pub struct Draws {
    state: u64,
}

impl Draws {
    pub fn new(seed: u64) -> Draws {
        Draws { state: seed }
    }

    pub fn draw(&mut self) -> u32 {
        const MULTIPLIER: u64 = 6_364_136_223_846_793_005;
        const INCREMENT: u64 = 1_442_695_040_888_963_407;
        self.state = self.state.wrapping_mul(MULTIPLIER).wrapping_add(INCREMENT);
        (self.state >> 32) as u32
    }
}

/// What ten bytes print: a load, or refusal 1.
pub fn answer(input: &[u8]) -> Vec<u8> {
    let Ok(request) = <[u8; 10]>::try_from(input) else {
        return b"0 1 0\n".to_vec();
    };
    let seed = u64::from_le_bytes(request[..8].try_into().unwrap());
    let (n, b) = (request[8], request[9]);
    if n == 0 || n > 16 || 3 * u32::from(b) >= u32::from(n) {
        return b"0 1 0\n".to_vec();
    }
    load(seed, n, b)
}

pub fn load(seed: u64, n: u8, b: u8) -> Vec<u8> {
    let mut draws = Draws::new(seed);
    let first = draws.draw();
    let start = (draws.draw() % u32::from(n - b + 1)) as u8;
    let turn = draws.draw() % u32::from(n);
    let faulty = set_of(start..start + b);
    let plan = Plan {
        n,
        b,
        start,
        turn,
        first,
    };
    let steps: Vec<Step> = (0..200).map(|i| plan.step(i, draws.draw())).collect();
    run_file(n, b, faulty, &steps)
}

struct Plan {
    n: u8,
    b: u8,
    start: u8,
    turn: u32,
    first: u32,
}

impl Plan {
    fn is_faulty(&self, vault: u8) -> bool {
        (self.start..self.start + self.b).contains(&vault)
    }

    /// Vault x modulo n, or the next one that is correct.
    fn correct_from(&self, x: u64) -> u8 {
        let n = u64::from(self.n);
        (0..n)
            .map(|i| ((x + i) % n) as u8)
            .find(|vault| !self.is_faulty(*vault))
            .unwrap()
    }

    fn step(&self, i: u32, d: u32) -> Step {
        let (round, k) = (i / 50, i % 50);
        let main = 10 * round as u8;
        let in_turn = self.correct_from(u64::from(self.turn + k));
        let drawn = self.correct_from(u64::from(d));
        match k {
            0..=9 => Step::Propose {
                record: Box::new(job(main + k as u8, self.first)),
            },
            10..=25 => Step::Preflight {
                vault: in_turn,
                job: main,
            },
            26 => Step::FaultySignature {
                vault: self.start,
                job: main,
            },
            27 => Step::FaultySignature {
                vault: self.start,
                job: main + 1,
            },
            28 => Step::Preflight {
                vault: drawn,
                job: main + 1,
            },
            29 => Step::Commit {
                vault: drawn,
                job: main,
                signers: (d >> 16) as u16,
            },
            30..=45 => {
                let signers = set_of((0..self.n).filter(|vault| !self.is_faulty(*vault)));
                Step::Commit {
                    vault: in_turn,
                    job: main,
                    signers,
                }
            }
            46 => {
                let vault = self.start + (d % (u32::from(self.b) + 1)) as u8;
                Step::FaultyAcknowledgement { vault, job: main }
            }
            47 => Step::Show {
                job: (d % (10 * round + 10)) as u8,
            },
            48 => Step::Draw {
                u: (d % (u32::from(self.n) + 2)) as u8,
            },
            _ => Step::Generations {
                job: 10 * (d % (round + 1)) as u8,
            },
        }
    }
}

/// `TL`, a letter, `0`, the job's number in two digits, `L` and the medium.
fn label(letter: char, job: u8, medium: u8) -> Label {
    let text = format!("TL{letter}0{job:02}L{medium}");
    text.as_bytes().try_into().unwrap()
}

/// The record of job j of a load with this first draw.
pub fn job(j: u8, first: u32) -> Bytes {
    let (f, g) = (first % 65_536 + 1, first / 65_536 + 1);
    let r = j / 10;
    let a = |job, medium| label('A', job, medium);
    let b = |job, medium| label('B', job, medium);
    match j {
        0 => record(0, 5, &[], &[(&a(0, 5), f), (&b(0, 5), g)]),
        1 => record(0, 5, &[], &[(&a(1, 5), f), (&a(0, 5), f)]),
        10 | 20 | 30 => record(
            1,
            5 + r,
            &[(&a(j - 10, 4 + r), f), (&b(j - 10, 4 + r), g)],
            &[(&a(j, 5 + r), f), (&b(j, 5 + r), g)],
        ),
        11 | 21 | 31 => record(1, 5 + r, &[(&a(j - 11, 4 + r), f)], &[(&a(j, 5 + r), f)]),
        _ => record(
            0,
            5 + j % 5,
            &[],
            &[(&a(j, 5 + j % 5), 100 * (u32::from(j) + 1))],
        ),
    }
}
