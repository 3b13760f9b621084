//! Document 02, M-111: "Two desks after one tape", played out.

use crate::refusal::{plain, Refusal};
use std::collections::HashMap;
use std::hash::Hash;

/// Who can force a win; else each can stop the other.
#[derive(Clone, Copy, PartialEq, Eq, Debug)]
pub enum Prospect {
    First,
    Second,
    Neither,
}

#[derive(Clone, Copy, PartialEq, Eq, Debug)]
pub struct Forecast {
    pub prospect: Prospect,
    /// Both jobs could reach t if play went on after a win.
    pub both: bool,
}

/// A position of a game in which desks 0 and 1 move in turn.
pub trait Position: Copy + Eq + Hash {
    fn signatures(&self, desk: usize) -> u32;
    fn turn(&self) -> usize;
    /// The positions that the desk's moves lead to.
    fn moves(&self) -> Vec<Self>;
    /// It is the other desk's turn.
    fn passed(&self) -> Self;

    /// "A desk without a move passes."
    fn next(&self) -> Vec<Self> {
        let moves = self.moves();
        if moves.is_empty() {
            vec![self.passed()]
        } else {
            moves
        }
    }

    /// "if neither can move"
    fn over(&self) -> bool {
        self.moves().is_empty() && self.passed().moves().is_empty()
    }
}

/// The vaults by number: which they are makes no difference to the desks.
#[derive(Clone, Copy, PartialEq, Eq, Hash)]
pub struct Counts {
    /// Sound vaults that no desk has asked.
    sound: u8,
    /// Two-faced vaults that each desk hasn't asked.
    two_faced: [u8; 2],
    signatures: [u8; 2],
    turn: u8,
}

impl Counts {
    pub fn start(n: u8, f: u8) -> Counts {
        Counts {
            sound: n - f,
            two_faced: [f; 2],
            signatures: [0; 2],
            turn: 0,
        }
    }
}

impl Position for Counts {
    fn signatures(&self, desk: usize) -> u32 {
        self.signatures[desk].into()
    }

    fn turn(&self) -> usize {
        self.turn.into()
    }

    fn moves(&self) -> Vec<Counts> {
        let desk = self.turn();
        let mut signed = self.passed();
        signed.signatures[desk] += 1;
        let mut moves = Vec::new();
        if self.sound > 0 {
            let sound = self.sound - 1;
            moves.push(Counts { sound, ..signed });
        }
        if self.two_faced[desk] > 0 {
            let mut asked = signed;
            asked.two_faced[desk] -= 1;
            moves.push(asked);
        }
        moves
    }

    fn passed(&self) -> Counts {
        let turn = 1 - self.turn;
        Counts { turn, ..*self }
    }
}

/// The vaults one by one, in sets of bits.
#[derive(Clone, Copy, PartialEq, Eq, Hash)]
pub struct Vaults {
    n: u8,
    two_faced: u16,
    asked: [u16; 2],
    turn: u8,
}

impl Vaults {
    pub fn start(n: u8, two_faced: u16) -> Vaults {
        Vaults {
            n,
            two_faced,
            asked: [0; 2],
            turn: 0,
        }
    }
}

impl Position for Vaults {
    fn signatures(&self, desk: usize) -> u32 {
        self.asked[desk].count_ones()
    }

    fn turn(&self) -> usize {
        self.turn.into()
    }

    fn moves(&self) -> Vec<Vaults> {
        let desk = self.turn();
        let any = self.asked[0] | self.asked[1];
        let free = |vault: &u16| {
            if self.two_faced & vault != 0 {
                self.asked[desk] & vault == 0
            } else {
                any & vault == 0
            }
        };
        let ask = |vault: u16| {
            let mut next = self.passed();
            next.asked[desk] |= vault;
            next
        };
        (0..self.n).map(|i| 1 << i).filter(free).map(ask).collect()
    }

    fn passed(&self) -> Vaults {
        let turn = 1 - self.turn;
        Vaults { turn, ..*self }
    }
}

/// Whether the desk can force a win from here.
fn forces<P: Position>(desk: usize, t: u32, here: P, known: &mut HashMap<P, bool>) -> bool {
    if let Some(answer) = known.get(&here) {
        return *answer;
    }
    let answer = if here.signatures(desk) >= t {
        true
    } else if here.signatures(1 - desk) >= t || here.over() {
        false
    } else if here.turn() == desk {
        here.next().into_iter().any(|p| forces(desk, t, p, known))
    } else {
        here.next().into_iter().all(|p| forces(desk, t, p, known))
    };
    known.insert(here, answer);
    answer
}

/// Whether some play from here, wins or not, gives both desks t signatures.
fn both<P: Position>(t: u32, here: P, known: &mut HashMap<P, bool>) -> bool {
    if let Some(answer) = known.get(&here) {
        return *answer;
    }
    let reached = (0..2).all(|desk| here.signatures(desk) >= t);
    let answer = reached || !here.over() && here.next().into_iter().any(|p| both(t, p, known));
    known.insert(here, answer);
    answer
}

pub fn play<P: Position>(start: P, t: u32) -> Forecast {
    let prospect = if forces(0, t, start, &mut HashMap::new()) {
        Prospect::First
    } else if forces(1, t, start, &mut HashMap::new()) {
        Prospect::Second
    } else {
        Prospect::Neither
    };
    let both = both(t, start, &mut HashMap::new());
    Forecast { prospect, both }
}

/// "26 unless n is 1 to 16, f at most n, and t 1 to n"
pub fn forecast(n: u8, f: u8, t: u8) -> Result<Forecast, Refusal> {
    if (1..=16).contains(&n) && f <= n && (1..=n).contains(&t) {
        Ok(play(Counts::start(n, f), t.into()))
    } else {
        Err(plain(26))
    }
}
