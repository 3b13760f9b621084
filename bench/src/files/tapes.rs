//! Tapes under labels of their own.
use reference::record::Tape;

/// The same cartridge with other frames.
pub fn with_frames(tape: Tape, frames: u64) -> Tape {
    Tape { frames, ..tape }
}

/// Gives out tapes under labels that were not used before.
pub struct Reels(u32);

impl Reels {
    pub fn new() -> Reels {
        Reels(0)
    }

    pub fn fresh(&mut self, medium: u8, frames: u64) -> Tape {
        self.0 += 1;
        let mut label = *b"V00000L0";
        label[1..6].copy_from_slice(format!("{:05}", self.0).as_bytes());
        label[7] = b'0' + medium;
        Tape { label, frames }
    }

    /// Four tapes with different frames.
    pub fn four(&mut self, medium: u8) -> [Tape; 4] {
        [1000, 1001, 1002, 1003].map(|frames| self.fresh(medium, frames))
    }

    /// Fresh tapes that take the frames of others.
    pub fn copies(&mut self, tapes: &[Tape], medium: u8) -> Vec<Tape> {
        let copy = |tape: &Tape| self.fresh(medium, tape.frames);
        tapes.iter().map(copy).collect()
    }
}
