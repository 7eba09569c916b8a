//! A fixed-seed generator and inputs drawn from it, valid and damaged, for
//! every entry point. Packets are built here bit by bit from their parts and
//! not by the library's writer, so that each part can be damaged by itself.

mod anc;
mod arrival;
mod capture;
mod field;
mod line;
mod list;
mod outlet;
mod packet;
mod pair;
mod recording;
mod text;

pub use anc::*;
pub use arrival::*;
pub use capture::*;
pub use field::*;
pub use line::*;
pub use list::*;
pub use outlet::*;
pub use packet::*;
pub use pair::*;
pub use recording::*;
pub use text::*;

use crate::layout::Layout;

/// SplitMix64.
#[derive(Clone, Debug)]
pub struct Random(u64);

impl Random {
    pub fn new(seed: u64) -> Random {
        Random(seed)
    }

    pub fn draw(&mut self) -> u64 {
        self.0 = self.0.wrapping_add(0x9E37_79B9_7F4A_7C15);
        let x = (self.0 ^ self.0 >> 30).wrapping_mul(0xBF58_476D_1CE4_E5B9);
        let x = (x ^ x >> 27).wrapping_mul(0x94D0_49BB_1331_11EB);
        x ^ x >> 31
    }

    /// 0 to bound - 1; 0 if the bound is 0.
    pub fn below(&mut self, bound: usize) -> usize {
        (self.draw() >> 11) as usize % bound.max(1)
    }

    pub fn one_in(&mut self, n: usize) -> bool {
        self.below(n) == 0
    }

    pub fn pick<T: Copy>(&mut self, from: &[T]) -> T {
        from[self.below(from.len())]
    }

    pub fn octet(&mut self) -> u8 {
        self.draw() as u8
    }

    pub fn octets(&mut self, count: usize) -> Vec<u8> {
        (0..count).map(|_| self.octet()).collect()
    }

    pub fn layout(&mut self) -> Layout {
        self.pick(&Layout::ALL)
    }

    fn number32(&mut self) -> u32 {
        self.draw() as u32
    }

    /// Room for `need`: mostly enough, at times exactly, at times too small.
    fn room(&mut self, need: usize) -> usize {
        match self.below(8) {
            0 => self.below(need),
            1 => need.saturating_sub(1),
            2 | 3 => need,
            _ => need + self.below(20),
        }
    }
}
