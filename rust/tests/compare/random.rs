//! Random numbers that are the same in every run: xorshift64*.

use std::cell::Cell;

/// A cell, so that a draw may stand among the arguments of another.
pub struct Random(Cell<u64>);

impl Random {
    /// The seed may not be 0.
    pub fn new(seed: u64) -> Random {
        Random(Cell::new(seed))
    }

    pub fn u64(&self) -> u64 {
        let mut state = self.0.get();
        state ^= state >> 12;
        state ^= state << 25;
        state ^= state >> 27;
        self.0.set(state);
        state.wrapping_mul(0x2545_F491_4F6C_DD1D)
    }

    pub fn u32(&self) -> u32 {
        (self.u64() >> 32) as u32
    }

    pub fn u16(&self) -> u16 {
        (self.u64() >> 48) as u16
    }

    pub fn u8(&self) -> u8 {
        (self.u64() >> 56) as u8
    }

    pub fn bool(&self) -> bool {
        self.one_in(2)
    }

    /// 0 to n - 1.
    pub fn below(&self, n: u32) -> u32 {
        self.u32() % n
    }

    /// 0 to n - 1.
    pub fn index(&self, n: usize) -> usize {
        self.u32() as usize % n
    }

    pub fn one_in(&self, n: u32) -> bool {
        self.below(n) == 0
    }

    pub fn pick<T: Clone>(&self, from: &[T]) -> T {
        from[self.index(from.len())].clone()
    }

    pub fn bytes(&self, n: usize) -> Vec<u8> {
        (0..n).map(|_| self.u8()).collect()
    }

    pub fn shuffle<T>(&self, list: &mut [T]) {
        for i in (1..list.len()).rev() {
            list.swap(i, self.index(i + 1));
        }
    }
}
