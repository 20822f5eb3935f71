//! The map: one bit a cell, the highest bit of a byte first.

use crate::frame::Grid;

/// A grid with the lent bytes of its map.
pub struct Map<'a> {
    pub grid: Grid,
    bytes: &'a mut [u8],
}

impl<'a> Map<'a> {
    /// An empty map in the first bytes of those lent.
    pub fn new(grid: Grid, lent: &'a mut [u8]) -> Self {
        let bytes = &mut lent[..grid.map_length()];
        bytes.fill(0);
        Map { grid, bytes }
    }

    /// Fills cell (i, j, k).
    #[inline(always)]
    pub fn set(&mut self, [i, j, k]: [usize; 3]) {
        let [nx, ny, _] = self.grid.cells;
        self.fill(i + nx * (j + ny * k));
    }

    /// Fills cell n.
    #[inline(always)]
    pub fn fill(&mut self, n: usize) {
        self.bytes[n / 8] |= 128 >> (n % 8);
    }

    /// How many cells are filled: eight bytes at a time, then the bytes behind them.
    pub fn count(&self) -> usize {
        let words = self.bytes.chunks_exact(8);
        let rest: u32 = words.remainder().iter().map(|byte| byte.count_ones()).sum();
        let ones = |word: &[u8]| u64::from_le_bytes(word.try_into().unwrap()).count_ones();
        (rest + words.map(ones).sum::<u32>()) as usize
    }
}
