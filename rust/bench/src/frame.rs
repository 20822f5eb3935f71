//! The frame file, as the peers read it, with the questions 1 to 8.

use crate::rule::{Point, Triangle};
use stall::{Limit, Refusal};

/// Where cells stand: how many along each axis, their edge, and the lowest corner of the first.
#[derive(Clone, Copy, Debug)]
pub struct Grid {
    pub cells: [usize; 3],
    pub edge: i64,
    pub origin: Point,
}

impl Grid {
    /// The grid's cells in all.
    pub fn count(&self) -> usize {
        self.cells[0] * self.cells[1] * self.cells[2]
    }

    /// The bytes of its map.
    pub fn map_length(&self) -> usize {
        self.count().div_ceil(8)
    }
}

/// A field of a big-endian word, by its first bit and its width.
fn field(word: u128, at: u32, width: u32) -> u128 {
    (word << at) >> (128 - width)
}

/// The same, signed.
fn signed(word: u128, at: u32, width: u32) -> i64 {
    (((word << at) as i128) >> (128 - width)) as i64
}

/// Three signed fields of 14 bits.
fn point(word: u128, at: u32) -> Point {
    [
        signed(word, at, 14),
        signed(word, at + 14, 14),
        signed(word, at + 28, 14),
    ]
}

/// An accepted file.
pub struct Frame<'a> {
    pub grid: Grid,
    records: &'a [u8],
}

impl<'a> Frame<'a> {
    /// Questions 1 to 8, in turn.
    pub fn read(file: &'a [u8], map_length: usize) -> Result<Self, Refusal> {
        let no = |limit| Err(Refusal { limit, place: 0 });
        if file.len() < 12 {
            return no(Limit::ShortHeader);
        }
        let mut bytes = [0; 16];
        bytes[..12].copy_from_slice(&file[..12]);
        let word = u128::from_be_bytes(bytes);
        let cells = |at| field(word, at, 6) as usize + 1;
        let grid = Grid {
            cells: [cells(4), cells(10), cells(16)],
            edge: field(word, 22, 8) as i64,
            origin: point(word, 30),
        };
        let count = field(word, 72, 12) as usize;
        if field(word, 0, 4) != 1 {
            return no(Limit::Version);
        }
        if grid.edge == 0 {
            return no(Limit::ZeroEdge);
        }
        if field(word, 84, 12) != 0 {
            return no(Limit::ReservedBits);
        }
        if (0..3).any(|w| grid.origin[w] + grid.cells[w] as i64 * grid.edge > 8191) {
            return no(Limit::Extent);
        }
        if file.len() != 12 + 16 * count {
            return no(Limit::FileLength);
        }
        let records = &file[12..];
        if let Some(i) = records.chunks_exact(16).position(|r| r[0] >> 6 == 3) {
            return Err(Refusal {
                limit: Limit::UnusedKind,
                place: i,
            });
        }
        if map_length < grid.map_length() {
            return no(Limit::ShortMap);
        }
        Ok(Frame { grid, records })
    }

    /// The triangles, in the file's order.
    pub fn triangles(&self) -> impl Iterator<Item = Triangle> + use<'a> {
        self.records.chunks_exact(16).map(|record| {
            let word = u128::from_be_bytes(record.try_into().unwrap());
            [point(word, 2), point(word, 44), point(word, 86)]
        })
    }
}
