//! The bar behind a cell: the call as the library has it, what its answer must be, and the cells that are asked for.

use crate::random::Random;
use crate::scene::{Frame, Point};
use crate::tally::Tally;
use independent::{Header, Record};

/// What the bar behind a cell may be like: each is counted.
pub const KINDS: [&str; 5] = [
    "of a point",
    "of a segment",
    "with a corner on the cell's border",
    "with every corner outside the grid",
    "behind records that do not reach the cell",
];

/// In a grid of up to so many cells all are asked for; in a larger one so many, and as many that are filled.
const ALL: usize = 216;
const SOME: usize = 16;

/// The library's answer, bit by bit.
pub fn call(file: &[u8], cell: usize, weights: &mut [i64]) -> u64 {
    let (file_len, weights_len) = (file.len() as u64, weights.len() as u64);
    // SAFETY: both slices are alive for the call, the one that is written overlaps nothing, and the library keeps neither.
    unsafe {
        desk::library::desk_bar(
            file.as_ptr(),
            file_len,
            cell as u64,
            weights.as_mut_ptr(),
            weights_len,
        )
    }
}

/// What the library must answer: the record's number, where there is room for three weights; 4 and the weights wanted where
/// there is not; 5 where the cell is clear; or 1, the number of a refusal and its place.
pub fn packed(said: Result<Option<usize>, (u32, usize)>, room: usize) -> u64 {
    match said {
        Ok(Some(record)) if room >= 3 => record as u64,
        Ok(Some(_)) => 4 << 56 | 3,
        Ok(None) => 5 << 56,
        Err((number, place)) => 1 << 56 | u64::from(number) << 48 | place as u64,
    }
}

/// A triangle of an accepted file that reaches a cell.
pub struct Shown {
    header: Header,
    record: Record,
    number: usize,
    cell: usize,
}

impl Shown {
    /// The record with a number, and the cell.
    pub fn new(file: &[u8], cell: usize, number: usize) -> Shown {
        let (header, record) = independent::read(file, number).unwrap();
        Shown {
            header,
            record: record.unwrap(),
            number,
            cell,
        }
    }

    /// Do these weights show that it reaches the cell?
    pub fn by(&self, weights: [i64; 3]) -> bool {
        independent::weights_show(&self.header, &self.record, self.cell, weights)
    }

    /// Which of `KINDS` it is.
    pub fn kinds(&self) -> [bool; KINDS.len()] {
        let Header {
            cells,
            edge,
            origin,
            ..
        } = self.header;
        let corners = self.record.corners;
        let low = self.header.lowest_corner(self.header.cell(self.cell));
        let point = corners[1] == corners[0] && corners[2] == corners[0];
        let within = |corner: &Point, low: Point, lengths: Point| {
            (0..3).all(|axis| (low[axis]..=low[axis] + lengths[axis]).contains(&corner[axis]))
        };
        let border = |corner: &Point| {
            let on_face = |axis: usize| {
                let from_low = corner[axis] - low[axis];
                from_low == 0 || from_low == edge
            };
            within(corner, low, [edge; 3]) && (0..3).any(on_face)
        };
        let lengths = cells.map(|cells| cells * edge);
        [
            point,
            !point && in_line(corners),
            corners.iter().any(border),
            !corners.iter().any(|corner| within(corner, origin, lengths)),
            self.number > 0,
        ]
    }
}

/// Do three corners stand in one line?
fn in_line([a, b, c]: [Point; 3]) -> bool {
    let [u, v] = [b, c].map(|corner| [0, 1, 2].map(|axis| corner[axis] - a[axis]));
    [(0, 1), (1, 2), (2, 0)]
        .into_iter()
        .all(|(i, j)| u[i] * v[j] == u[j] * v[i])
}

/// The cells of a frame's map, all of a small one and some of a larger one, and the numbers at the end of the grid and beyond.
pub fn some(tally: &mut Tally, random: &mut Random, frame: &Frame, map: &[u8]) {
    let file = frame.write();
    let count = frame.cells.iter().product::<i64>() as usize;
    if count <= ALL {
        (0..count).for_each(|cell| tally.bar_of_map(random, &file, map, cell));
    } else {
        for _ in 0..SOME {
            let any = random.below(count);
            tally.bar_of_map(random, &file, map, any);
            if let Some(filled) = next_filled(map, count, any) {
                tally.bar_of_map(random, &file, map, filled);
            }
        }
    }
    for cell in [
        count - 1,
        count,
        count + 1,
        u32::MAX as usize,
        count + u32::MAX as usize,
        usize::MAX,
    ] {
        let room = random.below(6);
        tally.bar(random, &file, cell, room);
    }
}

/// The first filled cell from a number on.
fn next_filled(map: &[u8], count: usize, from: usize) -> Option<usize> {
    (from..count).find(|n| map[n / 8] & 0x80 >> (n % 8) != 0)
}

/// The same of a frame on its own, by the library's map.
pub fn each(tally: &mut Tally, frame: &Frame) {
    let mut map = vec![0; frame.map_bytes()];
    stall::fill(&frame.write(), &mut map).unwrap();
    some(tally, &mut Random::new(0), frame, &map);
}
