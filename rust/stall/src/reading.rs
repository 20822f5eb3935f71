//! The plain reading of a frame file: the header's values and one record.

use crate::{Point, READ_NUMBERS, library};
use core::error::Error;
use core::fmt::{self, Display, Formatter};
use shared::answer::{DONE, long, low, refusal, tag};
use shared::{Kind, Refusal};

/// The top byte of the answer that the buffer is too short.
const SHORT: u8 = 4;

/// The header's values, of a file that is accepted.
#[derive(Clone, Copy, Debug, PartialEq, Eq, Hash)]
pub struct Header {
    /// The file's version: 1.
    pub version: u8,
    /// The cells along x, y and z: 1 to 64 each.
    pub cells: [usize; 3],
    /// The edge of a cell, in millimetres: 1 to 255.
    pub edge: i16,
    /// The lowest corner of cell 0.
    pub origin: Point,
    /// How many triangles the file has: 0 to 4,095.
    pub count: usize,
}

impl Header {
    /// How many cells the grid has.
    pub fn cell_count(&self) -> usize {
        self.cells.iter().product()
    }

    /// How many bytes the map takes.
    pub fn map_len(&self) -> usize {
        self.cell_count().div_ceil(8)
    }

    /// The place (i, j, k) of a cell along x, y and z, from 0; none where the grid has no cell with this number.
    ///
    /// ```
    /// # let file = include_bytes!(concat!(env!("CARGO_MANIFEST_DIR"), "/../../examples/stall.frame"));
    /// let header = stall::read(file, 0).unwrap().header;
    /// assert_eq!(header.cells, [64, 32, 48]);
    /// assert_eq!(header.place(2500), Some([4, 7, 1]));
    /// assert_eq!(header.place(64 * 32 * 48), None);
    /// ```
    pub fn place(&self, cell: usize) -> Option<[usize; 3]> {
        let [nx, ny, _] = self.cells;
        (cell < self.cell_count()).then(|| [cell % nx, cell / nx % ny, cell / nx / ny])
    }

    /// The closed box of a cell: its lowest and its highest corner; none where the grid has no cell with this number.
    ///
    /// ```
    /// # let file = include_bytes!(concat!(env!("CARGO_MANIFEST_DIR"), "/../../examples/stall.frame"));
    /// let header = stall::read(file, 0).unwrap().header;
    /// assert_eq!(header.cell_box(2500), Some([[-1120, -360, 40], [-1080, -320, 80]]));
    /// ```
    pub fn cell_box(&self, cell: usize) -> Option<[Point; 2]> {
        let place = self.place(cell)?;
        let (origin, edge) = (self.origin.map(i32::from), i32::from(self.edge));
        let corner =
            |more: i32| [0, 1, 2].map(|w| (origin[w] + (place[w] as i32 + more) * edge) as i16);
        Some([corner(0), corner(1)])
    }
}

/// A record: a triangle of the file.
#[derive(Clone, Copy, Debug, PartialEq, Eq, Hash)]
pub struct Record {
    /// What it belongs to.
    pub kind: Kind,
    /// Its corners. They may lie outside the grid, coincide, or stand in one line.
    pub corners: [Point; 3],
}

/// The header's values, with a record where the file has it.
#[derive(Clone, Copy, Debug, PartialEq, Eq, Hash)]
pub struct Reading {
    /// The header's values.
    pub header: Header,
    /// The record that was asked for; none where its number is not below the count.
    pub record: Option<Record>,
}

/// Why [`read_numbers`] wrote nothing.
#[derive(Clone, Copy, Debug, PartialEq, Eq, Hash)]
pub enum NotRead {
    /// The file is refused.
    Refused(Refusal),
    /// The buffer is too short.
    Short {
        /// How many numbers there are to write.
        wanted: usize,
    },
}

impl Display for NotRead {
    fn fmt(&self, f: &mut Formatter<'_>) -> fmt::Result {
        match self {
            NotRead::Refused(refusal) => refusal.fmt(f),
            NotRead::Short { wanted } => write!(f, "the buffer has no room for {wanted} numbers"),
        }
    }
}

impl Error for NotRead {}

/// Reads the header's values, and the record with this number where the file has it. Records are counted from 0.
///
/// # Errors
///
/// A refusal by limits 1 to 7.
///
/// ```
/// # fn main() -> Result<(), stall::Refusal> {
/// # let file = include_bytes!(concat!(env!("CARGO_MANIFEST_DIR"), "/../../examples/g.frame"));
/// let reading = stall::read(file, 0)?;
/// assert_eq!((reading.header.cells, reading.header.edge), ([2, 2, 2], 10));
/// let record = reading.record.unwrap();
/// assert_eq!(record.kind, stall::Kind::Frame);
/// assert_eq!(record.corners, [[1, 20, 5], [20, 20, 5], [20, 1, 5]]);
/// assert_eq!(stall::read(file, 1)?.record, None);
/// # Ok(())
/// # }
/// ```
pub fn read(file: &[u8], record: usize) -> Result<Reading, Refusal> {
    let mut numbers = [0; READ_NUMBERS];
    match read_numbers(file, record, &mut numbers) {
        Ok(written) => Ok(Reading {
            header: header(&numbers),
            record: (written == READ_NUMBERS).then(|| record_of(&numbers)),
        }),
        Err(NotRead::Refused(refusal)) => Err(refusal),
        Err(NotRead::Short { .. }) => unreachable!("the buffer has room for every reading"),
    }
}

/// The same into a lent buffer: version, cells, edge, origin, count; then kind and corners. Gives how many numbers were
/// written, [`HEADER_NUMBERS`](crate::HEADER_NUMBERS) where the file has no such record. Numbers behind them keep their
/// values.
///
/// # Errors
///
/// [`NotRead::Refused`] by limits 1 to 7; [`NotRead::Short`] where the buffer has no room. The buffer is then as it was.
///
/// ```
/// # let file = include_bytes!(concat!(env!("CARGO_MANIFEST_DIR"), "/../../examples/g.frame"));
/// let mut numbers = [0; stall::HEADER_NUMBERS];
/// assert_eq!(stall::read_numbers(file, 1, &mut numbers), Ok(9));
/// assert_eq!(numbers, [1, 2, 2, 2, 10, 0, 0, 0, 1]);
/// assert_eq!(stall::read_numbers(file, 0, &mut numbers), Err(stall::NotRead::Short { wanted: 19 }));
/// ```
pub fn read_numbers(file: &[u8], record: usize, out: &mut [i32]) -> Result<usize, NotRead> {
    // SAFETY: both slices are alive for the call, the one that is written overlaps nothing, and the library keeps neither.
    let answer = unsafe {
        library::stall_read(
            file.as_ptr(),
            long(file),
            record as u64,
            out.as_mut_ptr(),
            long(out),
        )
    };
    match tag(answer) {
        DONE => Ok(low(answer)),
        SHORT => Err(NotRead::Short {
            wanted: low(answer),
        }),
        _ => Err(NotRead::Refused(refusal(answer))),
    }
}

/// Three numbers of a reading, from a place on. A coordinate has 14 bits.
fn point(numbers: &[i32; READ_NUMBERS], at: usize) -> Point {
    [at, at + 1, at + 2].map(|at| numbers[at] as i16)
}

/// The header of a reading's numbers.
fn header(numbers: &[i32; READ_NUMBERS]) -> Header {
    Header {
        version: numbers[0] as u8,
        cells: [1, 2, 3].map(|at| numbers[at] as usize),
        edge: numbers[4] as i16,
        origin: point(numbers, 5),
        count: numbers[8] as usize,
    }
}

/// The record of a reading's numbers. A file with kind 3 is refused before.
fn record_of(numbers: &[i32; READ_NUMBERS]) -> Record {
    let kind = match numbers[9] {
        0 => Kind::Frame,
        1 => Kind::EntryGate,
        _ => Kind::ExitGate,
    };
    let corners = [10, 13, 16].map(|at| point(numbers, at));
    Record { kind, corners }
}
