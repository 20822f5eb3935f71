//! The bar behind a cell.

use crate::{Point, WEIGHTS, library};
use shared::Refusal;
use shared::answer::{DONE, long, low, refusal, tag};

/// The top byte of the answer for a cell that no triangle reaches.
const CLEAR: u8 = 5;
/// The top byte of the answer where there is no room for the weights.
const SHORT: u8 = 4;

/// The triangle of a file that is behind a cell: of those that reach it, the one with the lowest number. By its weights a point
/// of it is known that lies in the cell.
#[derive(Clone, Copy, Debug, PartialEq, Eq, Hash)]
pub struct Bar {
    /// The number of its record, from 0.
    pub record: usize,
    /// A weight for each corner. None is negative, and they add to at least 1 and less than 2^30. Which weights are given, of
    /// those whose point lies in the cell, is left open.
    pub weights: [i64; WEIGHTS],
}

impl Bar {
    /// The point that the weights give with the corners of the record, without rounding: its x, y and z are these three
    /// numbers, each divided by the last one. It lies in the closed cube of the cell.
    ///
    /// ```
    /// let bar = desk::Bar { record: 0, weights: [1, 0, 3] };
    /// let corners = [[1, 20, 5], [20, 20, 5], [20, 1, 5]];
    /// assert_eq!(bar.point(&corners), ([61, 23, 20], 4));
    /// ```
    pub fn point(&self, corners: &[Point; 3]) -> ([i64; 3], i64) {
        let weighted = self.weights.iter().zip(corners);
        let sum = weighted.fold([0; 3], |sum, (weight, corner)| {
            [0, 1, 2].map(|axis| sum[axis] + weight * i64::from(corner[axis]))
        });
        (sum, self.weights.iter().sum())
    }
}

/// Says which triangle of a frame file is behind a cell. None where the cell is clear: where no triangle reaches it.
///
/// A triangle reaches a cell where a point of it lies in the cell's closed cube, and so exactly where it fills the cell. Cells
/// are numbered as in the map of the file.
///
/// # Errors
///
/// A refusal by limits 1 to 7; then [`Limit::CellOutside`](crate::Limit::CellOutside) where the grid has no cell with this
/// number.
///
/// ```
/// # fn main() -> Result<(), desk::Refusal> {
/// use desk::{Grid, Kind, Limit, Triangle};
/// let grid = Grid { cells: [2; 3], edge: 10, origin: [0; 3] };
/// let corners = [[1, 20, 5], [20, 20, 5], [20, 1, 5]];
/// let mut file = [0; desk::file_len(1)];
/// desk::write(&grid, &[Triangle { kind: Kind::Frame, corners }], &mut file)?;
///
/// let bar = desk::bar(&file, 1)?.unwrap();
/// assert_eq!(bar.record, 0);
/// assert!(bar.weights.iter().all(|&weight| weight >= 0));
/// // Cell 1 goes from (10, 0, 0) to (20, 10, 10).
/// let ([x, y, z], total) = bar.point(&corners);
/// assert!((10 * total..=20 * total).contains(&x));
/// assert!((0..=10 * total).contains(&y) && (0..=10 * total).contains(&z));
///
/// assert_eq!(desk::bar(&file, 0)?, None);
/// assert_eq!(desk::bar(&file, 8).unwrap_err().limit, Limit::CellOutside);
/// # Ok(())
/// # }
/// ```
pub fn bar(file: &[u8], cell: usize) -> Result<Option<Bar>, Refusal> {
    let mut weights = [0; WEIGHTS];
    // SAFETY: both are alive for the call, what is written overlaps nothing, and the library keeps neither.
    let answer = unsafe {
        library::desk_bar(
            file.as_ptr(),
            long(file),
            cell as u64,
            weights.as_mut_ptr(),
            long(&weights),
        )
    };
    match tag(answer) {
        DONE => Ok(Some(Bar {
            record: low(answer),
            weights,
        })),
        CLEAR => Ok(None),
        SHORT => unreachable!("there is room for three weights"),
        _ => Err(refusal(answer)),
    }
}
