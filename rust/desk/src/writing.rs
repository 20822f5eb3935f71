//! The writer of frame files.

use crate::{GRID_NUMBERS, Point, TRIANGLE_NUMBERS, library};
use core::slice;
use shared::answer::{counted, long};
use shared::{Kind, Refusal};

/// The grid of a file. On each axis it ends at origin + cells × edge, which is at most 8,191.
#[derive(Clone, Copy, Debug, PartialEq, Eq, Hash)]
pub struct Grid {
    /// The cells along x, y and z: 1 to 64 each.
    pub cells: [i32; 3],
    /// The edge of a cell, in millimetres: 1 to 255.
    pub edge: i32,
    /// The lowest corner of the grid: −8,192 to 8,191 on each axis.
    pub origin: Point,
}

impl Grid {
    /// The seven numbers of the grid, as [`write_numbers`] and [`scan_numbers`](crate::scan_numbers) take them.
    pub const fn numbers(&self) -> [i32; GRID_NUMBERS] {
        let ([nx, ny, nz], [x, y, z]) = (self.cells, self.origin);
        [nx, ny, nz, self.edge, x, y, z]
    }
}

/// A triangle of a file. In memory it is its ten numbers, as [`write_numbers`] takes them.
#[derive(Clone, Copy, Debug, PartialEq, Eq, Hash)]
#[repr(C)]
pub struct Triangle {
    /// What it belongs to.
    pub kind: Kind,
    /// Its corners: −8,192 to 8,191 on each axis. They may lie outside the grid, coincide, or stand in one line.
    pub corners: [Point; 3],
}

const _: () = assert!(size_of::<Triangle>() == TRIANGLE_NUMBERS * size_of::<i32>());

/// The length in bytes of a file with so many triangles.
pub const fn file_len(triangles: usize) -> usize {
    12 + 16 * triangles
}

/// Writes the frame file of a grid and triangles, and gives its length, [`file_len`] of the triangles. Bytes behind the file
/// keep their contents. An output of [`FILE_MOST`](crate::FILE_MOST) bytes has room for every file.
///
/// # Errors
///
/// [`Limit::Unwritable`](crate::Limit::Unwritable) where a number is outside its field, the grid reaches beyond 8,191, or there
/// are more than 4,095 triangles; then [`Limit::ShortOutput`](crate::Limit::ShortOutput) where the output is shorter than the
/// file. The output is then as it was.
///
/// ```
/// # fn main() -> Result<(), desk::Refusal> {
/// use desk::{Grid, Kind, Limit, Triangle};
/// let grid = Grid { cells: [2; 3], edge: 10, origin: [0; 3] };
/// let plate = [[0, 0, 5], [20, 0, 5], [20, 20, 5], [0, 20, 5]];
/// let halves = [[0, 1, 2], [0, 2, 3]].map(|half| Triangle {
///     kind: Kind::EntryGate,
///     corners: half.map(|corner| plate[corner]),
/// });
/// let mut out = [0xaa; 50];
/// assert_eq!(desk::write(&grid, &halves, &mut out)?, 44);
/// assert_eq!(out[44..], [0xaa; 6]);
/// let refusal = desk::write(&grid, &halves, &mut out[..43]).unwrap_err();
/// assert_eq!(refusal.limit, Limit::ShortOutput);
/// # Ok(())
/// # }
/// ```
pub fn write(grid: &Grid, triangles: &[Triangle], out: &mut [u8]) -> Result<usize, Refusal> {
    write_numbers(&grid.numbers(), numbers(triangles), out)
}

/// The same with flat numbers, as C has them: cells x, y, z, edge, origin x, y, z of the grid; of each triangle its kind, and
/// x, y, z of three corners.
///
/// # Errors
///
/// As for [`write()`]. Another kind than 0, 1 and 2, another number than seven for the grid, and a part of a triangle are refused
/// by [`Limit::Unwritable`](crate::Limit::Unwritable) too.
///
/// ```
/// let grid = [2, 2, 2, 10, 0, 0, 0];
/// let triangle = [0, 1, 20, 5, 20, 20, 5, 20, 1, 5];
/// let mut out = [0; 28];
/// assert_eq!(desk::write_numbers(&grid, &triangle, &mut out), Ok(28));
/// let refusal = desk::write_numbers(&grid, &triangle[..9], &mut out).unwrap_err();
/// assert_eq!(refusal.limit, desk::Limit::Unwritable);
/// ```
pub fn write_numbers(grid: &[i32], triangles: &[i32], out: &mut [u8]) -> Result<usize, Refusal> {
    // SAFETY: the slices are alive for the call, the one that is written overlaps nothing, and the library keeps none.
    counted(unsafe {
        library::desk_write(
            grid.as_ptr(),
            long(grid),
            triangles.as_ptr(),
            long(triangles),
            out.as_mut_ptr(),
            long(out),
        )
    })
}

/// The numbers of triangles, where they are.
fn numbers(triangles: &[Triangle]) -> &[i32] {
    let count = TRIANGLE_NUMBERS * triangles.len();
    // SAFETY: a triangle is ten numbers of 32 bits, by its layout and that of its kind, with nothing between them.
    unsafe { slice::from_raw_parts(triangles.as_ptr().cast(), count) }
}
