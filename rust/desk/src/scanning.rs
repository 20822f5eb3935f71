//! The reader of a scanner's PLY files.

use crate::{Grid, library};
use shared::Refusal;
use shared::answer::{counted, long};

/// Writes the frame file of a scanner's PLY file and a grid, and gives its length, [`file_len`](crate::file_len) of the
/// faces. It is the file that [`write()`](crate::write()) writes from the grid and the faces: triangle k is face k, with its
/// corners in the face's order, and every kind is [`Kind::Frame`](crate::Kind::Frame). Bytes behind the file keep their
/// contents. An output of [`FILE_MOST`](crate::FILE_MOST) bytes has room for every file.
///
/// The PLY file is binary little-endian 1.0. It has an element of vertices with x, y and z, each of type float, double or
/// int, and one of faces with the list `vertex_indices`, of uchar and int. `docs/FORMAT.md` of the repository has its header
/// line by line. Each number becomes the nearest whole millimetre, and a half goes to the even one.
///
/// # Errors
///
/// The first of these that holds. The output is then as it was.
///
/// - [`Limit::Unwritable`](crate::Limit::Unwritable): a number of the grid is outside its field, or the grid reaches beyond
///   8,191.
/// - [`Limit::PlyForm`](crate::Limit::PlyForm): the header has another form, there are more than 4,095 faces, or the body is
///   longer or shorter than its vertices and faces.
/// - [`Limit::PlyVertex`](crate::Limit::PlyVertex), with the lowest such vertex: a number is infinite, not a number, or
///   outside −8,192 to 8,191 once rounded. A vertex that no face uses counts too.
/// - [`Limit::PlyFace`](crate::Limit::PlyFace), with the lowest such face: it has not three corners, or an index that no
///   vertex has.
/// - [`Limit::ShortOutput`](crate::Limit::ShortOutput): the output is shorter than the file.
///
/// ```
/// # fn main() -> Result<(), desk::Refusal> {
/// use desk::{Grid, Kind, Limit, Triangle};
/// let mut ply = b"ply
/// format binary_little_endian 1.0
/// comment scanned at the entry
/// element vertex 3
/// property float x
/// property double y
/// property int z
/// element face 1
/// property list uchar int vertex_indices
/// end_header
/// ".to_vec();
/// for (x, y, z) in [(1.5, 19.75, 5), (20.5, 20.0, 5), (19.875, 0.5, 5)] {
///     ply.extend(f32::to_le_bytes(x));
///     ply.extend(f64::to_le_bytes(y));
///     ply.extend(i32::to_le_bytes(z));
/// }
/// ply.push(3);
/// ply.extend([0, 1, 2].into_iter().flat_map(i32::to_le_bytes));
///
/// let grid = Grid { cells: [2; 3], edge: 10, origin: [0; 3] };
/// let mut file = [0; desk::file_len(1)];
/// assert_eq!(desk::scan(&ply, &grid, &mut file)?, 28);
///
/// // Halves went to the even number.
/// let corners = [[2, 20, 5], [20, 20, 5], [20, 0, 5]];
/// let mut same = [0; desk::file_len(1)];
/// desk::write(&grid, &[Triangle { kind: Kind::Frame, corners }], &mut same)?;
/// assert_eq!(file, same);
///
/// // A vertex 3 is not there.
/// let last = ply.len() - 4;
/// ply[last] = 3;
/// let refusal = desk::scan(&ply, &grid, &mut file).unwrap_err();
/// assert_eq!((refusal.limit, refusal.place), (Limit::PlyFace, 0));
/// # Ok(())
/// # }
/// ```
pub fn scan(ply: &[u8], grid: &Grid, out: &mut [u8]) -> Result<usize, Refusal> {
    scan_numbers(ply, &grid.numbers(), out)
}

/// The same with the grid's flat numbers, as C has them: cells x, y, z, edge, origin x, y, z.
///
/// # Errors
///
/// As for [`scan`]. Another number than seven is refused by [`Limit::Unwritable`](crate::Limit::Unwritable) too, before all
/// else.
///
/// ```
/// let refusal = desk::scan_numbers(b"no PLY file", &[2, 2, 2, 10, 0, 0, 0], &mut []).unwrap_err();
/// assert_eq!(refusal.limit, desk::Limit::PlyForm);
/// let refusal = desk::scan_numbers(b"no PLY file", &[2, 2, 2, 10], &mut []).unwrap_err();
/// assert_eq!(refusal.limit, desk::Limit::Unwritable);
/// ```
pub fn scan_numbers(ply: &[u8], grid: &[i32], out: &mut [u8]) -> Result<usize, Refusal> {
    // SAFETY: the slices are alive for the call, the one that is written overlaps nothing, and the library keeps none.
    counted(unsafe {
        library::desk_scan(
            ply.as_ptr(),
            long(ply),
            grid.as_ptr(),
            long(grid),
            out.as_mut_ptr(),
            long(out),
        )
    })
}
