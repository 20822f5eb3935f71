//! The verified library for the drawing office and the service laptop, in safe Rust: frame files are written, from numbers
//! and from the PLY files of scanners, and the bar behind a filled cell is shown.
//!
//! The work is done by `libdesk.a`, which is proved; this crate only passes slices on and takes answers apart. It needs no
//! standard library and allocates nothing. The frame file, the PLY files that are read, and what to do about each limit, are
//! in `docs/FORMAT.md` of the repository. The crate `stall` reads frame files, and has the same types of kinds, limits and
//! refusals.
//!
//! ```
//! # fn main() -> Result<(), desk::Refusal> {
//! use desk::{Grid, Kind, Triangle};
//!
//! // A grid of 2 × 2 × 2 cells of edge 10 from the origin, and one triangle.
//! let grid = Grid { cells: [2, 2, 2], edge: 10, origin: [0, 0, 0] };
//! let corners = [[1, 20, 5], [20, 20, 5], [20, 1, 5]];
//! let triangles = [Triangle { kind: Kind::Frame, corners }];
//!
//! let mut file = vec![0; desk::file_len(triangles.len())];
//! assert_eq!(desk::write(&grid, &triangles, &mut file)?, 28);
//! assert_eq!(file[..4], [0x10, 0x41, 0x04, 0x28]);
//!
//! // The triangle is behind cell 1, and does not reach cell 0.
//! let bar = desk::bar(&file, 1)?.unwrap();
//! assert_eq!(bar.record, 0);
//! assert_eq!(desk::bar(&file, 0)?, None);
//!
//! let far = Grid { origin: [0, 0, 8172], ..grid };
//! let refusal = desk::write(&far, &triangles, &mut file).unwrap_err();
//! assert_eq!(refusal.limit, desk::Limit::Unwritable);
//! # Ok(())
//! # }
//! ```
//!
//! # Linking
//!
//! The build script links the archive from the folder that the variable `DESK_LIB` names, by an absolute path. Without it
//! the folder is `target/staticlib` of the repository, for x86-64. It ends the build with a message where the archive is
//! missing, or is for another machine.

#![no_std]
#![deny(missing_docs)]

mod bar;
pub mod library;
mod scanning;
mod writing;

pub use bar::{Bar, bar};
pub use scanning::{scan, scan_numbers};
pub use shared::{Kind, Limit, Refusal};
pub use writing::{Grid, Triangle, file_len, write, write_numbers};

/// The most triangles of a file.
pub const TRIANGLES_MOST: usize = 4_095;
/// The longest file, in bytes: [`TRIANGLES_MOST`] triangles.
pub const FILE_MOST: usize = file_len(TRIANGLES_MOST);
/// How many numbers [`write_numbers`] and [`scan_numbers`] take for the grid.
pub const GRID_NUMBERS: usize = 7;
/// How many numbers [`write_numbers`] takes for a triangle.
pub const TRIANGLE_NUMBERS: usize = 10;
/// How many weights a [`Bar`] has: one a corner.
pub const WEIGHTS: usize = 3;

/// A point: x, y and z, in whole millimetres.
pub type Point = [i32; 3];
