//! The verified library for a milking stall, in safe Rust: the map of a barn's steel frame, and the test of a route.
//!
//! The work is done by `libstall.a`, which is proved; this crate only passes slices on and takes answers apart. It needs no
//! standard library and allocates nothing. The formats of file, map and route, and what to do about each limit, are in
//! `docs/FORMAT.md` of the repository.
//!
//! ```
//! # fn main() -> Result<(), Box<dyn std::error::Error>> {
//! // A grid of 2 × 2 × 2 cells of edge 10 from the origin, and one triangle.
//! let file = [
//!     0x10, 0x41, 0x04, 0x28, 0x00, 0x00, 0x00, 0x00, 0x00, 0x00, 0x10, 0x00, 0x00, 0x01, 0x00, 0x50, 0x00, 0x50,
//!     0x05, 0x00, 0x14, 0x00, 0x14, 0x01, 0x40, 0x00, 0x40, 0x05,
//! ];
//! let mut map = [0; stall::MAP_MOST];
//! assert_eq!(stall::fill(&file, &mut map)?, 3);
//! assert_eq!(map[0], 0x70);
//!
//! let free = [[0, 0, 0], [9, 9, 0]];
//! assert_eq!(stall::test_route(&file, &map, &free)?, stall::Route::Free);
//! let blocked = [[0, 0, 0], [10, 10, 0]];
//! assert_eq!(stall::test_route(&file, &map, &blocked)?, stall::Route::Blocked { leg: 0, cell: 1 });
//!
//! let header = stall::read(&file, 0)?.header;
//! assert_eq!(header.place(1), Some([1, 0, 0]));
//! assert_eq!(header.cell_box(1), Some([[10, 0, 0], [20, 10, 10]]));
//!
//! let refusal = stall::fill(&file[..27], &mut map).unwrap_err();
//! assert_eq!(refusal.limit, stall::Limit::FileLength);
//! assert_eq!(refusal.to_string(), "limit 6: the file's length does not fit its triangle count");
//! # Ok(())
//! # }
//! ```
//!
//! # Linking
//!
//! The build script links the archive from the folder that the variable `STALL_LIB` names, by an absolute path. Without
//! it the folder is `target/staticlib` of the repository for x86-64, and `target/firmware` for `thumbv7m` targets. It ends
//! the build with a message where the archive is missing, or is for another machine.

#![no_std]
#![deny(missing_docs)]

mod filling;
pub mod library;
mod reading;
mod route;

pub use filling::{fill, fill_begin, fill_end, fill_some};
pub use reading::{Header, NotRead, Reading, Record, read, read_numbers};
pub use route::{Route, test_route, test_route_numbers};
pub use shared::{Kind, Limit, Refusal};

/// The longest file, in bytes: 4,095 triangles.
pub const FILE_MOST: usize = 65_532;
/// The longest map, in bytes: 64 × 64 × 64 cells.
pub const MAP_MOST: usize = 32_768;
/// The most points of a route.
pub const POINTS_MOST: usize = 64;
/// How many numbers [`read_numbers`] writes where the file has no such record.
pub const HEADER_NUMBERS: usize = 9;
/// How many numbers [`read_numbers`] writes where the file has the record.
pub const READ_NUMBERS: usize = 19;

/// A point: x, y and z, in whole millimetres.
pub type Point = [i16; 3];
