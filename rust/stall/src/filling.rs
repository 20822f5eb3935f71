//! The fill, at once and in steps.

use crate::library;
use shared::Refusal;
use shared::answer::{counted, long};

/// Fills the map of a frame file, and gives the number of filled cells. Bytes behind the map keep their contents. A buffer
/// of [`MAP_MOST`](crate::MAP_MOST) bytes has room for every map.
///
/// # Errors
///
/// A refusal by limits 1 to 8. The map is then as it was.
///
/// ```
/// # let file = include_bytes!(concat!(env!("CARGO_MANIFEST_DIR"), "/../../examples/g.frame"));
/// let mut map = [0; 1];
/// assert_eq!(stall::fill(file, &mut map), Ok(3));
/// assert_eq!(map, [0x70]);
/// assert_eq!(stall::fill(file, &mut []).unwrap_err().limit, stall::Limit::ShortMap);
/// ```
pub fn fill(file: &[u8], map: &mut [u8]) -> Result<usize, Refusal> {
    // SAFETY: both slices are alive for the call, the one that is written overlaps nothing, and the library keeps neither.
    counted(unsafe { library::stall_fill(file.as_ptr(), long(file), map.as_mut_ptr(), long(map)) })
}

/// Begins a fill in steps: empties the map of a frame file, and gives the number of its records. With [`fill_some`] for
/// every record, in any order, and then [`fill_end`], the map and the count are those of [`fill`].
///
/// # Errors
///
/// A refusal by limits 1 to 8. The map is then as it was.
///
/// ```
/// # fn kick_watchdog() {}
/// # fn main() -> Result<(), stall::Refusal> {
/// # let file = include_bytes!(concat!(env!("CARGO_MANIFEST_DIR"), "/../../examples/stall.frame"));
/// let mut map = [0; stall::MAP_MOST];
/// let records = stall::fill_begin(file, &mut map)?;
/// for first in (0..records).step_by(64) {
///     stall::fill_some(file, &mut map, first, 64)?;
///     kick_watchdog();
/// }
/// assert_eq!(stall::fill_end(file, &map)?, 4012);
/// # Ok(())
/// # }
/// ```
pub fn fill_begin(file: &[u8], map: &mut [u8]) -> Result<usize, Refusal> {
    // SAFETY: as for the fill.
    counted(unsafe {
        library::stall_fill_begin(file.as_ptr(), long(file), map.as_mut_ptr(), long(map))
    })
}

/// Fills the cells of `count` records from number `first` on, and leaves the other cells as they are. Gives how many of
/// these records the file has. Each call asks the file its questions again, so that a range a call is cheaper than a
/// record a call.
///
/// # Errors
///
/// A refusal by limits 1 to 8. The map is then as it was.
///
/// ```
/// # let file = include_bytes!(concat!(env!("CARGO_MANIFEST_DIR"), "/../../examples/g.frame"));
/// let mut map = [0x08];
/// assert_eq!(stall::fill_some(file, &mut map, 0, 64), Ok(1));
/// assert_eq!(map, [0x78]);
/// assert_eq!(stall::fill_some(file, &mut map, 1, 64), Ok(0));
/// ```
pub fn fill_some(
    file: &[u8],
    map: &mut [u8],
    first: usize,
    count: usize,
) -> Result<usize, Refusal> {
    let (first, count) = (first as u64, count as u64);
    // SAFETY: as for the fill.
    counted(unsafe {
        library::stall_fill_some(
            file.as_ptr(),
            long(file),
            map.as_mut_ptr(),
            long(map),
            first,
            count,
        )
    })
}

/// Ends a fill in steps: gives the number of filled cells, and writes nothing.
///
/// # Errors
///
/// A refusal by limits 1 to 8.
///
/// ```
/// # let file = include_bytes!(concat!(env!("CARGO_MANIFEST_DIR"), "/../../examples/g.frame"));
/// assert_eq!(stall::fill_end(file, &[0x70]), Ok(3));
/// ```
pub fn fill_end(file: &[u8], map: &[u8]) -> Result<usize, Refusal> {
    // SAFETY: the slices are alive for the call, nothing is written, and the library keeps none.
    counted(unsafe { library::stall_fill_end(file.as_ptr(), long(file), map.as_ptr(), long(map)) })
}
