//! The route test.

use crate::{Point, library};
use shared::Refusal;
use shared::answer::{long, low, refusal, tag};

/// The top byte of an answer.
const FREE: u8 = 2;
const BLOCKED: u8 = 3;

/// What is said of a route.
#[derive(Clone, Copy, Debug, PartialEq, Eq, Hash)]
pub enum Route {
    /// No leg touches a filled cell.
    Free,
    /// Some leg touches a filled cell.
    Blocked {
        /// The first such leg. Leg m joins point m to point m + 1, from 0.
        leg: usize,
        /// Of the filled cells that it touches, the one that it reaches first: by the least fraction of the leg whose point
        /// lies in the cell's closed cube, compared exactly. Of several reached at once it is the lowest number.
        /// [`Header::cell_box`](crate::Header::cell_box) says where it is.
        cell: usize,
    },
}

/// Tests a route of 2 to 64 points on the map of a frame file.
///
/// The cells are read from the lent map as it is: any bytes are taken as a map. That a free route meets no triangle of the
/// file is promised only for a map that [`fill`](crate::fill) made from this very file.
///
/// # Errors
///
/// A refusal by limits 1 to 10.
///
/// ```
/// use stall::Route;
/// # fn main() -> Result<(), stall::Refusal> {
/// # let file = include_bytes!(concat!(env!("CARGO_MANIFEST_DIR"), "/../../examples/g.frame"));
/// let mut map = [0; 1];
/// stall::fill(file, &mut map)?;
/// assert_eq!(stall::test_route(file, &map, &[[0, 0, 0], [9, 9, 0]])?, Route::Free);
/// match stall::test_route(file, &map, &[[0, 0, 0], [9, 9, 0], [10, 10, 0]])? {
///     Route::Free => unreachable!(),
///     Route::Blocked { leg, cell } => assert_eq!((leg, cell), (1, 1)),
/// }
/// // This leg starts in cell 3, and comes to cell 1 later.
/// let route = stall::test_route(file, &map, &[[20, 20, 5], [0, 0, 5]])?;
/// assert_eq!(route, Route::Blocked { leg: 0, cell: 3 });
/// # Ok(())
/// # }
/// ```
pub fn test_route(file: &[u8], map: &[u8], points: &[Point]) -> Result<Route, Refusal> {
    test_route_numbers(file, map, points.as_flattened())
}

/// The same with the points as flat numbers, as C has them: x, y and z of each point in turn.
///
/// # Errors
///
/// A refusal by limits 1 to 10. A number left over is refused by limit 9.
///
/// ```
/// # let file = include_bytes!(concat!(env!("CARGO_MANIFEST_DIR"), "/../../examples/g.frame"));
/// let numbers = [0, 0, 0, 9, 9, 0];
/// assert_eq!(stall::test_route_numbers(file, &[0x70], &numbers), Ok(stall::Route::Free));
/// let refusal = stall::test_route_numbers(file, &[0x70], &numbers[..5]).unwrap_err();
/// assert_eq!(refusal.limit, stall::Limit::PointCount);
/// ```
pub fn test_route_numbers(file: &[u8], map: &[u8], numbers: &[i16]) -> Result<Route, Refusal> {
    // SAFETY: the slices are alive for the call, nothing is written, and the library keeps none.
    let answer = unsafe {
        library::stall_route(
            file.as_ptr(),
            long(file),
            map.as_ptr(),
            long(map),
            numbers.as_ptr(),
            long(numbers),
        )
    };
    match tag(answer) {
        FREE => Ok(Route::Free),
        BLOCKED => Ok(Route::Blocked {
            leg: usize::from((answer >> 32) as u16),
            cell: low(answer),
        }),
        _ => Err(refusal(answer)),
    }
}
