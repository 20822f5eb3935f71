//! The rule as printed: no peer, but what the peers are held to. It is that of `rust/independent`,
//! and its answers are said in the library's types.

use stall::{Limit, Refusal, Route};

/// The fill.
pub fn fill(file: &[u8], map: &mut [u8]) -> Result<usize, Refusal> {
    independent::fill(file, map).map_err(refusal)
}

/// The route test.
pub fn test_route(file: &[u8], map: &[u8], numbers: &[i16]) -> Result<Route, Refusal> {
    match independent::test_route(file, map, numbers) {
        Ok(independent::Route::Free) => Ok(Route::Free),
        Ok(independent::Route::Blocked { leg, cell }) => Ok(Route::Blocked { leg, cell }),
        Err(no) => Err(refusal(no)),
    }
}

/// The writer.
pub fn write(grid: &[i32], triangles: &[i32], out: &mut [u8]) -> Result<usize, Refusal> {
    independent::write_file(grid, triangles, out).map_err(refusal)
}

/// The reader of scanner files.
pub fn scan(ply: &[u8], grid: &[i32], out: &mut [u8]) -> Result<usize, Refusal> {
    independent::scan(ply, grid, out).map_err(refusal)
}

/// The number of the record behind a cell.
pub fn bar(file: &[u8], cell: usize) -> Result<Option<usize>, Refusal> {
    independent::bar(file, cell).map_err(refusal)
}

/// Do the weights of a bar show that it reaches a cell of an accepted file?
pub fn shows(file: &[u8], cell: usize, bar: &desk::Bar) -> bool {
    let (header, record) = independent::read(file, bar.record).unwrap();
    independent::weights_show(&header, &record.unwrap(), cell, bar.weights)
}

/// A refusal in the library's type.
fn refusal(no: independent::Refusal) -> Refusal {
    Refusal {
        limit: Limit::from_number(no.number as u8).unwrap(),
        place: no.place,
    }
}
