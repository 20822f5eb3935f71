//! The route test.

use crate::frame::{accept, Header};
use crate::map::{is_filled, touched_cells};
use crate::{question, Refusal};

type Point = [i64; 3];

/// What is said of a route that is not refused.
#[derive(Clone, Copy, Debug, PartialEq, Eq)]
pub enum Route {
    Free,
    Blocked { leg: usize, cell: usize },
}

/// Tests the route through the points whose x, y, z are `numbers`, on the map as it is.
pub fn test_route(file: &[u8], map: &[u8], numbers: &[i16]) -> Result<Route, Refusal> {
    let (header, _) = accept(file)?;
    question(8, 0, map.len() >= header.map_bytes())?;
    question(
        9,
        0,
        numbers.len().is_multiple_of(3) && (2..=64).contains(&(numbers.len() / 3)),
    )?;
    let points: Vec<Point> = numbers
        .chunks(3)
        .map(|xyz| [xyz[0], xyz[1], xyz[2]].map(i64::from))
        .collect();
    for (number, point) in points.iter().enumerate() {
        let inside = |axis: usize| {
            let low = header.origin[axis];
            (low..=low + header.cells[axis] * header.edge).contains(&point[axis])
        };
        question(10, number, inside(0) && inside(1) && inside(2))?;
    }
    for (leg, ends) in points.windows(2).enumerate() {
        if let Some(cell) = first_cell(&header, map, ends[0], ends[1]) {
            return Ok(Route::Blocked { leg, cell });
        }
    }
    Ok(Route::Free)
}

/// Of the filled cells that the leg from a to b touches, the one that it reaches first. Equal fractions go to the lowest.
fn first_cell(header: &Header, map: &[u8], a: Point, b: Point) -> Option<usize> {
    // A leg from A to B is the triangle A, B, B.
    let touched = touched_cells(header, [a, b, b]);
    let filled = touched.into_iter().filter(|&n| is_filled(map, n));
    let reached = filled.map(|n| {
        let corner = header.lowest_corner(header.cell(n));
        (least_fraction(a, b, corner, header.edge), n)
    });
    reached.min().map(|(_, n)| n)
}

/// The least fraction of the leg from a to b whose point lies in the closed cube with lowest corner p and edge s.
///
/// It is counted in parts of the leg, of which there are as many as the product of its lengths along the axes. So the leg
/// meets each plane between cells at the end of a part, and nothing is rounded.
fn least_fraction(a: Point, b: Point, p: Point, s: i64) -> i64 {
    let along = [0, 1, 2].map(|axis| b[axis] - a[axis]);
    let parts: i64 = along.iter().map(|length| length.abs().max(1)).product();
    let in_cube = |part: i64| {
        (0..3).all(|axis| {
            let value = a[axis] * parts + along[axis] * part;
            (p[axis] * parts..=(p[axis] + s) * parts).contains(&value)
        })
    };
    // The first point in the cube is the leg's start, or one where the leg meets the plane of a face.
    let mut proposed = vec![0];
    for axis in (0..3).filter(|&axis| along[axis] != 0) {
        for face in [p[axis], p[axis] + s] {
            proposed.push((face - a[axis]) * parts / along[axis]);
        }
    }
    proposed.retain(|&part| (0..=parts).contains(&part) && in_cube(part));
    let least = proposed.into_iter().min();
    least.expect("a leg has a point in each cell that it touches")
}
