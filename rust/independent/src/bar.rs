//! The bar behind a cell.

use crate::frame::{accept, Header, Record};
use crate::{question, Refusal};

/// A point by exact fractions: x, y and z, each over the last number, which is above 0.
type Corner = [i128; 4];

/// The lowest-numbered triangle that reaches a cell; none where the cell is clear.
pub fn bar(file: &[u8], cell: usize) -> Result<Option<usize>, Refusal> {
    let (header, records) = accept(file)?;
    question(16, 0, cell < header.cells_in_all())?;
    let lowest = header.lowest_corner(header.cell(cell));
    Ok(records
        .iter()
        .position(|record| reaches(&record.corners, lowest, header.edge)))
}

/// Does a triangle have a point in the closed cube with lowest corner p and edge s? What lies beyond each of the cube's six
/// faces is cut off in turn, as by Sutherland and Hodgman (1974), and it does where something is left. A segment and a point
/// are cut like any other.
fn reaches(triangle: &[[i64; 3]; 3], p: [i64; 3], s: i64) -> bool {
    let mut corners: Vec<Corner> = triangle
        .iter()
        .map(|&[x, y, z]| [x, y, z, 1].map(i128::from))
        .collect();
    for axis in 0..3 {
        let (low, high) = (i128::from(p[axis]), i128::from(p[axis] + s));
        corners = cut(&corners, |corner| corner[axis] - low * corner[3]);
        corners = cut(&corners, |corner| high * corner[3] - corner[axis]);
    }
    !corners.is_empty()
}

/// The part of a polygon at which a measure is not negative. The measure of a point is its distance from a plane, times the
/// point's last number.
fn cut(corners: &[Corner], measure: impl Fn(&Corner) -> i128) -> Vec<Corner> {
    let mut left = Vec::new();
    for (i, from) in corners.iter().enumerate() {
        let to = &corners[(i + 1) % corners.len()];
        let (at_from, at_to) = (measure(from), measure(to));
        if at_from >= 0 {
            left.push(*from);
        }
        if (at_from < 0 && at_to > 0) || (at_from > 0 && at_to < 0) {
            left.push(between(from, at_from.abs(), to, at_to.abs()));
        }
    }
    left
}

/// The point where the side from one corner to another meets a plane, by the measures of both. Each corner counts by the
/// other's measure. It is said in lowest terms, so that numbers stay short: a point on a side of the triangle has a denominator
/// below 2^14, one inside of it below 2^28.
fn between(from: &Corner, at_from: i128, to: &Corner, at_to: i128) -> Corner {
    let point = [0, 1, 2, 3].map(|i| from[i] * at_to + to[i] * at_from);
    let common = point.into_iter().fold(0, greatest_divisor);
    point.map(|number| number / common)
}

/// The greatest common divisor of two numbers of any sign.
fn greatest_divisor(a: i128, b: i128) -> i128 {
    let (mut a, mut b) = (a.abs(), b.abs());
    while b != 0 {
        (a, b) = (b, a % b);
    }
    a
}

/// Do the weights show that a record's triangle reaches a cell? They are whole, none negative, adding to at least 1 and less
/// than 2^30. The weighted point lies in the closed cube.
pub fn weights_show(header: &Header, record: &Record, cell: usize, weights: [i64; 3]) -> bool {
    let weights = weights.map(i128::from);
    let total: i128 = weights.iter().sum();
    let lowest = header.lowest_corner(header.cell(cell));
    weights.iter().all(|&weight| weight >= 0)
        && (1..1 << 30).contains(&total)
        && (0..3).all(|axis| {
            let values = record.corners.map(|corner| i128::from(corner[axis]));
            let sum: i128 = (0..3).map(|corner| weights[corner] * values[corner]).sum();
            let (low, high) = (lowest[axis], lowest[axis] + header.edge);
            (i128::from(low) * total..=i128::from(high) * total).contains(&sum)
        })
}
