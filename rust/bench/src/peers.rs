//! The peers: four ways to fill a map. Each reads the file, asks the questions, and counts.

use crate::frame::{Frame, Grid};
use crate::halving;
use crate::map::Map;
use crate::rule::{cells_of_box, Block, Point, Setup, Triangle, PLANES};
use stall::Refusal;

/// A fill: the number of filled cells, or the refusal.
pub type Fill = fn(&[u8], &mut [u8]) -> Result<usize, Refusal>;

/// The peers by name. The first is the verified library.
pub const PEERS: [(&str, Fill); 4] = [
    ("rattle", stall::fill),
    ("halving", halving),
    ("box", every_cell),
    ("column", columns),
];

/// Fills a map by a way to place one triangle.
#[inline(always)]
fn fill_by(
    file: &[u8],
    lent: &mut [u8],
    place: impl Fn(&mut Map, &Triangle),
) -> Result<usize, Refusal> {
    let frame = Frame::read(file, lent.len())?;
    let mut map = Map::new(frame.grid, lent);
    for triangle in frame.triangles() {
        place(&mut map, &triangle);
    }
    Ok(map.count())
}

/// The lowest corner of a cell.
#[inline(always)]
pub fn corner(grid: &Grid, i: usize, j: usize, k: usize) -> Point {
    let along = |w: usize, i: usize| grid.origin[w] + i as i64 * grid.edge;
    [along(0, i), along(1, j), along(2, k)]
}

// ---- every cell of the triangle's box of cells, as in document 004

pub fn every_cell(file: &[u8], map: &mut [u8]) -> Result<usize, Refusal> {
    fill_by(file, map, |map, t| {
        if let Some(block) = cells_of_box(t, &map.grid) {
            walk_box(map, &Setup::new(t, map.grid.edge), block);
        }
    })
}

fn walk_box(map: &mut Map, setup: &Setup, [x, y, z]: Block) {
    for k in z {
        for j in y.clone() {
            for i in x.clone() {
                if setup.overlaps(corner(&map.grid, i, j, k)) {
                    map.set([i, j, k]);
                }
            }
        }
    }
}

// ---- columns along the dominant axis of the normal, as in figure 17 of document 002

pub fn columns(file: &[u8], map: &mut [u8]) -> Result<usize, Refusal> {
    fill_by(file, map, |map, t| {
        if let Some(block) = cells_of_box(t, &map.grid) {
            let setup = Setup::new(t, map.grid.edge);
            let [x, y, z] = setup.normal.map(i64::abs);
            if x.max(y).max(z) == 0 {
                walk_box(map, &setup, block);
            } else if x >= y && x >= z {
                walk_columns::<0>(map, &setup, block);
            } else if y >= z {
                walk_columns::<1>(map, &setup, block);
            } else {
                walk_columns::<2>(map, &setup, block);
            }
        }
    })
}

/// The columns along axis W, on which the normal is not 0. In a column the plane leaves a range of
/// cells, which two divisions find.
fn walk_columns<const W: usize>(map: &mut Map, setup: &Setup, block: Block) {
    let (u, v) = PLANES[W];
    let Grid { edge, origin, .. } = map.grid;
    let at = |w: usize, i: usize| origin[w] + i as i64 * edge;
    // the normal turned upward on W
    let up = if setup.normal[W] < 0 { -1 } else { 1 };
    let n = setup.normal.map(|x| up * x);
    let (above, below) = if up < 0 {
        (-setup.below, -setup.above)
    } else {
        (setup.above, setup.below)
    };
    let step = n[W] * edge;
    for i in block[u].clone() {
        for j in block[v].clone() {
            let (pu, pv) = (at(u, i), at(v, j));
            if !setup.in_plane(W, pu, pv) {
                continue;
            }
            // base + k × step + above >= 0, and base + k × step + below <= 0
            let base = n[u] * pu + n[v] * pv + n[W] * origin[W];
            let first = -(base + above).div_euclid(step);
            let end = (-(base + below)).div_euclid(step) + 1;
            let first = first.max(block[W].start as i64) as usize;
            let end = end.clamp(0, block[W].end as i64) as usize;
            for k in first..end {
                let pw = at(W, k);
                if setup.in_plane(u, pv, pw) && setup.in_plane(v, pw, pu) {
                    let mut cell = [0; 3];
                    (cell[u], cell[v], cell[W]) = (i, j, k);
                    map.set(cell);
                }
            }
        }
    }
}

// ---- blocks of columns, halved without the halves that an edge rules out: as the library does

pub fn halving(file: &[u8], map: &mut [u8]) -> Result<usize, Refusal> {
    fill_by(file, map, halving::fill_triangle)
}
