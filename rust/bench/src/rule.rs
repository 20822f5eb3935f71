//! The overlap rule, as eleven linear forms of a cell's lowest corner.

use crate::frame::Grid;
use std::ops::Range;

pub type Point = [i64; 3];
pub type Triangle = [Point; 3];
/// A range of cells on each axis.
pub type Block = [Range<usize>; 3];

/// The plane of two axes that an axis stands upright on: YZ, ZX, XY.
pub const PLANES: [(usize, usize); 3] = [(1, 2), (2, 0), (0, 1)];

/// An edge in the plane of two axes: a cell with lowest corner (u, v) reaches its inner side where
/// a × u + b × v + c >= 0.
#[derive(Clone, Copy)]
pub struct Edge {
    pub a: i64,
    pub b: i64,
    pub c: i64,
}

/// What the test of a cell needs of a triangle, beyond the boxes.
pub struct Setup {
    pub normal: Point,
    /// n · p + above is the greatest n · (q - v0) over the corners q of the cell at p,
    pub above: i64,
    /// and n · p + below is the least.
    pub below: i64,
    /// The three edges in each plane, in the order of `PLANES`.
    pub edges: [[Edge; 3]; 3],
}

/// The cross product of v1 - v0 and v2 - v0.
pub fn normal([v0, v1, v2]: &Triangle) -> Point {
    PLANES.map(|(u, v)| (v1[u] - v0[u]) * (v2[v] - v0[v]) - (v1[v] - v0[v]) * (v2[u] - v0[u]))
}

impl Setup {
    /// The forms for cells with edge s.
    pub fn new(t: &Triangle, s: i64) -> Setup {
        let n = normal(t);
        let (mut above, mut below) = (0, 0);
        for w in 0..3 {
            above += (s * n[w]).max(0) - n[w] * t[0][w];
            below += (s * n[w]).min(0) - n[w] * t[0][w];
        }
        let edge = |w: usize, i: usize| {
            let (u, v) = PLANES[w];
            let (from, to) = (&t[i], &t[(i + 1) % 3]);
            let sign = if n[w] < 0 { -1 } else { 1 };
            let a = sign * (from[v] - to[v]);
            let b = sign * (to[u] - from[u]);
            let c = (s * a).max(0) + (s * b).max(0) - a * from[u] - b * from[v];
            Edge { a, b, c }
        };
        let edges = [0, 1, 2].map(|w| [0, 1, 2].map(|i| edge(w, i)));
        Setup {
            normal: n,
            above,
            below,
            edges,
        }
    }

    /// Does the cell with lowest corner (u, v) in plane w reach the inner side of all three edges?
    #[inline(always)]
    pub fn in_plane(&self, w: usize, u: i64, v: i64) -> bool {
        self.edges[w].iter().all(|e| e.a * u + e.b * v + e.c >= 0)
    }

    /// The test of the cell with lowest corner p, beyond the boxes.
    #[inline(always)]
    pub fn overlaps(&self, p: Point) -> bool {
        let n = &self.normal;
        let at = n[0] * p[0] + n[1] * p[1] + n[2] * p[2];
        at + self.below <= 0
            && at + self.above >= 0
            && self.in_plane(2, p[0], p[1])
            && self.in_plane(0, p[1], p[2])
            && self.in_plane(1, p[2], p[0])
    }
}

/// The cells whose box test holds for a triangle, or nothing where an axis has none.
pub fn cells_of_box(t: &Triangle, grid: &Grid) -> Option<Block> {
    let [x, y, z] = [0, 1, 2].map(|w| {
        let least = t[0][w].min(t[1][w]).min(t[2][w]);
        let greatest = t[0][w].max(t[1][w]).max(t[2][w]);
        // least <= p + s and p <= greatest, where p = origin + i × s
        let first = -(grid.origin[w] + grid.edge - least).div_euclid(grid.edge);
        let end = (greatest - grid.origin[w]).div_euclid(grid.edge) + 1;
        let end = end.clamp(0, grid.cells[w] as i64) as usize;
        first.max(0) as usize..end
    });
    (!x.is_empty() && !y.is_empty() && !z.is_empty()).then_some([x, y, z])
}
