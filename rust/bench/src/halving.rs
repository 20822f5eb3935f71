//! The columns of a triangle's box of cells, by blocks that are halved: what the library does, in
//! Rust.
//!
//! The axes are named u, v and w: a turn of x, y and z, so that the normal is greatest on w. A
//! column runs along w, and a block is a rectangle of columns.

use crate::map::Map;
use crate::rule::{cells_of_box, Triangle};
use crate::runs;
use std::ops::Range;

/// The most columns of a block that is not halved.
const LEAF: usize = 64;
/// Six halvings lead from 64 × 64 columns to 64, and each leaves one block behind.
const ROOM: usize = 7;

// ---- the box

/// A triangle on one axis: its corners, measured from the grid's origin; its cells; and how far apart
/// the numbers of neighbours are.
struct Axis {
    corners: [i64; 3],
    cells: Range<i64>,
    stride: usize,
}

impl Axis {
    /// Does the triangle stay within one cell, of edge s?
    #[inline(always)]
    fn in_one_cell(&self, s: i64) -> bool {
        let low = self.cells.start * s;
        let within = low..=low + s;
        self.cells.end - self.cells.start == 1 && self.corners.iter().all(|x| within.contains(x))
    }
}

/// Fills the cells that a triangle overlaps. Where it stays within one cell on two axes, that is the
/// whole row of its box.
pub fn fill_triangle(map: &mut Map, t: &Triangle) {
    let grid = map.grid;
    let Some(block) = cells_of_box(t, &grid) else {
        return;
    };
    let [nx, ny, _] = grid.cells;
    let strides = [1, nx, nx * ny];
    let [x, y, z] = [0, 1, 2].map(|w| Axis {
        corners: t.map(|p| p[w] - grid.origin[w]),
        cells: block[w].start as i64..block[w].end as i64,
        stride: strides[w],
    });
    match [&x, &y, &z].map(|axis| axis.in_one_cell(grid.edge)) {
        [true, true, _] => fill_run(map, &x, &y, &z),
        [true, _, true] => fill_run(map, &z, &x, &y),
        [_, true, true] => fill_run(map, &y, &z, &x),
        _ => fill_box(map, &x, &y, &z),
    }
}

/// Fills a box of one row along w.
fn fill_run(map: &mut Map, u: &Axis, v: &Axis, w: &Axis) {
    let base = u.cells.start as usize * u.stride + v.cells.start as usize * v.stride;
    for k in w.cells.clone() {
        map.fill(base + k as usize * w.stride);
    }
}

/// Fills the cells of a box that the triangle overlaps, in columns along the axis on which its normal
/// is greatest.
fn fill_box(map: &mut Map, x: &Axis, y: &Axis, z: &Axis) {
    let s = map.grid.edge;
    let n = [component(y, z), component(z, x), component(x, y)];
    let [nx, ny, nz] = n;
    let size = n.map(i64::abs);
    if size[0] >= size[1] && size[0] >= size[2] {
        Columns::new(s, [y, z, x], [ny, nz, nx]).fill(map);
    } else if size[1] >= size[2] {
        Columns::new(s, [z, x, y], [nz, nx, ny]).fill(map);
    } else {
        Columns::new(s, [x, y, z], [nx, ny, nz]).fill(map);
    }
}

/// The normal's component on the third axis.
fn component(Axis { corners: a, .. }: &Axis, Axis { corners: b, .. }: &Axis) -> i64 {
    (a[1] - a[0]) * (b[2] - b[0]) - (b[1] - b[0]) * (a[2] - a[0])
}

// ---- the forms, for cells of edge s

/// An edge in the plane of two axes: a cell with the numbers i and j there reaches its inner side
/// where a × i + b × j + c >= 0.
struct Form {
    a: i64,
    b: i64,
    c: i64,
}

impl Form {
    /// The edge between two corners, where n is the normal's component on the third axis.
    #[inline(always)]
    fn new(s: i64, n: i64, axes: [&Axis; 2], [from, to]: [usize; 2]) -> Form {
        let turned = |x: i64| if n < 0 { -x } else { x };
        let [p, q] = axes.map(|axis| axis.corners);
        let a = turned(s) * (q[from] - q[to]);
        let b = turned(s) * (p[to] - p[from]);
        let c = a.max(0) + b.max(0) + turned(p[from] * q[to] - q[from] * p[to]);
        Form { a, b, c }
    }

    #[inline(always)]
    fn at(&self, i: i64, j: i64) -> i64 {
        self.a * i + self.b * j + self.c
    }
}

/// An edge in the three planes.
struct Edge {
    uv: Form,
    vw: Form,
    wu: Form,
    /// The value of the form of uv from which on a column's whole square is inside of the edge: its
    /// other forms then pass every cell that the plane passes. More than any, where the normal is 0.
    inside: i64,
}

impl Edge {
    #[inline(always)]
    fn new(s: i64, [u, v, w]: [&Axis; 3], normal: [i64; 3], ends: [usize; 2]) -> Edge {
        let uv = Form::new(s, normal[2], [u, v], ends);
        Edge {
            inside: match normal[2] {
                0 => i64::MAX,
                _ => uv.a.abs() + uv.b.abs(),
            },
            uv,
            vw: Form::new(s, normal[0], [v, w], ends),
            wu: Form::new(s, normal[1], [w, u], ends),
        }
    }
}

/// A triangle's plane, turned so that it does not fall along w: it passes cell (i, j, k) where
/// u × i + v × j + w × k + at is from 0 to `reach`.
struct Plane {
    u: i64,
    v: i64,
    w: i64,
    at: i64,
    reach: i64,
}

impl Plane {
    fn new(s: i64, axes: [&Axis; 3], normal: [i64; 3]) -> Plane {
        let n = normal.map(|x| if normal[2] < 0 { -x } else { x });
        let dot: i64 = (0..3).map(|w| n[w] * axes[w].corners[0]).sum();
        let [u, v, w] = n.map(|x| s * x);
        Plane {
            u,
            v,
            w,
            at: u.max(0) + v.max(0) + w - dot,
            reach: u.abs() + v.abs() + w,
        }
    }
}

/// A triangle's box of columns, and what decides which of their cells are filled.
struct Columns {
    edges: [Edge; 3],
    plane: Plane,
    whole: Block,
    w: Range<i64>,
    strides: [usize; 3],
}

impl Columns {
    /// The columns along the last of three axes.
    fn new(s: i64, axes: [&Axis; 3], normal: [i64; 3]) -> Columns {
        let [u, v, w] = axes.map(|axis| axis.cells.clone());
        let between = |from, to| Edge::new(s, axes, normal, [from, to]);
        Columns {
            edges: [between(0, 1), between(1, 2), between(2, 0)],
            plane: Plane::new(s, axes, normal),
            whole: Block {
                u: [u.start as u8, u.end as u8],
                v: [v.start as u8, v.end as u8],
            },
            w,
            strides: axes.map(|axis| axis.stride),
        }
    }
}

// ---- the halving

/// A block of columns: on u and on v, those from the first number on and below the second.
#[derive(Clone, Copy, Default)]
struct Block {
    u: [u8; 2],
    v: [u8; 2],
}

impl Block {
    /// How many columns there are on u, and on v.
    #[inline(always)]
    fn sides(&self) -> (usize, usize) {
        (
            (self.u[1] - self.u[0]) as usize,
            (self.v[1] - self.v[0]) as usize,
        )
    }

    /// The block cut in two across its longer side.
    #[inline(always)]
    fn halves(self) -> (Block, Block) {
        let middle = |[first, end]: [u8; 2]| (first + end).div_ceil(2);
        let (mut low, mut high) = (self, self);
        let (nu, nv) = self.sides();
        if nv <= nu {
            low.u[1] = middle(self.u);
            high.u[0] = low.u[1];
        } else {
            low.v[1] = middle(self.v);
            high.v[0] = low.v[1];
        }
        (low, high)
    }
}

impl Columns {
    /// Fills the columns. The last of the pending blocks is taken, and its columns are filled, or its
    /// halves that no edge rules out take its place.
    fn fill(&self, map: &mut Map) {
        let mut blocks = [Block::default(); ROOM];
        blocks[0] = self.whole;
        let mut pending = 1;
        let mut near = self.w.start;
        while pending > 0 {
            pending -= 1;
            let block = blocks[pending];
            let (nu, nv) = block.sides();
            if nu * nv <= LEAF {
                near = self.scan(map, block, near);
                continue;
            }
            let (low, high) = block.halves();
            for half in [high, low] {
                if self.may_touch(half) {
                    blocks[pending] = half;
                    pending += 1;
                }
            }
        }
    }

    /// Is there, for each edge, a column of the block that it does not rule out?
    #[inline(always)]
    fn may_touch(&self, Block { u, v }: Block) -> bool {
        let far =
            |slope: i64, [first, end]: [u8; 2]| if slope < 0 { first } else { end - 1 } as i64;
        self.edges
            .iter()
            .all(|Edge { uv: f, .. }| f.at(far(f.a, u), far(f.b, v)) >= 0)
    }

    /// Fills the columns of a block, row by row. The edges' forms are stepped from column to column.
    /// The answer is a hint for the next block.
    fn scan(&self, map: &mut Map, Block { u, v }: Block, mut near: i64) -> i64 {
        let [u0, u1, v0, v1] = [u[0], u[1], v[0], v[1]].map(i64::from);
        for j in v0..v1 {
            let mut x = [0, 1, 2].map(|m| self.edges[m].uv.at(u0, j));
            for i in u0..u1 {
                if x[0] | x[1] | x[2] >= 0 {
                    near = self.column(map, i, j, x, near);
                }
                for (x, edge) in x.iter_mut().zip(&self.edges) {
                    *x += edge.uv.a;
                }
            }
        }
        near
    }

    /// Fills the cells of column (i, j), where x are the edges' forms of uv, none negative. The answer
    /// is the first cell that the plane passes, from which the next column's is sought. Kept apart from
    /// its caller, which would else load all forms before it looks at a column.
    #[inline(never)]
    fn column(&self, map: &mut Map, i: i64, j: i64, x: [i64; 3], near: i64) -> i64 {
        let p = &self.plane;
        let mut run = runs::in_slab(&self.w, near, p.w, p.u * i + p.v * j + p.at, p.reach);
        let near = run.start;
        for (x, Edge { vw, wu, inside, .. }) in x.into_iter().zip(&self.edges) {
            if x < *inside {
                runs::cut(&mut run, vw.b, vw.a * j + vw.c);
                runs::cut(&mut run, wu.a, wu.b * i + wu.c);
            }
        }
        let [su, sv, sw] = self.strides;
        let base = i as usize * su + j as usize * sv;
        for k in run {
            map.fill(base + k as usize * sw);
        }
        near
    }
}
