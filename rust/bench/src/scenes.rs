//! Scenes: frame files made by a fixed pseudo-random sequence.

use crate::frame::Grid;
use crate::rule::{Point, Triangle};
use independent::{Header, Record};

/// Numbers by the splitmix64 rule.
pub struct Random(pub u64);

impl Random {
    fn next(&mut self) -> u64 {
        self.0 = self.0.wrapping_add(0x9e37_79b9_7f4a_7c15);
        let mut z = self.0;
        z = (z ^ (z >> 30)).wrapping_mul(0xbf58_476d_1ce4_e5b9);
        z = (z ^ (z >> 27)).wrapping_mul(0x94d0_49bb_1331_11eb);
        z ^ (z >> 31)
    }

    /// A number from `low` to `high`, both included.
    pub fn between(&mut self, low: i64, high: i64) -> i64 {
        low + (self.next() % (high - low + 1) as u64) as i64
    }

    /// A point with each coordinate from `low` to `high`.
    pub fn point(&mut self, low: i64, high: i64) -> Point {
        [0; 3].map(|_| self.between(low, high))
    }
}

/// A point moved by a vector.
fn moved(p: Point, by: Point) -> Point {
    [p[0] + by[0], p[1] + by[1], p[2] + by[2]]
}

/// A point with another coordinate on axis w.
fn with(mut p: Point, w: usize, x: i64) -> Point {
    p[w] = x;
    p
}

/// Three corners in one line: a point, a second near another, and the middle of the two.
fn in_line(from: Point, to: Point) -> Triangle {
    let half = [0, 1, 2].map(|w| (to[w] - from[w]) / 2);
    let middle = moved(from, half);
    [from, moved(middle, half), middle]
}

/// The least and the greatest coordinate of a file.
const LEAST: i64 = -8192;
const GREATEST: i64 = 8191;
/// The grids' extent: the same cube of 3.2 m for each size.
const LOW: i64 = -1600;
const HIGH: i64 = 1600;
/// How far the ends of the rails at the sides stand from the middle half: more than they are wide.
const CLEAR: i64 = 21;

/// The grid with so many cells a side.
pub fn grid(cells: usize) -> Grid {
    Grid {
        cells: [cells; 3],
        edge: (HIGH - LOW) / cells as i64,
        origin: [LOW; 3],
    }
}

/// The scenes to fill. The rails at the sides are for routes, and the whole sections for the controller.
pub const SCENES: [&str; 7] = [
    "rails", "plates", "small", "diagonal", "flat", "outside", "worst",
];

/// How many cells a side a scene is filled at.
pub fn sizes(scene: &str) -> &'static [usize] {
    match scene {
        "worst" => &[64],
        _ => &[16, 32, 64],
    }
}

/// The triangles of a scene.
pub fn triangles(scene: &str) -> Vec<Triangle> {
    let mut random = Random(1);
    match scene {
        // long and thin, from side to side of the grid
        "rails" => (0..200)
            .map(|i| {
                let mut from = random.point(LOW, HIGH);
                let mut to = random.point(LOW, HIGH);
                (from[i % 3], to[i % 3]) = (LOW, HIGH);
                [from, to, moved(to, random.point(-20, 20))]
            })
            .collect(),
        // long and thin, in the two outer quarters on x alone, from side to side on y or z
        "sides" => (0..200)
            .map(|i| {
                let mut end = || {
                    let [_, y, z] = random.point(LOW, HIGH);
                    let x = random.between(LOW, LOW / 2 - CLEAR);
                    [if i % 2 == 0 { x } else { -x }, y, z]
                };
                let (mut from, mut to) = (end(), end());
                let w = 1 + i / 2 % 2;
                (from[w], to[w]) = (LOW, HIGH);
                [from, to, moved(to, random.point(-20, 20))]
            })
            .collect(),
        // any three points of the grid
        "plates" => (0..60)
            .map(|_| [0; 3].map(|_| random.point(LOW, HIGH)))
            .collect(),
        // within 60 mm
        "small" => (0..2000)
            .map(|_| {
                let p = random.point(LOW, HIGH - 60);
                [0; 3].map(|_| moved(p, random.point(0, 60)))
            })
            .collect(),
        // a face of the octahedron in the cube
        "diagonal" => vec![[[HIGH, LOW, LOW], [LOW, HIGH, LOW], [LOW, LOW, HIGH]]],
        // without area: segments, along an axis or not, three corners in one line, and points
        "flat" => (0..400)
            .map(|i| {
                let [a, b] = [0; 2].map(|_| random.point(LOW, HIGH));
                match i % 4 {
                    0 => [a, b, b],
                    1 => in_line(a, b),
                    2 => [a, a, with(a, i / 4 % 3, b[i / 4 % 3])],
                    _ => [a, a, a],
                }
            })
            .collect(),
        // of any size, in and around the grid: most lie outside of it, or cross its border
        "outside" => (0..2000)
            .map(|_| {
                let p = random.point(2 * LOW, 2 * HIGH);
                let size = 1 << random.between(4, 12);
                [0; 3]
                    .map(|_| moved(p, random.point(-size, size)).map(|x| x.clamp(LEAST, GREATEST)))
            })
            .collect(),
        // any three points of the grid's six sides, as many as a file can hold
        "worst" => (0..4095)
            .map(|_| {
                [0; 3].map(|_| {
                    let side = [LOW, HIGH][random.between(0, 1) as usize];
                    with(random.point(LOW, HIGH), random.between(0, 2) as usize, side)
                })
            })
            .collect(),
        // as many triangles as a file can hold, in the planes x = y and x = -y by turns. Each covers all of the plane's section
        // with the grid: 64 × 64 columns of the finest. The planes pass through edges of cells, so that they touch three cells
        // in nearly each column. Of some 20,000 triangles that were tried on the controller, by climbing from one to another
        // that took more, none took more instructions by a hundredth
        "whole" => (0..4095)
            .map(|i| {
                let sign = 1 - 2 * (i % 2);
                [(-2000, -2000), (5800, -2000), (-2000, 5800)]
                    .map(|(along, z)| [along, sign * along, z])
            })
            .collect(),
        _ => panic!("no scene {scene}"),
    }
}

/// Some point of a corner cell of the grid's middle half on x, 64 cells a side: of the lowest of its
/// cells on all axes, or the highest. It touches no cell outside that half.
pub fn near_corner(random: &mut Random, high: bool) -> Point {
    let edge = grid(64).edge;
    [HIGH / 2 - 1, HIGH, HIGH].map(|far| {
        let x = random.between(far - edge + 1, far);
        if high {
            x
        } else {
            -x
        }
    })
}

/// A file for a grid and triangles, all of kind 0.
pub fn write(grid: &Grid, triangles: &[Triangle]) -> Vec<u8> {
    let header = Header {
        version: 1,
        cells: grid.cells.map(|n| n as i64),
        edge: grid.edge,
        origin: grid.origin,
        count: triangles.len(),
    };
    let record = |&corners: &Triangle| Record { kind: 0, corners };
    let records: Vec<Record> = triangles.iter().map(record).collect();
    independent::file_of(&header, &records)
}

/// The file of a scene for the grid with so many cells a side.
pub fn file(scene: &str, cells: usize) -> Vec<u8> {
    write(&grid(cells), &triangles(scene))
}

/// A small file of any shape: other sides, and triangles of any kind.
pub fn any_file(random: &mut Random) -> Vec<u8> {
    let cells = [0; 3].map(|_| random.between(1, 12) as usize);
    let edge = random.between(1, 255);
    let origin = [0, 1, 2].map(|w| random.between(LEAST, GREATEST - cells[w] as i64 * edge));
    let grid = Grid {
        cells,
        edge,
        origin,
    };
    let on_lattice = random.between(0, 1) == 1;
    let triangles: Vec<Triangle> = (0..random.between(0, 6))
        .map(|_| {
            let corners = [0; 3].map(|_| any_corner(random, &grid, on_lattice));
            any_triangle(random, &grid, corners).map(|p| p.map(|x| x.clamp(LEAST, GREATEST)))
        })
        .collect();
    write(&grid, &triangles)
}

/// A point in or around the grid; on the planes between cells, where that is wanted.
fn any_corner(random: &mut Random, grid: &Grid, on_lattice: bool) -> Point {
    [0, 1, 2].map(|w| {
        let length = grid.cells[w] as i64 * grid.edge;
        let x = random.between(-length / 2, length + length / 2);
        grid.origin[w]
            + if on_lattice {
                x.div_euclid(grid.edge) * grid.edge
            } else {
                x
            }
    })
}

/// A triangle made of three points, or of some of their coordinates.
fn any_triangle(random: &mut Random, grid: &Grid, [a, b, c]: Triangle) -> Triangle {
    let w = random.between(0, 2) as usize;
    match random.between(0, 11) {
        0 => [a, a, a],
        1 => [a, b, b],
        2 => [a, a, c],
        3 => in_line(a, b),
        // along an axis
        4 => [a, with(a, w, b[w]), with(a, w, c[w])],
        // across an axis
        5 => [a, with(b, w, a[w]), with(c, w, a[w])],
        // from afar
        6 => [a, b, random.point(LEAST, GREATEST)],
        7 => [0; 3].map(|_| random.point(LEAST, GREATEST)),
        // in a row along an axis
        8 | 9 => in_row(random, grid, w, [a, b, c]),
        _ => [a, b, c],
    }
}

/// A triangle that stays within about one cell on all axes but w, within the grid or at its border:
/// it may reach beyond the cell by 1.
fn in_row(random: &mut Random, grid: &Grid, w: usize, t: Triangle) -> Triangle {
    let cell = [0, 1, 2].map(|w| random.between(-1, grid.cells[w] as i64));
    t.map(|p| {
        let near = [0, 1, 2]
            .map(|w| grid.origin[w] + cell[w] * grid.edge + random.between(-1, grid.edge + 1));
        with(near, w, p[w])
    })
}
