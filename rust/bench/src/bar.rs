//! The bar behind a cell: the verified search and the same in Rust, and the cells that they are measured on. Each asks the
//! questions, and looks at the records in turn up to the first that reaches the cell.

use crate::frame::{Frame, Grid};
use crate::peers::corner;
use crate::rule::{normal, Point, Triangle, PLANES};
use crate::scenes::{self, Random};
use desk::{Bar, Limit, Refusal};

/// What is said of a cell.
pub type Answer = Result<Option<Bar>, Refusal>;

/// A search of a file for the bar behind a cell.
pub type Search = fn(&[u8], usize) -> Answer;

/// The peers by name. The first is the verified library.
pub const PEERS: [(&str, Search); 2] = [("rattle", desk::bar), ("records", records)];

// ---- the same algorithm: the overlap rule with a way out at each test, and weights for the triangle found alone

fn records(file: &[u8], cell: usize) -> Answer {
    // there is no map, so that question 8 is never a "no"
    let frame = Frame::read(file, usize::MAX)?;
    let grid = &frame.grid;
    if cell >= grid.count() {
        return Err(Refusal {
            limit: Limit::CellOutside,
            place: 0,
        });
    }
    let (p, s) = (lowest_corner(grid, cell), grid.edge);
    let mut triangles = frame.triangles().enumerate();
    let found = triangles.find(|(_, t)| reaches(t, p, s));
    Ok(found.map(|(record, t)| Bar {
        record,
        weights: weights(&t, p, s),
    }))
}

/// The lowest corner of the cell with a number.
fn lowest_corner(grid: &Grid, cell: usize) -> Point {
    let [nx, ny, _] = grid.cells;
    corner(grid, cell % nx, cell / nx % ny, cell / nx / ny)
}

/// The overlap rule, for the cube with lowest corner p and edge s.
fn reaches(t: &Triangle, p: Point, s: i64) -> bool {
    if !box_meets(t, p, s) {
        return false;
    }
    let n = normal(t);
    plane_meets(t, n, p, s) && [2, 0, 1].into_iter().all(|w| edges_meet(t, n, p, s, w))
}

/// Boxes, axis by axis.
fn box_meets(t: &Triangle, p: Point, s: i64) -> bool {
    (0..3).all(|w| {
        let least = t[0][w].min(t[1][w]).min(t[2][w]);
        let greatest = t[0][w].max(t[1][w]).max(t[2][w]);
        least <= p[w] + s && p[w] <= greatest
    })
}

/// Plane: the least and the greatest value over the cube's corners, as sums.
fn plane_meets(t: &Triangle, n: Point, p: Point, s: i64) -> bool {
    let (mut least, mut greatest) = (0, 0);
    for w in 0..3 {
        let at = n[w] * (p[w] - t[0][w]);
        least += at + (s * n[w]).min(0);
        greatest += at + (s * n[w]).max(0);
    }
    least <= 0 && 0 <= greatest
}

/// The three edges in the plane that axis w stands upright on.
fn edges_meet(t: &Triangle, n: Point, p: Point, s: i64, w: usize) -> bool {
    let (u, v) = PLANES[w];
    let sign = if n[w] < 0 { -1 } else { 1 };
    (0..3).all(|i| {
        let (from, to) = (&t[i], &t[(i + 1) % 3]);
        let a = sign * (from[v] - to[v]);
        let b = sign * (to[u] - from[u]);
        let at = a * (p[u] - from[u]) + b * (p[v] - from[v]);
        at + (s * a).max(0) + (s * b).max(0) >= 0
    })
}

/// Weights by which a triangle reaches the cube: the first cross product of two rows, the weights' own and the cube's six
/// sides, that no row has a negative product with.
fn weights(t: &Triangle, p: Point, s: i64) -> [i64; 3] {
    let mut rows = [[0; 3]; 9];
    for w in 0..3 {
        rows[w][w] = 1;
        rows[3 + 2 * w] = t.map(|v| v[w] - p[w]);
        rows[4 + 2 * w] = t.map(|v| p[w] + s - v[w]);
    }
    let mut proposed = (0..81).map(|m| cross(rows[m % 9], rows[m / 9]));
    let good = |w: &[i64; 3]| {
        w[0] + w[1] + w[2] > 0
            && rows
                .iter()
                .all(|row| row[0] * w[0] + row[1] * w[1] + row[2] * w[2] >= 0)
    };
    proposed.find(good).expect("weights, where it reaches")
}

/// The cross product.
fn cross(a: Point, b: Point) -> Point {
    PLANES.map(|(u, v)| a[u] * b[v] - a[v] * b[u])
}

// ---- the cells to measure

/// The scenes: in the first three the most triangles that a file can hold and one cell, and in the last the example stall and
/// some of its filled cells.
pub const SCENES: [&str; 4] = ["far", "around", "last", "stall"];

/// How many cells of the stall are asked for, one call each.
const CELLS: usize = 64;

/// The file of a scene, and the cells that are asked for.
pub fn scene(name: &str) -> (Vec<u8>, Vec<usize>) {
    let grid = scenes::grid(64);
    let middle = 32 + 64 * (32 + 64 * 32);
    let most = desk::TRIANGLES_MOST;
    match name {
        // small, anywhere: the cell is clear, and most boxes are beside it on the first axis
        "far" => (
            scenes::write(&grid, &far(&grid, middle, most)),
            vec![middle],
        ),
        // large: every box has the cell, which is clear
        "around" => (
            scenes::write(&grid, &around(&grid, middle, most)),
            vec![middle],
        ),
        // the same, but that the last one reaches it
        "last" => {
            let mut triangles = around(&grid, middle, most - 1);
            triangles.push(across(&grid, middle));
            (scenes::write(&grid, &triangles), vec![middle])
        }
        "stall" => {
            let file = include_bytes!("../../../examples/stall.frame").to_vec();
            let mut map = vec![0; stall::MAP_MOST];
            let count = stall::fill(&file, &mut map).unwrap();
            let filled = (0..8 * map.len()).filter(|n| map[n / 8] & 0x80 >> (n % 8) != 0);
            let cells = filled.step_by(count / CELLS).take(CELLS).collect();
            (file, cells)
        }
        _ => panic!("no scene {name}"),
    }
}

/// The least and the greatest value in a grid that is the same on each axis.
fn ends(grid: &Grid) -> (i64, i64) {
    (
        grid.origin[0],
        grid.origin[0] + grid.cells[0] as i64 * grid.edge,
    )
}

/// So many triangles within 60 mm that do not reach a cell.
fn far(grid: &Grid, cell: usize, count: usize) -> Vec<Triangle> {
    let (mut random, (low, high)) = (Random(6), ends(grid));
    let p = lowest_corner(grid, cell);
    let mut triangles = vec![];
    while triangles.len() < count {
        let at = random.point(low, high - 60);
        let t = [0; 3].map(|_| {
            let by = random.point(0, 60);
            [0, 1, 2].map(|w| at[w] + by[w])
        });
        if !reaches(&t, p, grid.edge) {
            triangles.push(t);
        }
    }
    triangles
}

/// So many triangles with corners anywhere in the grid that do not reach a cell, though their boxes do. Half of them are ruled
/// out by their planes, and half by an edge alone, in turn.
fn around(grid: &Grid, cell: usize, count: usize) -> Vec<Triangle> {
    let (mut random, (low, high)) = (Random(7), ends(grid));
    let (p, s) = (lowest_corner(grid, cell), grid.edge);
    let mut triangles = vec![];
    while triangles.len() < count {
        let t = [0; 3].map(|_| random.point(low, high));
        let by_plane = !plane_meets(&t, normal(&t), p, s);
        if box_meets(&t, p, s) && !reaches(&t, p, s) && by_plane == (triangles.len() % 2 == 0) {
            triangles.push(t);
        }
    }
    triangles
}

/// A triangle with corners anywhere in the grid that reaches a cell with none of them.
fn across(grid: &Grid, cell: usize) -> Triangle {
    let (mut random, (low, high)) = (Random(8), ends(grid));
    let (p, s) = (lowest_corner(grid, cell), grid.edge);
    loop {
        let t = [0; 3].map(|_| random.point(low, high));
        let outside = |v: Point| !box_meets(&[v; 3], p, s);
        if reaches(&t, p, s) && t.into_iter().all(outside) {
            return t;
        }
    }
}

// ---- the check

/// The answer of the peers, who name the same record as the independent version. Each has weights that show it.
fn agree(file: &[u8], cell: usize) -> Answer {
    let expected = crate::printed::bar(file, cell);
    let answers = PEERS.map(|(name, search)| {
        let answer = search(file, cell);
        let record = answer.map(|bar| bar.map(|bar| bar.record));
        assert!(
            record == expected,
            "{name} differs: {answer:?}, {expected:?}"
        );
        if let Ok(Some(bar)) = answer {
            assert!(crate::printed::shows(file, cell, &bar), "{name}: {bar:?}");
        }
        answer
    });
    answers[0]
}

/// Holds the peers to the independent version on the cells to measure, which are as said, and on small files.
pub fn check() {
    for name in SCENES {
        let (file, cells) = scene(name);
        for cell in &cells {
            let record = agree(&file, *cell).unwrap().map(|bar| bar.record);
            match name {
                "far" | "around" => assert!(record.is_none(), "{name}: {record:?}"),
                "last" => assert!(
                    record == Some(desk::TRIANGLES_MOST - 1),
                    "{name}: {record:?}"
                ),
                _ => assert!(record.is_some() && cells.len() == CELLS, "{name} {cell}"),
            }
        }
    }
    let mut random = Random(9);
    let mut counts = [0; 3];
    for _ in 0..2000 {
        let file = crate::maybe_damaged(&mut random);
        // the last of these numbers is not in the grid
        let count = Frame::read(&file, usize::MAX).map_or(0, |frame| frame.grid.count());
        for _ in 0..8 {
            let cell = random.between(0, count as i64) as usize;
            match agree(&file, cell) {
                Ok(Some(_)) => counts[0] += 1,
                Ok(None) => counts[1] += 1,
                Err(_) => counts[2] += 1,
            }
        }
    }
    let [bars, clear, refused] = counts;
    println!(
        "4 measured scenes, {bars} bars, {clear} clear and {refused} refused cells: all alike"
    );
}
