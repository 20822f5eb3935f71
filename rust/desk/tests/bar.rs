//! Each answer of the call `bar` comes through the wrapper as its own case.

use desk::{Bar, Grid, Kind, Limit, Point, Refusal, Triangle, bar};

/// The grid of the worked examples.
const GRID: Grid = Grid {
    cells: [2; 3],
    edge: 10,
    origin: [0; 3],
};

/// The corners of row g.
const G: [Point; 3] = [[1, 20, 5], [20, 20, 5], [20, 1, 5]];

/// A file of triangles, of all kinds.
fn file(grid: &Grid, triangles: &[[Point; 3]]) -> Vec<u8> {
    let kinds = [Kind::Frame, Kind::EntryGate, Kind::ExitGate];
    let triangles = triangles.iter().zip(kinds.into_iter().cycle());
    let triangles = triangles.map(|(&corners, kind)| Triangle { kind, corners });
    let triangles: Vec<Triangle> = triangles.collect();
    let mut file = vec![0; desk::file_len(triangles.len())];
    assert_eq!(desk::write(grid, &triangles, &mut file), Ok(file.len()));
    file
}

/// Row g with another byte at a place.
fn changed(at: usize, byte: u8) -> Vec<u8> {
    let mut file = file(&GRID, &[G]);
    file[at] = byte;
    file
}

/// A refusal by this limit. Its place is 0.
fn refused(limit: Limit) -> Result<Option<Bar>, Refusal> {
    Err(Refusal { limit, place: 0 })
}

/// The record behind each cell of the worked grid, or none. The weights are as promised.
fn records(triangles: &[[Point; 3]]) -> [Option<usize>; 8] {
    let file = file(&GRID, triangles);
    [0, 1, 2, 3, 4, 5, 6, 7].map(|cell| {
        let bar = bar(&file, cell).unwrap()?;
        let place = [cell % 2, cell / 2 % 2, cell / 4].map(|i| 10 * i as i64);
        holds(&bar, &triangles[bar.record], place, 10);
        Some(bar.record)
    })
}

/// None of the weights is negative, they add to 1 or more and less than 2^30, and their point lies in the cube.
fn holds(bar: &Bar, corners: &[Point; 3], low: [i64; 3], edge: i64) {
    let (sum, total) = bar.point(corners);
    assert!(bar.weights.iter().all(|&weight| weight >= 0), "{bar:?}");
    assert!((1..1 << 30).contains(&total), "{bar:?}");
    for axis in 0..3 {
        let cube = low[axis] * total..=(low[axis] + edge) * total;
        assert!(cube.contains(&sum[axis]), "{bar:?}, axis {axis}");
    }
}

#[test]
fn behind_cells() {
    let some = Some(0);
    assert_eq!(records(&[]), [None; 8]);
    let g = [None, some, some, some, None, None, None, None];
    assert_eq!(records(&[G]), g);
    // Through the middle of the grid, and just beside it.
    let far = |x| [[x, 0, 0], [0, x, 0], [0, 0, x]];
    assert_eq!(records(&[far(30)]), [some; 8]);
    assert_eq!(
        records(&[far(31)]),
        [None, some, some, some, some, some, some, some]
    );
}

/// The lowest record that reaches a cell is named, though others do too.
#[test]
fn lowest_record() {
    let outside = [[21, 5, 5]; 3];
    let middle = [[10; 3]; 3];
    let low = [[5; 3]; 3];
    assert_eq!(records(&[outside, low, middle])[..2], [Some(1), Some(2)]);
    assert_eq!(records(&[middle, G, low]), [Some(0); 8]);
    let [first, second, ..] = records(&[outside, G, middle]);
    assert_eq!((first, second), (Some(2), Some(1)));
}

/// Points and segments, in cells and in faces, edges and corners between them.
#[test]
fn flat_triangles() {
    let [none, some] = [None, Some(0)];
    let lower = [some, some, some, some, none, none, none, none];
    assert_eq!(records(&[[[10; 3]; 3]]), [some; 8]);
    assert_eq!(records(&[[[10, 10, 9]; 3]]), lower);
    let [a, b] = [[10, 0, 10], [10, 9, 10]];
    let edge = [some, some, none, none, some, some, none, none];
    for corners in [[a, b, b], [a, a, b], [a, b, a], [[10, 4, 10], b, a]] {
        assert_eq!(records(&[corners]), edge, "{corners:?}");
    }
    // From corner to corner of the grid, and of its lower layer: each touches cells in one point alone.
    let through = [[-5, -5, -5], [25, 25, 25], [10, 10, 10]];
    assert_eq!(records(&[through]), [some; 8]);
    let in_layer = [[0, 20, 5], [20, 0, 5], [20, 0, 5]];
    assert_eq!(records(&[in_layer]), lower);
}

/// Cells are numbered along x, then y, then z: a point stands in the middle of each.
#[test]
fn numbers_of_cells() {
    let grid = Grid {
        cells: [3, 2, 4],
        edge: 10,
        origin: [-15, 5, 100],
    };
    let point = |cell: i32| {
        [
            10 * (cell % 3) - 10,
            10 * (cell / 3 % 2) + 10,
            10 * (cell / 6) + 105,
        ]
    };
    let points: Vec<[Point; 3]> = (0..24).map(|cell| [point(cell); 3]).collect();
    let file = file(&grid, &points);
    for cell in 0..24 {
        let found = bar(&file, cell).unwrap();
        assert_eq!(found.map(|bar| bar.record), Some(cell));
    }
    assert_eq!(bar(&file, 24), refused(Limit::CellOutside));
}

/// The least and the greatest values, in a grid at the border.
#[test]
fn far_corners() {
    let grid = Grid {
        cells: [1, 1, 64],
        edge: 255,
        origin: [-128, -128, -8192],
    };
    let wide = [[-8192, -8192, -8192], [8191, -8192, 8191], [0, 8191, 8191]];
    let file = file(&grid, &[wide]);
    let mut found = 0;
    for cell in 0..64 {
        if let Some(bar) = bar(&file, cell).unwrap() {
            found += 1;
            let low = [-128, -128, -8192 + 255 * cell as i64];
            holds(&bar, &wide, low, 255);
        }
    }
    assert!(found > 0);
}

/// An input for each limit, in a cell of the grid and in one that is not there: 16 comes last.
#[test]
fn every_limit() {
    let file = file(&GRID, &[G]);
    let broken = [
        file[..11].to_vec(),
        changed(0, 0x20),
        changed(3, 0x00),
        changed(11, 0x01),
        changed(2, 0xff),
        file[..27].to_vec(),
        changed(12, 0xc0),
    ];
    for (number, file) in (1..).zip(broken) {
        for cell in [0, 7, 8, usize::MAX] {
            let limit = Limit::from_number(number).unwrap();
            assert_eq!(bar(&file, cell), refused(limit));
        }
    }
    assert_eq!(bar(&[], 0), refused(Limit::ShortHeader));
    assert!(bar(&file, 7).is_ok());
    for cell in [8, 9, u32::MAX as usize, usize::MAX] {
        assert_eq!(bar(&file, cell), refused(Limit::CellOutside));
    }
}

/// The place of a kind that is not used.
#[test]
fn unused_kind() {
    let mut file = file(&GRID, &[G, G, G]);
    file[28] |= 0xc0;
    let limit = Limit::UnusedKind;
    assert_eq!(bar(&file, 8), Err(Refusal { limit, place: 1 }));
}
