//! Writes the frame file of a fence with a gate:
//!
//! ```text
//! cargo run --example fence -- FILE
//! ```

use desk::{Grid, Kind, Point, Triangle};
use std::{env, error, fs, process};

/// Cells of 40 mm: 1,280 mm along x and y, and 1,920 mm up.
const GRID: Grid = Grid {
    cells: [32, 32, 48],
    edge: 40,
    origin: [-640, -640, 0],
};

fn main() {
    let Some(path) = env::args().nth(1) else {
        eprintln!("usage: fence FILE");
        process::exit(2);
    };
    match make(&path) {
        Ok(length) => println!("{path}: {length} bytes"),
        Err(error) => {
            eprintln!("fence: {error}");
            process::exit(1);
        }
    }
}

/// Makes the file, and gives its length.
fn make(path: &str) -> Result<usize, Box<dyn error::Error>> {
    let triangles = fence();
    let mut file = vec![0; desk::file_len(triangles.len())];
    let length = desk::write(&GRID, &triangles, &mut file)?;
    fs::write(path, file).map_err(|error| format!("{path}: {error}"))?;
    Ok(length)
}

/// Posts and rails along x, and the entry gate across them.
fn fence() -> Vec<Triangle> {
    let mut triangles = Vec::new();
    for x in [-600, 0, 600] {
        triangles.extend(plate(Kind::Frame, [x, -500, 0], [60, 0, 0], [0, 0, 1500]));
    }
    for z in [400, 900, 1400] {
        triangles.extend(plate(
            Kind::Frame,
            [-600, -500, z],
            [1260, 0, 0],
            [0, 0, 60],
        ));
    }
    triangles.extend(plate(
        Kind::EntryGate,
        [-600, -500, 300],
        [0, 900, 0],
        [0, 0, 900],
    ));
    triangles
}

/// A plate from a corner along two sides: two triangles.
fn plate(kind: Kind, corner: Point, along: Point, up: Point) -> [Triangle; 2] {
    let moved = |point: Point, side: Point| [0, 1, 2].map(|axis| point[axis] + side[axis]);
    let (right, top) = (moved(corner, along), moved(corner, up));
    let corners = [[corner, right, top], [moved(right, up), top, right]];
    corners.map(|corners| Triangle { kind, corners })
}
