//! Makes a frame file of a scanner's PLY file and a grid: cells along x, y and z, cell edge, origin x, y and z.
//!
//! ```text
//! cargo run --example scanned -- PLY FILE CELLS CELLS CELLS EDGE X Y Z
//! ```

use std::{env, error, fs, process};

fn main() {
    let words: Vec<String> = env::args().skip(1).collect();
    let [ply, file, grid @ ..] = &words[..] else {
        eprintln!("usage: scanned PLY FILE CELLS CELLS CELLS EDGE X Y Z");
        process::exit(2);
    };
    match make(ply, file, grid) {
        Ok(length) => println!("{file}: {length} bytes"),
        Err(error) => {
            eprintln!("scanned: {error}");
            process::exit(1);
        }
    }
}

/// Makes the file, and gives its length.
fn make(ply: &str, path: &str, grid: &[String]) -> Result<usize, Box<dyn error::Error>> {
    let grid = grid.iter().map(|word| word.parse());
    let grid: Vec<i32> = grid.collect::<Result<_, _>>()?;
    let ply = fs::read(ply).map_err(|error| format!("{ply}: {error}"))?;
    let mut file = vec![0; desk::FILE_MOST];
    let length = desk::scan_numbers(&ply, &grid, &mut file)?;
    fs::write(path, &file[..length]).map_err(|error| format!("{path}: {error}"))?;
    Ok(length)
}
