//! Shows the bar behind a cell of a frame file:
//!
//! ```text
//! cargo run --example behind -- FILE CELL
//! ```

use std::{env, error, fs, process};

fn main() {
    let words: Vec<String> = env::args().skip(1).collect();
    let [path, cell] = &words[..] else {
        eprintln!("usage: behind FILE CELL");
        process::exit(2);
    };
    match answer(path, cell) {
        Ok(said) => println!("{said}"),
        Err(error) => {
            eprintln!("behind: {error}");
            process::exit(1);
        }
    }
}

/// What the library says of a cell, in words.
fn answer(path: &str, cell: &str) -> Result<String, Box<dyn error::Error>> {
    let file = fs::read(path).map_err(|error| format!("{path}: {error}"))?;
    let Some(bar) = desk::bar(&file, cell.parse()?)? else {
        return Ok("clear".to_string());
    };
    let record = stall::read(&file, bar.record)?.record;
    let record = record.ok_or("no such record")?;
    let corners = record.corners.map(|corner| corner.map(i32::from));
    let (sum, total) = bar.point(&corners);
    let [x, y, z] = sum.map(|sum| sum as f64 / total as f64);
    Ok(format!(
        "record {}, {:?}: the point ({x:.1}, {y:.1}, {z:.1}) of the triangle {corners:?} is in cell {cell}",
        bar.record, record.kind
    ))
}
