//! Tests a route on the map of a frame file, and says where it is blocked:
//!
//! ```text
//! cargo run --example route -- FILE X,Y,Z X,Y,Z ...
//! ```

use stall::{Point, Route};
use std::{env, error, fs, process};

type Outcome<T> = Result<T, Box<dyn error::Error>>;

fn main() {
    let words: Vec<String> = env::args().skip(1).collect();
    let Some((path, points)) = words.split_first() else {
        eprintln!("usage: route FILE X,Y,Z X,Y,Z ...");
        process::exit(2);
    };
    match answer(path, points) {
        Ok(said) => println!("{said}"),
        Err(error) => {
            eprintln!("route: {error}");
            process::exit(1);
        }
    }
}

/// What the library says of a route, in words.
fn answer(path: &str, points: &[String]) -> Outcome<String> {
    let file = fs::read(path).map_err(|error| format!("{path}: {error}"))?;
    let points: Vec<Point> = points
        .iter()
        .map(|word| point(word))
        .collect::<Outcome<_>>()?;
    let mut map = vec![0; stall::MAP_MOST];
    stall::fill(&file, &mut map)?;
    let Route::Blocked { leg, cell } = stall::test_route(&file, &map, &points)? else {
        return Ok("free".to_string());
    };
    let header = stall::read(&file, 0)?.header;
    let [low, high] = header.cell_box(cell).ok_or("no such cell")?;
    Ok(format!(
        "blocked: leg {leg} touches cell {cell}, from {low:?} to {high:?} mm"
    ))
}

/// A point of three numbers with commas between.
fn point(word: &str) -> Outcome<Point> {
    let numbers: Vec<i16> = word.split(',').map(str::parse).collect::<Result<_, _>>()?;
    Point::try_from(numbers).map_err(|_| format!("{word} is no point: give X,Y,Z").into())
}
