//! Fills maps, tests routes, writes files, reads scanner files and shows bars by the verified libraries and by peers written
//! in Rust, to count instructions, to time, and to compare.
//!
//! ```text
//! bench fill PEER SCENE CELLS N       fill the scene's map N times, CELLS cells a side
//! bench count SCENE CELLS             print the number of filled cells
//! bench route PEER SHAPE ANSWER N     test a route of 63 legs N times: slim or wide, free or blocked
//! bench legs PEER SCENE WAY N         test 64 blocked legs N times, each by a call: from, into, up or down
//! bench write PEER N                  write a file of 4,095 triangles N times
//! bench scan PEER SCENE N             read a scanner file of 4,095 faces N times: float, double, int, mixed, apart or comments
//! bench bar PEER SCENE N              search for the bars behind the scene's cells N times: far, around, last or stall
//! bench time fill SCENE CELLS         print the microseconds of rattle and of halving
//! bench time route SHAPE ANSWER       print the microseconds of rattle, rows, box and cells
//! bench time write                    print the microseconds of rattle and of words
//! bench time scan SCENE               print the microseconds of rattle, types and words
//! bench time bar SCENE                print the microseconds of rattle and of records, of all cells of the scene
//! bench stack                         print the greatest stack of a fill, a route test, a reading, a write, a bar, a scan
//! bench check                         hold every peer to the documents as printed, and to the others
//! bench scenes FOLDER                 write the frames and routes that firmware/measure measures on
//! ```

mod bar;
mod coming;
mod frame;
mod halving;
mod map;
mod peers;
mod pen;
mod printed;
mod routes;
mod rule;
mod runs;
mod scanning;
mod scenes;
mod stack;
mod time;
mod writing;

use peers::{Fill, PEERS};
use stall::Refusal;
use std::hint::black_box;
use std::path::Path;

/// The greatest map, with some bytes behind it.
const LENT: usize = stall::MAP_MOST + 64;

/// What a fill answers and leaves in lent bytes.
fn outcome(fill: Fill, file: &[u8], lent: usize) -> (Result<usize, Refusal>, Vec<u8>) {
    let mut map = vec![0xa5; lent];
    (fill(file, &mut map), map)
}

/// Every peer against the first.
fn agree(file: &[u8], lent: usize) -> (Result<usize, Refusal>, Vec<u8>) {
    let first = outcome(PEERS[0].1, file, lent);
    for (name, fill) in &PEERS[1..] {
        let other = outcome(*fill, file, lent);
        assert!(
            first == other,
            "{name} differs: {:?}, {:?}",
            first.0,
            other.0
        );
    }
    first
}

/// Holds the peers to each other on the scenes, and to the rule as printed on small files.
fn check() {
    let (mut maps, mut filled) = (0, 0);
    for scene in scenes::SCENES {
        for cells in scenes::sizes(scene) {
            let (answer, _) = agree(&scenes::file(scene, *cells), LENT);
            maps += 1;
            filled += answer.unwrap();
        }
    }
    let mut random = scenes::Random(2);
    let (mut accepted, mut refused) = (0, 0);
    for _ in 0..2000 {
        let file = maybe_damaged(&mut random);
        let lent = if random.between(0, 9) == 0 { 4 } else { LENT };
        let first = agree(&file, lent);
        assert!(first == outcome(printed::fill, &file, lent), "printed rule");
        match first.0 {
            Ok(count) => {
                accepted += 1;
                filled += count;
            }
            Err(_) => refused += 1,
        }
    }
    println!("{maps} scenes, {accepted} accepted and {refused} refused files, {filled} filled cells: all alike");
}

/// A small file; some are cut, some have a wrong bit, and some a byte more.
fn maybe_damaged(random: &mut scenes::Random) -> Vec<u8> {
    let mut file = scenes::any_file(random);
    match random.between(0, 9) {
        0 => file.truncate(random.between(0, file.len() as i64) as usize),
        1 => {
            let at = random.between(0, file.len() as i64 - 1) as usize;
            file[at] ^= 1 << random.between(0, 7);
        }
        2 => file.push(0),
        _ => {}
    }
    file
}

/// The peer with a name.
fn named<T: Copy>(peers: &[(&str, T)], name: &str) -> T {
    peers.iter().find(|peer| peer.0 == name).expect("peer").1
}

/// The route test, of a route to measure.
fn test_route(test: routes::Test, shape: &str, answer: &str, times: usize) {
    let (scene, numbers) = routes::route(shape, answer);
    for _ in 0..times {
        let said = test(&scene.file, black_box(&scene.map), black_box(&numbers));
        black_box(said.unwrap());
    }
}

/// The route test, of the blocked legs to measure.
fn test_legs(test: routes::Test, scene: &str, way: &str, times: usize) {
    let (scene, legs) = routes::legs(scene, way);
    for _ in 0..times {
        for numbers in &legs {
            let said = test(&scene.file, black_box(&scene.map), black_box(numbers));
            black_box(said.unwrap());
        }
    }
}

/// The times of the verified fill and of the same loop in Rust.
fn time_fill(scene: &str, cells: usize) -> Vec<f64> {
    let file = scenes::file(scene, cells);
    time::medians(&mut ["rattle", "halving"].map(|peer| {
        let (fill, file, mut map) = (named(&PEERS, peer), &file, vec![0; LENT]);
        move || {
            black_box(fill(black_box(file), black_box(&mut map)).unwrap());
        }
    }))
}

/// The times of the route tests.
fn time_route(shape: &str, answer: &str) -> Vec<f64> {
    let (scene, numbers) = routes::route(shape, answer);
    time::medians(&mut routes::PEERS.map(|(_, test)| {
        let (scene, numbers) = (&scene, &numbers);
        move || {
            let (file, map) = (black_box(&scene.file), black_box(&scene.map));
            black_box(test(file, map, black_box(numbers)).unwrap());
        }
    }))
}

/// The times of the writers.
fn time_write() -> Vec<f64> {
    let (grid, triangles) = writing::values();
    time::medians(&mut writing::PEERS.map(|(_, write)| {
        let (grid, triangles, mut out) = (&grid, &triangles, vec![0; desk::FILE_MOST]);
        move || {
            let (grid, triangles) = (black_box(grid), black_box(triangles));
            black_box(write(grid, triangles, black_box(&mut out)).unwrap());
        }
    }))
}

/// The times of the readers of scanner files.
fn time_scan(scene: &str) -> Vec<f64> {
    let (ply, grid) = (scanning::file(scene), writing::grid());
    time::medians(&mut scanning::PEERS.map(|(_, scan)| {
        let (ply, grid, mut out) = (&ply, &grid, vec![0; desk::FILE_MOST]);
        move || {
            let (ply, grid) = (black_box(ply), black_box(grid));
            black_box(scan(ply, grid, black_box(&mut out)).unwrap());
        }
    }))
}

/// Searches for the bars behind some cells of a file, a call for each.
fn search_bars(search: bar::Search, file: &[u8], cells: &[usize]) {
    for cell in cells {
        black_box(search(black_box(file), black_box(*cell)).unwrap());
    }
}

/// The times of the searches for bars.
fn time_bar(scene: &str) -> Vec<f64> {
    let (file, cells) = bar::scene(scene);
    time::medians(&mut bar::PEERS.map(|(_, search)| {
        let (file, cells) = (&file, &cells);
        move || search_bars(search, file, cells)
    }))
}

/// The greatest stack of a fill, over the scenes; of a route test, over the routes; of a reading; of a write; of a bar, over
/// the scenes and their cells; of a scan, over the scenes.
fn stacks() -> [usize; 6] {
    let mut map = vec![0; LENT];
    let fills = scenes::SCENES.map(|scene| stack::fill(&scenes::file(scene, 64), &mut map));
    let tests = routes::ROUTES.map(|(shape, answer)| {
        let (scene, numbers) = routes::route(shape, answer);
        stack::route(&scene.file, &scene.map, &numbers)
    });
    let reading = stack::read(&scenes::file("rails", 64));
    let (grid, triangles) = writing::values();
    let bars = bar::SCENES.into_iter().flat_map(|scene| {
        let (file, cells) = bar::scene(scene);
        cells.into_iter().map(move |cell| stack::bar(&file, cell))
    });
    let scans = scanning::SCENES.map(|scene| stack::scan(&scanning::file(scene), &grid));
    [
        fills.into_iter().max().unwrap(),
        tests.into_iter().max().unwrap(),
        reading,
        stack::write(&grid, &triangles),
        bars.max().unwrap(),
        scans.into_iter().max().unwrap(),
    ]
}

/// Writes the frames and routes for the controller to a folder, in 64 × 64 × 64 cells: NAME.frame, and NAME.route with two
/// bytes a number, the low one first.
fn write_scenes(folder: &Path) {
    let put = |name: String, bytes: Vec<u8>| std::fs::write(folder.join(name), bytes).unwrap();
    for scene in scenes::SCENES.into_iter().chain(["sides", "whole"]) {
        put(format!("{scene}.frame"), scenes::file(scene, 64));
    }
    for (shape, answer) in routes::ROUTES {
        let (_, numbers) = routes::route(shape, answer);
        let bytes = numbers.iter().flat_map(|x| x.to_le_bytes()).collect();
        put(format!("{shape}-{answer}.route"), bytes);
    }
}

/// Prints numbers in a line.
fn print(numbers: &[impl std::fmt::Display]) {
    let words: Vec<String> = numbers.iter().map(ToString::to_string).collect();
    println!("{}", words.join(" "));
}

fn main() {
    let words: Vec<String> = std::env::args().skip(1).collect();
    let words: Vec<&str> = words.iter().map(String::as_str).collect();
    match words[..] {
        ["check"] => {
            check();
            routes::check();
            writing::check();
            scanning::check();
            bar::check();
        }
        ["count", scene, cells] => {
            let file = scenes::file(scene, cells.parse().unwrap());
            println!("{}", agree(&file, LENT).0.unwrap());
        }
        ["stack"] => print(&stacks()),
        ["scenes", folder] => write_scenes(Path::new(folder)),
        ["time", "fill", scene, cells] => print(&time_fill(scene, cells.parse().unwrap())),
        ["time", "route", shape, answer] => print(&time_route(shape, answer)),
        ["time", "write"] => print(&time_write()),
        ["time", "scan", scene] => print(&time_scan(scene)),
        ["time", "bar", scene] => print(&time_bar(scene)),
        ["fill", peer, scene, cells, times] => {
            let fill = named(&PEERS, peer);
            let file = scenes::file(scene, cells.parse().unwrap());
            let mut map = vec![0; LENT];
            for _ in 0..times.parse().unwrap() {
                black_box(fill(black_box(&file), black_box(&mut map)).unwrap());
            }
        }
        ["route", peer, shape, answer, times] => {
            let test = named(&routes::PEERS, peer);
            test_route(test, shape, answer, times.parse().unwrap());
        }
        ["legs", peer, scene, way, times] => {
            let test = named(&routes::PEERS, peer);
            test_legs(test, scene, way, times.parse().unwrap());
        }
        ["write", peer, times] => {
            let write = named(&writing::PEERS, peer);
            let (grid, triangles) = writing::values();
            let mut out = vec![0; desk::FILE_MOST];
            for _ in 0..times.parse().unwrap() {
                let (grid, triangles) = (black_box(&grid), black_box(&triangles));
                black_box(write(grid, triangles, black_box(&mut out)).unwrap());
            }
        }
        ["scan", peer, scene, times] => {
            let scan = named(&scanning::PEERS, peer);
            let (ply, grid) = (scanning::file(scene), writing::grid());
            let mut out = vec![0; desk::FILE_MOST];
            for _ in 0..times.parse().unwrap() {
                let (ply, grid) = (black_box(&ply), black_box(&grid));
                black_box(scan(ply, grid, black_box(&mut out)).unwrap());
            }
        }
        ["bar", peer, scene, times] => {
            let search = named(&bar::PEERS, peer);
            let (file, cells) = bar::scene(scene);
            for _ in 0..times.parse().unwrap() {
                search_bars(search, &file, &cells);
            }
        }
        _ => panic!("see the first lines of main.rs"),
    }
}
