//! Compares the verified libraries with the independent version.
//!
//!     compare          pseudo-random frames and routes, damaged files, short and long buffers, values to write, scanner files,
//!                      bars
//!     compare scans    the scanner files alone
//!     compare long     a million damaged files
//!     compare cases    the cases that the program digests reads
//!     compare digest   the lines that the program digests must print, from the independent version

mod bars;
mod clipped;
mod damage;
mod digest;
mod random;
mod scanner;
mod scans;
mod scene;
mod tally;
mod writing;

use random::Random;
use std::process::ExitCode;
use tally::Tally;

const FRAMES: u64 = 30_000;
const WRITES: u64 = 100_000;
const SCANS: u64 = 200_000;

fn main() -> ExitCode {
    let mut tally = Tally::default();
    match std::env::args().nth(1).as_deref() {
        None => {
            (0..FRAMES).for_each(|seed| frame(&mut tally, seed));
            println!("frames: {FRAMES} compared");
            let plates = scene::plates();
            for plate in &plates {
                tally.fill(&mut Random::new(0), &plate.write(), plate.map_bytes());
            }
            println!("plates: {} compared", plates.len());
            let widest = scene::widest();
            widest
                .iter()
                .for_each(|frame| bars::each(&mut tally, frame));
            println!("widest: {} compared", widest.len());
            let damaged = damage::each(&mut tally);
            println!("damaged: {damaged} files compared");
            let writes = writing::each(&mut tally);
            (0..WRITES).for_each(|seed| writing::by_chance(&mut tally, seed));
            println!("writes: {writes} at borders and {WRITES} by chance compared");
            compare_scans(&mut tally);
        }
        Some("scans") => compare_scans(&mut tally),
        Some("long") => damage::many(&mut tally, 1_000_000),
        Some("cases") => {
            digest::print_cases();
            return ExitCode::SUCCESS;
        }
        Some("digest") => {
            digest::print();
            return ExitCode::SUCCESS;
        }
        Some(_) => {
            eprintln!("compare, compare scans, compare long, compare cases or compare digest");
            return ExitCode::FAILURE;
        }
    }
    let kinds = clipped::KINDS.iter().zip(tally.kinds);
    let kinds: Vec<String> = kinds.map(|(kind, n)| format!("{n} {kind}")).collect();
    println!("blocked legs: {}", kinds.join(", "));
    let kinds = bars::KINDS.iter().zip(tally.bars);
    let kinds: Vec<String> = kinds.map(|(kind, n)| format!("{n} {kind}")).collect();
    println!("bars: {}", kinds.join(", "));
    let refused = scans::LIMITS.iter().zip(tally.unscanned);
    let refused: Vec<String> = refused
        .map(|(limit, n)| format!("{n} by {limit}"))
        .collect();
    println!("refused scans: {}", refused.join(", "));
    println!(
        "compare: {} fills ({} accepted), {} fills in steps, {} routes ({} free, {} blocked), {} readings, \
         {} writes ({} written), {} round trips, {} scans ({} written), \
         {} cells ({} with a bar, {} clear, {} outside), {} failed",
        tally.fills,
        tally.accepted,
        tally.steps,
        tally.routes,
        tally.free,
        tally.blocked,
        tally.readings,
        tally.writes,
        tally.written,
        tally.round_trips,
        tally.scans,
        tally.scanned,
        tally.cells,
        tally.behind,
        tally.clear,
        tally.outside,
        tally.failed
    );
    if tally.failed == 0 {
        ExitCode::SUCCESS
    } else {
        ExitCode::FAILURE
    }
}

/// The scanner files.
fn compare_scans(tally: &mut Tally) {
    let scans = scans::each(tally);
    (0..SCANS).for_each(|seed| scans::by_chance(tally, seed));
    println!("scans: {scans} at borders and {SCANS} by chance compared");
}

/// One frame: fills of buffers of several lengths, routes on its map and on others, readings, writing it, and its bars.
fn frame(tally: &mut Tally, seed: u64) {
    tally.seed = seed;
    let mut random = Random::new(seed);
    let large = seed.is_multiple_of(120);
    let frame = match seed % 10 {
        _ if large => scene::largest(&mut random),
        0 => scene::frame(&mut random, 64),
        1..=3 => scene::frame(&mut random, 16),
        _ => scene::frame(&mut random, 6),
    };
    let file = frame.write();
    let bytes = frame.map_bytes();
    let shorter = random.below(bytes);
    let longer = bytes + [0, 1, 7, 100][random.below(4)];

    let map = tally.fill(&mut random, &file, longer);
    for length in [shorter, bytes - 1] {
        tally.fill(&mut random, &file, length);
    }
    for length in [longer, shorter] {
        tally.whole_in_steps(&mut random, &file, length);
        let first = random.below(frame.triangles.len() + 2);
        let count = [0, 1, random.below(frame.triangles.len() + 2), usize::MAX][random.below(4)];
        let part = frame.part(first, count);
        let has = part.triangles.len();
        tally.one_step(
            &mut random,
            &file,
            &part.write(),
            (first, count, has),
            length,
        );
    }
    for _ in 0..if large { 3 } else { 7 } {
        let numbers = scene::route(&mut random, &frame);
        tally.route(&file, &map, &numbers);
    }
    let numbers = scene::route(&mut random, &frame);
    let other = random.bytes(longer);
    tally.route(&file, &other, &numbers);
    tally.route(&file, &map[..shorter], &numbers);
    for _ in 0..if seed.is_multiple_of(10) { 1 } else { 4 } {
        for numbers in scene::leg(&mut random, &frame) {
            tally.route(&file, &map, &numbers);
            tally.route(&file, &other, &numbers);
        }
    }
    for record in 0..frame.triangles.len() + 2 {
        let room = random.below(24);
        tally.read(&mut random, &file, record, room);
        tally.read(&mut random, &file, record, 19);
    }
    tally.read(&mut random, &file, usize::MAX, 9);
    let (grid, triangles) = frame.numbers();
    tally.write(&mut random, &grid, &triangles, file.len() + 7);
    tally.write_back(&file);
    bars::some(tally, &mut random, &frame, &map);
}
