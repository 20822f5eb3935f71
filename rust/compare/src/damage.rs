//! Damaged files: every truncation and every single-bit flip of some files, and many by chance.

use crate::random::Random;
use crate::scene;
use crate::tally::Tally;

/// Longer than every map: damage may make the grid larger.
const ROOM: usize = 32_770;

/// Every call on a damaged file.
fn calls(tally: &mut Tally, random: &mut Random, file: &[u8], numbers: &[i16], room: usize) {
    let map = tally.fill(random, file, room);
    tally.route(file, &map, numbers);
    let record = random.below(7);
    tally.read(random, file, record, 19);
    tally.write_back(file);
    // some of these cells are not in the grid
    let (cell, room) = (random.below(20), random.below(6));
    tally.bar(random, file, cell, room);
}

/// Every truncation, every flip of one bit and some bytes more, of four files. Gives how many files that were.
pub fn each(tally: &mut Tally) -> usize {
    let mut files = 0;
    for seed in 0..4 {
        tally.seed = seed;
        let mut random = Random::new(seed);
        let mut frame = scene::small(&mut random);
        while frame.triangles.len() < 2 {
            frame = scene::small(&mut random);
        }
        let file = frame.write();
        let numbers = scene::route(&mut random, &frame);
        for length in 0..file.len() {
            calls(tally, &mut random, &file[..length], &numbers, ROOM);
        }
        for bit in 0..8 * file.len() {
            let mut flipped = file.clone();
            flipped[bit / 8] ^= 0x80 >> (bit % 8);
            calls(tally, &mut random, &flipped, &numbers, ROOM);
        }
        for more in 1..=17 {
            let mut longer = file.clone();
            longer.extend(random.bytes(more));
            calls(tally, &mut random, &longer, &numbers, ROOM);
        }
        files += file.len() * 9 + 17;
    }
    files
}

/// So many files with one to three damages each.
pub fn many(tally: &mut Tally, files: u64) {
    for seed in 0..files {
        tally.seed = seed;
        let mut random = Random::new(seed);
        let frame = scene::small(&mut random);
        let mut file = frame.write();
        let numbers = scene::route(&mut random, &frame);
        for _ in 0..1 + random.below(3) {
            damage(&mut random, &mut file);
        }
        let room = frame.map_bytes() + random.below(64);
        calls(tally, &mut random, &file, &numbers, room);
        if (seed + 1).is_multiple_of(100_000) {
            println!("damaged: {} files, {} failed", seed + 1, tally.failed);
        }
    }
}

/// A cut, bytes more, another byte, or a flipped bit.
fn damage(random: &mut Random, file: &mut Vec<u8>) {
    if file.is_empty() {
        file.push(random.next() as u8);
        return;
    }
    let at = random.below(file.len());
    match random.below(8) {
        0 => file.truncate(at),
        1 => file.extend_from_slice(&[0; 16][at % 16..]),
        2 => file[at] = random.next() as u8,
        _ => file[at] ^= 1 << random.below(8),
    }
}
