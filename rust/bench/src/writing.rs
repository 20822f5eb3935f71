//! The writers of frame files: the verified one and peers in Rust, of which one has the same algorithm. Each asks the
//! questions and writes the file.

use crate::scenes::{self, Random};
use desk::{Limit, Refusal};

/// A writer: the length of the file, or the refusal.
pub type Write = fn(&[i32], &[i32], &mut [u8]) -> Result<usize, Refusal>;

/// The peers by name. The first is the verified library.
pub const PEERS: [(&str, Write); 3] = [
    ("rattle", desk::write_numbers),
    ("pen", crate::pen::write),
    ("words", by_words),
];

// ---- the quick peer: a pass that checks all numbers, and one that writes two words a record

/// The same by a Rust programmer who wants it quick, without unsafe code.
fn by_words(grid: &[i32], triangles: &[i32], out: &mut [u8]) -> Result<usize, Refusal> {
    let no = |limit| Err(Refusal { limit, place: 0 });
    let Ok(grid) = <&[i32; 7]>::try_from(grid) else {
        return no(Limit::Unwritable);
    };
    let (records, part) = triangles.as_chunks::<10>();
    let whole = part.is_empty() && records.len() <= desk::TRIANGLES_MOST;
    if !whole || !grid_fits(grid) || !records.iter().all(record_fits) {
        return no(Limit::Unwritable);
    }
    let length = desk::file_len(records.len());
    let Some(file) = out.get_mut(..length) else {
        return no(Limit::ShortOutput);
    };
    let (header, behind) = file.split_at_mut(12);
    header.copy_from_slice(&header_word(grid, records.len()).to_be_bytes()[4..]);
    for (place, record) in behind.as_chunks_mut::<16>().0.iter_mut().zip(records) {
        let [high, low] = record_words(record).map(u64::to_be_bytes);
        place[..8].copy_from_slice(&high);
        place[8..].copy_from_slice(&low);
    }
    Ok(length)
}

/// Whether the grid's numbers are in their fields, and its far corners at most 8,191.
pub fn grid_fits(grid: &[i32; 7]) -> bool {
    let edge = grid[3];
    let axis_fits = |axis: usize| {
        let (cells, origin) = (grid[axis], grid[4 + axis]);
        (1..=64).contains(&cells)
            && (-8192..=8191).contains(&origin)
            && origin + cells * edge <= 8191
    };
    (1..=255).contains(&edge) && (0..3).all(axis_fits)
}

/// Whether a record's numbers are in their fields. One comparison serves all nine coordinates.
fn record_fits(record: &[i32; 10]) -> bool {
    let [kind, corners @ ..] = record;
    let shifted = |all, value: &i32| all | value.wrapping_add(8192) as u32;
    let all = corners.iter().fold(0, shifted);
    (0..=2).contains(kind) && all < 1 << 14
}

/// The bits of the header, the lowest 96.
pub fn header_word(grid: &[i32; 7], count: usize) -> u128 {
    let [nx, ny, nz, edge, x, y, z] = *grid;
    let cells = [nx - 1, ny - 1, nz - 1].map(|cells| (cells, 6));
    let origin = [x, y, z].map(|value| (value, 14));
    let fields = [(1, 4)].into_iter().chain(cells).chain([(edge, 8)]);
    let fields = fields.chain(origin).chain([(count as i32, 12), (0, 12)]);
    fields.fold(0, |word, (value, width)| {
        word << width | (value as u128 & ((1 << width) - 1))
    })
}

/// The bits of a record, in two words.
pub fn record_words(record: &[i32; 10]) -> [u64; 2] {
    let at = |number: usize| record[number] as u64 & 0x3fff;
    let kind = record[0] as u64;
    [
        kind << 62 | at(1) << 48 | at(2) << 34 | at(3) << 20 | at(4) << 6 | at(5) >> 8,
        at(5) << 56 | at(6) << 42 | at(7) << 28 | at(8) << 14 | at(9),
    ]
}

// ---- the values to measure, and the check

/// The numbers of the grid of 64 cells a side.
pub fn grid() -> Vec<i32> {
    let grid = scenes::grid(64);
    let grid = desk::Grid {
        cells: grid.cells.map(|cells| cells as i32),
        edge: grid.edge as i32,
        origin: grid.origin.map(|value| value as i32),
    };
    grid.numbers().to_vec()
}

/// The grid of 64 cells a side, and as many triangles as a file can hold: those of the worst scene, of all kinds.
pub fn values() -> (Vec<i32>, Vec<i32>) {
    let mut triangles = Vec::new();
    for (i, corners) in scenes::triangles("worst").iter().enumerate() {
        triangles.push(i as i32 % 3);
        triangles.extend(corners.iter().flatten().map(|&value| value as i32));
    }
    (grid(), triangles)
}

/// Any value from low to high; now and then one beyond, or any number.
fn any_value(random: &mut Random, low: i64, high: i64) -> i32 {
    let value = match random.between(0, 99) {
        0 => low - 1,
        1 => high + 1,
        2 => random.between(i32::MIN.into(), i32::MAX.into()),
        3..=9 => low,
        10..=19 => high,
        _ => random.between(low, high),
    };
    value as i32
}

/// The values of a small file; some are no file's.
fn any_values(random: &mut Random) -> (Vec<i32>, Vec<i32>) {
    let [nx, ny, nz] = [0; 3].map(|_| any_value(random, 1, 64));
    let edge = any_value(random, 1, 255);
    let mut grid = vec![nx, ny, nz, edge];
    for cells in [nx, ny, nz] {
        let far = (8191 - i64::from(cells) * i64::from(edge)).clamp(-8192, 8191);
        grid.push(any_value(random, -8192, far));
    }
    let part = i64::from(random.between(0, 9) == 0) * random.between(1, 9);
    let count = 10 * random.between(0, 3) + part;
    let number = |at| match at % 10 {
        0 => any_value(random, 0, 2),
        _ => any_value(random, -8192, 8191),
    };
    (grid, (0..count).map(number).collect())
}

/// What a writer answers and leaves in lent bytes.
fn outcome(
    write: Write,
    grid: &[i32],
    list: &[i32],
    lent: usize,
) -> (Result<usize, Refusal>, Vec<u8>) {
    let mut out = vec![0xa5; lent];
    (write(grid, list, &mut out), out)
}

/// Holds the writers to each other and to the independent one.
pub fn check() {
    let mut random = Random(5);
    let (grid, triangles) = values();
    let longest = (grid, triangles, desk::FILE_MOST + 8);
    let others = (0..5000).map(|_| {
        let (grid, triangles) = any_values(&mut random);
        let lent = desk::file_len(triangles.len() / 10) as i64 + random.between(-4, 20);
        (grid, triangles, lent as usize)
    });
    let (mut written, mut refused) = (0, 0);
    for (grid, triangles, lent) in [longest].into_iter().chain(others) {
        let wanted = outcome(crate::printed::write, &grid, &triangles, lent);
        for (name, write) in PEERS {
            let other = outcome(write, &grid, &triangles, lent);
            assert!(
                other == wanted,
                "{name} differs: {:?}, {:?}",
                other.0,
                wanted.0
            );
        }
        match wanted.0 {
            Ok(_) => written += 1,
            Err(_) => refused += 1,
        }
    }
    println!("{written} written and {refused} refused files: all alike");
}
