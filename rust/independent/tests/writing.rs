//! The writer of change request 1, at the borders of every field.

use independent::{file_of, read, write_file, Header, Record, Refusal};

/// The grid of the worked examples: cells, edge, origin.
const GRID: [i32; 7] = [2, 2, 2, 10, 0, 0, 0];
/// The triangle of row a.
const A: [i32; 10] = [0, 5, 5, 5, 5, 5, 5, 5, 5, 5];
/// The file of row a, as printed.
const FILE: [u8; 28] = [
    0x10, 0x41, 0x04, 0x28, 0x00, 0x00, 0x00, 0x00, 0x00, 0x00, 0x10, 0x00, 0x00, 0x05, 0x00, 0x14,
    0x00, 0x50, 0x01, 0x40, 0x05, 0x00, 0x14, 0x00, 0x50, 0x01, 0x40, 0x05,
];

fn refused(number: u32) -> Result<usize, Refusal> {
    Err(Refusal { number, place: 0 })
}

/// The answer with room for every file. A refused call leaves the output as it was.
fn answer(grid: &[i32], triangles: &[i32]) -> Result<usize, Refusal> {
    let mut out = vec![0xaa; 65_600];
    let answer = write_file(grid, triangles, &mut out);
    let end = answer.unwrap_or(0);
    assert!(out[end..].iter().all(|&byte| byte == 0xaa));
    answer
}

/// Numbers with another value at a place.
fn with<const N: usize>(mut numbers: [i32; N], at: usize, value: i32) -> [i32; N] {
    numbers[at] = value;
    numbers
}

/// Numbers with a value at a place are written when it is from low to high, and refused at all others.
fn borders<const N: usize>(
    numbers: [i32; N],
    at: usize,
    low: i32,
    high: i32,
    answer: impl Fn(&[i32]) -> Result<usize, Refusal>,
) {
    for value in [low, low + 1, high - 1, high] {
        let answer = answer(&with(numbers, at, value));
        assert!(answer.is_ok(), "place {at}, value {value}");
    }
    for value in [low - 1, high + 1, i32::MIN, i32::MAX] {
        let answer = answer(&with(numbers, at, value));
        assert_eq!(answer, refused(12), "place {at}, value {value}");
    }
}

#[test]
fn worked_bytes() {
    let mut out = [0xaa; 30];
    assert_eq!(write_file(&GRID, &A, &mut out), Ok(28));
    assert_eq!((&out[..28], &out[28..]), (&FILE[..], &[0xaa; 2][..]));
    let mut out = [0xaa; 14];
    assert_eq!(write_file(&GRID, &[], &mut out), Ok(12));
    assert_eq!(
        (&out[..10], &out[10..]),
        (&FILE[..10], &[0, 0, 0xaa, 0xaa][..])
    );
}

#[test]
fn grid_fields() {
    let alone = |grid: &[i32]| answer(grid, &[]);
    for axis in 0..3 {
        borders(GRID, axis, 1, 64, alone);
        // the last origin that leaves room for a cell of 1 mm
        borders([1, 1, 1, 1, 0, 0, 0], 4 + axis, -8192, 8190, alone);
    }
    borders(GRID, 3, 1, 255, alone);
}

#[test]
fn far_corners() {
    // Origin 0, edge 255: 32 cells reach 8,160, and 33 do not fit.
    for axis in 0..3 {
        let grid = with([1, 1, 1, 255, 0, 0, 0], axis, 32);
        assert_eq!(answer(&grid, &[]), Ok(12));
        assert_eq!(answer(&with(grid, axis, 33), &[]), refused(12));
        // 8,191 is allowed
        assert_eq!(answer(&with(grid, 4 + axis, 31), &[]), Ok(12));
        assert_eq!(answer(&with(grid, 4 + axis, 32), &[]), refused(12));
    }
}

#[test]
fn record_fields() {
    for at in 0..10 {
        let (low, high) = if at == 0 { (0, 2) } else { (-8192, 8191) };
        borders(A, at, low, high, |record| answer(&GRID, record));
        borders(A, at, low, high, |record| {
            answer(&GRID, &[&A, record].concat())
        });
    }
}

#[test]
fn lists() {
    assert_eq!(answer(&GRID, &A.repeat(4095)), Ok(65_532));
    assert_eq!(answer(&GRID, &A.repeat(4096)), refused(12));
    for part in 1..10 {
        assert_eq!(answer(&GRID, &A[..part]), refused(12));
        assert_eq!(answer(&GRID, &[&A, &A[..part]].concat()), refused(12));
    }
    for numbers in (0..14).filter(|&numbers| numbers != 7) {
        assert_eq!(answer(&[1; 14][..numbers], &A), refused(12));
    }
}

#[test]
fn outputs() {
    for length in 0..28 {
        let mut out = vec![0xaa; length];
        assert_eq!(write_file(&GRID, &A, &mut out), refused(11));
        // 12 comes before 11
        assert_eq!(write_file(&GRID, &A[..9], &mut out), refused(12));
        assert_eq!(out, vec![0xaa; length]);
    }
    assert_eq!(write_file(&GRID, &A, &mut [0; 28]), Ok(28));
}

/// What is written reads back as the values given, and what is read is written back.
#[test]
fn round_trip() {
    let grid = [64, 1, 33, 255, -8192, 7936, -300];
    let triangles = [
        [0, -8192, 8191, -1, 0, 1, -2, 8191, -8192, 4095],
        [2, 1, 2, 3, 4, 5, 6, 7, 8, 9],
    ];
    let mut file = vec![0; 44];
    assert_eq!(
        write_file(&grid, triangles.as_flattened(), &mut file),
        Ok(44)
    );
    let header = Header {
        version: 1,
        cells: [64, 1, 33],
        edge: 255,
        origin: [-8192, 7936, -300],
        count: 2,
    };
    let records = triangles.map(|numbers| Record {
        kind: i64::from(numbers[0]),
        corners: [1, 4, 7].map(|at| [0, 1, 2].map(|axis| i64::from(numbers[at + axis]))),
    });
    for (i, record) in records.into_iter().enumerate() {
        assert_eq!(read(&file, i), Ok((header, Some(record))));
    }
    assert_eq!(file_of(&header, &records), file);
}
