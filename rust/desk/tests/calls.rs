//! Each answer of the library comes through the wrapper as its own case.

use desk::{Grid, Kind, Limit, Refusal, Triangle, file_len, write, write_numbers};

/// The grid of the worked examples.
const GRID: Grid = Grid {
    cells: [2; 3],
    edge: 10,
    origin: [0; 3],
};

/// The triangle of row g.
const G: Triangle = Triangle {
    kind: Kind::Frame,
    corners: [[1, 20, 5], [20, 20, 5], [20, 1, 5]],
};

/// The file of row g.
const FILE: [u8; 28] = [
    0x10, 0x41, 0x04, 0x28, 0x00, 0x00, 0x00, 0x00, 0x00, 0x00, 0x10, 0x00, 0x00, 0x01, 0x00, 0x50,
    0x00, 0x50, 0x05, 0x00, 0x14, 0x00, 0x14, 0x01, 0x40, 0x00, 0x40, 0x05,
];

/// A refusal by this limit. Its place is 0.
fn refused(limit: Limit) -> Result<usize, Refusal> {
    Err(Refusal { limit, place: 0 })
}

#[test]
fn writes() {
    let mut out = [0xaa; 30];
    assert_eq!(write(&GRID, &[G], &mut out), Ok(28));
    assert_eq!((&out[..28], &out[28..]), (&FILE[..], &[0xaa; 2][..]));
    assert_eq!(write(&GRID, &[], &mut out), Ok(12));
    assert_eq!((&out[..10], &out[10..12]), (&FILE[..10], &[0, 0][..]));
    assert_eq!(out[12..28], FILE[12..]);
}

/// Each kind and each corner's numbers come to their places.
#[test]
fn places_of_numbers() {
    let corners = [[-8192, 8191, -1], [0, 1, 2], [3, 4, 5]];
    for kind in [Kind::Frame, Kind::EntryGate, Kind::ExitGate] {
        let mut out = [0; 28];
        assert_eq!(
            write(&GRID, &[Triangle { kind, corners }], &mut out),
            Ok(28)
        );
        let fields = [-8192, 8191, -1, 0, 1, 2, 3, 4, 5];
        let word = fields.into_iter().fold(kind as u128, |word, field: i32| {
            word << 14 | (field as u128 & 0x3fff)
        });
        assert_eq!(out[12..], word.to_be_bytes());
    }
}

#[test]
fn grid_numbers() {
    let grid = Grid {
        cells: [1, 2, 3],
        edge: 4,
        origin: [5, 6, 7],
    };
    assert_eq!(grid.numbers(), [1, 2, 3, 4, 5, 6, 7]);
}

#[test]
fn refuses() {
    let mut out = [0xaa; 28];
    assert_eq!(
        write(&GRID, &[G], &mut out[..27]),
        refused(Limit::ShortOutput)
    );
    assert_eq!(write(&GRID, &[G], &mut []), refused(Limit::ShortOutput));
    let unwritable = refused(Limit::Unwritable);
    let zero = Grid { edge: 0, ..GRID };
    assert_eq!(write(&zero, &[G], &mut out), unwritable);
    assert_eq!(write(&zero, &[G], &mut []), unwritable);
    let mut far = G;
    far.corners[2][1] = 8192;
    assert_eq!(write(&GRID, &[G, far], &mut out), unwritable);
    assert_eq!(out, [0xaa; 28]);
}

/// As many triangles as a file has, and one more.
#[test]
fn long_lists() {
    let mut out = vec![0xaa; desk::FILE_MOST + 16];
    let triangles = vec![G; desk::TRIANGLES_MOST + 1];
    assert_eq!(
        write(&GRID, &triangles, &mut out),
        refused(Limit::Unwritable)
    );
    assert!(out.iter().all(|&byte| byte == 0xaa));
    assert_eq!(write(&GRID, &triangles[1..], &mut out), Ok(desk::FILE_MOST));
    assert!(
        out[12..desk::FILE_MOST]
            .chunks(16)
            .all(|record| record == &FILE[12..])
    );
    assert_eq!(out[desk::FILE_MOST..], [0xaa; 16]);
}

#[test]
fn writes_numbers() {
    let triangle = [0, 1, 20, 5, 20, 20, 5, 20, 1, 5];
    let grid = [2, 2, 2, 10, 0, 0, 0, 0];
    let mut out = [0xaa; 28];
    let unwritable = refused(Limit::Unwritable);
    assert_eq!(write_numbers(&grid[..6], &triangle, &mut out), unwritable);
    assert_eq!(write_numbers(&grid, &triangle, &mut out), unwritable);
    assert_eq!(
        write_numbers(&grid[..7], &triangle[..9], &mut out),
        unwritable
    );
    assert_eq!(write_numbers(&grid[..7], &[3; 10], &mut out), unwritable);
    assert_eq!(out, [0xaa; 28]);
    assert_eq!(write_numbers(&grid[..7], &triangle, &mut out), Ok(28));
    assert_eq!(out, FILE);
}

#[test]
fn lengths() {
    assert_eq!([0, 1, 4095].map(file_len), [12, 28, 65_532]);
    assert_eq!(desk::FILE_MOST, stall::FILE_MOST);
}

/// The texts are those of the C header, under the same numbers.
#[test]
fn texts_of_limits() {
    let header = include_str!("../../../include/desk.h");
    let texts = header
        .lines()
        .filter_map(|line| line.trim().strip_prefix("return \""));
    let texts: Vec<&str> = texts.filter_map(|text| text.strip_suffix("\";")).collect();
    // Limits 8 to 10 are those of the other library alone.
    let ours = Limit::ALL
        .iter()
        .filter(|limit| !(8..=10).contains(&limit.number()));
    let ours: Vec<String> = ours.map(Limit::to_string).collect();
    assert_eq!(texts.len(), 14);
    assert_eq!(texts[..13], ours);
}
