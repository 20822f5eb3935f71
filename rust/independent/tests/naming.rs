//! The cell that a blocked route names: the filled one that the leg reaches first, and of several reached at once the lowest.

use independent::{file_of, test_route, Header, Route};

/// Two cells of edge 10 a side. Cell (i, j, k) has the number i + 2 × j + 4 × k.
const HEADER: Header = Header {
    version: 1,
    cells: [2; 3],
    edge: 10,
    origin: [0; 3],
    count: 0,
};

/// The cell that a leg names on a map of eight cells, cell 0 in the highest bit; none where the leg is free.
fn named(map: u8, leg: [i16; 6]) -> Option<usize> {
    match test_route(&file_of(&HEADER, &[]), &[map], &leg).unwrap() {
        Route::Free => None,
        Route::Blocked { leg, cell } => {
            assert_eq!(leg, 0);
            Some(cell)
        }
    }
}

/// The same leg from its end to its start.
fn turned([a, b, c, d, e, f]: [i16; 6]) -> [i16; 6] {
    [d, e, f, a, b, c]
}

#[test]
fn through_corners() {
    let leg = [0, 0, 0, 20, 20, 20];
    assert_eq!(named(0b1111_1111, leg), Some(0));
    assert_eq!(named(0b1111_1111, turned(leg)), Some(7));
    // All other cells are reached at once, in the middle.
    assert_eq!(named(0b0111_1111, leg), Some(1));
    assert_eq!(named(0b1111_1110, turned(leg)), Some(0));
    assert_eq!(named(0b0110_0000, turned(leg)), Some(1));
    // In x and y alone: only the corner of cells 1 and 2 is touched.
    let leg = [20, 20, 5, 0, 0, 5];
    assert_eq!(named(0b1111_0000, leg), Some(3));
    assert_eq!(named(0b1110_0000, leg), Some(0));
    assert_eq!(named(0b0110_0000, leg), Some(1));
    assert_eq!(named(0b0010_0000, leg), Some(2));
}

#[test]
fn along_faces() {
    // Between cells 0 and 1, then between 2 and 3.
    let leg = [10, 3, 5, 10, 17, 5];
    assert_eq!(named(0b1111_1111, leg), Some(0));
    assert_eq!(named(0b0111_0000, leg), Some(1));
    assert_eq!(named(0b0011_0000, leg), Some(2));
    assert_eq!(named(0b1111_1111, turned(leg)), Some(2));
    assert_eq!(named(0b1101_0000, turned(leg)), Some(3));
    assert_eq!(named(0b1100_0000, turned(leg)), Some(0));
    // It does not come near the upper layer.
    assert_eq!(named(0b0000_1111, leg), None);
}

#[test]
fn along_edges() {
    // Between cells 0 to 3, then between 4 to 7.
    let leg = [10, 10, 2, 10, 10, 18];
    assert_eq!(named(0b1111_1111, leg), Some(0));
    assert_eq!(named(0b0001_1111, leg), Some(3));
    assert_eq!(named(0b1111_1111, turned(leg)), Some(4));
    assert_eq!(named(0b1111_0001, turned(leg)), Some(7));
    assert_eq!(named(0b0011_0000, turned(leg)), Some(2));
}

#[test]
fn from_steel() {
    assert_eq!(named(0b1100_0000, [15, 5, 5, 5, 5, 5]), Some(1));
    assert_eq!(named(0b1000_1000, [5, 5, 15, 5, 5, 5]), Some(4));
    assert_eq!(named(0b1111_1111, [15, 15, 15, 1, 2, 3]), Some(7));
    // It starts on a face, and so in two cells.
    assert_eq!(named(0b1100_0000, [10, 5, 5, 20, 5, 5]), Some(0));
    assert_eq!(named(0b0100_0000, [10, 5, 5, 0, 5, 5]), Some(1));
}

#[test]
fn equal_points() {
    assert_eq!(named(0b1111_1111, [10; 6]), Some(0));
    assert_eq!(named(0b0000_0011, [10; 6]), Some(6));
    assert_eq!(named(0b1111_1111, [15, 10, 15, 15, 10, 15]), Some(5));
    assert_eq!(named(0b1111_1110, [15; 6]), None);
}

#[test]
fn at_the_end() {
    // The leg reaches cell 0 in its last point alone, and cell 3 before.
    let leg = [20, 15, 5, 10, 10, 5];
    assert_eq!(named(0b1001_0000, leg), Some(3));
    assert_eq!(named(0b1000_0000, leg), Some(0));
    // On its way to cell 3 it leaves cell 0 through cell 1, by a little.
    let leg = [0, 0, 5, 20, 19, 5];
    assert_eq!(named(0b0111_0000, leg), Some(1));
    assert_eq!(named(0b0001_0000, leg), Some(3));
    assert_eq!(named(0b1110_0000, turned(leg)), Some(1));
}

/// The fractions 8160 ÷ 16319 and 8159 ÷ 16317 differ by 1 in the last place of their common denominator.
#[test]
fn close_fractions() {
    let header = Header {
        cells: [64, 64, 1],
        edge: 255,
        origin: [-8192; 3],
        ..HEADER
    };
    let numbers = [-8192, 8127, -8100, 8127, -8190, -8100];
    let [first, second] = [[32, 32, 0], [32, 31, 0]].map(|cell| header.number(cell));
    assert!(second < first);
    let mut map = [0; 512];
    for (filled, cell) in [(second, second), (first, first)] {
        map[filled / 8] |= 0x80 >> (filled % 8);
        let route = test_route(&file_of(&header, &[]), &map, &numbers);
        assert_eq!(route, Ok(Route::Blocked { leg: 0, cell }));
    }
}
