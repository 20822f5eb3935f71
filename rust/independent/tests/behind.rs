//! The bar behind a cell, of change request 5.

use independent::{bar, file_of, fill, weights_show, Header, Record, Refusal};

/// Two cells of edge 10 a side. Cell (i, j, k) has the number i + 2 × j + 4 × k.
const HEADER: Header = Header {
    version: 1,
    cells: [2; 3],
    edge: 10,
    origin: [0; 3],
    count: 0,
};

type Triangle = [[i64; 3]; 3];

const G: Triangle = [[1, 20, 5], [20, 20, 5], [20, 1, 5]];

/// The file of some triangles in a grid.
fn file(header: Header, triangles: &[Triangle]) -> Vec<u8> {
    let count = triangles.len();
    let record = |&corners: &Triangle| Record { kind: 2, corners };
    let records: Vec<Record> = triangles.iter().map(record).collect();
    file_of(&Header { count, ..header }, &records)
}

/// The cells behind which there is a bar, cell 0 in the highest bit. They are those that a fill fills.
fn reached(triangle: Triangle) -> u8 {
    let file = file(HEADER, &[triangle]);
    let bit = |cell: usize| match bar(&file, cell) {
        Ok(None) => 0,
        Ok(Some(0)) => 0x80 >> cell,
        other => panic!("{other:?}"),
    };
    let bits = (0..8).map(bit).sum();
    let mut map = [0];
    fill(&file, &mut map).unwrap();
    assert_eq!(map, [bits], "{triangle:?}");
    bits
}

#[test]
fn worked_rows() {
    let rows = [
        ([[5; 3]; 3], 0x80),
        ([[10, 5, 5]; 3], 0xc0),
        ([[10; 3]; 3], 0xff),
        ([[20, 5, 5]; 3], 0x40),
        ([[21, 5, 5]; 3], 0x00),
        ([[0, 20, 5], [20, 20, 5], [20, 0, 5]], 0xf0),
        (G, 0x70),
        ([[30, 0, 0], [0, 30, 0], [0, 0, 30]], 0xff),
        ([[31, 0, 0], [0, 31, 0], [0, 0, 31]], 0x7f),
    ];
    for ([a, b, c], cells) in rows {
        for corners in [[a, b, c], [b, c, a], [c, b, a]] {
            assert_eq!(reached(corners), cells, "{corners:?}");
        }
    }
}

/// Segments in every order of their corners: across, along a face, along an edge, and beside the grid.
#[test]
fn segments() {
    let rows = [
        ([[0, 0, 0], [20, 20, 20]], 0xff),
        ([[0, 20, 5], [20, 0, 5]], 0xf0),
        ([[0, 19, 5], [19, 0, 5]], 0xe0),
        ([[10, 1, 2], [10, 8, 9]], 0xc0),
        ([[10, 10, 11], [10, 10, 30]], 0x0f),
        ([[-5, 26, 3], [26, -5, 3]], 0x70),
        ([[-8192, 8191, 5], [8191, 8190, 5]], 0x00),
    ];
    for ([a, b], cells) in rows {
        for corners in [[a, b, b], [a, a, b], [a, b, a], [b, a, a]] {
            assert_eq!(reached(corners), cells, "{corners:?}");
        }
    }
    // The third corner is between the others.
    assert_eq!(reached([[0, 0, 0], [20, 20, 20], [5, 5, 5]]), 0xff);
    assert_eq!(reached([[-8, -8, -8], [-2, -2, -2], [9, 9, 9]]), 0x80);
}

/// Triangles whose corners lie far outside, that pass by a corner of the grid in the smallest distance, or touch it.
#[test]
fn from_afar() {
    let plane = |sum: i64| {
        [
            [8000, 0, sum - 8000],
            [0, 8000, sum - 8000],
            [-7000, -900, sum + 7900],
        ]
    };
    assert_eq!(reached(plane(60)), 0x01);
    assert_eq!(reached(plane(61)), 0x00);
    assert_eq!(reached(plane(0)), 0x80);
    assert_eq!(reached(plane(-1)), 0x00);
    // All points of the grid's middle layer, and more.
    assert_eq!(
        reached([[-8192, -8192, 10], [8191, -8192, 10], [0, 8191, 10]]),
        0xff
    );
}

/// The lowest record that reaches a cell, though others do too.
#[test]
fn lowest_record() {
    let outside = [[21, 5, 5]; 3];
    let file = file(HEADER, &[outside, G, [[10; 3]; 3], [[5; 3]; 3]]);
    let behind: Vec<_> = (0..8).map(|cell| bar(&file, cell).unwrap()).collect();
    let [first, second] = [Some(1), Some(2)];
    assert_eq!(
        behind,
        [second, first, first, first, second, second, second, second]
    );
    assert_eq!(bar(&self::file(HEADER, &[outside]), 1), Ok(None));
    assert_eq!(bar(&self::file(HEADER, &[]), 7), Ok(None));
}

/// Questions 1 to 7, and 16 behind them.
#[test]
fn questions() {
    let refused = |number, place| Err(Refusal { number, place });
    let file = file(HEADER, &[G, G]);
    for cell in [8, 9, usize::MAX] {
        assert_eq!(bar(&file, cell), refused(16, 0));
        assert_eq!(bar(&file[..43], cell), refused(6, 0));
        assert_eq!(bar(&file[..11], cell), refused(1, 0));
        let mut unused = file.clone();
        unused[28] |= 0xc0;
        assert_eq!(bar(&unused, cell), refused(7, 1));
        assert_eq!(bar(&unused, 0), refused(7, 1));
    }
    assert_eq!(bar(&file, 7), Ok(None));
}

/// Weights at the borders of what is allowed.
#[test]
fn weights() {
    let show = |corners: Triangle, cell: usize, weights: [i64; 3]| {
        weights_show(&HEADER, &Record { kind: 0, corners }, cell, weights)
    };
    // (20, 1, 5) lies in cell 1 alone, and the middle of (1, 20, 5) and (20, 1, 5) in cell 3 alone.
    assert!(show(G, 1, [0, 0, 1]));
    assert!(!show(G, 3, [0, 0, 1]) && !show(G, 0, [0, 0, 1]));
    assert!(show(G, 3, [1, 0, 1]) && !show(G, 1, [1, 0, 1]));
    assert!(!show(G, 1, [0, 0, 0]));
    assert!(!show(G, 1, [0, -1, 3]) && !show(G, 1, [0, 0, -1]));
    assert!(show(G, 1, [0, 0, (1 << 30) - 1]) && !show(G, 1, [0, 0, 1 << 30]));
    assert!(!show(G, 1, [0, 0, i64::MAX]) && !show(G, 1, [i64::MIN; 3]));
    // On a face, and just beyond it.
    let along = [[0, 5, 5], [20, 5, 5], [20, 5, 5]];
    assert!(show(along, 0, [1, 1, 0]) && show(along, 1, [1, 0, 1]));
    assert!(!show(along, 0, [999, 500, 500]) && show(along, 1, [999, 500, 500]));
    assert!(show(along, 0, [1001, 500, 500]) && !show(along, 1, [1001, 500, 500]));
}
