//! Each answer of the library comes through the wrapper as its own case.

use stall::{
    Header, Kind, Limit, NotRead, Record, Refusal, Route, fill, fill_begin, fill_end, fill_some,
    read, read_numbers, test_route, test_route_numbers,
};

/// Two cells a side of edge 10 from (0, 0, 0), and one triangle: (1, 20, 5), (20, 20, 5), (20, 1, 5).
const FILE: [u8; 28] = [
    0x10, 0x41, 0x04, 0x28, 0x00, 0x00, 0x00, 0x00, 0x00, 0x00, 0x10, 0x00, 0x00, 0x01, 0x00, 0x50,
    0x00, 0x50, 0x05, 0x00, 0x14, 0x00, 0x14, 0x01, 0x40, 0x00, 0x40, 0x05,
];

const NUMBERS: [i32; 19] = [1, 2, 2, 2, 10, 0, 0, 0, 1, 0, 1, 20, 5, 20, 20, 5, 20, 1, 5];

/// A refusal with place 0.
fn refusal(limit: Limit) -> Refusal {
    Refusal { limit, place: 0 }
}

/// The file with one byte changed.
fn changed(at: usize, value: u8) -> [u8; 28] {
    let mut file = FILE;
    file[at] = value;
    file
}

#[test]
fn fills() {
    let mut map = [0xaa; 3];
    assert_eq!(fill(&FILE, &mut map), Ok(3));
    assert_eq!(map, [0x70, 0xaa, 0xaa]);
    assert_eq!(fill(&FILE, &mut []), Err(refusal(Limit::ShortMap)));
}

#[test]
fn fills_in_steps() {
    let mut map = [0xaa; 2];
    assert_eq!(fill_begin(&FILE, &mut map), Ok(1));
    assert_eq!(map, [0x00, 0xaa]);
    assert_eq!(fill_some(&FILE, &mut map, 1, usize::MAX), Ok(0));
    assert_eq!(fill_end(&FILE, &map), Ok(0));
    map[0] = 0x80;
    assert_eq!(fill_some(&FILE, &mut map, 0, usize::MAX), Ok(1));
    assert_eq!(map, [0xf0, 0xaa]);
    assert_eq!(fill_end(&FILE, &map), Ok(4));
    let short = Err(refusal(Limit::ShortMap));
    assert_eq!(fill_begin(&FILE, &mut []), short);
    assert_eq!(fill_some(&FILE, &mut [], 0, 1), short);
    assert_eq!(fill_end(&FILE, &[]), short);
}

#[test]
fn routes() {
    let on = |points: &[[i16; 3]]| test_route(&FILE, &[0x70], points);
    assert_eq!(on(&[[0, 0, 0], [9, 9, 0]]), Ok(Route::Free));
    let blocked = Ok(Route::Blocked { leg: 1, cell: 1 });
    assert_eq!(on(&[[0, 0, 0], [9, 9, 0], [10, 10, 0]]), blocked);
    let first = Ok(Route::Blocked { leg: 0, cell: 3 });
    assert_eq!(on(&[[20, 20, 5], [0, 0, 5]]), first);
    assert_eq!(on(&[[0; 3]; 64]), Ok(Route::Free));
    let count = Err(refusal(Limit::PointCount));
    assert_eq!(on(&[]), count);
    assert_eq!(on(&[[0; 3]]), count);
    assert_eq!(on(&[[0; 3]; 65]), count);
    let outside = Refusal {
        limit: Limit::PointOutside,
        place: 2,
    };
    assert_eq!(on(&[[0; 3], [0; 3], [0, -1, 0]]), Err(outside));
}

#[test]
fn routes_of_numbers() {
    let on = |numbers: &[i16]| test_route_numbers(&FILE, &[0x70], numbers);
    let blocked = Ok(Route::Blocked { leg: 1, cell: 1 });
    assert_eq!(on(&[0, 0, 0, 9, 9, 0, 10, 10, 0]), blocked);
    let count = Err(refusal(Limit::PointCount));
    assert_eq!(on(&[0; 7]), count);
    assert_eq!(on(&[0; 8]), count);
}

#[test]
fn readings() {
    let reading = read(&FILE, 0).unwrap();
    let header = Header {
        version: 1,
        cells: [2; 3],
        edge: 10,
        origin: [0; 3],
        count: 1,
    };
    assert_eq!(reading.header, header);
    let corners = [[1, 20, 5], [20, 20, 5], [20, 1, 5]];
    let kinds = [Kind::Frame, Kind::EntryGate, Kind::ExitGate];
    for (bits, kind) in (0..).zip(kinds) {
        assert_eq!(kind as u8, bits);
        let record = read(&changed(12, bits << 6), 0).unwrap().record;
        assert_eq!(record, Some(Record { kind, corners }));
    }
    assert_eq!(read(&FILE, 1).unwrap().record, None);
}

/// The most negative and the greatest coordinates come through.
#[test]
fn reads_far_corners() {
    let mut file = FILE;
    file[12..]
        .copy_from_slice(&((0x2000u128 << 112) | (0x1fff << 98) | (0x3fff << 84)).to_be_bytes());
    let record = read(&file, 0).unwrap().record.unwrap();
    assert_eq!(record.corners, [[-8192, 8191, -1], [0; 3], [0; 3]]);
}

#[test]
fn numbers() {
    let mut out = [77; 20];
    let short = |wanted| Err(NotRead::Short { wanted });
    assert_eq!(read_numbers(&FILE, 0, &mut out[..18]), short(19));
    assert_eq!(read_numbers(&FILE, 1, &mut out[..8]), short(9));
    assert_eq!(out, [77; 20]);
    assert_eq!(read_numbers(&FILE, 1, &mut out), Ok(9));
    assert_eq!((&out[..9], &out[9..]), (&NUMBERS[..9], &[77; 11][..]));
    assert_eq!(read_numbers(&FILE, 0, &mut out), Ok(19));
    assert_eq!((&out[..19], out[19]), (&NUMBERS[..], 77));
}

/// Every cell of a grid with three different sides has its place and its box, in the order of the numbers.
#[test]
fn places() {
    let header = Header {
        version: 1,
        cells: [2, 3, 5],
        edge: 7,
        origin: [-7, 0, 100],
        count: 0,
    };
    assert_eq!((header.cell_count(), header.map_len()), (30, 4));
    let mut cell = 0;
    for k in 0..5 {
        for j in 0..3 {
            for i in 0..2 {
                assert_eq!(header.place(cell), Some([i, j, k]));
                let low = [7 * i as i16 - 7, 7 * j as i16, 7 * k as i16 + 100];
                assert_eq!(header.cell_box(cell), Some([low, low.map(|x| x + 7)]));
                cell += 1;
            }
        }
    }
    assert_eq!((header.place(30), header.cell_box(30)), (None, None));
}

/// An input for each limit: what the route test says of it.
#[test]
fn every_limit() {
    let route =
        |file: &[u8], map: &[u8], points: &[[i16; 3]]| test_route(file, map, points).unwrap_err();
    let (map, points) = ([0x70], [[0; 3]; 2]);
    let refusals = [
        route(&FILE[..11], &map, &points),
        route(&changed(0, 0x20), &map, &points),
        route(&changed(3, 0x00), &map, &points),
        route(&changed(11, 0x01), &map, &points),
        route(&changed(2, 0xff), &map, &points),
        route(&FILE[..27], &map, &points),
        route(&changed(12, 0xc0), &map, &points),
        route(&FILE, &[], &points),
        route(&FILE, &map, &points[..1]),
        route(&FILE, &map, &[[0; 3], [0, 0, 21]]),
    ];
    for (number, refusal) in (1..).zip(refusals) {
        let place = usize::from(number == 10);
        let limit = Limit::from_number(number).unwrap();
        assert_eq!(refusal, Refusal { limit, place });
    }
}

/// The texts are those of the C header, under the same numbers.
#[test]
fn texts_of_limits() {
    let header = include_str!("../../../include/stall.h");
    let texts = header
        .lines()
        .filter_map(|line| line.trim().strip_prefix("return \""));
    let texts: Vec<&str> = texts.filter_map(|text| text.strip_suffix("\";")).collect();
    let ours: Vec<String> = Limit::ALL.iter().map(Limit::to_string).collect();
    assert_eq!(texts.len(), 11);
    assert_eq!(texts[..10], ours[..10]);
}

/// Errors print as text, and pass as errors of any program.
#[test]
fn errors() {
    let text = |error: &dyn std::error::Error| error.to_string();
    let kind = read(&changed(12, 0xc0), 0).unwrap_err();
    assert_eq!(
        text(&kind),
        "limit 7: a record has the unused kind 3 (record 0)"
    );
    let point = test_route(&FILE, &[0x70], &[[0; 3], [21; 3]]).unwrap_err();
    assert_eq!(
        text(&point),
        "limit 10: a point of the route lies outside the grid (point 1)"
    );
    let length = read_numbers(&FILE[..27], 0, &mut []).unwrap_err();
    assert_eq!(
        text(&length),
        "limit 6: the file's length does not fit its triangle count"
    );
    let short = read_numbers(&FILE, 0, &mut []).unwrap_err();
    assert_eq!(text(&short), "the buffer has no room for 19 numbers");
}
