//! The worked examples of the scope document and of its change requests.

use independent::{file_of, fill, list, read, test_route, Header, Record, Refusal, Route};

/// The grid of the worked examples, for one triangle.
const HEADER: Header = Header {
    version: 1,
    cells: [2; 3],
    edge: 10,
    origin: [0; 3],
    count: 1,
};

/// The worked frame with one triangle of kind 0.
fn file(corners: [i64; 9]) -> Vec<u8> {
    let corners = [0, 3, 6].map(|i| [corners[i], corners[i + 1], corners[i + 2]]);
    file_of(&HEADER, &[Record { kind: 0, corners }])
}

const G: [i64; 9] = [1, 20, 5, 20, 20, 5, 20, 1, 5];

#[test]
fn bytes() {
    let printed = [
        0x10, 0x41, 0x04, 0x28, 0x00, 0x00, 0x00, 0x00, 0x00, 0x00, 0x10, 0x00, 0x00, 0x05, 0x00,
        0x14, 0x00, 0x50, 0x01, 0x40, 0x05, 0x00, 0x14, 0x00, 0x50, 0x01, 0x40, 0x05,
    ];
    assert_eq!(file([5; 9]), printed);
    // What is written is read: the least and the greatest values, and each kind in its place.
    let header = Header {
        cells: [64, 1, 33],
        edge: 255,
        origin: [-8192, 7936, -300],
        count: 3,
        ..HEADER
    };
    let corners = [[-8192, 8191, -1], [0, 1, -2], [8191, -8192, 4095]];
    let records = [0, 1, 2].map(|kind| Record { kind, corners });
    for (i, record) in records.into_iter().enumerate() {
        let reading = read(&file_of(&header, &records), i);
        assert_eq!(reading, Ok((header, Some(record))));
    }
}

#[test]
fn rows() {
    for (corners, byte) in [
        ([5; 9], 0x80u8),
        ([10, 5, 5, 10, 5, 5, 10, 5, 5], 0xc0),
        ([10; 9], 0xff),
        ([20, 5, 5, 20, 5, 5, 20, 5, 5], 0x40),
        ([21, 5, 5, 21, 5, 5, 21, 5, 5], 0x00),
        ([0, 20, 5, 20, 20, 5, 20, 0, 5], 0xf0),
        (G, 0x70),
        ([30, 0, 0, 0, 30, 0, 0, 0, 30], 0xff),
        ([31, 0, 0, 0, 31, 0, 0, 0, 31], 0x7f),
    ] {
        let mut map = [0xaa; 3];
        assert_eq!(
            fill(&file(corners), &mut map),
            Ok(byte.count_ones() as usize)
        );
        assert_eq!(map, [byte, 0xaa, 0xaa], "{corners:?}");
    }
}

#[test]
fn routes() {
    let on_g = |numbers: &[i16]| test_route(&file(G), &[0x70], numbers);
    let refused = |number, place| Err(Refusal { number, place });
    assert_eq!(on_g(&[0, 0, 0, 9, 9, 0]), Ok(Route::Free));
    assert_eq!(
        on_g(&[0, 0, 0, 10, 10, 0]),
        Ok(Route::Blocked { leg: 0, cell: 1 })
    );
    assert_eq!(on_g(&[5, 5, 15, 15, 15, 15]), Ok(Route::Free));
    assert_eq!(
        on_g(&[5, 5, 10, 15, 15, 10]),
        Ok(Route::Blocked { leg: 0, cell: 1 })
    );
    assert_eq!(
        on_g(&[20, 20, 5, 0, 0, 5]),
        Ok(Route::Blocked { leg: 0, cell: 3 })
    );
    assert_eq!(on_g(&[0, 0, 15, 20, 20, 20]), Ok(Route::Free));
    assert_eq!(on_g(&[0, 0, 15, 21, 20, 20]), refused(10, 1));
    assert_eq!(on_g(&[0, 0, 15]), refused(9, 0));
    assert_eq!(on_g(&[0; 7]), refused(9, 0));
}

#[test]
fn questions() {
    let refused = |number, place| Err(Refusal { number, place });
    let file = file(G);
    assert_eq!(read(&file[..11], 0), refused(1, 0));
    assert_eq!(read(&file[..27], 0), refused(6, 0));
    assert_eq!(read(&[&file[..], &[0]].concat(), 0), refused(6, 0));
    assert_eq!(
        fill(&file, &mut []),
        Err(Refusal {
            number: 8,
            place: 0
        })
    );
    let none = [0x10, 0x41, 0x04, 0x28, 0, 0, 0, 0, 0, 0, 0, 0];
    let mut map = [0xaa];
    assert_eq!(fill(&none, &mut map), Ok(0));
    assert_eq!(map, [0]);
    // Origin 0, edge 255: 32 cells reach 8,160, and 33 do not fit.
    assert!(read(&[0x17, 0xdf, 0x7f, 0xfc, 0, 0, 0, 0, 0, 0, 0, 0], 0).is_ok());
    assert_eq!(
        read(&[0x18, 0x20, 0x83, 0xfc, 0, 0, 0, 0, 0, 0, 0, 0], 0),
        refused(5, 0)
    );
}

#[test]
fn listing() {
    assert_eq!(list(&file(G)), b"FILLED 3 OF 8\n1 0 0\n0 1 0\n1 1 0\n");
    let mut unused = file(G);
    unused[12] |= 0xc0;
    assert_eq!(list(&unused), b"REFUSED 7 0\n");
}
