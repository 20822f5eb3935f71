//! Scanner files, of change request 3.

use independent::{read, scan, write_file, Refusal};

/// The grid of the worked examples: cells, edge, origin.
const GRID: [i32; 7] = [2, 2, 2, 10, 0, 0, 0];

/// A header with these counts and types.
fn header(vertices: &str, types: [&str; 3], faces: &str) -> String {
    let [x, y, z] = types;
    format!(
        "ply\nformat binary_little_endian 1.0\nelement vertex {vertices}\nproperty {x} x\nproperty {y} y\n\
         property {z} z\nelement face {faces}\nproperty list uchar int vertex_indices\nend_header\n"
    )
}

/// The bytes of a face with these indices.
fn face(indices: &[i32]) -> Vec<u8> {
    let mut bytes = vec![indices.len() as u8];
    bytes.extend(indices.iter().flat_map(|index| index.to_le_bytes()));
    bytes
}

/// A file of whole vertices and of faces.
fn ply(vertices: &[[i32; 3]], faces: &[&[i32]]) -> Vec<u8> {
    let (n, m) = (vertices.len().to_string(), faces.len().to_string());
    let mut file = header(&n, ["int"; 3], &m).into_bytes();
    file.extend(vertices.as_flattened().iter().flat_map(|v| v.to_le_bytes()));
    file.extend(faces.iter().flat_map(|indices| face(indices)));
    file
}

/// A good file: two faces of four vertices.
fn good() -> Vec<u8> {
    let vertices = [[1, 20, 5], [20, 20, 5], [20, 1, 5], [-8192, 8191, 0]];
    ply(&vertices, &[&[0, 1, 2], &[3, 0, 3]])
}

fn refused(number: u32, place: usize) -> Result<usize, Refusal> {
    Err(Refusal { number, place })
}

/// The answer with room for a few triangles.
fn answer(ply: &[u8]) -> Result<usize, Refusal> {
    answer_in(ply, 100)
}

/// The answer with so much room. A refused call leaves the output as it was.
fn answer_in(ply: &[u8], room: usize) -> Result<usize, Refusal> {
    let mut out = vec![0xaa; room];
    let answer = scan(ply, &GRID, &mut out);
    let end = answer.unwrap_or(0);
    assert!(out[end..].iter().all(|&byte| byte == 0xaa));
    answer
}

/// What becomes of one number of a type, on each axis: the whole number, or none where it is refused.
fn rounded(type_: &str, number: &[u8]) -> Option<i64> {
    let numbers = [0, 1, 2].map(|axis| {
        let mut types = ["int"; 3];
        types[axis] = type_;
        let mut file = header("1", types, "1").into_bytes();
        for other in 0..3 {
            file.extend(if other == axis { number } else { &[7, 0, 0, 0] });
        }
        file.extend(face(&[0, 0, 0]));
        let mut out = [0; 28];
        match scan(&file, &GRID, &mut out) {
            Err(refusal) => {
                assert_eq!((refusal.number, refusal.place), (14, 0));
                None
            }
            Ok(length) => {
                assert_eq!(length, 28);
                let record = read(&out, 0).unwrap().1.unwrap();
                assert_eq!(record.kind, 0);
                let mut wanted = [7; 3];
                wanted[axis] = record.corners[0][axis];
                assert_eq!(record.corners, [wanted; 3]);
                Some(wanted[axis])
            }
        }
    });
    assert_eq!(numbers, [numbers[0]; 3]);
    numbers[0]
}

fn float(number: f32) -> Option<i64> {
    rounded("float", &number.to_le_bytes())
}

fn double(number: f64) -> Option<i64> {
    rounded("double", &number.to_le_bytes())
}

fn int(number: i32) -> Option<i64> {
    rounded("int", &number.to_le_bytes())
}

/// The file is the one that the writer writes from the triangles.
#[test]
fn worked_bytes() {
    let triangles = [
        [0, 1, 20, 5, 20, 20, 5, 20, 1, 5],
        [0, -8192, 8191, 0, 1, 20, 5, -8192, 8191, 0],
    ];
    let (mut out, mut written) = ([0xaa; 50], [0xaa; 50]);
    assert_eq!(scan(&good(), &GRID, &mut out), Ok(44));
    assert_eq!(
        write_file(&GRID, triangles.as_flattened(), &mut written),
        Ok(44)
    );
    assert_eq!(out, written);
    assert_eq!(out[..4], [0x10, 0x41, 0x04, 0x28]);
}

/// No vertex, no face, or neither.
#[test]
fn empty() {
    assert_eq!(answer(&ply(&[], &[])), Ok(12));
    assert_eq!(answer(&ply(&[[1, 2, 3]], &[])), Ok(12));
    assert_eq!(answer(&ply(&[[1, 2, 8192]], &[])), refused(14, 0));
    assert_eq!(answer(&ply(&[], &[&[0, 0, 0]])), refused(15, 0));
}

/// Halves go to the even number, and their neighbours to the nearest.
#[test]
fn halves() {
    let rows = [
        (0.0, 0),
        (0.25, 0),
        (0.5, 0),
        (0.75, 1),
        (1.0, 1),
        (1.5, 2),
        (2.5, 2),
        (3.5, 4),
        (1233.5, 1234),
        (4094.5, 4094),
        (4095.5, 4096),
        (8190.5, 8190),
    ];
    for (number, whole) in rows {
        assert_eq!(double(number), Some(whole));
        assert_eq!(double(-number), Some(-whole));
        assert_eq!(float(number as f32), Some(whole));
        assert_eq!(float(-number as f32), Some(-whole));
    }
    for whole in [0, 1, 2, 3, 1000, 4095, 4096, 8189, 8190] {
        let half = f64::from(whole) + 0.5;
        assert_eq!(double(half.next_down()), Some(whole.into()));
        assert_eq!(double(half.next_up()), Some((whole + 1).into()));
        assert_eq!(double(-half.next_down()), Some((-whole).into()));
        assert_eq!(double(-half.next_up()), Some((-whole - 1).into()));
        let half = half as f32;
        assert_eq!(float(half.next_down()), Some(whole.into()));
        assert_eq!(float(half.next_up()), Some((whole + 1).into()));
    }
}

/// The least and the greatest: −8,192.5 goes to −8,192, which is even, and 8,191.5 to 8,192, which no corner has.
#[test]
fn ends() {
    assert_eq!(double(8191.0), Some(8191));
    assert_eq!(double(8191.5f64.next_down()), Some(8191));
    assert_eq!(double(8191.5), None);
    assert_eq!(double(8192.0), None);
    assert_eq!(double(-8192.5), Some(-8192));
    assert_eq!(double((-8192.5f64).next_down()), None);
    assert_eq!(double(-8193.0), None);
    assert_eq!(float(8191.5f32.next_down()), Some(8191));
    assert_eq!(float(8191.5), None);
    assert_eq!(float(-8192.5), Some(-8192));
    assert_eq!(float((-8192.5f32).next_down()), None);
    assert_eq!(
        [8191, -8192, 0, -1].map(int),
        [8191, -8192, 0, -1].map(Some)
    );
    assert_eq!([8192, -8193, i32::MAX, i32::MIN].map(int), [None; 4]);
    // where a double has no fraction any more, and far beyond
    for number in [
        1e4,
        8388608.0,
        4503599627370496.0,
        9007199254740992.0,
        1e300,
    ] {
        assert_eq!([double(number), double(-number)], [None; 2]);
    }
}

/// What is tiny is 0, and what is no number is refused.
#[test]
fn small_and_none() {
    for bits in [
        0,
        1,
        0xf_ffff_ffff_ffff,
        0x10_0000_0000_0000,
        0x3fdf_ffff_ffff_ffff,
    ] {
        let number = f64::from_bits(bits);
        assert_eq!([double(number), double(-number)], [Some(0); 2], "{number}");
    }
    for bits in [0, 1, 0x7f_ffff, 0x80_0000, 0x3eff_ffff] {
        let number = f32::from_bits(bits);
        assert_eq!([float(number), float(-number)], [Some(0); 2], "{number}");
    }
    for fraction in [
        0,
        1,
        0x7_ffff_ffff_ffff,
        0x8_0000_0000_0000,
        0xf_ffff_ffff_ffff,
    ] {
        for sign in [0, 1 << 63] {
            let bits: u64 = sign | 0x7ff << 52 | fraction;
            assert_eq!(rounded("double", &bits.to_le_bytes()), None);
        }
    }
    for fraction in [0, 1, 0x3f_ffff, 0x40_0000, 0x7f_ffff] {
        for sign in [0, 1 << 31] {
            let bits: u32 = sign | 0xff << 23 | fraction;
            assert_eq!(rounded("float", &bits.to_le_bytes()), None);
        }
    }
}

/// Every whole number and half of a corner, of each type.
#[test]
fn all_halves() {
    for twice in -16385..=16382 {
        let number = f64::from(twice) / 2.0;
        // a half lies between two whole numbers, of which it takes the even one
        let low = i64::from(twice).div_euclid(2);
        let whole = low + i64::from(twice % 2 != 0 && low % 2 != 0);
        assert_eq!(double(number), Some(whole));
        assert_eq!(float(number as f32), Some(whole));
    }
}

/// Every cut of a file, and every other byte at every place of its header, is another form. But a digit for a digit is another
/// count.
#[test]
fn other_headers() {
    let file = good();
    let end = file.len() - 4 * 12 - 2 * 13;
    for length in 0..file.len() {
        assert_eq!(answer(&file[..length]), refused(13, 0), "{length}");
    }
    let counts = [b'4', b'2'].map(|count| file.iter().position(|&byte| byte == count).unwrap());
    for at in 0..end {
        for byte in (0..=u8::MAX).filter(|&byte| byte != file[at]) {
            let mut other = file.clone();
            other[at] = byte;
            if counts.contains(&at) && byte.is_ascii_digit() {
                assert!(answer(&other).is_err());
            } else {
                assert_eq!(answer(&other), refused(13, 0), "{at} {byte}");
            }
        }
    }
    let text = String::from_utf8(file[..end].to_vec()).unwrap();
    let others = [
        ("\n", "\r\n"),
        (" 1.0", " 1.00"),
        (" 1.0", "\t1.0"),
        (" 1.0", "  1.0"),
        (" 1.0", " 1.0 "),
        ("little", "big"),
        ("binary_little_endian", "ascii"),
        ("vertex 4", "vertex +4"),
        ("vertex 4", "vertex -4"),
        ("vertex 4", "vertex 4.0"),
        ("vertex 4", "vertex 4 "),
        ("vertex 4", "vertex "),
        ("vertex 4", "vertex"),
        ("vertex 4", "vertices 4"),
        ("int x", "int32 x"),
        ("int x", "float32 x"),
        ("int x", "uint x"),
        ("int x", "x"),
        ("int x", "Int x"),
        ("int y", "int nx"),
        ("property int y\n", ""),
        ("property int y\n", "property int y\nproperty int y\n"),
        ("property int z\n", "property int z\nproperty uchar red\n"),
        ("uchar int", "uchar uint"),
        ("uchar int", "int int"),
        ("vertex_indices", "vertex_index"),
        ("end_header", "obj_info\nend_header"),
        ("end_header", "\nend_header"),
        ("ply\n", "comment\nply\n"),
        ("ply\n", "\nply\n"),
        ("ply\n", "PLY\n"),
        ("ply\n", "ply\ncomments\n"),
        ("ply\n", "ply\ncomment\ta\n"),
        ("ply\n", "ply\n comment a\n"),
        ("ply\n", "ply\nComment a\n"),
    ];
    for (from, to) in others {
        let other = text.replacen(from, to, 1).into_bytes();
        assert!(text.contains(from));
        assert_eq!(answer(&[&other, &file[end..]].concat()), refused(13, 0));
    }
    // lines in another order
    let lines: Vec<&str> = text.split_inclusive('\n').collect();
    for (i, j) in (0..9).flat_map(|j| (0..j).map(move |i| (i, j))) {
        let mut lines = lines.clone();
        lines.swap(i, j);
        let other = [lines.concat().as_bytes(), &file[end..]].concat();
        assert_eq!(answer(&other), refused(13, 0));
    }
}

/// Comment lines behind each line but the last, alone and in a row.
#[test]
fn comments() {
    let file = good();
    let end = file.len() - 4 * 12 - 2 * 13;
    let text = &file[..end];
    let comments: [&[u8]; 8] = [
        b"comment\n",
        b"comment \n",
        b"comment  two spaces\r\t \n",
        b"comment end_header\n",
        b"comment comment element vertex 5\n",
        b"comment \x00\xff\xfe\n",
        b"comment\ncomment\ncomment a\n",
        b"comment ply\ncomment format ascii 1.0\n",
    ];
    let feeds: Vec<usize> = (0..end).filter(|&at| text[at] == b'\n').collect();
    for comment in comments {
        for &feed in &feeds[..8] {
            let (before, behind) = file.split_at(feed + 1);
            assert_eq!(answer(&[before, comment, behind].concat()), Ok(44));
        }
        // in front of all, and in the body
        assert_eq!(answer(&[comment, &file].concat()), refused(13, 0));
        let (before, behind) = file.split_at(end);
        assert_eq!(answer(&[before, comment, behind].concat()), refused(13, 0));
    }
}

/// Counts with zeros in front, and counts that no file has.
#[test]
fn counts() {
    let body = good().split_off(good().len() - 4 * 12 - 2 * 13);
    let with = |vertices: &str, faces: &str| {
        let header = header(vertices, ["int"; 3], faces);
        answer(&[header.as_bytes(), &body].concat())
    };
    let zeros = "0".repeat(1000);
    for four in ["4", "04", "0000004", &(zeros.clone() + "4")] {
        for two in ["2", "02", &(zeros.clone() + "2")] {
            assert_eq!(with(four, two), Ok(44));
        }
    }
    let others = [
        "0",
        "40",
        "4294967300",
        "18446744073709551615",
        "18446744073709551616",
        "18446744073709551620",
        "6148914691236517205",
        "340282366920938463463374607431768211460",
    ];
    for other in others {
        assert_eq!(with(other, "2"), refused(13, 0), "{other}");
        assert_eq!(with("4", other), refused(13, 0), "{other}");
    }
    let huge = "9".repeat(1000);
    assert_eq!(with(&huge, "2"), refused(13, 0));
    assert_eq!(with("4", &huge), refused(13, 0));
}

/// As many faces as a frame file has triangles, and one more.
#[test]
fn most_faces() {
    let face: &[i32] = &[0, 0, 0];
    let answer = |ply: &[u8]| answer_in(ply, 65_600);
    assert_eq!(answer(&ply(&[[1; 3]], &[face; 4095])), Ok(65_532));
    assert_eq!(answer(&ply(&[[1; 3]], &[face; 4096])), refused(13, 0));
    // the body is cut short too
    let long = ply(&[[1; 3]], &[face; 4096]);
    assert_eq!(answer(&long[..long.len() - 1]), refused(13, 0));
}

/// A body is as long as its vertices, and its faces by their own counts.
#[test]
fn bodies() {
    let file = good();
    assert_eq!(answer(&[&file[..], &[0]].concat()), refused(13, 0));
    assert_eq!(answer(&[&file[..], &[0; 13]].concat()), refused(13, 0));
    for corners in [0, 1, 2, 4, 5, 254, 255] {
        let indices = vec![0; corners];
        let file = ply(&[[0; 3]], &[&[0, 0, 0], &indices, &[0]]);
        assert_eq!(answer(&file), refused(15, 1));
        assert_eq!(answer(&file[..file.len() - 1]), refused(13, 0));
        assert_eq!(answer(&[&file[..], &[0]].concat()), refused(13, 0));
    }
}

/// The lowest vertex, used or not, and the lowest face.
#[test]
fn places() {
    let far = [0, 0, 8192];
    let near = [0; 3];
    assert_eq!(answer(&ply(&[near, far, near, far], &[])), refused(14, 1));
    assert_eq!(
        answer(&ply(&[near, near, far], &[&[0, 1, 0]])),
        refused(14, 2)
    );
    let indices = [[0, 0, 0], [0, 1, 1], [2, 0, 0], [0, -1, 0]];
    let faces: Vec<&[i32]> = indices.iter().map(|face| &face[..]).collect();
    assert_eq!(answer(&ply(&[near; 3], &faces)), refused(15, 3));
    assert_eq!(answer(&ply(&[near; 2], &faces)), refused(15, 2));
    assert_eq!(answer(&ply(&[near], &faces)), refused(15, 1));
    assert_eq!(answer(&ply(&[near; 3], &faces[..3])), Ok(60));
    for wrong in [3, 4, 256, i32::MAX, i32::MIN, -1] {
        for corner in 0..3 {
            let mut last = [0; 3];
            last[corner] = wrong;
            let file = ply(&[near; 3], &[&[0, 1, 2], &last]);
            assert_eq!(answer(&file), refused(15, 1));
        }
    }
}

/// The questions in their order: the first that is answered "no" is said, whatever the others are.
#[test]
fn order() {
    let far = [[0; 3], [8192; 3]];
    // Each file breaks one limit and those behind it.
    let rows = [
        (13, 0, ply(&far, &[&[0, 1]])[1..].to_vec()),
        (14, 1, ply(&far, &[&[0, 1]])),
        (15, 0, ply(&far[..1], &[&[0, 1]])),
        (11, 0, ply(&far[..1], &[&[0, 0, 0]])),
    ];
    for (number, place, file) in rows {
        let mut out = [0xaa; 27];
        assert_eq!(scan(&file, &GRID, &mut out), refused(number, place));
        assert_eq!(scan(&file, &GRID, &mut []), refused(number, place));
        let grids: [&[i32]; 5] = [
            &[],
            &GRID[..6],
            &[2, 2, 2, 10, 0, 0, 0, 0],
            &[2, 2, 2, 0, 0, 0, 0],
            &[2, 2, 2, 10, 0, 0, 8172],
        ];
        for grid in grids {
            assert_eq!(scan(&file, grid, &mut out), refused(12, 0));
        }
        assert_eq!(out, [0xaa; 27]);
    }
}

/// Outputs of every length up to that of the file.
#[test]
fn outputs() {
    for length in 0..44 {
        let mut out = vec![0xaa; length];
        assert_eq!(scan(&good(), &GRID, &mut out), refused(11, 0));
        assert_eq!(out, vec![0xaa; length]);
    }
    assert_eq!(scan(&good(), &GRID, &mut [0; 44]), Ok(44));
}
