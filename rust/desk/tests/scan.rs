//! Each answer of the call `scan` comes through the wrapper as its own case.

use desk::{Grid, Kind, Limit, Point, Refusal, Triangle, file_len, scan, scan_numbers, write};

/// The grid of the worked examples.
const GRID: Grid = Grid {
    cells: [2; 3],
    edge: 10,
    origin: [0; 3],
};

/// The corners of row g.
const G: [Point; 3] = [[1, 20, 5], [20, 20, 5], [20, 1, 5]];

/// A number of a vertex.
#[derive(Clone, Copy)]
enum Number {
    Float(f32),
    Double(f64),
    Int(i32),
}

use Number::{Double, Float, Int};

impl Number {
    /// The name of its type.
    fn name(self) -> &'static str {
        match self {
            Float(_) => "float",
            Double(_) => "double",
            Int(_) => "int",
        }
    }

    /// Its bytes.
    fn bytes(self) -> Vec<u8> {
        match self {
            Float(number) => number.to_le_bytes().to_vec(),
            Double(number) => number.to_le_bytes().to_vec(),
            Int(number) => number.to_le_bytes().to_vec(),
        }
    }
}

/// The lines of a header, with a line feed behind each.
fn header(vertices: &str, types: [&str; 3], faces: &str) -> String {
    let [x, y, z] = types;
    let lines = [
        "ply",
        "format binary_little_endian 1.0",
        &format!("element vertex {vertices}"),
        &format!("property {x} x"),
        &format!("property {y} y"),
        &format!("property {z} z"),
        &format!("element face {faces}"),
        "property list uchar int vertex_indices",
        "end_header",
    ];
    lines.map(|line| format!("{line}\n")).concat()
}

/// A file of vertices, which have the types of the first one, and of faces.
fn ply(vertices: &[[Number; 3]], faces: &[&[i32]]) -> Vec<u8> {
    let types = vertices.first().map_or(["int"; 3], |v| v.map(Number::name));
    let counts = [vertices.len(), faces.len()].map(|count| count.to_string());
    let mut file = header(&counts[0], types, &counts[1]).into_bytes();
    for number in vertices.as_flattened() {
        file.extend(number.bytes());
    }
    for face in faces {
        file.push(face.len() as u8);
        file.extend(face.iter().flat_map(|index| index.to_le_bytes()));
    }
    file
}

/// A file of whole vertices.
fn whole(vertices: &[Point], faces: &[&[i32]]) -> Vec<u8> {
    let vertices: Vec<_> = vertices.iter().map(|v| v.map(Int)).collect();
    ply(&vertices, faces)
}

/// The file of row g.
fn g() -> Vec<u8> {
    whole(&G, &[&[0, 1, 2]])
}

/// What the writer writes of triangles of the frame.
fn written(triangles: &[[Point; 3]]) -> Vec<u8> {
    let kind = Kind::Frame;
    let triangles: Vec<_> = triangles
        .iter()
        .map(|&corners| Triangle { kind, corners })
        .collect();
    let mut file = vec![0; file_len(triangles.len())];
    assert_eq!(write(&GRID, &triangles, &mut file), Ok(file.len()));
    file
}

/// The file of a scan with room for more; or the refusal, which leaves all bytes as they were.
fn scanned(ply: &[u8]) -> Result<Vec<u8>, Refusal> {
    let mut out = vec![0xaa; 200];
    let answer = scan(ply, &GRID, &mut out);
    let behind = out.split_off(answer.unwrap_or(0));
    assert!(behind.iter().all(|&byte| byte == 0xaa));
    answer.map(|_| out)
}

/// A refusal by this limit, with this place.
fn refused<T>(limit: Limit, place: usize) -> Result<T, Refusal> {
    Err(Refusal { limit, place })
}

/// What becomes of one number, on each axis.
fn rounded(number: Number) -> Result<i32, Refusal> {
    let answers = [0, 1, 2].map(|axis| {
        let mut vertex = [Int(7); 3];
        vertex[axis] = number;
        let file = scanned(&ply(&[vertex], &[&[0, 0, 0]]))?;
        let word = u128::from_be_bytes(file[12..].try_into().unwrap());
        // x, y and z of the last corner are the lowest fields of 14 bits
        let field = (word >> (14 * (2 - axis))) as i32;
        let value = field << 18 >> 18;
        let mut corner = [7; 3];
        corner[axis] = value;
        assert_eq!(file, written(&[[corner; 3]]));
        Ok(value)
    });
    assert_eq!(answers, [answers[0]; 3]);
    answers[0]
}

#[test]
fn scans() {
    assert_eq!(scanned(&g()), Ok(written(&[G])));
    assert_eq!(scanned(&whole(&G, &[])), Ok(written(&[])));
    assert_eq!(scanned(&whole(&[], &[])), Ok(written(&[])));
    let [a, b, c] = G;
    let faces: [&[i32]; 3] = [&[2, 1, 0], &[1, 1, 1], &[0, 2, 0]];
    let triangles = [[c, b, a], [b; 3], [a, c, a]];
    assert_eq!(scanned(&whole(&G, &faces)), Ok(written(&triangles)));
}

/// Each axis may have each type.
#[test]
fn types() {
    let all = |number: f32, whole: i32| [Float(number), Double(number.into()), Int(whole)];
    for choice in 0..27 {
        let of = |x: [Number; 3], y: [Number; 3], z: [Number; 3]| {
            [x[choice % 3], y[choice / 3 % 3], z[choice / 9]]
        };
        let first = of(all(-8192.5, -8192), all(8191.25, 8191), all(0.5, 0));
        let second = of(all(-1.5, -2), all(2.5, 2), all(17.75, 18));
        let (a, b) = ([-8192, 8191, 0], [-2, 2, 18]);
        let file = scanned(&ply(&[first, second], &[&[0, 1, 0], &[1, 0, 1]]));
        assert_eq!(file, Ok(written(&[[a, b, a], [b, a, b]])));
    }
}

/// The nearest whole number, and of two the even one.
#[test]
fn rounding() {
    let rows = [
        (0.0, 0),
        (0.5, 0),
        (1.5, 2),
        (2.5, 2),
        (3.5, 4),
        (1000.25, 1000),
        (1000.75, 1001),
        (8190.5, 8190),
        (8191.0, 8191),
    ];
    for (number, whole) in rows {
        for (number, whole) in [(number, whole), (-number, -whole)] {
            assert_eq!(rounded(Double(number)), Ok(whole));
            assert_eq!(rounded(Float(number as f32)), Ok(whole));
        }
    }
    for whole in [0, 1, 2, 4095, 8190] {
        let half = f64::from(whole) + 0.5;
        assert_eq!(rounded(Double(half.next_down())), Ok(whole));
        assert_eq!(rounded(Double(half.next_up())), Ok(whole + 1));
        assert_eq!(rounded(Double(-half.next_down())), Ok(-whole));
        assert_eq!(rounded(Double(-half.next_up())), Ok(-whole - 1));
        assert_eq!(rounded(Float((half as f32).next_down())), Ok(whole));
        assert_eq!(rounded(Float((half as f32).next_up())), Ok(whole + 1));
    }
    for tiny in [f64::MIN_POSITIVE, f64::from_bits(1), 0.5f64.next_down()] {
        assert_eq!(rounded(Double(tiny)), Ok(0));
        assert_eq!(rounded(Double(-tiny)), Ok(0));
    }
    assert_eq!(rounded(Float(f32::from_bits(1))), Ok(0));
    assert_eq!(rounded(Float(-0.0)), Ok(0));
}

/// Limit 14, at its borders: −8,192.5 goes to −8,192, and 8,191.5 to 8,192.
#[test]
fn vertices() {
    assert_eq!(rounded(Double(-8192.5)), Ok(-8192));
    assert_eq!(rounded(Float(-8192.5)), Ok(-8192));
    assert_eq!(rounded(Double(8191.5f64.next_down())), Ok(8191));
    assert_eq!(rounded(Float(8191.5f32.next_down())), Ok(8191));
    assert_eq!(
        [8191, -8192].map(|n| rounded(Int(n))),
        [Ok(8191), Ok(-8192)]
    );
    let floats = [
        8191.5,
        (-8192.5f32).next_down(),
        f32::INFINITY,
        f32::NEG_INFINITY,
        f32::NAN,
        -f32::NAN,
        f32::from_bits(0x7f80_0001),
        f32::MAX,
    ];
    let doubles = [
        8191.5,
        (-8192.5f64).next_down(),
        f64::INFINITY,
        f64::NEG_INFINITY,
        f64::NAN,
        -f64::NAN,
        f64::from_bits(0x7ff0_0000_0000_0001),
        f64::MIN,
    ];
    let ints = [8192, -8193, i32::MIN, i32::MAX].map(Int);
    let all = floats.map(Float).into_iter().chain(doubles.map(Double));
    for number in all.chain(ints) {
        assert_eq!(rounded(number), refused(Limit::PlyVertex, 0));
        // the lowest of several, though no face uses it
        let good = match number {
            Float(_) => Float(1.0),
            Double(_) => Double(1.0),
            Int(_) => Int(1),
        };
        let (good, bad) = ([good; 3], [good, good, number]);
        let file = ply(&[good, good, bad, good, bad], &[&[0, 0, 1]]);
        assert_eq!(scanned(&file), refused(Limit::PlyVertex, 2));
    }
}

/// Limit 15, with the lowest such face.
#[test]
fn faces() {
    let good: &[i32] = &[0, 1, 2];
    let wrong: [&[i32]; 9] = [
        &[],
        &[0, 1],
        &[0, 1, 2, 0],
        &[0; 255],
        &[0, 1, 3],
        &[3, 1, 0],
        &[0, -1, 2],
        &[0, i32::MIN, 2],
        &[0, i32::MAX, 2],
    ];
    for face in wrong {
        let file = whole(&G, &[good, good, face, good, face]);
        assert_eq!(scanned(&file), refused(Limit::PlyFace, 2));
    }
    assert_eq!(scanned(&whole(&[], &[good])), refused(Limit::PlyFace, 0));
}

/// Limit 13: other headers, and bodies of other lengths.
#[test]
fn forms() {
    let form = refused(Limit::PlyForm, 0);
    let file = g();
    for length in 0..file.len() {
        assert_eq!(scanned(&file[..length]), form);
    }
    assert_eq!(scanned(&[&file[..], &[0]].concat()), form);
    let header = header("3", ["int"; 3], "1");
    let (head, body) = file.split_at(header.len());
    assert_eq!(head, header.as_bytes());
    let with = |from: &str, to: &str| {
        assert!(header.contains(from));
        let other = header.replacen(from, to, 1);
        scanned(&[other.as_bytes(), body].concat())
    };
    let good = Ok(written(&[G]));
    for comment in ["comment", "comment ", "comment  \r\t end_header"] {
        let lines = format!("\n{comment}\n");
        for at in [
            "ply\n",
            "1.0\n",
            "3\n",
            "x\n",
            "y\n",
            "z\n",
            "1\n",
            "indices\n",
        ] {
            assert_eq!(with(at, &at.replace('\n', &lines)), good);
        }
        assert_eq!(with("ply\n", &format!("{comment}\nply\n")), form);
        assert_eq!(with("end_header\n", &format!("end_header{lines}")), form);
    }
    for zeros in [
        "vertex 003",
        "vertex 00000000000000000000000000000000000003",
    ] {
        assert_eq!(with("vertex 3", zeros), good);
    }
    let others = [
        ("ply\n", "ply\r\n"),
        ("ply\n", "ply\ncomments\n"),
        ("little", "big"),
        ("1.0", "1.0 "),
        (" 1.0", "  1.0"),
        (" 1.0", "\t1.0"),
        ("vertex 3", "vertex +3"),
        ("vertex 3", "vertex 4294967299"),
        ("vertex 3", "vertex 4611686018427387907"),
        ("vertex 3", "vertex 18446744073709551619"),
        ("vertex 3", "vertex 340282366920938463463374607431768211459"),
        ("int x", "float32 x"),
        ("int y", "int x"),
        ("property int z\n", "property int z\nproperty int w\n"),
        ("face 1", "face 0"),
        ("face 1", "face 2"),
        ("face 1", "face 18446744073709551617"),
        ("vertex_indices", "vertex_index"),
        ("end_header", "end_header "),
    ];
    for (from, to) in others {
        assert_eq!(with(from, to), form, "{to:?}");
    }
}

/// As many faces as a file has triangles, and one more.
#[test]
fn long_lists() {
    let mut out = vec![0xaa; desk::FILE_MOST + 16];
    let face: &[i32] = &[0, 1, 2];
    let more = whole(&G, &[face; desk::TRIANGLES_MOST + 1]);
    assert_eq!(scan(&more, &GRID, &mut out), refused(Limit::PlyForm, 0));
    assert!(out.iter().all(|&byte| byte == 0xaa));
    let most = whole(&G, &[face; desk::TRIANGLES_MOST]);
    assert_eq!(scan(&most, &GRID, &mut out), Ok(desk::FILE_MOST));
    assert_eq!(out[..desk::FILE_MOST], written(&[G; desk::TRIANGLES_MOST]));
    assert_eq!(out[desk::FILE_MOST..], [0xaa; 16]);
}

/// The limits in their order, each with those that come behind it broken too.
#[test]
fn order() {
    let mut far = G;
    far[1][2] = 8192;
    let rows = [
        (Limit::PlyForm, 0, whole(&far, &[&[0, 1]])[1..].to_vec()),
        (Limit::PlyVertex, 1, whole(&far, &[&[0, 1]])),
        (Limit::PlyFace, 0, whole(&G, &[&[0, 1]])),
        (Limit::ShortOutput, 0, g()),
    ];
    for (limit, place, file) in rows {
        let mut out = [0xaa; 27];
        assert_eq!(scan(&file, &GRID, &mut out), refused(limit, place));
        assert_eq!(scan(&file, &GRID, &mut []), refused(limit, place));
        for grid in [
            Grid { edge: 0, ..GRID },
            Grid {
                cells: [2, 65, 2],
                ..GRID
            },
            Grid {
                origin: [0, 0, 8172],
                ..GRID
            },
        ] {
            let unwritable = refused(Limit::Unwritable, 0);
            assert_eq!(scan(&file, &grid, &mut out), unwritable);
        }
        assert_eq!(out, [0xaa; 27]);
    }
}

#[test]
fn scans_numbers() {
    let grid = [2, 2, 2, 10, 0, 0, 0, 0];
    let mut out = [0xaa; 28];
    for grid in [&grid[..6], &grid, &[]] {
        let unwritable = refused(Limit::Unwritable, 0);
        assert_eq!(scan_numbers(&g(), grid, &mut out), unwritable);
    }
    assert_eq!(out, [0xaa; 28]);
    assert_eq!(scan_numbers(&g(), &grid[..7], &mut out), Ok(28));
    assert_eq!(out[..], written(&[G]));
}

/// A refusal says its vertex or its face.
#[test]
fn errors() {
    let file = whole(&[[0; 3], [0, 0, 8192]], &[]);
    assert_eq!(
        scanned(&file).unwrap_err().to_string(),
        "limit 14: a vertex of the PLY file is infinite, not a number, or outside -8,192 to 8,191 mm once rounded (vertex 1)"
    );
    let file = whole(&G, &[&[0, 1, 2], &[0, 1]]);
    assert_eq!(
        scanned(&file).unwrap_err().to_string(),
        "limit 15: a face of the PLY file has not three corners, or an index that no vertex has (face 1)"
    );
}
