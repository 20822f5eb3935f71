//! The readers of scanner files: the verified one and peers in Rust, and the files that they are measured on. Each asks the
//! questions, in a pass over the header, over the faces' counts, over the vertices and over the faces, and then writes the
//! frame file from the vertices where they are.

use crate::scenes::Random;
use crate::writing::{self, grid_fits, header_word, record_words};
use desk::{Limit, Refusal};
use std::marker::PhantomData;

/// A reader: the length of the file written, or the refusal.
pub type Scan = fn(&[u8], &[i32], &mut [u8]) -> Result<usize, Refusal>;

/// The peers by name. The first is the verified library.
pub const PEERS: [(&str, Scan); 3] = [
    ("rattle", desk::scan_numbers),
    ("types", by_types),
    ("words", by_words),
];

// ---- the peers: without unsafe code

/// The same by a Rust programmer who wants it short: each number is asked for its type.
fn by_types(ply: &[u8], grid: &[i32], out: &mut [u8]) -> Result<usize, Refusal> {
    let (grid, body) = accept(ply, grid)?;
    body.write(body.types, grid, out)
}

/// The same by one who wants it quick: each choice of types has code of its own.
fn by_words(ply: &[u8], grid: &[i32], out: &mut [u8]) -> Result<usize, Refusal> {
    let (grid, body) = accept(ply, grid)?;
    match body.types[0] {
        Type::Float => by_words_x::<f32>(&body, grid, out),
        Type::Double => by_words_x::<f64>(&body, grid, out),
        Type::Int => by_words_x::<i32>(&body, grid, out),
    }
}

/// The type of x is known.
fn by_words_x<X: Number>(body: &Body, grid: &Grid, out: &mut [u8]) -> Result<usize, Refusal> {
    match body.types[1] {
        Type::Float => by_words_xy::<X, f32>(body, grid, out),
        Type::Double => by_words_xy::<X, f64>(body, grid, out),
        Type::Int => by_words_xy::<X, i32>(body, grid, out),
    }
}

/// The types of x and y are known.
fn by_words_xy<X: Number, Y: Number>(
    body: &Body,
    grid: &Grid,
    out: &mut [u8],
) -> Result<usize, Refusal> {
    match body.types[2] {
        Type::Float => body.write(Known::<X, Y, f32>(PhantomData), grid, out),
        Type::Double => body.write(Known::<X, Y, f64>(PhantomData), grid, out),
        Type::Int => body.write(Known::<X, Y, i32>(PhantomData), grid, out),
    }
}

/// A refusal.
fn no(limit: Limit, place: usize) -> Refusal {
    Refusal { limit, place }
}

/// The numbers of a grid.
type Grid = [i32; 7];

/// The questions to the grid and to the form of the file.
fn accept<'a>(ply: &'a [u8], grid: &'a [i32]) -> Result<(&'a Grid, Body<'a>), Refusal> {
    let grid = <&Grid>::try_from(grid).ok();
    let grid = grid.filter(|grid| grid_fits(grid));
    let grid = grid.ok_or(no(Limit::Unwritable, 0))?;
    let body = Body::read(ply).ok_or(no(Limit::PlyForm, 0))?;
    Ok((grid, body))
}

/// The type of an axis.
#[derive(Clone, Copy)]
enum Type {
    Float,
    Double,
    Int,
}

impl Type {
    /// The type with a name.
    fn named(name: &[u8]) -> Option<Type> {
        match name {
            b"float" => Some(Type::Float),
            b"double" => Some(Type::Double),
            b"int" => Some(Type::Int),
            _ => None,
        }
    }

    /// The bytes of a number.
    fn width(self) -> usize {
        match self {
            Type::Double => 8,
            _ => 4,
        }
    }
}

/// A number of a known type. A double has it without loss.
trait Number {
    const WIDTH: usize;

    /// The number at the start of some bytes.
    fn value(bytes: &[u8]) -> f64;
}

impl Number for f32 {
    const WIDTH: usize = 4;

    fn value(bytes: &[u8]) -> f64 {
        f32::from_le_bytes(*bytes.first_chunk().unwrap()).into()
    }
}

impl Number for f64 {
    const WIDTH: usize = 8;

    fn value(bytes: &[u8]) -> f64 {
        f64::from_le_bytes(*bytes.first_chunk().unwrap())
    }
}

impl Number for i32 {
    const WIDTH: usize = 4;

    fn value(bytes: &[u8]) -> f64 {
        i32::from_le_bytes(*bytes.first_chunk().unwrap()).into()
    }
}

/// How a vertex is laid out.
trait Layout {
    /// Its bytes.
    fn width(&self) -> usize;

    /// Its x, y and z.
    fn values(&self, vertex: &[u8]) -> [f64; 3];
}

/// The types are asked for.
impl Layout for [Type; 3] {
    fn width(&self) -> usize {
        self[0].width() + self[1].width() + self[2].width()
    }

    fn values(&self, vertex: &[u8]) -> [f64; 3] {
        let mut at = 0;
        self.map(|type_| {
            let bytes = &vertex[at..];
            at += type_.width();
            match type_ {
                Type::Float => f32::value(bytes),
                Type::Double => f64::value(bytes),
                Type::Int => i32::value(bytes),
            }
        })
    }
}

/// The types are known.
struct Known<X, Y, Z>(PhantomData<(X, Y, Z)>);

impl<X: Number, Y: Number, Z: Number> Layout for Known<X, Y, Z> {
    fn width(&self) -> usize {
        X::WIDTH + Y::WIDTH + Z::WIDTH
    }

    fn values(&self, vertex: &[u8]) -> [f64; 3] {
        let (y, z) = (&vertex[X::WIDTH..], &vertex[X::WIDTH + Y::WIDTH..]);
        [X::value(vertex), Y::value(y), Z::value(z)]
    }
}

/// A face of three corners.
type Face = [u8; 13];

/// The body of a file whose header and length are good.
struct Body<'a> {
    types: [Type; 3],
    vertices: &'a [u8],
    faces: &'a [u8],
    count: usize,
}

impl<'a> Body<'a> {
    /// None where the header has another form, there are too many faces, or the length is not that of vertices and faces.
    fn read(ply: &'a [u8]) -> Option<Self> {
        let mut lines = Lines(ply.strip_prefix(b"ply\n")?);
        lines.exactly(b"format binary_little_endian 1.0")?;
        let vertices = number(lines.next()?.strip_prefix(b"element vertex ")?)?;
        let types = [
            lines.property(b" x")?,
            lines.property(b" y")?,
            lines.property(b" z")?,
        ];
        let count = number(lines.next()?.strip_prefix(b"element face ")?)?;
        lines.exactly(b"property list uchar int vertex_indices")?;
        lines.exactly(b"end_header")?;
        if count > desk::TRIANGLES_MOST {
            return None;
        }
        let length = vertices.checked_mul(types.width())?;
        let (vertices, faces) = lines.0.split_at_checked(length)?;
        let mut rest = faces;
        for _ in 0..count {
            rest = rest.get(1 + 4 * usize::from(*rest.first()?)..)?;
        }
        rest.is_empty().then_some(Body {
            types,
            vertices,
            faces,
            count,
        })
    }

    /// The questions to the vertices, the faces and the output, and the file.
    fn write(&self, layout: impl Layout, grid: &Grid, out: &mut [u8]) -> Result<usize, Refusal> {
        let width = layout.width();
        // a half goes to the even number: at the lower end into the field, at the upper end out of it
        let fits = |value: &f64| (-8192.5..8191.5).contains(value);
        let mut vertices = self.vertices.chunks_exact(width);
        let count = vertices.len();
        if let Some(i) = vertices.position(|vertex| !layout.values(vertex).iter().all(fits)) {
            return Err(no(Limit::PlyVertex, i & 0xffff_ffff));
        }
        let faces = self.faces(count).map_err(|i| no(Limit::PlyFace, i))?;
        let length = desk::file_len(faces.len());
        let file = out.get_mut(..length).ok_or(no(Limit::ShortOutput, 0))?;
        let (header, records) = file.split_at_mut(12);
        header.copy_from_slice(&header_word(grid, faces.len()).to_be_bytes()[4..]);
        for (place, face) in records.as_chunks_mut::<16>().0.iter_mut().zip(faces) {
            let [a, b, c] = corners(face).map(|index| {
                let vertex = &self.vertices[index * width..][..width];
                layout.values(vertex).map(rounded)
            });
            let record = [0, a[0], a[1], a[2], b[0], b[1], b[2], c[0], c[1], c[2]];
            let [high, low] = record_words(&record).map(u64::to_be_bytes);
            place[..8].copy_from_slice(&high);
            place[8..].copy_from_slice(&low);
        }
        Ok(length)
    }

    /// The faces, each with three of so many vertices; or the number of the first that has not.
    fn faces(&self, count: usize) -> Result<&'a [Face], usize> {
        let (faces, _) = self.faces.as_chunks();
        // an index is signed
        let indices = count.min(1 << 31);
        let good = |face: &Face| face[0] == 3 && corners(face).iter().all(|&index| index < indices);
        match faces.iter().position(|face| !good(face)) {
            Some(wrong) => Err(wrong),
            // behind the others, a shorter one
            None if faces.len() < self.count => Err(faces.len()),
            None => Ok(faces),
        }
    }
}

/// The nearest whole number to one in the field, and of two the even one. Where 3 × 2^51 is added, a double has no room for a
/// fraction, and its lowest bits are the number in two's complement.
fn rounded(value: f64) -> i32 {
    (value + 6_755_399_441_055_744.0).to_bits() as i32
}

/// The indices of a face.
fn corners(face: &Face) -> [usize; 3] {
    let index = |at: usize| u32::from_le_bytes(*face[at..].first_chunk().unwrap());
    [1, 5, 9].map(|at| index(at) as usize)
}

/// The lines of a header.
struct Lines<'a>(&'a [u8]);

impl<'a> Lines<'a> {
    /// The next line that is no comment.
    fn next(&mut self) -> Option<&'a [u8]> {
        loop {
            let end = self.0.iter().position(|&byte| byte == b'\n')?;
            let line = &self.0[..end];
            self.0 = &self.0[end + 1..];
            match line.strip_prefix(b"comment") {
                Some([] | [b' ', ..]) => {}
                _ => return Some(line),
            }
        }
    }

    /// The next line is this one.
    fn exactly(&mut self, line: &[u8]) -> Option<()> {
        (self.next()? == line).then_some(())
    }

    /// The next line is a property with this end: its type.
    fn property(&mut self, end: &[u8]) -> Option<Type> {
        Type::named(self.next()?.strip_prefix(b"property ")?.strip_suffix(end)?)
    }
}

/// A count of decimal digits. None where a length has no room for it.
fn number(digits: &[u8]) -> Option<usize> {
    if digits.is_empty() {
        return None;
    }
    digits.iter().try_fold(0, |number: usize, digit| {
        let digit = digit.wrapping_sub(b'0');
        let number = number.checked_mul(10)?.checked_add(digit.into())?;
        (digit < 10).then_some(number)
    })
}

// ---- the files to measure

/// The scenes: as many faces as a frame file has triangles. In the first four the vertices are shared, and of these types; in
/// the fifth each face has its own; the last is the first with many comments.
pub const SCENES: [&str; 6] = ["float", "double", "int", "mixed", "apart", "comments"];

/// How many comment lines the last scene has, and the bytes of each.
const COMMENTS: usize = 1000;
const COMMENT: &str = "comment of sixty bytes, as a scanner writes them, and so on.";

/// The vertices along each side of a sheet that has faces enough.
const SIDES: [usize; 2] = [46, 47];

/// The file of a scene.
pub fn file(name: &str) -> Vec<u8> {
    let types = match name {
        "float" | "apart" | "comments" => ["float"; 3],
        "double" => ["double"; 3],
        "int" => ["int"; 3],
        "mixed" => ["float", "double", "int"],
        _ => panic!("no scene {name}"),
    };
    let comments = [COMMENT; COMMENTS];
    let comments = if name == "comments" {
        &comments[..]
    } else {
        &[]
    };
    let (vertices, faces) = sheet();
    if name != "apart" {
        return ply(types, comments, &vertices, &faces);
    }
    let corners = faces.as_flattened().iter();
    let own: Vec<[f64; 3]> = corners.map(|&index| vertices[index as usize]).collect();
    let indices: Vec<i32> = (0..own.len() as i32).collect();
    let (faces, _) = indices.as_chunks();
    ply(types, comments, &own, faces)
}

/// An uneven sheet across the grid: its vertices, and two faces for each of its meshes.
fn sheet() -> (Vec<[f64; 3]>, Vec<[i32; 3]>) {
    let mut random = Random(10);
    let [rows, columns] = SIDES;
    let mut vertices = vec![];
    for vertex in 0..rows * columns {
        let part = [0; 3].map(|_| random.between(-9999, 9999) as f64 / 1000.0);
        let (row, column) = ((vertex / columns) as f64, (vertex % columns) as f64);
        let even = [
            70.0 * column - 1600.0,
            70.0 * row - 1600.0,
            20.0 * (row - column),
        ];
        vertices.push([0, 1, 2].map(|axis| even[axis] + part[axis]));
    }
    let mut faces = vec![];
    for mesh in 0..(rows - 1) * (columns - 1) {
        let low = (mesh / (columns - 1) * columns + mesh % (columns - 1)) as i32;
        let high = low + columns as i32;
        faces.extend([[low, low + 1, high], [high + 1, high, low + 1]]);
    }
    faces.truncate(desk::TRIANGLES_MOST);
    (vertices, faces)
}

/// A file of these types, comments, vertices and faces.
fn ply(types: [&str; 3], comments: &[&str], vertices: &[[f64; 3]], faces: &[[i32; 3]]) -> Vec<u8> {
    let mut file = header(types, comments, vertices.len(), faces.len());
    for (value, name) in vertices.as_flattened().iter().zip(types.iter().cycle()) {
        match *name {
            "float" => file.extend((*value as f32).to_le_bytes()),
            "double" => file.extend(value.to_le_bytes()),
            _ => file.extend((*value as i32).to_le_bytes()),
        }
    }
    for face in faces {
        file.push(3);
        file.extend(face.iter().flat_map(|index| index.to_le_bytes()));
    }
    file
}

/// A header. The comments stand behind its first line.
fn header(types: [&str; 3], comments: &[&str], vertices: usize, faces: usize) -> Vec<u8> {
    let [x, y, z] = types;
    let comments: String = comments.iter().map(|line| format!("{line}\n")).collect();
    let header = format!(
        "ply\n{comments}format binary_little_endian 1.0\nelement vertex {vertices}\nproperty {x} x\nproperty {y} y\n\
         property {z} z\nelement face {faces}\nproperty list uchar int vertex_indices\nend_header\n"
    );
    header.into_bytes()
}

// ---- the check

/// A small file; in some a number or an index is no good, and some are damaged.
fn any_file(random: &mut Random) -> Vec<u8> {
    let types = [0; 3].map(|_| ["float", "double", "int"][random.between(0, 2) as usize]);
    let comments = ["comment", "comment a", "comments"];
    let comments = &comments[..[0, 0, 1, 2, 2, 3][random.between(0, 5) as usize]];
    let count = random.between(0, 4);
    let value = |random: &mut Random| match random.between(0, 39) {
        0 => [8191.5, 8191.25, 8192.0, -8192.5, -8192.75, -8193.0][random.between(0, 5) as usize],
        1 => [f64::NAN, f64::INFINITY, f64::NEG_INFINITY, 1e30][random.between(0, 3) as usize],
        _ => random.between(-4 * 8192, 4 * 8191) as f64 / 4.0,
    };
    let vertices = (0..count).map(|_| [0; 3].map(|_| value(random)));
    let vertices: Vec<[f64; 3]> = vertices.collect();
    let index = |random: &mut Random| match random.between(0, 39) {
        0 => -1,
        1 => count as i32,
        _ => random.between(0, (count - 1).max(0)) as i32,
    };
    let faces = (0..random.between(0, 3)).map(|_| [0; 3].map(|_| index(random)));
    let faces: Vec<[i32; 3]> = faces.collect();
    let mut file = ply(types, comments, &vertices, &faces);
    let at = random.between(0, file.len() as i64 - 1) as usize;
    match random.between(0, 19) {
        0 => file.truncate(at),
        1 => file[at] = random.between(0, 255) as u8,
        2 => file[at] ^= 1 << random.between(0, 7),
        3 => file.push(0),
        // most often the count of the last face
        4 => {
            let at = file.len() - 1 - at.min(12);
            file[at] = random.between(0, 4) as u8;
        }
        _ => {}
    }
    file
}

/// What a reader answers and leaves in lent bytes.
fn outcome(scan: Scan, ply: &[u8], grid: &[i32], lent: usize) -> (Result<usize, Refusal>, Vec<u8>) {
    let mut out = vec![0xa5; lent];
    (scan(ply, grid, &mut out), out)
}

/// Holds the readers to each other and to the independent one, on the files to measure and on small ones.
pub fn check() {
    let mut random = Random(11);
    let longest = SCENES.map(|name| (file(name), desk::FILE_MOST + 8));
    let others = (0..20_000).map(|_| (any_file(&mut random), 70));
    let (mut written, mut refused) = (0, [0; 5]);
    for (i, (ply, lent)) in longest.into_iter().chain(others).enumerate() {
        // now and then a grid or an output that is no good
        let mut grid = writing::grid();
        grid[i % 7] += i32::from(i % 23 == 22) * 8192;
        let lent = if i % 19 == 18 { 27 } else { lent };
        let wanted = outcome(crate::printed::scan, &ply, &grid, lent);
        for (name, scan) in PEERS {
            let other = outcome(scan, &ply, &grid, lent);
            assert!(
                other == wanted,
                "{name} differs: {:?}, {:?}",
                other.0,
                wanted.0
            );
        }
        match wanted.0 {
            Ok(length) => {
                assert!(i >= SCENES.len() || length == desk::FILE_MOST);
                written += 1;
            }
            Err(no) => refused[usize::from(no.limit.number()) - 11] += 1,
        }
    }
    // by limits 11 to 15
    assert!(refused.iter().all(|&count| count > 0), "{refused:?}");
    let refused: usize = refused.iter().sum();
    println!("{written} written and {refused} refused scans: all alike");
}
