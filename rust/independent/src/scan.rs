//! Frames measured with a scanner: PLY files.

use crate::write::{accept_grid, write_file};
use crate::{question, Refusal};

/// The header's lines. A star stands for one word.
const LINES: [&str; 9] = [
    "ply",
    "format binary_little_endian 1.0",
    "element vertex *",
    "property * x",
    "property * y",
    "property * z",
    "element face *",
    "property list uchar int vertex_indices",
    "end_header",
];

/// The type of an axis.
#[derive(Clone, Copy)]
enum Type {
    Float,
    Double,
    Int,
}

/// What a header says.
struct Said {
    vertices: u128,
    types: [Type; 3],
    faces: u128,
}

/// Writes the file of a scanner's frame, with grid values given beside it, and answers its length.
pub fn scan(ply: &[u8], grid: &[i32], out: &mut [u8]) -> Result<usize, Refusal> {
    accept_grid(grid, 0)?;
    let another_form = Refusal {
        number: 13,
        place: 0,
    };
    let (lines, body) = parted(ply).ok_or(another_form)?;
    let said = said(&lines).ok_or(another_form)?;
    question(13, 0, said.faces <= 4095)?;
    let (vertices, behind) = vertices(&said, body).ok_or(another_form)?;
    let faces = faces(&said, behind).ok_or(another_form)?;
    for (i, vertex) in vertices.iter().enumerate() {
        question(14, i % (1 << 32), vertex.iter().all(Option::is_some))?;
    }
    for (i, face) in faces.iter().enumerate() {
        let there = |&index: &i64| (0..vertices.len() as i64).contains(&index);
        question(15, i, face.len() == 3 && face.iter().all(there))?;
    }
    let mut triangles = Vec::new();
    for face in &faces {
        triangles.push(0);
        for &index in face {
            triangles.extend(vertices[index as usize].iter().flatten());
        }
    }
    write_file(grid, &triangles, out)
}

/// The lines up to the one that ends the header, and what stands behind them. None where no line does.
fn parted(ply: &[u8]) -> Option<(Vec<&[u8]>, &[u8])> {
    let (mut lines, mut rest) = (Vec::new(), ply);
    while lines.last() != Some(&&b"end_header"[..]) {
        let end = rest.iter().position(|&byte| byte == b'\n')?;
        lines.push(&rest[..end]);
        rest = &rest[end + 1..];
    }
    Some((lines, rest))
}

/// What the lines of a header say. None where they are of another form.
fn said(lines: &[&[u8]]) -> Option<Said> {
    let comment = |line: &[u8]| line == b"comment" || line.starts_with(b"comment ");
    let (first, behind) = lines.split_first()?;
    let mut kept = vec![first];
    kept.extend(behind.iter().filter(|line| !comment(line)));
    if kept.len() != LINES.len() {
        return None;
    }
    let mut given = Vec::new();
    for (line, form) in kept.into_iter().zip(LINES) {
        let words: Vec<&[u8]> = line.split(|&byte| byte == b' ').collect();
        let forms: Vec<&str> = form.split(' ').collect();
        if words.len() != forms.len() {
            return None;
        }
        for (word, form) in words.into_iter().zip(forms) {
            match form {
                "*" => given.push(word),
                _ if word == form.as_bytes() => {}
                _ => return None,
            }
        }
    }
    Some(Said {
        vertices: count(given[0])?,
        types: [type_of(given[1])?, type_of(given[2])?, type_of(given[3])?],
        faces: count(given[4])?,
    })
}

/// A count of decimal digits. One that is far too large for any file becomes the greatest number.
fn count(word: &[u8]) -> Option<u128> {
    let digits = !word.is_empty() && word.iter().all(u8::is_ascii_digit);
    digits.then(|| {
        word.iter().fold(0, |count: u128, digit| {
            let digit = u128::from(digit - b'0');
            count.saturating_mul(10).saturating_add(digit)
        })
    })
}

/// The type with a name.
fn type_of(word: &[u8]) -> Option<Type> {
    match word {
        b"float" => Some(Type::Float),
        b"double" => Some(Type::Double),
        b"int" => Some(Type::Int),
        _ => None,
    }
}

/// A vertex: three lengths, or none where a number is no length.
type Vertex = [Option<i32>; 3];

/// The vertices at the start of a body, and what stands behind them. None where the body is too short.
fn vertices<'a>(said: &Said, body: &'a [u8]) -> Option<(Vec<Vertex>, &'a [u8])> {
    let widths = said.types.map(|type_| match type_ {
        Type::Double => 8,
        Type::Float | Type::Int => 4,
    });
    let width: usize = widths.iter().sum();
    let length = said.vertices.saturating_mul(width as u128);
    let (bytes, behind) = body.split_at_checked(usize::try_from(length).ok()?)?;
    let vertex = |bytes: &[u8]| {
        let mut at = 0;
        [0, 1, 2].map(|axis| {
            let from = at;
            at += widths[axis];
            length_of(said.types[axis], &bytes[from..at])
        })
    };
    Some((bytes.chunks(width).map(vertex).collect(), behind))
}

/// The faces' indices. None where the bytes are more or fewer than those of the faces.
fn faces(said: &Said, mut bytes: &[u8]) -> Option<Vec<Vec<i64>>> {
    let mut faces = Vec::new();
    for _ in 0..said.faces {
        let (&corners, behind) = bytes.split_first()?;
        let (indices, behind) = behind.split_at_checked(4 * usize::from(corners))?;
        faces.push(
            indices
                .chunks(4)
                .map(|index| signed(little(index)))
                .collect(),
        );
        bytes = behind;
    }
    bytes.is_empty().then_some(faces)
}

/// Bytes as a number, the lowest first.
fn little(bytes: &[u8]) -> u64 {
    bytes
        .iter()
        .rev()
        .fold(0, |number, &byte| number * 256 + u64::from(byte))
}

/// Two's complement, of 32 bits.
fn signed(number: u64) -> i64 {
    let number = number as i64;
    if number < 1 << 31 {
        number
    } else {
        number - (1 << 32)
    }
}

/// A number of a vertex as a length in its field, in whole millimetres. None where it is infinite, not a number, or outside.
fn length_of(type_: Type, bytes: &[u8]) -> Option<i32> {
    let bits = little(bytes);
    let whole = match type_ {
        Type::Int => Some(signed(bits)),
        Type::Float => nearest(bits, 8, 23),
        Type::Double => nearest(bits, 11, 52),
    };
    whole
        .filter(|whole| (-8192..=8191).contains(whole))
        .map(|whole| whole as i32)
}

/// The whole number that is nearest to a number of IEEE 754, a half going to the even one. The bits are a sign, an exponent
/// and a fraction, of these widths. None for what is infinite or not a number, and for what is whole by its size: from 2^23
/// on.
fn nearest(bits: u64, exponent_width: u32, fraction_width: u32) -> Option<i64> {
    let fraction = bits % (1 << fraction_width);
    let exponent = (bits >> fraction_width) % (1 << exponent_width);
    let negative = bits >> (fraction_width + exponent_width) == 1;
    if exponent == (1 << exponent_width) - 1 {
        return None;
    }
    // the size is significand ÷ 2^places; the least exponent has no bit in front of the fraction
    let significand = match exponent {
        0 => fraction,
        _ => fraction + (1 << fraction_width),
    };
    let bias = (1 << (exponent_width - 1)) - 1;
    let places = bias + i64::from(fraction_width) - exponent.max(1) as i64;
    let size = match places {
        ..=0 => return None,
        // fewer than 2^53 parts, of which 2^60 and more make one
        60.. => 0,
        _ => {
            let one = 1 << places;
            let (whole, part) = (significand / one, significand % one);
            let up = match (2 * part).cmp(&one) {
                std::cmp::Ordering::Less => 0,
                std::cmp::Ordering::Equal => whole % 2,
                std::cmp::Ordering::Greater => 1,
            };
            (whole + up) as i64
        }
    };
    Some(if negative { -size } else { size })
}
