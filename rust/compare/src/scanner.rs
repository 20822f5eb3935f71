//! Pseudo-random scanner files, and what must become of each: a third opinion, by floats.

use crate::random::Random;

/// The most faces.
pub const MOST: usize = 4095;

/// The type of an axis.
#[derive(Clone, Copy, PartialEq, Eq)]
pub enum Type {
    Float,
    Double,
    Int,
}

impl Type {
    pub const ALL: [Type; 3] = [Type::Float, Type::Double, Type::Int];

    /// The types of the three axes, by a number below 27.
    pub fn choice(number: usize) -> [Type; 3] {
        [number % 3, number / 3 % 3, number / 9].map(|type_| Type::ALL[type_])
    }

    /// As the header has it.
    pub fn name(self) -> &'static str {
        match self {
            Type::Float => "float",
            Type::Double => "double",
            Type::Int => "int",
        }
    }

    /// The bytes of a number.
    fn width(self) -> usize {
        match self {
            Type::Double => 8,
            _ => 4,
        }
    }

    /// The bits of its number that is nearest to a value.
    pub fn bits(self, value: f64) -> u64 {
        match self {
            Type::Float => u64::from((value as f32).to_bits()),
            Type::Double => value.to_bits(),
            Type::Int => u64::from(value as i32 as u32),
        }
    }

    /// The value of bits. A double has it without loss.
    fn value(self, bits: u64) -> f64 {
        match self {
            Type::Float => f64::from(f32::from_bits(bits as u32)),
            Type::Double => f64::from_bits(bits),
            Type::Int => f64::from(bits as i32),
        }
    }

    /// The number that is nearest to the value of bits, where a corner has it.
    fn rounded(self, bits: u64) -> Option<i32> {
        let nearest = self.value(bits).round_ties_even();
        (-8192.0..=8191.0)
            .contains(&nearest)
            .then_some(nearest as i32)
    }

    /// A number that becomes a corner's: whole, a half, next to a half, any, or tiny.
    pub fn good(self, random: &mut Random) -> u64 {
        let whole = match random.below(8) {
            0 => [-8192, 8191, 0, -1][random.below(4)],
            1 => return self.tiny(random),
            _ => random.between(-8192, 8191),
        };
        let part = match random.below(4) {
            0 => 0.0,
            1 => random.between(-(1 << 50), 1 << 50) as f64 / (1u64 << 51) as f64,
            _ => [-0.5, 0.5][random.below(2)],
        };
        let step = [0, 0, 1, u64::MAX][random.below(4)];
        let bits = self.bits(whole as f64 + part);
        match self {
            Type::Int => self.bits(whole as f64),
            _ if self.rounded(bits.wrapping_add(step)).is_some() => bits.wrapping_add(step),
            _ => self.bits(whole as f64),
        }
    }

    /// 0 or next to it, of both signs: of floats a subnormal one too.
    fn tiny(self, random: &mut Random) -> u64 {
        let sign = random.below(2) as u64;
        let size = random.next();
        match self {
            Type::Float => sign << 31 | [0, 1, size % (1 << 23), size % (1 << 29)][random.below(4)],
            Type::Double => {
                sign << 63 | [0, 1, size % (1 << 52), size % (1 << 61)][random.below(4)]
            }
            Type::Int => [0, 1, u64::from(u32::MAX)][random.below(3)],
        }
    }

    /// A number that is infinite, not a number, or outside: next to a corner's, far away, or any.
    pub fn bad(self, random: &mut Random) -> u64 {
        let ends = match self {
            Type::Int => vec![8192, 0xffff_dfff, 0x7fff_ffff, 0x8000_0000],
            _ => {
                let [high, low] = [8191.5, -8192.5].map(|end| self.bits(end));
                let beyond = [8191.75, 8192.0, 8192.5, -8192.75, -8193.0, -8193.5];
                let beyond = beyond.map(|end| self.bits(end));
                [&[high, high + 1, low + 1], &beyond[..]].concat()
            }
        };
        match random.below(3) {
            0 => ends[random.below(ends.len())],
            1 if self != Type::Int => self.no_number(random),
            _ => loop {
                let bits = random.next() >> (64 - 8 * self.width());
                if self.rounded(bits).is_none() {
                    break bits;
                }
            },
        }
    }

    /// Infinite, or not a number: quiet or signalling, of both signs.
    fn no_number(self, random: &mut Random) -> u64 {
        let sign = random.below(2) as u64;
        let (top, fraction) = match self {
            Type::Float => (sign << 31 | 0xff << 23, 23),
            _ => (sign << 63 | 0x7ff << 52, 52),
        };
        let quiet = 1 << (fraction - 1);
        let any = random.next();
        top | [0, 1, quiet, quiet + any % quiet, any % quiet][random.below(5)]
    }
}

/// A scanner file before it is written.
#[derive(Clone)]
pub struct Ply {
    pub types: [Type; 3],
    /// Of each vertex the bits of x, y and z.
    pub vertices: Vec<[u64; 3]>,
    pub faces: Vec<Vec<i32>>,
    /// How many vertices and faces the header says.
    pub counts: [String; 2],
    /// Comment lines, each behind the line with a number from 0 to 7.
    pub comments: Vec<(usize, Vec<u8>)>,
}

impl Ply {
    /// A file of vertices and faces, with no comment.
    pub fn new(types: [Type; 3], vertices: Vec<[u64; 3]>, faces: Vec<Vec<i32>>) -> Ply {
        let counts = [vertices.len(), faces.len()].map(|count| count.to_string());
        Ply {
            types,
            vertices,
            faces,
            counts,
            comments: Vec::new(),
        }
    }

    /// A good file of so many vertices and faces. Where there is no vertex, there is no face.
    pub fn any(random: &mut Random, types: [Type; 3], vertices: usize, faces: usize) -> Ply {
        let vertex = |_| types.map(|type_| type_.good(random));
        let vertices: Vec<_> = (0..vertices).map(vertex).collect();
        let faces = if vertices.is_empty() { 0 } else { faces };
        let face = |_| {
            let corners = (0..3).map(|_| random.below(vertices.len()) as i32);
            corners.collect()
        };
        let faces = (0..faces).map(face).collect();
        Ply::new(types, vertices, faces)
    }

    /// The same with some comments and zeros in front of its counts.
    pub fn told(mut self, random: &mut Random) -> Ply {
        for _ in 0..random.below(4) {
            let length = random.below(20);
            let mut comment = random.bytes(length);
            comment.retain(|&byte| byte != b'\n');
            let comment = match random.below(3) {
                0 => b"comment".to_vec(),
                1 => [&b"comment "[..], &comment].concat(),
                _ => b"comment element vertex 5".to_vec(),
            };
            self.comments.push((random.below(8), comment));
        }
        if random.once_in(3) {
            let zeros = "0".repeat(random.below(25));
            let which = random.below(2);
            self.counts[which].insert_str(0, &zeros);
        }
        self
    }

    /// The header's lines, without comments.
    pub fn lines(&self) -> [String; 9] {
        let [vertices, faces] = &self.counts;
        let property = |axis: usize| {
            let name = ["x", "y", "z"][axis];
            format!("property {} {name}", self.types[axis].name())
        };
        [
            "ply".to_string(),
            "format binary_little_endian 1.0".to_string(),
            format!("element vertex {vertices}"),
            property(0),
            property(1),
            property(2),
            format!("element face {faces}"),
            "property list uchar int vertex_indices".to_string(),
            "end_header".to_string(),
        ]
    }

    /// The header.
    pub fn header(&self) -> Vec<u8> {
        let mut header = Vec::new();
        for (i, line) in self.lines().iter().enumerate() {
            header.extend(line.bytes().chain(*b"\n"));
            let behind = self.comments.iter().filter(|(line, _)| *line == i);
            for (_, comment) in behind {
                header.extend(comment.iter().chain(b"\n"));
            }
        }
        header
    }

    /// The body.
    pub fn body(&self) -> Vec<u8> {
        let mut body = Vec::new();
        for vertex in &self.vertices {
            for (bits, type_) in vertex.iter().zip(self.types) {
                body.extend(&bits.to_le_bytes()[..type_.width()]);
            }
        }
        for face in &self.faces {
            body.push(face.len() as u8);
            body.extend(face.iter().flat_map(|index| index.to_le_bytes()));
        }
        body
    }

    /// The file.
    pub fn write(&self) -> Vec<u8> {
        [self.header(), self.body()].concat()
    }

    /// What must become of it, where its counts are right, the grid is good and there is room: the numbers of triangles, or the
    /// number and the place of a refusal.
    pub fn triangles(&self) -> Result<Vec<i32>, (u32, usize)> {
        if self.faces.len() > MOST {
            return Err((13, 0));
        }
        let rounded = |vertex: &[u64; 3]| {
            let axis = |axis: usize| self.types[axis].rounded(vertex[axis]);
            Some([axis(0)?, axis(1)?, axis(2)?])
        };
        let mut corners = Vec::new();
        for (i, vertex) in self.vertices.iter().enumerate() {
            corners.push(rounded(vertex).ok_or((14, i))?);
        }
        let mut triangles = Vec::new();
        for (i, face) in self.faces.iter().enumerate() {
            let corner = |&index: &i32| corners.get(usize::try_from(index).ok()?);
            let face: Option<Vec<_>> = face.iter().map(corner).collect();
            let face = face.filter(|face| face.len() == 3).ok_or((15, i))?;
            triangles.push(0);
            triangles.extend(face.into_iter().flatten());
        }
        Ok(triangles)
    }
}
