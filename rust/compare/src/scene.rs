//! Pseudo-random frames and routes.

use crate::random::Random;
use independent::{Header, Record};

pub type Point = [i64; 3];

/// A frame before it is written.
#[derive(Clone)]
pub struct Frame {
    pub cells: [i64; 3],
    pub edge: i64,
    pub origin: Point,
    pub triangles: Vec<Record>,
}

impl Frame {
    /// The frame file.
    pub fn write(&self) -> Vec<u8> {
        let header = Header {
            version: 1,
            cells: self.cells,
            edge: self.edge,
            origin: self.origin,
            count: self.triangles.len(),
        };
        independent::file_of(&header, &self.triangles)
    }

    /// The numbers that a writer is given: those of the grid, and ten a triangle.
    pub fn numbers(&self) -> (Vec<i32>, Vec<i32>) {
        let narrow = |value: i64| value as i32;
        let grid = self.cells.into_iter().chain([self.edge]).chain(self.origin);
        let record = |record: &Record| {
            let corners = record.corners.into_iter().flatten();
            [record.kind].into_iter().chain(corners).collect::<Vec<_>>()
        };
        let triangles = self.triangles.iter().flat_map(record);
        (grid.map(narrow).collect(), triangles.map(narrow).collect())
    }

    pub fn map_bytes(&self) -> usize {
        (self.cells.iter().product::<i64>() as usize).div_ceil(8)
    }

    /// The same with only the triangles of these records, of those that there are.
    pub fn part(&self, first: usize, count: usize) -> Frame {
        let triangles = self.triangles.iter().skip(first).take(count);
        Frame {
            triangles: triangles.cloned().collect(),
            ..self.clone()
        }
    }

    /// The far end of the grid on an axis.
    pub fn end(&self, axis: usize) -> i64 {
        self.origin[axis] + self.cells[axis] * self.edge
    }
}

/// A frame with up to `most` cells along each axis. Most of them are accepted.
pub fn frame(random: &mut Random, most: i64) -> Frame {
    let cells = [0; 3].map(|_| random.between(1, most));
    let edge = match random.below(6) {
        0 => 1,
        1 => random.between(2, 4),
        2 => 255,
        _ => random.between(1, 255),
    };
    let origin = cells.map(|cells| origin(random, cells * edge));
    let triangles = random.below(6);
    with_steel(random, cells, edge, origin, triangles)
}

/// Plates along diagonals of the largest grid. Their boxes of cells are the whole grid, so that a fill has the most to
/// halve.
pub fn plates() -> Vec<Frame> {
    let far = 64 * 10;
    let corners = [
        [[0, 0, 0], [far, far, 0], [0, 0, far]],
        [[0, 0, 0], [0, far, far], [far, 0, 0]],
        [[0, 0, 0], [far, 0, far], [0, far, 0]],
        [[0, 0, 0], [far, far, far], [far, 0, 0]],
    ];
    let plate = |corners| Frame {
        cells: [64; 3],
        edge: 10,
        origin: [0; 3],
        triangles: vec![Record { kind: 0, corners }],
    };
    corners.map(plate).into()
}

/// A triangle with each of its corners in a corner of what a file can hold, in the widest grid: those that have the greatest
/// weights.
pub fn widest() -> Vec<Frame> {
    let corner = |bits: usize| [0, 1, 2].map(|axis| [-8192, 8191][bits >> axis & 1]);
    let frame = |bits: usize| Frame {
        cells: [64; 3],
        edge: 255,
        origin: [-8192; 3],
        triangles: vec![Record {
            kind: 0,
            corners: [0, 3, 6].map(|shift| corner(bits >> shift)),
        }],
    };
    (0..512).map(frame).collect()
}

/// The largest grid.
pub fn largest(random: &mut Random) -> Frame {
    let edge = random.between(1, 130);
    let origin = [0; 3].map(|_| origin(random, 64 * edge));
    let triangles = 1 + random.below(3);
    with_steel(random, [64; 3], edge, origin, triangles)
}

/// A small grid well inside the limits, so that a damaged one is small too.
pub fn small(random: &mut Random) -> Frame {
    let cells = [0; 3].map(|_| random.between(1, 4));
    let edge = random.between(1, 20);
    let origin = [0; 3].map(|_| random.between(-3000, 3000));
    let triangles = random.below(6);
    with_steel(random, cells, edge, origin, triangles)
}

/// So many triangles in a grid, now and then one of the unused kind.
fn with_steel(
    random: &mut Random,
    cells: [i64; 3],
    edge: i64,
    origin: Point,
    triangles: usize,
) -> Frame {
    let mut frame = Frame {
        cells,
        edge,
        origin,
        triangles: Vec::new(),
    };
    for _ in 0..triangles {
        let kind = if random.once_in(150) {
            3
        } else {
            random.between(0, 2)
        };
        let corners = triangle(random, &frame);
        frame.triangles.push(Record { kind, corners });
    }
    frame
}

/// The origin of an axis of this length: mostly anywhere, now and then the last that fits and the first that does not.
fn origin(random: &mut Random, length: i64) -> i64 {
    let last = (8191 - length).max(-8192);
    match random.below(12) {
        0 => last,
        1 if random.once_in(6) => (last + 1).min(8191),
        2 => -8192,
        3 => 0.min(last),
        _ => random.between(-8192, last),
    }
}

/// A corner's value on an axis: in the grid, on a face, near it, or anywhere.
fn value(random: &mut Random, frame: &Frame, axis: usize) -> i64 {
    let (low, high) = (frame.origin[axis], frame.end(axis));
    let value = match random.below(10) {
        0..=3 => random.between(low, high),
        4..=6 => low + random.between(0, frame.cells[axis]) * frame.edge,
        7 => random.between(low - 3 * frame.edge, high + 3 * frame.edge),
        8 => random.between(-8192, 8191),
        _ => [-8192, 8191, low - 1, high + 1][random.below(4)],
    };
    value.clamp(-8192, 8191)
}

fn corner(random: &mut Random, frame: &Frame) -> Point {
    [0, 1, 2].map(|axis| value(random, frame, axis))
}

/// A corner within a cell or two of another.
fn near(random: &mut Random, frame: &Frame, [x, y, z]: Point) -> Point {
    [x, y, z]
        .map(|value| (value + random.between(-2 * frame.edge, 2 * frame.edge)).clamp(-8192, 8191))
}

/// A triangle: any, small, level, a segment, three corners in one line, or a point.
fn triangle(random: &mut Random, frame: &Frame) -> [Point; 3] {
    let a = corner(random, frame);
    let b = corner(random, frame);
    let c = corner(random, frame);
    match random.below(12) {
        0..=3 => [a, b, c],
        4..=6 => [a, near(random, frame, a), near(random, frame, a)],
        7 => {
            let axis = random.below(3);
            let level = |mut corner: Point| {
                corner[axis] = a[axis];
                corner
            };
            [a, level(b), level(c)]
        }
        8 => [[a, b, b], [a, a, b], [a, b, a]][random.below(3)],
        9 => {
            let b = near(random, frame, a);
            let behind = [0, 1, 2].map(|axis| (3 * b[axis] - 2 * a[axis]).clamp(-8192, 8191));
            [[a, b, behind], [b, a, behind], [behind, b, a]][random.below(3)]
        }
        10 => [a; 3],
        _ => [near(random, frame, b), b, c],
    }
}

/// A route's numbers: mostly points in the grid's closed box; now and then a wrong count, or a point outside.
pub fn route(random: &mut Random, frame: &Frame) -> Vec<i16> {
    let points = match random.below(40) {
        0 => [0, 1, 63, 64, 65][random.below(5)],
        1..=30 => 2,
        _ => 2 + random.below(4),
    };
    let mut numbers: Vec<i16> = Vec::new();
    for _ in 0..points {
        if numbers.len() >= 3 && random.once_in(12) {
            numbers.extend_from_within(numbers.len() - 3..);
        } else {
            numbers.extend(point(random, frame).map(|value| value as i16));
        }
    }
    if random.once_in(60) {
        numbers.extend((0..1 + random.below(2)).map(|_| 0));
    }
    if !numbers.is_empty() && random.once_in(25) {
        let i = random.below(numbers.len());
        numbers[i] = match random.below(4) {
            0 => (frame.origin[i % 3] - 1) as i16,
            1 => (frame.end(i % 3) + 1) as i16,
            _ => random.next() as i16,
        };
    }
    numbers
}

/// A point in the grid. On each axis it stands anywhere, or in a plane between cells.
fn point(random: &mut Random, frame: &Frame) -> Point {
    [0, 1, 2].map(|axis| match random.below(3) {
        0 => plane(random, frame, axis),
        _ => random.between(frame.origin[axis], frame.end(axis).max(frame.origin[axis])),
    })
}

/// The value of a plane between cells, or of the grid's border.
fn plane(random: &mut Random, frame: &Frame, axis: usize) -> i64 {
    frame.origin[axis] + random.between(0, frame.cells[axis]) * frame.edge
}

/// The numbers of a leg on which it is seen which cell is named, and of the same leg turned round.
pub fn leg(random: &mut Random, frame: &Frame) -> [Vec<i16>; 2] {
    let [from, to] = match random.below(7) {
        0 | 1 => [in_steel(random, frame), point(random, frame)],
        2 => in_planes(random, frame, 1),
        3 => in_planes(random, frame, 2),
        4 => about_corner(random, frame),
        5 => by_corners(random, frame),
        _ => [point(random, frame); 2],
    };
    let numbers = |ends: [Point; 2]| ends.into_iter().flatten().map(|value| value as i16);
    [[from, to], [to, from]].map(|ends| numbers(ends).collect())
}

/// A corner of a triangle, moved into the grid. Where there is no triangle, any point.
fn in_steel(random: &mut Random, frame: &Frame) -> Point {
    if frame.triangles.is_empty() {
        return point(random, frame);
    }
    let record = &frame.triangles[random.below(frame.triangles.len())];
    let corner = record.corners[random.below(3)];
    [0, 1, 2].map(|axis| corner[axis].clamp(frame.origin[axis], frame.end(axis)))
}

/// A leg that stays in a plane between cells on one axis, along faces, or on two, along an edge.
fn in_planes(random: &mut Random, frame: &Frame, axes: usize) -> [Point; 2] {
    let [mut from, mut to] = [0; 2].map(|_| point(random, frame));
    let first = random.below(3);
    for axis in (first..first + axes).map(|axis| axis % 3) {
        from[axis] = plane(random, frame, axis);
        to[axis] = from[axis];
    }
    [from, to]
}

/// A leg with a corner of cells in its middle.
fn about_corner(random: &mut Random, frame: &Frame) -> [Point; 2] {
    let corner = [0, 1, 2].map(|axis| plane(random, frame, axis));
    let half = [0, 1, 2].map(|axis| {
        let room = (corner[axis] - frame.origin[axis]).min(frame.end(axis) - corner[axis]);
        random.between(-room, room)
    });
    [-1, 1].map(|sign| [0, 1, 2].map(|axis| corner[axis] + sign * half[axis]))
}

/// A leg from corner to corner of cells, by as many cells on each axis.
fn by_corners(random: &mut Random, frame: &Frame) -> [Point; 2] {
    let most = *frame.cells.iter().min().unwrap();
    let cells = random.between(1, most);
    let ends = [0, 1, 2].map(|axis| {
        let low = random.between(0, frame.cells[axis] - cells);
        let ends = if random.once_in(2) {
            [low, low + cells]
        } else {
            [low + cells, low]
        };
        ends.map(|i| frame.origin[axis] + i * frame.edge)
    });
    [0, 1].map(|end| ends.map(|ends| ends[end]))
}
