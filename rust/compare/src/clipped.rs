//! The route test by a second way: each leg is clipped to the closed box of each filled cell. It shares no code with the
//! libraries' test or with the independent one.

use stall::{Header, Point};
use std::cmp::Ordering;

/// A fraction of a leg: a numerator, and a denominator above 0.
type Fraction = (i64, i64);

/// Exactly, by products.
fn order(&(a, b): &Fraction, &(c, d): &Fraction) -> Ordering {
    (a * d).cmp(&(c * b))
}

/// What a blocked leg may be: each is counted. A leg of the last kind names another cell than the lowest that it touches.
pub const KINDS: [&str; 7] = [
    "of equal points",
    "from steel",
    "along a face",
    "along an edge",
    "through a corner",
    "to several cells at once",
    "with a lower cell farther on",
];

/// What blocks a route.
pub struct Block {
    pub leg: usize,
    pub cell: usize,
    /// Which of `KINDS` the leg is.
    pub kinds: [bool; KINDS.len()],
}

/// What blocks a route of some numbers on a map of a grid: the first leg with a point in a filled cell, and of these cells
/// the one in which the leg has a point at the least fraction, or the lowest of several. None where the route is free.
pub fn block(header: &Header, map: &[u8], numbers: &[i16]) -> Option<Block> {
    let (points, _) = numbers.as_chunks::<3>();
    let legs = points.windows(2).map(|ends| Leg::new(ends[0], ends[1]));
    legs.enumerate().find_map(|(leg, ends)| {
        let filled = (0..header.cell_count()).filter(|n| map[n / 8] & 0x80 >> (n % 8) != 0);
        let reached = |n: usize| Some((ends.clipped(header.cell_box(n)?)?, n));
        let reached: Vec<(Fraction, usize)> = filled.filter_map(reached).collect();
        // of equals the first is taken, and the cells' numbers rise
        let (least, cell) = *reached.iter().min_by(|a, b| order(&a.0, &b.0))?;
        let equal = reached
            .iter()
            .filter(|other| order(&other.0, &least).is_eq());
        let (axes, planes) = (ends.axes(), ends.planes(header));
        let kinds = [
            axes == 0,
            axes > 0 && least.0 == 0,
            axes > 0 && planes == 1,
            axes > 0 && planes == 2,
            axes > 1 && ends.has_corner(header),
            equal.count() > 1,
            reached[0].1 < cell,
        ];
        Some(Block { leg, cell, kinds })
    })
}

/// A leg: its start, and how far it goes on each axis.
struct Leg {
    from: [i64; 3],
    along: [i64; 3],
}

impl Leg {
    fn new(from: Point, to: Point) -> Leg {
        let [from, to] = [from, to].map(|point| point.map(i64::from));
        let along = [0, 1, 2].map(|axis| to[axis] - from[axis]);
        Leg { from, along }
    }

    /// The least fraction at which the leg's point lies in a closed box, from its lowest to its highest corner.
    fn clipped(&self, corners: [Point; 2]) -> Option<Fraction> {
        let (mut first, mut last) = ((0, 1), (1, 1));
        for axis in 0..3 {
            let [low, high] = corners.map(|corner| i64::from(corner[axis]) - self.from[axis]);
            let along = self.along[axis];
            if low > along.max(0) || high < along.min(0) {
                return None;
            }
            let (enters, leaves) = match along.signum() {
                0 => continue,
                1 => ((low, along), (high, along)),
                _ => ((-high, -along), (-low, -along)),
            };
            first = [first, enters].into_iter().max_by(order).unwrap();
            last = [last, leaves].into_iter().min_by(order).unwrap();
        }
        order(&first, &last).is_le().then_some(first)
    }

    /// The number of axes on which the leg moves.
    fn axes(&self) -> usize {
        self.along.iter().filter(|&&along| along != 0).count()
    }

    /// The number of axes on which the leg stays in a plane between cells.
    fn planes(&self, header: &Header) -> usize {
        let stays = |&axis: &usize| {
            let value = self.from[axis] - i64::from(header.origin[axis]);
            self.along[axis] == 0 && value % i64::from(header.edge) == 0
        };
        (0..3).filter(stays).count()
    }

    /// Is some corner of a cell a point of the leg? The leg moves.
    fn has_corner(&self, header: &Header) -> bool {
        let edge = i64::from(header.edge);
        let from = [0, 1, 2].map(|axis| self.from[axis] - i64::from(header.origin[axis]));
        let axis = (0..3).find(|&axis| self.along[axis] != 0).unwrap();
        let along = self.along[axis];
        (0..=header.cells[axis] as i64).any(|plane| {
            let part = plane * edge - from[axis];
            let on_leg = (0..=along.abs()).contains(&(part * along.signum()));
            on_leg && (0..3).all(|w| (from[w] * along + self.along[w] * part) % (edge * along) == 0)
        })
    }
}
