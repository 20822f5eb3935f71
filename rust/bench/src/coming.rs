//! When a leg comes to the cells that it touches, as fractions of its way.

use crate::frame::Grid;
use crate::rule::Triangle;
use std::cmp::Ordering;

/// The numbers i, j and k of a cell.
pub type Cell = [usize; 3];

/// A fraction of a leg, from 0 at its start to 1 at its end. The denominator is above 0.
#[derive(Clone, Copy)]
pub struct Fraction {
    num: i64,
    den: i64,
}

/// The leg's start.
pub const START: Fraction = Fraction { num: 0, den: 1 };

impl Fraction {
    /// Is it less than the other? Products are compared, so that nothing is rounded.
    #[inline(always)]
    pub fn is_before(self, other: Fraction) -> bool {
        self.num * other.den < other.num * self.den
    }

    /// The greater of two.
    #[inline(always)]
    pub fn or_later(self, other: Fraction) -> Fraction {
        if self.is_before(other) {
            other
        } else {
            self
        }
    }
}

/// When a leg comes to the cells with the number i on an axis: at the fraction (num + slope × i) / den. It is
/// negative where the leg starts behind the face that it would come through.
pub struct Coming {
    num: i64,
    slope: i64,
    den: i64,
}

impl Coming {
    /// On axis w. A leg that rises comes to a cell through its lower face, and one that falls through its upper
    /// face. One that does neither is there from its start on.
    pub fn new([from, to, _]: &Triangle, grid: &Grid, w: usize) -> Coming {
        let (a, b, origin, edge) = (from[w], to[w], grid.origin[w], grid.edge);
        let (num, slope, den) = match a.cmp(&b) {
            Ordering::Less => (origin - a, edge, b - a),
            Ordering::Greater => (a - (origin + edge), -edge, a - b),
            Ordering::Equal => (0, 0, 1),
        };
        Coming { num, slope, den }
    }

    /// The fraction for the cells with the number i.
    #[inline(always)]
    pub fn at(&self, i: usize) -> Fraction {
        Fraction {
            num: self.num + self.slope * i as i64,
            den: self.den,
        }
    }
}

/// The least fraction of a leg whose point lies in a cell that it touches: the leg has come to it on all axes.
#[inline(always)]
pub fn comes_to([x, y, z]: &[Coming; 3], [i, j, k]: Cell) -> Fraction {
    START.or_later(z.at(k)).or_later(y.at(j)).or_later(x.at(i))
}
