//! The limits that an input may break, and refusals.

use core::error::Error;
use core::fmt::{self, Display, Formatter};

/// A limit that an input breaks, named by what is wrong with it. Limits 1 to 10 are those of `stall`, which asks for them in
/// this order. Of `desk`'s calls, `write` asks for 12 and then 11; `scan` for 12 to 15 in this order, and for 11 last; `bar`
/// for 1 to 7 in this order, and for 16 last. The first that is broken refuses the call. `docs/FORMAT.md` says what to do
/// about each.
///
/// ```
/// use shared::Limit;
/// let limit = Limit::from_number(7).unwrap();
/// assert_eq!(limit, Limit::UnusedKind);
/// assert_eq!(limit.number(), 7);
/// assert_eq!(limit.to_string(), "a record has the unused kind 3");
/// assert_eq!(Limit::from_number(17), None);
/// ```
#[derive(Clone, Copy, Debug, PartialEq, Eq, PartialOrd, Ord, Hash)]
#[repr(u8)]
pub enum Limit {
    /// 1: the file has fewer than 12 bytes.
    ShortHeader = 1,
    /// 2: the version is not 1.
    Version = 2,
    /// 3: the cell edge is 0.
    ZeroEdge = 3,
    /// 4: the header's last 12 bits are not zero.
    ReservedBits = 4,
    /// 5: on some axis the grid reaches beyond 8,191.
    Extent = 5,
    /// 6: the file's length is not 12 + 16 × count.
    FileLength = 6,
    /// 7: a record's kind is 3. The place is the lowest such record, from 0.
    UnusedKind = 7,
    /// 8: the map buffer is shorter than the map.
    ShortMap = 8,
    /// 9: the route has not 2 to 64 points, or a number is left over.
    PointCount = 9,
    /// 10: a point lies outside the grid. The place is the lowest such point, from 0.
    PointOutside = 10,
    /// 11: the output is shorter than the file that is to be written.
    ShortOutput = 11,
    /// 12: a value is outside its field, on some axis the grid reaches beyond 8,191, or the list has more than 4,095
    /// triangles or a part of one.
    Unwritable = 12,
    /// 13: the PLY file has another header form, more than 4,095 faces, or a body whose length is not that of its vertices and
    /// faces.
    PlyForm = 13,
    /// 14: a vertex of the PLY file has a number that is infinite, not a number, or outside −8,192 to 8,191 once rounded. The
    /// place is the lowest such vertex, from 0, modulo 2^32.
    PlyVertex = 14,
    /// 15: a face of the PLY file has not three corners, or an index that no vertex has. The place is the lowest such face,
    /// from 0.
    PlyFace = 15,
    /// 16: the cell number is not in the grid.
    CellOutside = 16,
}

impl Limit {
    /// All limits, by their numbers.
    pub const ALL: [Limit; 16] = [
        Limit::ShortHeader,
        Limit::Version,
        Limit::ZeroEdge,
        Limit::ReservedBits,
        Limit::Extent,
        Limit::FileLength,
        Limit::UnusedKind,
        Limit::ShortMap,
        Limit::PointCount,
        Limit::PointOutside,
        Limit::ShortOutput,
        Limit::Unwritable,
        Limit::PlyForm,
        Limit::PlyVertex,
        Limit::PlyFace,
        Limit::CellOutside,
    ];

    /// The limit's number: 1 to 16.
    pub const fn number(self) -> u8 {
        self as u8
    }

    /// The limit with a number; none where no limit has it.
    pub const fn from_number(number: u8) -> Option<Limit> {
        match number {
            1..=16 => Some(Limit::ALL[number as usize - 1]),
            _ => None,
        }
    }

    /// The limit in words, as `stall_limit_text` or `desk_limit_text` of the C headers has it.
    const fn text(self) -> &'static str {
        match self {
            Limit::ShortHeader => "the file has fewer than 12 bytes",
            Limit::Version => "the file's version is not 1",
            Limit::ZeroEdge => "the cell edge is 0",
            Limit::ReservedBits => "the header's last 12 bits are not zero",
            Limit::Extent => "the grid reaches beyond 8,191 mm",
            Limit::FileLength => "the file's length does not fit its triangle count",
            Limit::UnusedKind => "a record has the unused kind 3",
            Limit::ShortMap => "the map buffer is too short for the grid",
            Limit::PointCount => "a route needs 2 to 64 points of three numbers each",
            Limit::PointOutside => "a point of the route lies outside the grid",
            Limit::ShortOutput => "the output is too short for the file",
            Limit::Unwritable => {
                "a value, the grid's far corner or the list of triangles does not fit a file"
            }
            Limit::PlyForm => {
                "the PLY file has another header form, too many faces or a length that does not fit them"
            }
            Limit::PlyVertex => {
                "a vertex of the PLY file is infinite, not a number, or outside -8,192 to 8,191 mm once rounded"
            }
            Limit::PlyFace => {
                "a face of the PLY file has not three corners, or an index that no vertex has"
            }
            Limit::CellOutside => "the cell number is not in the grid",
        }
    }
}

impl Display for Limit {
    fn fmt(&self, f: &mut Formatter<'_>) -> fmt::Result {
        f.write_str(self.text())
    }
}

/// A refused call: the first limit that the input breaks, and the place. Every lent buffer holds what it held before.
///
/// ```
/// use shared::{Limit, Refusal};
/// let refusal = Refusal { limit: Limit::PointOutside, place: 1 };
/// assert_eq!(refusal.to_string(), "limit 10: a point of the route lies outside the grid (point 1)");
/// ```
#[derive(Clone, Copy, Debug, PartialEq, Eq, Hash)]
pub struct Refusal {
    /// The limit.
    pub limit: Limit,
    /// The record of [`Limit::UnusedKind`], the point of [`Limit::PointOutside`], the vertex of [`Limit::PlyVertex`], the face
    /// of [`Limit::PlyFace`], each from 0; else 0.
    pub place: usize,
}

impl Display for Refusal {
    fn fmt(&self, f: &mut Formatter<'_>) -> fmt::Result {
        let Refusal { limit, place } = self;
        write!(f, "limit {}: {limit}", limit.number())?;
        match limit {
            Limit::UnusedKind => write!(f, " (record {place})"),
            Limit::PointOutside => write!(f, " (point {place})"),
            Limit::PlyVertex => write!(f, " (vertex {place})"),
            Limit::PlyFace => write!(f, " (face {place})"),
            _ => Ok(()),
        }
    }
}

impl Error for Refusal {}
