//! The frame file, questions 1 to 7, and the plain reading.

use crate::{question, Refusal};

/// The header's values. Cells are counted from 1, as the document does.
#[derive(Clone, Copy, Debug, PartialEq, Eq)]
pub struct Header {
    pub version: i64,
    pub cells: [i64; 3],
    pub edge: i64,
    pub origin: [i64; 3],
    pub count: usize,
}

impl Header {
    /// The number of cells in all.
    pub fn cells_in_all(&self) -> usize {
        (self.cells[0] * self.cells[1] * self.cells[2]) as usize
    }

    /// The map takes a bit a cell, rounded up to bytes.
    pub fn map_bytes(&self) -> usize {
        self.cells_in_all().div_ceil(8)
    }

    /// The number of cell (i, j, k).
    pub fn number(&self, [i, j, k]: [i64; 3]) -> usize {
        (i + self.cells[0] * (j + self.cells[1] * k)) as usize
    }

    /// The cell (i, j, k) with number n.
    pub fn cell(&self, n: usize) -> [i64; 3] {
        let n = n as i64;
        let [nx, ny, _] = self.cells;
        [n % nx, n / nx % ny, n / nx / ny]
    }

    /// The lowest corner of cell (i, j, k).
    pub fn lowest_corner(&self, cell: [i64; 3]) -> [i64; 3] {
        [0, 1, 2].map(|axis| self.origin[axis] + cell[axis] * self.edge)
    }
}

/// A record's ten numbers: a kind and three corners.
#[derive(Clone, Copy, Debug, PartialEq, Eq)]
pub struct Record {
    pub kind: i64,
    pub corners: [[i64; 3]; 3],
}

/// Takes fields one behind the other, most significant bit first.
struct Fields<'a> {
    bytes: &'a [u8],
    position: usize,
}

impl Fields<'_> {
    fn unsigned(&mut self, width: usize) -> i64 {
        let mut value = 0;
        for _ in 0..width {
            let bit = self.bytes[self.position / 8] >> (7 - self.position % 8) & 1;
            value = value * 2 + i64::from(bit);
            self.position += 1;
        }
        value
    }

    /// Two's complement.
    fn signed(&mut self, width: usize) -> i64 {
        let value = self.unsigned(width);
        if value >= 1 << (width - 1) {
            value - (1 << width)
        } else {
            value
        }
    }

    /// x, y and z, 14 bits signed each.
    fn position(&mut self) -> [i64; 3] {
        [self.signed(14), self.signed(14), self.signed(14)]
    }
}

/// Questions 1 to 7 in turn: the header and all records of an accepted file.
pub fn accept(file: &[u8]) -> Result<(Header, Vec<Record>), Refusal> {
    question(1, 0, file.len() >= 12)?;
    let mut fields = Fields {
        bytes: file,
        position: 0,
    };
    let header = Header {
        version: fields.unsigned(4),
        cells: [
            fields.unsigned(6) + 1,
            fields.unsigned(6) + 1,
            fields.unsigned(6) + 1,
        ],
        edge: fields.unsigned(8),
        origin: fields.position(),
        count: fields.unsigned(12) as usize,
    };
    let last_bits = fields.unsigned(12);
    question(2, 0, header.version == 1)?;
    question(3, 0, header.edge > 0)?;
    question(4, 0, last_bits == 0)?;
    let ends = [0, 1, 2].map(|axis| header.origin[axis] + header.cells[axis] * header.edge);
    question(5, 0, ends.iter().all(|&end| end <= 8191))?;
    question(6, 0, file.len() == 12 + 16 * header.count)?;
    let records: Vec<Record> = file[12..].chunks(16).map(record).collect();
    for (i, record) in records.iter().enumerate() {
        question(7, i, record.kind < 3)?;
    }
    Ok((header, records))
}

/// A record of sixteen bytes.
fn record(bytes: &[u8]) -> Record {
    let mut fields = Fields { bytes, position: 0 };
    Record {
        kind: fields.unsigned(2),
        corners: [fields.position(), fields.position(), fields.position()],
    }
}

/// The plain reading: the header's values with record `number`, or with no record where the number is not below the count.
pub fn read(file: &[u8], number: usize) -> Result<(Header, Option<Record>), Refusal> {
    let (header, records) = accept(file)?;
    Ok((header, records.get(number).copied()))
}
