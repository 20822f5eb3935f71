//! The writer of frame files.

use crate::frame::{Header, Record};
use crate::{question, Refusal};

/// Fields of a value and a width, one behind the other, most significant bit first: the low bits of a word.
fn packed(fields: impl IntoIterator<Item = (i64, u32)>) -> u128 {
    fields.into_iter().fold(0, |word, (value, width)| {
        word << width | (value as u128 & ((1 << width) - 1))
    })
}

/// The twelve bytes of a header. The last twelve bits are 0.
fn header_bytes(header: &Header) -> Vec<u8> {
    let [nx, ny, nz] = header.cells.map(|cells| (cells - 1, 6));
    let [x, y, z] = header.origin.map(|value| (value, 14));
    let (version, edge) = ((header.version, 4), (header.edge, 8));
    let count = (header.count as i64, 12);
    let word = packed([version, nx, ny, nz, edge, x, y, z, count, (0, 12)]);
    word.to_be_bytes()[4..].to_vec()
}

/// The sixteen bytes of a record.
fn record_bytes(record: &Record) -> [u8; 16] {
    let corners = record.corners.iter().flatten().map(|&value| (value, 14));
    packed([(record.kind, 2)].into_iter().chain(corners)).to_be_bytes()
}

/// The file of a header and records. Nothing is checked: the header's count is what it says.
pub fn file_of(header: &Header, records: &[Record]) -> Vec<u8> {
    let mut file = header_bytes(header);
    file.extend(records.iter().flat_map(record_bytes));
    file
}

/// Three numbers.
fn three(numbers: &[i32]) -> [i64; 3] {
    [numbers[0], numbers[1], numbers[2]].map(i64::from)
}

/// Ten numbers in record order.
fn record(numbers: &[i32]) -> Record {
    Record {
        kind: i64::from(numbers[0]),
        corners: [1, 4, 7].map(|at| three(&numbers[at..])),
    }
}

/// Is a length in its field?
fn is_length(value: &i64) -> bool {
    (-8192..=8191).contains(value)
}

/// Are the grid's values in their fields, and is no far corner above 8,191?
fn grid_fits(header: &Header) -> bool {
    header.cells.iter().all(|cells| (1..=64).contains(cells))
        && (1..=255).contains(&header.edge)
        && header.origin.iter().all(is_length)
        && (0..3).all(|axis| header.origin[axis] + header.cells[axis] * header.edge <= 8191)
}

/// Are a record's values in their fields, and is its kind not 3?
fn record_fits(record: &Record) -> bool {
    (0..=2).contains(&record.kind) && record.corners.iter().flatten().all(is_length)
}

/// Question 12, as far as it is about grid values: the header of a file with these and so many triangles.
pub fn accept_grid(grid: &[i32], count: usize) -> Result<Header, Refusal> {
    question(12, 0, grid.len() == 7)?;
    let header = Header {
        version: 1,
        cells: three(grid),
        edge: i64::from(grid[3]),
        origin: three(&grid[4..]),
        count,
    };
    question(12, 0, grid_fits(&header))?;
    Ok(header)
}

/// Writes the file of grid values (cells, edge, origin) and of triangles, ten numbers each in record order, and answers its
/// length.
pub fn write_file(grid: &[i32], triangles: &[i32], out: &mut [u8]) -> Result<usize, Refusal> {
    let header = accept_grid(grid, triangles.len() / 10)?;
    question(12, 0, header.count <= 4095)?;
    question(12, 0, triangles.len().is_multiple_of(10))?;
    let records: Vec<Record> = triangles.chunks(10).map(record).collect();
    question(12, 0, records.iter().all(record_fits))?;
    let file = file_of(&header, &records);
    question(11, 0, out.len() >= file.len())?;
    out[..file.len()].copy_from_slice(&file);
    Ok(file.len())
}
