//! The writer as the library has it, in Rust: every number is checked in a loop with no way out, then the kinds; then each
//! field is put behind the last by a pen that holds back less than a byte.

use desk::{Limit, Refusal};

/// What has been written of a string of bits: whole bytes, and less than a byte more.
#[derive(Clone, Copy, Default)]
struct Pen {
    at: usize,
    bits: u32,
    held: u64,
}

impl Pen {
    /// Puts a field behind what is there. Whole bytes go out at once.
    fn put(mut self, out: &mut [u8], width: u32, value: u64) -> Pen {
        self.bits += width;
        self.held = (self.held << width) + value;
        while self.bits >= 8 {
            self.bits -= 8;
            out[self.at] = (self.held >> self.bits) as u8;
            self.at += 1;
            self.held %= 1 << self.bits;
        }
        self
    }

    /// Puts a coordinate, in two's complement.
    fn put_signed(self, out: &mut [u8], value: i32) -> Pen {
        self.put(out, 14, value as u64 % (1 << 14))
    }
}

/// Writes a file.
pub fn write(grid: &[i32], triangles: &[i32], out: &mut [u8]) -> Result<usize, Refusal> {
    let no = |limit| Err(Refusal { limit, place: 0 });
    let count = triangles.len() / 10;
    if count > desk::TRIANGLES_MOST || !grid_fits(grid) || !triangles_fit(triangles) {
        return no(Limit::Unwritable);
    }
    let length = desk::file_len(count);
    if out.len() < length {
        return no(Limit::ShortOutput);
    }
    put_header(&mut out[..12], grid, count);
    for (place, record) in out[12..length]
        .chunks_exact_mut(16)
        .zip(triangles.chunks_exact(10))
    {
        put_record(place, record);
    }
    Ok(length)
}

/// Whether there are seven values that fit their fields, with far corners at most 8,191.
fn grid_fits(grid: &[i32]) -> bool {
    let axis_fits = |axis: usize| {
        let (cells, edge, origin) = (grid[axis], grid[3], grid[4 + axis]);
        (1..=64).contains(&cells)
            && (1..=255).contains(&edge)
            && (-8192..=8191).contains(&origin)
            && origin + cells * edge <= 8191
    };
    grid.len() == 7 && (0..3).all(axis_fits)
}

/// Whether the triangles are whole, and their numbers fit their fields.
fn triangles_fit(triangles: &[i32]) -> bool {
    let fits = |good, number| good & (-8192..=8191).contains(number);
    triangles.len() % 10 == 0
        && triangles.iter().fold(true, fits)
        && triangles
            .chunks_exact(10)
            .all(|record| (0..=2).contains(&record[0]))
}

/// Writes a header.
fn put_header(out: &mut [u8], grid: &[i32], count: usize) {
    let mut pen = Pen::default().put(out, 4, 1);
    for cells in &grid[..3] {
        pen = pen.put(out, 6, (cells - 1) as u64);
    }
    pen = pen.put(out, 8, grid[3] as u64);
    for &value in &grid[4..7] {
        pen = pen.put_signed(out, value);
    }
    pen.put(out, 12, count as u64).put(out, 12, 0);
}

/// Writes a record. The fields are written out one by one, as in the library.
fn put_record(out: &mut [u8], record: &[i32]) {
    let pen = Pen::default().put(out, 2, record[0] as u64);
    let pen = pen.put_signed(out, record[1]);
    let pen = pen.put_signed(out, record[2]);
    let pen = pen.put_signed(out, record[3]);
    let pen = pen.put_signed(out, record[4]);
    let pen = pen.put_signed(out, record[5]);
    let pen = pen.put_signed(out, record[6]);
    let pen = pen.put_signed(out, record[7]);
    let pen = pen.put_signed(out, record[8]);
    pen.put_signed(out, record[9]);
}
