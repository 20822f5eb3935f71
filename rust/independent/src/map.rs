//! The map, and the fill.

use crate::frame::{accept, Header};
use crate::overlap::{box_holds, overlaps};
use crate::{question, Refusal};

/// Cell n is bit 7 − (n mod 8) of byte n ÷ 8.
pub fn is_filled(map: &[u8], n: usize) -> bool {
    map[n / 8] >> (7 - n % 8) & 1 == 1
}

/// The numbers of the cells that a triangle overlaps, the lowest first. On each axis, cells whose box does not meet the
/// triangle's are left out at once.
pub fn touched_cells(header: &Header, v: [[i64; 3]; 3]) -> Vec<usize> {
    let [along_x, along_y, along_z] = [0, 1, 2].map(|axis| {
        let lowest = |i: i64| header.origin[axis] + i * header.edge;
        (0..header.cells[axis])
            .filter(|&i| box_holds(&v, axis, lowest(i), header.edge))
            .collect::<Vec<i64>>()
    });
    let mut numbers = Vec::new();
    for &k in &along_z {
        for &j in &along_y {
            for &i in &along_x {
                if overlaps(&v, header.lowest_corner([i, j, k]), header.edge) {
                    numbers.push(header.number([i, j, k]));
                }
            }
        }
    }
    numbers
}

/// The bytes of an accepted file's map, and the number of filled cells.
pub fn map_of(header: &Header, triangles: impl Iterator<Item = [[i64; 3]; 3]>) -> (Vec<u8>, usize) {
    let mut filled = vec![false; header.cells_in_all()];
    for triangle in triangles {
        for n in touched_cells(header, triangle) {
            filled[n] = true;
        }
    }
    let mut bytes = vec![0; header.map_bytes()];
    for (n, _) in filled.iter().enumerate().filter(|(_, &filled)| filled) {
        bytes[n / 8] |= 0x80 >> (n % 8);
    }
    (bytes, filled.iter().filter(|&&filled| filled).count())
}

/// Replaces the map, and answers with the number of filled cells.
pub fn fill(file: &[u8], map: &mut [u8]) -> Result<usize, Refusal> {
    let (header, records) = accept(file)?;
    question(8, 0, map.len() >= header.map_bytes())?;
    let (bytes, count) = map_of(&header, records.iter().map(|record| record.corners));
    map[..bytes.len()].copy_from_slice(&bytes);
    Ok(count)
}
