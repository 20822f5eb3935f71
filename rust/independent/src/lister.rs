//! The map lister.

use crate::frame::accept;
use crate::map::{is_filled, map_of};

/// What the lister writes for a file: FILLED with the counts and the filled cells, or REFUSED with number and place.
pub fn list(file: &[u8]) -> Vec<u8> {
    let (header, records) = match accept(file) {
        Ok(accepted) => accepted,
        Err(refusal) => {
            return format!("REFUSED {} {}\n", refusal.number, refusal.place).into_bytes()
        }
    };
    let (map, count) = map_of(&header, records.iter().map(|record| record.corners));
    let mut text = format!("FILLED {count} OF {}\n", header.cells_in_all());
    for n in (0..header.cells_in_all()).filter(|&n| is_filled(&map, n)) {
        let [i, j, k] = header.cell(n);
        text += &format!("{i} {j} {k}\n");
    }
    text.into_bytes()
}
