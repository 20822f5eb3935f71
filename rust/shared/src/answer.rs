//! Takes an answer of a library apart: one number of 64 bits.

use crate::limit::{Limit, Refusal};

/// The top byte of an answer that is a count or a length.
pub const DONE: u8 = 0;

/// A slice's length, as the libraries take it: 64 bits on every machine.
pub fn long<T>(slice: &[T]) -> u64 {
    slice.len() as u64
}

/// The top byte.
pub fn tag(answer: u64) -> u8 {
    (answer >> 56) as u8
}

/// The low 32 bits: a count, a length, a place or a cell.
pub fn low(answer: u64) -> usize {
    answer as u32 as usize
}

/// An answer that is a count, a length or a refusal.
pub fn counted(answer: u64) -> Result<usize, Refusal> {
    match tag(answer) {
        DONE => Ok(low(answer)),
        _ => Err(refusal(answer)),
    }
}

/// An answer that is a refusal. That its number is one of the limits is proved of the libraries.
pub fn refusal(answer: u64) -> Refusal {
    let Some(limit) = Limit::from_number((answer >> 48) as u8) else {
        unreachable!("a refusal has a limit's number");
    };
    let place = low(answer);
    Refusal { limit, place }
}
