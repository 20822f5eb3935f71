//! Runs of cells in a row or a column, cut by linear forms of the cell's number.

use std::ops::Range;

/// Cuts off the cells of a run at which step × k + at is negative. They are at one end of it, and
/// most often there are none.
#[inline(always)]
pub fn cut(run: &mut Range<i64>, step: i64, at: i64) {
    if step < 0 {
        let mut x = step * (run.end - 1) + at;
        while run.start < run.end && x < 0 {
            x -= step;
            run.end -= 1;
        }
    } else {
        let mut x = step * run.start + at;
        while run.start < run.end && x < 0 {
            x += step;
            run.start += 1;
        }
    }
}

/// The part of a run at which step × k + at is from 0 to `reach`, where it does not fall. It is
/// sought from `near`, any cell of the run or its end, and no step leaves the run.
#[inline(always)]
pub fn in_slab(run: &Range<i64>, near: i64, step: i64, at: i64, reach: i64) -> Range<i64> {
    let mut first = near;
    let mut x = step * near + at;
    while first < run.end && x < 0 {
        x += step;
        first += 1;
    }
    while run.start < first && x >= step {
        x -= step;
        first -= 1;
    }
    let mut end = first;
    while end < run.end && x <= reach {
        x += step;
        end += 1;
    }
    first..end
}
