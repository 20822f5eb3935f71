//! The scope document and its change requests in Rust, made apart from the verified libraries and from everything else here.
//!
//! It is written to be compared with: each part follows the documents' sentences in their order, and nothing is done to be
//! quick. The libraries and this crate share no code.

mod bar;
mod frame;
mod lister;
mod map;
mod overlap;
mod route;
mod scan;
mod write;

pub use bar::{bar, weights_show};
pub use frame::{read, Header, Record};
pub use lister::list;
pub use map::fill;
pub use route::{test_route, Route};
pub use scan::scan;
pub use write::{file_of, write_file};

/// A refused call: the number of the first question answered with "no", and the place.
#[derive(Clone, Copy, Debug, PartialEq, Eq)]
pub struct Refusal {
    pub number: u32,
    pub place: usize,
}

/// Puts one question: a "no" ends the call with the question's number and place.
fn question(number: u32, place: usize, yes: bool) -> Result<(), Refusal> {
    if yes {
        Ok(())
    } else {
        Err(Refusal { number, place })
    }
}
