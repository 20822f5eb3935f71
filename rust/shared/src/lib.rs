//! What the wrappers of the verified libraries share: kinds of triangles, limits and refusals, and the bits of an answer.
//! Programs use them through a wrapper.

#![no_std]
#![deny(missing_docs)]

pub mod answer;
mod kind;
mod limit;

pub use kind::Kind;
pub use limit::{Limit, Refusal};
