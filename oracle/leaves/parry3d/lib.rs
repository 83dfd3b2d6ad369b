//! The module tree around the published files. Published `lib.rs` names modules that are not
//! in the published text, so this one of our own names those that are, and our leaves.

#[macro_use]
extern crate approx;
extern crate alloc;
extern crate num_traits as num;

pub mod lent;
pub mod math;
pub mod query;
pub mod shape;
pub mod utils;

/// math/mod.rs re-exports this module; no file compiled here uses a vector register type.
mod simd {}
