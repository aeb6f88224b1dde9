//! The controller of document 01 in plain Rust, without proofs, over the same
//! flat words and with the same order of growth as the proved library. It is
//! what that library is measured against.

#![deny(warnings)]
#![forbid(unsafe_code)]

mod audit;
mod calls;
mod layout;
mod place;
mod release;
mod serve;
mod trim;

pub use audit::audit;
pub use layout::make;
pub use serve::{serve, LONGEST_RUN};
