//! A second IvLeague domain controller.
//!
//! It keeps domains, TreeLings, node free lists and the leaf map as
//! structures of its own, and only renders or parses the 64-bit words that
//! document 01 lays out. Quotations in the comments are from document 01, as
//! the requests have changed it.

#![deny(warnings)]
#![forbid(unsafe_code)]

pub mod batch;
pub mod controller;
pub mod domain;
pub mod generate;
pub mod geometry;
pub mod holes;
pub mod layout;
pub mod lists;
pub mod log;
pub mod pool;
pub mod refusal;
pub mod rng;
pub mod small;
pub mod words;

pub use batch::serve_words;
pub use controller::{Answer, Controller, Request};
pub use layout::{make, make_words, Board, Sizes};
pub use words::audit;
