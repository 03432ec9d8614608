//! The day-ahead auction of document 01 in plain Rust, written from the paper
//! alone and by listing: every price, every set of blocks, every contender.
//!
//! It is slow on purpose. Its only use is to be compared with the proved code,
//! so each function is meant to be read beside the sentence it comes from.
//!
//! - [`paper`]: reading, pricing, clearing, contenders and the texts of the programs;
//! - [`books`]: books to try them on: a builder, random books, damaged books;
//! - [`text`]: a plain-text form of a book for people;
//! - [`twin`]: the proved code's algorithm in plain Rust, to be timed beside it.
//!
//! With the feature `proved` its tests and programs call the proved library, through
//! the package `auction`.

pub mod books;
pub mod paper;
pub mod text;
pub mod twin;
