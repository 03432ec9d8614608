//! The proved source without its contracts. Nothing below is written by hand:
//! see [`source`](super::source).

#[allow(clippy::all, unused)]
#[rustfmt::skip]
pub mod book;
#[allow(clippy::all, unused)]
#[rustfmt::skip]
pub mod branches;
#[allow(clippy::all, unused)]
#[rustfmt::skip]
pub mod chains;
#[allow(clippy::all, unused)]
#[rustfmt::skip]
pub mod clearing;
#[allow(clippy::all, unused)]
#[rustfmt::skip]
pub mod fields;
#[allow(clippy::all, unused)]
#[rustfmt::skip]
pub mod guess;
#[allow(clippy::all, unused)]
#[rustfmt::skip]
pub mod order;
#[allow(clippy::all, unused)]
#[rustfmt::skip]
pub mod orders;
#[allow(clippy::all, unused)]
#[rustfmt::skip]
pub mod passes;
#[allow(clippy::all, unused)]
#[rustfmt::skip]
pub mod places;
#[allow(clippy::all, unused)]
#[rustfmt::skip]
pub mod pricing;
#[allow(clippy::all, unused)]
#[rustfmt::skip]
pub mod records;
#[allow(clippy::all, unused)]
#[rustfmt::skip]
pub mod result;
#[allow(clippy::all, unused)]
#[rustfmt::skip]
pub mod rivals;
#[allow(clippy::all, unused)]
#[rustfmt::skip]
pub mod roots;
#[allow(clippy::all, unused)]
#[rustfmt::skip]
pub mod search;
#[allow(clippy::all, unused)]
#[rustfmt::skip]
pub mod setup;
#[allow(clippy::all, unused)]
#[rustfmt::skip]
pub mod shares;
#[allow(clippy::all, unused)]
#[rustfmt::skip]
pub mod shift;
#[allow(clippy::all, unused)]
#[rustfmt::skip]
pub mod tables;
