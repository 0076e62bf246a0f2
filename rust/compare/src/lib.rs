//! Two engines side by side: the calls they share, test cases as lines of text, random inputs (`draws`), cases by hand
//! (`edges`), what calls are examples of (`sorts`), and the comparison itself.

#![forbid(unsafe_code)]
// an edge or a draw that nobody makes is noticed
#![deny(dead_code)]

pub mod campaign;
pub mod case;
pub mod draws;
pub mod edges;
pub mod editions;
pub mod engine;
pub mod frames;
mod layout;
pub mod sorts;
pub mod two_lists;
