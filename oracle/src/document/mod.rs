//! A plain model of document 01 as document 02's landed requests leave it, written from their text:
//! one function for each entry, in the order of its sections. It shares nothing with the original.

pub mod displacements;
pub mod immediates;
pub mod labels;
pub mod logical;
pub mod moves;
pub mod reader;
pub mod registers;
pub mod simd;
pub mod words;

/// The number given when a request is turned down.
#[derive(Clone, Copy, Debug, PartialEq, Eq)]
pub struct No(pub u32);
