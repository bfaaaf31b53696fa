//! asmkit's A64 encoder, compiled unchanged, beside a plain model of document 01.

extern crate alloc;

include!(concat!(env!("OUT_DIR"), "/original.rs"));

#[allow(dead_code)]
mod standins;

pub mod archives;
pub mod direct;
pub mod document;
pub mod lists;
pub mod replay;
pub mod rust;
pub mod scripts;

pub(crate) use standins::AsmError;
