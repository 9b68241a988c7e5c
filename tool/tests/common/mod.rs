//! What the tests share. Nothing here knows how the library works inside: the reference is written from
//! docs/01-formulas-and-proofs.md alone, and the library is called through its C header.

// Each file of tests is compiled with its own copy of these modules and uses a part of them.
#![allow(dead_code)]

pub mod families;
pub mod generate;
pub mod library;
pub mod reference;
pub mod tracecheck;
