//! The independent reader: document 01 once more, in plain Rust and from the papers alone.
//!
//! Sections named in comments are document 01's unless another paper is named.

pub mod changes;
pub mod grammar;
pub mod index;
pub mod iri;
pub mod lexer;
pub mod long_form;
pub mod look_up;
mod machine;
pub mod read;
pub mod tables;
pub mod text;
pub mod utf8;
