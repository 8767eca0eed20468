//! The work of the proved functions, written by hand in Rust.

pub mod index;
pub mod plain;
pub mod read;
pub mod receiver;
pub mod sky;
pub mod write;
