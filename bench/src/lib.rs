//! The whole job once more in plain Rust, the proved library beside it, and what holds the two together.
pub mod cases;
pub mod command;
pub mod days;
pub mod ours;
pub mod plain;
pub mod random;
