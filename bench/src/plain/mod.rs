//! An implementation of its own, in plain safe Rust, written from the rules alone.
mod build;
mod house;
mod lookup;
mod script;
mod store;

#[cfg(test)]
mod definition;
#[cfg(test)]
mod tests;

pub use build::{build_item, build_item_indexed};
pub use house::{Lent, perform};
pub use script::{Machine, Step, check_lines, replay};
