//! A second implementation of job scripts, written from the pages in docs/ alone.
//!
//! It shares no text with the product, and it is built on other means: maps of what
//! differs instead of arrays, plain recursion instead of types for layers, and the driver
//! spelled out as the cycles it makes.

pub mod card;
pub mod command;
pub mod device;
pub mod driver;
pub mod fault;
pub mod geometry;
pub mod held;
pub mod memory;
pub mod pile;
pub mod random;
pub mod run;
pub mod scripts;
pub mod simulated;
pub mod slot;
pub mod writer;

#[cfg(test)]
mod tests;
