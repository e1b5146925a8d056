//! Runs through the seats of a hall (document 02, request 14), and pairs of runs that show a developer
//! the same.

mod edits;
mod idle;
pub mod pairs;
pub mod runs;
pub mod stated;
