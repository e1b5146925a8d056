//! One implementation beside the other: running the engine's programs, and what a comparison prints.
//! The modules `engine` and `replaying` of this folder call the engine's library, which this one does
//! not link, so the programs under `bin/` take them in themselves.

pub mod hall;
pub mod program;
pub mod report;
