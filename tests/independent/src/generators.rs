//! What both implementations are run on: inputs worked out by hand, inputs from a seed, which are the
//! same in every run, records with lines left out or in another order, sessions, questions about both, and
//! lent buffers.

pub mod calls;
pub mod cutting;
pub mod direct;
pub mod games;
pub mod hall;
pub mod lent;
pub mod looks;
pub mod random;
pub mod records;
pub mod sample;
pub mod sealed;
pub mod sessions;
pub mod shuffling;
