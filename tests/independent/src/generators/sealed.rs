//! Sealed auctions (document 02, request 13).

pub mod generated;
mod spoiled;
pub mod stated;
