//! The implementation: the auction, its replay frame by frame, the other calls of a C host, the seats
//! of a hall, sessions through them, and what each program of the engine has to print.

pub mod auction;
pub mod curve;
pub mod demand;
pub mod direct;
pub mod figures;
pub mod forcing;
pub mod hall;
pub mod replay;
pub mod sealed;
pub mod sessions;
pub mod settling;
pub mod trace;
pub mod version;
