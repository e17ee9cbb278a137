//! The second program of the entitlement desk, which shares no code with the library: rule sets of
//! propositional LO are closed into tables, and orders are looked up in them. It makes framed
//! cases and the answers that are expected for them.

#![forbid(unsafe_code)]
#![warn(missing_docs)]

pub mod benchsets;
pub mod cases;
pub mod fixed;
pub mod frames;
pub mod goals;
pub mod listing;
pub mod operator;
pub mod prover;
pub mod random;
pub mod rounds;
pub mod selfcheck;
pub mod sets;
pub mod spelling;
