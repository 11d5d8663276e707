//! The second program: the code directory of document 01, with the number of document 02 b), and the
//! sign of document 02 a), written from the documents alone and as literally as possible, so that the
//! proved implementation can be held to account with it.
#![deny(unsafe_code)]

pub mod answers;
pub mod building;
pub mod codes;
pub mod compare;
mod file;
pub mod graph;
pub mod header;
#[cfg(feature = "library")]
pub mod library;
pub mod listing;
pub mod looking;
pub mod opening;
pub mod random;
pub mod refusals;
pub mod sign;
pub mod sizes;
pub mod table;
pub mod text;
pub mod trial;
pub mod vectors;
pub mod vertices;

pub use answers::{Built, Found, Part, Refusal};
pub use building::build;
pub use codes::CodeList;
pub use header::Header;
pub use listing::list;
pub use looking::{lookup, show};
pub use opening::open;
pub use sizes::length;
