//! The proved calls and the independent ones on the same arguments, compared in every field and every byte.

mod answers;
pub mod arguments;
pub mod replay;
mod shown;
mod tally;
mod wrapper;

pub use answers::{same_minimise, same_verify};
pub use tally::Tally;
