//! A minimiser and a verifier for hazard-free two-level logic, written for speed and independent of the proved code.
//!
//! Everything that can be is done for many points, cubes or products at once, on the bits of a `u64`:
//!
//! - the table and the OFF-set are sets of up to 1,024 points, 64 to a word; a cube meets a set by one mask for the six low inputs and
//!   a walk over the words of the others;
//! - a transition's rule and its required cubes come from shifts of those sets, one for each input that changes;
//! - the up to 64 privileged cubes are the bits of a word, so that a product's illegal intersections are a few ORs;
//! - required cubes and products are put into bit columns, one for each literal, so that which of 64 of them fit is a few ANDs.

mod columns;
mod cube;
mod legal;
mod minimise;
mod planes;
mod primes;
mod problem;
pub mod promise;
mod refusal;
mod run;
mod verify;

pub use minimise::{minimise, minimise_joining};
pub use primes::primes_over;
pub use problem::{required_count, required_cubes, MOST_MOVING};
pub use refusal::Refusal;
pub use verify::{verify, Finding, Verdict, MOST_PRODUCTS};
