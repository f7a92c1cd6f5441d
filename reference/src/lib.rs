//! The context Petri net machine of docs/MACHINE.md, written for
//! comparison: plain and readable, with no regard for speed beyond the necessary.

pub mod bench_run;
pub mod compose_cases;
pub mod examples;
pub mod frames;
pub mod hash;
pub mod image;
pub mod machine;
pub mod net;
pub mod random;
pub mod refusal;
pub mod reports;
pub mod streams;
pub mod suggestions;

pub use image::{compose, load};
pub use machine::{Answer, Call, Machine, Totals};
pub use net::Net;
