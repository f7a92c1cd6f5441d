//! Times the proved engine against optimised implementations of the same
//! machine, after comparing what they give byte for byte.

#[cfg(feature = "board")]
pub mod board;
pub mod job;
pub mod measure;
pub mod nets;
pub mod optimised;
pub mod random;
pub mod side;
pub mod verify;
pub mod workloads;
