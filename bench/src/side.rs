//! The sides: each is four functions over bytes.

use crate::optimised;

/// Reached through pointers, so that no side is compiled into the measuring
/// loop.
#[derive(Clone, Copy)]
pub struct Side {
    pub name: &'static str,
    pub compose: fn(&[u8], &[u8], &mut [u8]) -> u64,
    pub check: fn(&[u8]) -> u32,
    pub list: fn(&[u8], &mut [u8]) -> u64,
    pub run: fn(&[u8], &[u8], &mut [u8]) -> u64,
    /// Whether only `run` is its own: then nothing else of it is timed.
    pub only_runs: bool,
}

#[cfg(feature = "board")]
pub const BOARD: Side = Side {
    name: "board",
    compose: crate::board::compose,
    check: crate::board::check,
    list: crate::board::list,
    run: crate::board::run,
    only_runs: false,
};

/// The yardstick: walks over all transitions before each firing.
pub const OPTIMISED: Side = Side {
    name: "optimised",
    compose: optimised::compose,
    check: optimised::check,
    list: optimised::list,
    run: optimised::run,
    only_runs: false,
};

/// The yardstick with a walk that leaves transitions out.
pub const SPARSE: Side = Side {
    name: "sparse",
    run: optimised::run_sparse,
    only_runs: true,
    ..OPTIMISED
};

/// The sides of this build; the first is compared with each other one.
#[cfg(feature = "board")]
pub const SIDES: &[Side] = &[BOARD, OPTIMISED, SPARSE];
#[cfg(not(feature = "board"))]
pub const SIDES: &[Side] = &[OPTIMISED, SPARSE];

pub fn named(name: &str) -> Option<Side> {
    SIDES.iter().copied().find(|side| side.name == name)
}
