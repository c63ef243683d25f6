//! What the tests share. How to run them, in `rust/`:
//!
//! - quick, under a minute: `cargo test --release --offline`
//! - long: `ARIN_CALLS=200000000 ARIN_SEED=$RANDOM cargo test --release --offline -- --include-ignored`
//! - the same with `CARGO_PROFILE_RELEASE_OVERFLOW_CHECKS=true` before it: no sum and no product of the library overflows.
//!
//! `ARIN_CALLS` is how many calls each part of `differential` compares, and `ARIN_SEED` the seed of all random inputs. A failure
//! prints its seed; the same seed and the same part give the same inputs again. `-- --nocapture` shows how often each refusal came up.

// Each test program has its own copy of this module, and none of them uses all of it.
#![allow(dead_code)]

pub mod by_value;
pub mod convert;
pub mod random;
pub mod run;
