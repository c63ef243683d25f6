//! What people expect of a Rust package beside the calls: refusals as errors, answers as results, lists as slices, and the usual traits.

#[path = "../../build/refusals.rs"]
mod table;

mod answers;
mod lists;
mod refusals;
mod traits;
