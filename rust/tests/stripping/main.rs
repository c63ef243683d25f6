//! The build script's reader of the proved source: what it takes away, what it leaves as it is, and what it refuses.

#[path = "../../build/strip.rs"]
mod strip;

mod blocks;
mod known;
mod our_crates;
mod refused;
