//! Hand-worked cases that the console has no line for, one row each, and its sharing lines over what it does not show.

#[path = "../common/mod.rs"]
mod common;

mod flat;
mod lists;
mod making;
mod messages;
mod ports;
mod replay;
mod requests;
mod rules;
mod sharing;
mod sink_flat;
mod sink_lists;
mod sink_words;
mod steps;
mod summaries;
mod words;
