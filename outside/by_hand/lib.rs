//! The product's algorithms by hand in Rust, each step in the fastest form tried, to measure the
//! product against.
#![no_std]

mod again;
mod level;
mod play;
mod response;
mod search;
#[path = "../surface/mod.rs"]
mod surface;
#[path = "../surface/trial.rs"]
mod trial;
