//! The product's algorithms by hand in Rust, with sets walked by their marks and 64-bit divisions,
//! to measure the packed form against.
#![no_std]

mod marks;
#[path = "../surface/places.rs"]
mod places;
mod play;
mod response;
mod search;
#[path = "../surface/mod.rs"]
mod surface;
#[path = "../surface/trial.rs"]
mod trial;
