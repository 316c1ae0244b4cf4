//! The literal search behind the same C names: lengths upward from 1, every iteration from nothing,
//! runs tick by tick.
#![no_std]

#[path = "../surface/places.rs"]
mod places;
mod play;
mod response;
mod search;
#[path = "../surface/mod.rs"]
mod surface;
mod work;
