//! The C surface of a planner in Rust: its checks, its texts and its seven names. The crate that
//! takes it in adds the modules `search`, `response` and `play`.

pub mod answer;
pub mod checks;
mod operations;
mod page;
pub mod rows;
mod sheet;

#[panic_handler]
fn stop(_: &core::panic::PanicInfo) -> ! {
    loop {}
}
