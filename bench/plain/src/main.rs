//! The rules of the day book in plain Rust, and the benchmark `callrate` on it.
//! It prints what `crates/callrate/out/callrate` prints: `plain` runs every load, `plain LOAD` one.

mod answer;
mod bids;
mod book;
mod calendar;
mod callrate;
mod code;
mod codes;
mod day;

fn main() {
    callrate::run(std::env::args().nth(1).as_deref());
}
