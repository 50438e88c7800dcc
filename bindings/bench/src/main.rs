//! Times round trips through the crate `rr` beside the library's own calls and beside channels, and counts their allocations.
//!
//! ```text
//! cargo run --release                 all groups
//! cargo run --release -- one two      these groups: one, two, many, memory
//! ```
//!
//! The rows of a group run in turn, one sample of each after another, so that the host's speed is the same for all. A row prints its best
//! sample and the middle one, in nanoseconds a round trip, and the ratio of both to the group's first row. Run it with nothing beside.
mod calls;
mod channels;
mod memory;
mod ports;
mod table;

use std::error::Error;

/// The result of a measurement.
type Outcome<T> = Result<T, Box<dyn Error>>;

fn main() -> Outcome<()> {
    let words: Vec<String> = std::env::args().skip(1).collect();
    let is_asked = |name: &str| words.is_empty() || words.iter().any(|it| it == name);
    if is_asked("one") {
        table::print("one thread, 8 bytes, in place", 200, ports::one_thread(1)?);
        table::print("one thread, 8 bytes, copied", 200, ports::copies()?);
        table::print("one thread, 65536 bytes, in place", 60, ports::one_thread(8192)?);
    }
    if is_asked("two") {
        table::print("two threads, 8 bytes, a reply for each request, waits", 100, ports::two_threads()?);
    }
    if is_asked("many") {
        table::print("four clients, four servers, one of which answers each request", 30, ports::crowds()?);
    }
    if is_asked("memory") {
        memory::print()?;
    }
    Ok(())
}
