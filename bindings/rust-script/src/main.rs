//! Carries out a script of `rr script` by the crate `rr` (docs/RULES.md, "Lines of an example").
//!
//! ```text
//! rr-script              prints the replies as `rr script` does, by a service of one thread
//! rr-script --threads N  spreads the commands over N threads, by a service that threads share, and prints the
//!                        log: each command with its reply, in the order in which they were made
//! ```
//!
//! The service is of the sliced family, elements are bytes, and a user header is a number in the first eight bytes, the
//! lowest first. Handles are values here, so that a number that names none, or one that has no such call, is refused by
//! this program; so is a limit of 0, which the crate counts as 1, as iceoryx2 does. All other replies are what the
//! crate returns. Which request an active request belongs to can't be had, so that `active A` is printed without it.
//! The statuses are those of `rr script`.

mod handles;
mod script;
mod spread;

use rr::prelude::*;
use script::Script;
use std::env;
use std::io::{BufRead, stdin};
use std::process::ExitCode;

/// Begins the script of the first line, or prints why its service is refused.
fn begin<S: Service>(first: &str) -> Result<Script<S>, ExitCode> {
    Script::begin(&first.split_whitespace().collect::<Vec<_>>()).map_err(|refusal| {
        println!("{refusal}");
        ExitCode::from(4)
    })
}

/// Carries out the lines in this thread, and prints each reply at once.
fn in_one_thread(first: &str, lines: impl Iterator<Item = String>) -> Result<(), ExitCode> {
    let mut script = begin::<local::Service>(first)?;
    println!("done");
    for line in lines {
        println!("{}", script.reply(&line.split_whitespace().collect::<Vec<_>>()));
    }
    Ok(())
}

/// Carries out the lines in several threads, and prints the log.
fn in_threads(first: &str, lines: impl Iterator<Item = String>, threads: usize) -> Result<(), ExitCode> {
    let script = begin::<local_threadsafe::Service>(first)?;
    println!("{first} -> done");
    for (line, reply) in spread::run(script, lines.collect(), threads) {
        println!("{line} -> {reply}");
    }
    Ok(())
}

fn main() -> ExitCode {
    let mut lines = stdin().lock().lines().map(|line| line.expect("a line"));
    let first = lines.next().expect("a line");
    let words: Vec<_> = env::args().skip(1).collect();
    let done = match &words[..] {
        [] => in_one_thread(&first, lines),
        [name, threads] if name == "--threads" => in_threads(&first, lines, threads.parse().expect("a number")),
        _ => panic!("the words are `--threads N`"),
    };
    done.map_or_else(|status| status, |()| ExitCode::SUCCESS)
}
