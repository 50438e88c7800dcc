//! The commands of a script, made by several threads.

use crate::script::Script;
use rr::prelude::*;
use std::collections::VecDeque;
use std::sync::Mutex;
use std::thread;

type L = local_threadsafe::Service;

/// The script, and each command that was made with its reply.
struct Log {
    script: Script<L>,
    made: Vec<(String, String)>,
}

/// Each thread takes the next command, and makes it when it gets the log. A port or a message is thus created by one
/// thread and used by others, and commands overtake each other.
pub fn run(script: Script<L>, lines: Vec<String>, threads: usize) -> Vec<(String, String)> {
    let lines = Mutex::new(VecDeque::from(lines));
    let log = Mutex::new(Log { script, made: Vec::new() });
    let make_all = || {
        let next = || lines.lock().expect("no thread panics").pop_front();
        while let Some(line) = next() {
            thread::yield_now();
            let mut log = log.lock().expect("no thread panics");
            let reply = log.script.reply(&line.split_whitespace().collect::<Vec<_>>());
            log.made.push((line, reply));
        }
    };
    thread::scope(|scope| (0..threads).for_each(|_| drop(scope.spawn(make_all))));
    log.into_inner().expect("no thread panics").made
}
