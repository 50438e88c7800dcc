//! Counts the requests for memory of round trips.
use crate::Outcome;
use crate::ports::{number_in_place, numbers};
use iceoryx2::prelude::*;
use std::alloc::{GlobalAlloc, Layout, System};
use std::sync::atomic::{AtomicU64, Ordering};
use std::thread;

/// The allocator of the system, which counts.
struct Counting;

static REQUESTS: AtomicU64 = AtomicU64::new(0);

// SAFETY: each call is handed on as it is.
unsafe impl GlobalAlloc for Counting {
    unsafe fn alloc(&self, layout: Layout) -> *mut u8 {
        REQUESTS.fetch_add(1, Ordering::Relaxed);
        unsafe { System.alloc(layout) }
    }

    unsafe fn dealloc(&self, at: *mut u8, layout: Layout) {
        unsafe { System.dealloc(at, layout) }
    }

    unsafe fn realloc(&self, at: *mut u8, layout: Layout, size: usize) -> *mut u8 {
        REQUESTS.fetch_add(1, Ordering::Relaxed);
        unsafe { System.realloc(at, layout, size) }
    }
}

#[global_allocator]
static COUNTING: Counting = Counting;

/// The round trips that are made before the count begins, and while it runs.
const TRIPS: u64 = 10_000;

/// Makes the round trips twice, and returns the requests for memory of the second time.
fn requests_of(mut trip: impl FnMut(u64)) -> u64 {
    (0..TRIPS).for_each(&mut trip);
    let before = REQUESTS.load(Ordering::Relaxed);
    (0..TRIPS).for_each(&mut trip);
    REQUESTS.load(Ordering::Relaxed) - before
}

/// Prints the requests for memory of 10,000 round trips, of which none may make one. The library's own requests go to `malloc` and are not
/// counted here.
pub fn print() -> Outcome<()> {
    let ports = numbers::<local_threadsafe::Service>("memory")?;
    let in_place = requests_of(|it| assert_eq!(number_in_place(&ports, it).expect("a round trip"), it + 1));
    let (client, server) = ports;
    thread::spawn(move || {
        while let Ok(active) = server.blocking_receive() {
            active.send_copy(*active + 1).expect("the client waits");
        }
    });
    let waits = requests_of(|it| {
        let pending = client.send_copy(it).expect("a request");
        assert_eq!(*pending.blocking_receive().expect("a response").expect("an answer"), it + 1);
    });
    println!("requests for memory in {TRIPS} round trips: {in_place} in place, {waits} with waits");
    assert_eq!((in_place, waits), (0, 0));
    Ok(())
}
