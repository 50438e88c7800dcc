//! Counters that tell outside the lock whether something may have come.
//!
//! A counter that has not changed since a queue was known to be empty shows that the queue is empty still, so that a
//! call has nothing to take the lock for. A counter that changed shows nothing.
use std::sync::atomic::{AtomicU64, Ordering};

/// A counter in cache lines of its own.
#[derive(Debug, Default)]
#[repr(align(128))]
struct Counter(AtomicU64);

impl Counter {
    #[inline]
    fn get(&self) -> u64 {
        self.0.load(Ordering::Acquire)
    }

    /// Sets the counter. The caller has the service's lock.
    #[inline]
    fn set(&self, value: u64) {
        self.0.store(value, Ordering::Release);
    }
}

/// How many counters of answers there are. Clients that share one take the lock without need.
const ANSWERED: usize = 16;

/// The counters of a service.
#[derive(Debug, Default)]
pub(crate) struct News {
    asked: Counter,
    answered: [Counter; ANSWERED],
}

impl News {
    /// Returns the number of the last send of a request.
    #[inline]
    pub fn asked(&self) -> u64 {
        self.asked.get()
    }

    /// Sets the number of the last send of a request. The caller has the service's lock.
    #[inline]
    pub fn ask(&self, sequence: u64) {
        self.asked.set(sequence);
    }

    /// Returns a number that changes with each answer to the client that has this number, and with each active request
    /// of its that is dropped.
    #[inline]
    pub fn answered(&self, client: u64) -> u64 {
        self.answered[client as usize % ANSWERED].get()
    }

    /// Changes that number. The caller has the service's lock.
    #[inline]
    pub fn answer(&self, client: u64) {
        let counter = &self.answered[client as usize % ANSWERED];
        counter.set(counter.get() + 1);
    }
}
