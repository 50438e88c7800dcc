//! Helpers of the tests.
#![allow(dead_code)]

use rr::prelude::*;
use rr::service::builder::request_response::Builder;
use rr::service::port_factory::request_response::PortFactory;
use rr::zero_copy_send::{Elements, Payload, Sendable};
use std::error::Error;
use std::sync::Arc;
use std::sync::atomic::{AtomicUsize, Ordering};
use std::task::Wake;

pub type Done = Result<(), Box<dyn Error>>;

/// Begins to build a service of this name, which no other test of the program has.
pub fn builder<S: Service, Q: Sendable + ?Sized, P: Sendable + ?Sized>(name: &str) -> Builder<Q, (), P, (), S> {
    let node = NodeBuilder::new().create::<S>().unwrap();
    node.service_builder(&name.try_into().unwrap()).request_response::<Q, P>()
}

/// Creates a service with iceoryx2's defaults.
pub fn service<S, Q, P>(name: &str) -> PortFactory<S, Q, (), P, ()>
where
    S: Service,
    Q: Sendable + Payload + Elements<Element: ZeroCopySend> + ?Sized,
    P: Sendable + Payload + Elements<Element: ZeroCopySend> + ?Sized,
{
    builder(name).create().unwrap()
}

/// Begins to build a service with one of everything, and queues that do not overflow.
pub fn least<S: Service>(name: &str) -> Builder<u64, (), u64, (), S> {
    builder(name)
        .max_clients(1)
        .max_servers(1)
        .max_loaned_requests(1)
        .max_active_requests_per_client(1)
        .max_response_buffer_size(1)
        .max_borrowed_responses_per_pending_response(1)
        .enable_safe_overflow_for_requests(false)
        .enable_safe_overflow_for_responses(false)
}

/// Returns the address of a payload.
pub fn address<T: ?Sized>(payload: &T) -> usize {
    std::ptr::from_ref(payload).addr()
}

/// Random numbers of a fixed seed.
pub struct Random(pub u64);

impl Random {
    pub fn below(&mut self, bound: usize) -> usize {
        self.0 = self
            .0
            .wrapping_mul(6_364_136_223_846_793_005)
            .wrapping_add(1_442_695_040_888_963_407);
        (self.0 >> 33) as usize % bound
    }

    /// Takes one of these.
    pub fn take<T>(&mut self, from: &mut Vec<T>) -> Option<T> {
        if from.is_empty() { None } else { Some(from.swap_remove(self.below(from.len()))) }
    }

    pub fn choose<'a, T>(&mut self, from: &'a [T]) -> Option<&'a T> {
        if from.is_empty() { None } else { Some(&from[self.below(from.len())]) }
    }
}

/// A waker that counts.
#[derive(Default)]
pub struct Count(pub AtomicUsize);

impl Count {
    pub fn get(&self) -> usize {
        self.0.load(Ordering::SeqCst)
    }
}

impl Wake for Count {
    fn wake(self: Arc<Self>) {
        self.0.fetch_add(1, Ordering::SeqCst);
    }
}
