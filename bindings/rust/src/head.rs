//! The first bytes of a slot: the public header of a message, and the crate's own fields.
use crate::service::header::request_response::{RequestHeader, ResponseHeader};
use std::sync::atomic::{AtomicU32, Ordering};

/// How many bytes a head takes.
pub(crate) const HEAD: usize = 64;

/// The head of a request.
#[derive(Debug)]
#[repr(C)]
pub struct RequestHead {
    pub(crate) header: RequestHeader,
    /// The number of its send among all sends of requests of the hub, from 1. Its sender writes it under the service's
    /// lock, before the send.
    pub(crate) sequence: u64,
    /// The seat of its client.
    pub(crate) seat: u32,
    /// How many active requests of it live. It changes under the service's lock.
    pub(crate) active: AtomicU32,
}

impl RequestHead {
    /// Returns the number of its client.
    #[inline]
    pub(crate) fn client(&self) -> u64 {
        self.header.client_id.value() as u64
    }

    /// Changes how many active requests live. The caller has the service's lock, so that no other change comes between
    /// the load and the store.
    #[inline]
    pub(crate) fn set_active(active: &AtomicU32, change: impl FnOnce(u32) -> u32) {
        active.store(change(active.load(Ordering::Relaxed)), Ordering::Relaxed);
    }

    /// Returns whether an active request lives. The caller has the service's lock.
    #[inline]
    pub(crate) fn is_active(&self) -> bool {
        self.active.load(Ordering::Relaxed) > 0
    }
}

/// The head of a response.
#[derive(Debug)]
#[repr(C)]
pub struct ResponseHead {
    pub(crate) header: ResponseHeader,
    /// The sequence number of the request that it answers.
    pub(crate) sequence: u64,
    /// The number of the client that sent this request.
    pub(crate) client: u64,
}

impl ResponseHead {
    /// Returns the sequence number of the request that it answers, and the number of its client.
    #[inline]
    pub(crate) fn recipient(&self) -> (u64, u64) {
        (self.sequence, self.client)
    }
}

const _: () = assert!(size_of::<RequestHead>() == HEAD && align_of::<RequestHead>() <= 16);
const _: () = assert!(size_of::<ResponseHead>() == HEAD && align_of::<ResponseHead>() <= 16);

/// The common part of both heads.
pub(crate) trait Head {
    /// How many elements the payload has.
    fn elements(&self) -> usize;
}

impl Head for RequestHead {
    #[inline]
    fn elements(&self) -> usize {
        self.header.number_of_elements as usize
    }
}

impl Head for ResponseHead {
    #[inline]
    fn elements(&self) -> usize {
        self.header.number_of_elements as usize
    }
}
