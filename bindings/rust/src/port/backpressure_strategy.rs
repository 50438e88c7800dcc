//! Strategies of sends for queues without room.

/// The policy of a send at a full queue that does not overflow.
///
/// iceoryx2's `BackpressureStrategy`.
#[derive(Debug, Clone, Copy, PartialEq, Eq)]
pub enum BackpressureStrategy {
    /// The send waits for room. In a service of one thread, where nobody could make room meanwhile, it is refused with
    /// `UnableToDeliver`.
    RetryUntilDelivered,
    /// The send passes the queue over.
    DiscardData,
}
