//! Handlers of full queues.
use std::sync::Arc;
use std::time::Duration;

/// The answer of a backpressure handler: how the send goes on.
///
/// iceoryx2's `port::BackpressureAction`.
#[derive(Debug, Clone, Copy, PartialEq, Eq)]
pub enum BackpressureAction {
    /// It tries again, and asks again if there is still no room. Between two tries it waits for room, but no longer
    /// than 10 milliseconds; in a service of one thread it tries at once, since only the handler itself can have made
    /// room.
    Retry,
    /// It passes the full queues over.
    DiscardData,
    /// It is refused with `UnableToDeliver`, and the message is dropped.
    DiscardDataAndFail,
    /// It does what the port's [`BackpressureStrategy`](super::backpressure_strategy::BackpressureStrategy) says.
    FollowBackpressureStrategy,
}

/// The information that a handler gets.
///
/// iceoryx2's `port::BackpressureInfo`, without its service id.
#[derive(Debug, Clone, Copy, PartialEq, Eq)]
pub struct BackpressureInfo {
    /// The id of the sender.
    pub sender_port_id: u128,
    /// The id of the receiver, or 0 for a request where several servers are connected: the library does not tell which
    /// queue is full.
    pub receiver_port_id: u128,
    /// How often the send asked before.
    pub retries: u64,
    /// How long ago the send first found no room.
    pub elapsed_time: Duration,
}

/// Functions that decide what a send does where a queue is full and does not overflow.
///
/// A handler is called without the service's lock, so that it may use the service. Several threads may call it at once,
/// which asks it to be `Sync`. A send to several full queues asks once.
///
/// After iceoryx2's `port::BackpressureFn`, which is not `Sync`.
pub trait BackpressureFn: Fn(&BackpressureInfo) -> BackpressureAction + Send + Sync {}

impl<F: Fn(&BackpressureInfo) -> BackpressureAction + Send + Sync> BackpressureFn for F {}

/// A handler, as ports keep it.
pub(crate) type Handler = Arc<dyn BackpressureFn>;
