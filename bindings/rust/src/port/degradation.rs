//! Handlers of degraded connections, which are never called: no connection within a process degrades.

/// The answer of a degradation handler: what happens to the connection.
///
/// iceoryx2's `port::DegradationAction`.
#[derive(Debug, Clone, Copy, PartialEq, Eq)]
pub enum DegradationAction {
    /// Nothing.
    Ignore,
    /// It is logged.
    Warn,
    /// It is logged, and the call fails.
    DegradeAndFail,
}

/// Why a connection degrades.
///
/// iceoryx2's `port::DegradationCause`.
#[derive(Debug, Clone, Copy, PartialEq, Eq)]
pub enum DegradationCause {
    /// The connection was not established.
    FailedToEstablishConnection,
    /// The connection is corrupted.
    ConnectionCorrupted,
}

/// The information that a handler gets.
///
/// iceoryx2's `port::DegradationInfo`, without its service id.
#[derive(Debug, Clone, Copy, PartialEq, Eq)]
pub struct DegradationInfo {
    /// The id of the sender.
    pub sender_port_id: u128,
    /// The id of the receiver.
    pub receiver_port_id: u128,
}

/// Functions that decide what happens to a degraded connection.
///
/// After iceoryx2's `port::DegradationFn`.
pub trait DegradationFn: Fn(DegradationCause, &DegradationInfo) -> DegradationAction + Send {}

impl<F: Fn(DegradationCause, &DegradationInfo) -> DegradationAction + Send> DegradationFn for F {}
