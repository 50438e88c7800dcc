//! Ports, and why their calls are refused.
pub(crate) mod allocation_strategy;
pub(crate) mod backpressure;
pub mod backpressure_strategy;
pub mod client;
pub(crate) mod degradation;
pub(crate) mod delivery;
pub mod server;
pub mod update_connections;

pub use backpressure::{BackpressureAction, BackpressureFn, BackpressureInfo};
pub use degradation::{DegradationAction, DegradationCause, DegradationFn, DegradationInfo};

use crate::error::errors;
use std::error::Error;
use std::fmt::{self, Debug, Display};
use std::marker::PhantomData;
use update_connections::ConnectionFailure;

errors! { LoanError SendError ReceiveError }

/// The type parameters of a port, which contains no value of them.
pub(crate) type Types<S, Q, QH, P, PH> = PhantomData<fn() -> (S, *const Q, QH, *const P, PH)>;
/// The type parameters of responses.
pub(crate) type ResponseTypes<P, PH> = PhantomData<fn() -> (*const P, PH)>;

/// Why a message is not loaned. The service is as it was then.
///
/// iceoryx2's `port::LoanError`.
#[repr(u64)]
#[derive(Debug, Clone, Copy, PartialEq, Eq)]
pub enum LoanError {
    /// The port's messages fill its memory, which only an overridden preallocation makes possible; or there was no
    /// memory for a slice that is longer than the initial length. It helps to drop messages.
    OutOfMemory,
    /// As many messages are on loan as may be: of a client `max_loaned_requests`, of an active request
    /// `max_loaned_responses_per_request`. It helps to send or drop one.
    ExceedsMaxLoans,
    /// The slice is longer than the initial length, and the port's slots do not grow; or its bytes are more than a
    /// `usize` counts.
    ExceedsMaxLoanSize,
    /// The service has given all its numbers, 2 to the 62 of them.
    InternalFailure,
}

/// Why a message is not sent.
///
/// iceoryx2's `port::SendError`.
#[repr(u64)]
#[derive(Debug, Clone, Copy, PartialEq, Eq)]
pub enum SendError {
    /// Never returned here: a message keeps its sender.
    ConnectionBrokenSinceSenderNoLongerExists,
    /// Never returned here.
    ConnectionCorrupted,
    /// The message was not loaned.
    LoanError(LoanError),
    /// Never returned here.
    ConnectionError(ConnectionFailure),
    /// A full queue does not overflow, and the port's strategy or its handler says to fail. It helps to receive there
    /// first.
    UnableToDeliver,
}

/// Why nothing is received.
///
/// iceoryx2's `port::ReceiveError`.
#[repr(u64)]
#[derive(Debug, Clone, Copy, PartialEq, Eq)]
pub enum ReceiveError {
    /// Every queue with entries is at its borrow limit. It helps to drop active requests or responses.
    ExceedsMaxBorrows,
    /// Never returned here.
    ConnectionFailure(ConnectionFailure),
}

impl From<LoanError> for SendError {
    fn from(error: LoanError) -> Self {
        SendError::LoanError(error)
    }
}

impl From<ConnectionFailure> for SendError {
    fn from(error: ConnectionFailure) -> Self {
        SendError::ConnectionError(error)
    }
}

impl From<ConnectionFailure> for ReceiveError {
    fn from(error: ConnectionFailure) -> Self {
        ReceiveError::ConnectionFailure(error)
    }
}

/// A message whose `try_send` was refused, and why. It is still on loan.
///
/// Not in iceoryx2.
#[derive(Debug)]
pub struct Refused<M, E> {
    /// The message, to be sent later or dropped.
    pub message: M,
    /// Why it was not sent.
    pub error: E,
}

impl<M, E: Display> Display for Refused<M, E> {
    fn fmt(&self, f: &mut fmt::Formatter<'_>) -> fmt::Result {
        write!(f, "the message was not sent: {}", self.error)
    }
}

impl<M: Debug, E: Error + 'static> Error for Refused<M, E> {
    fn source(&self) -> Option<&(dyn Error + 'static)> {
        Some(&self.error)
    }
}
