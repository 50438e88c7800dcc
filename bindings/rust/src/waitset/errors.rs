//! Errors and results of wait sets.
use crate::error::errors;
use crate::signal_handling_mode::Signal;

errors! { WaitSetCreateError WaitSetAttachmentError WaitSetRunError }

/// Why a wait set is not created. Here every wait set is.
///
/// iceoryx2's `waitset::WaitSetCreateError`.
#[derive(Debug, Clone, Copy, PartialEq, Eq)]
pub enum WaitSetCreateError {
    /// Never returned here.
    InternalError,
}

/// Why something is not attached.
///
/// iceoryx2's `waitset::WaitSetAttachmentError`.
#[derive(Debug, Clone, Copy, PartialEq, Eq)]
pub enum WaitSetAttachmentError {
    /// Never returned here.
    InsufficientCapacity,
    /// The port or the pending response is attached already. It helps to keep the first guard.
    AlreadyAttached,
    /// Never returned here.
    InternalError,
}

/// Why a wait set does not wait.
///
/// iceoryx2's `waitset::WaitSetRunError`.
#[derive(Debug, Clone, Copy, PartialEq, Eq)]
pub enum WaitSetRunError {
    /// Never returned here.
    InsufficientPermissions,
    /// Never returned here.
    InternalError,
    /// Nothing is attached, so that the wait would never end.
    NoAttachments,
}

/// Why a wait set has ended its wait.
///
/// iceoryx2's `waitset::WaitSetRunResult`.
#[derive(Debug, Clone, Copy, PartialEq, Eq)]
pub enum WaitSetRunResult {
    /// SIGTERM came.
    TerminationRequest,
    /// SIGINT came.
    Interrupt,
    /// The callback returned [`CallbackProgression::Stop`](crate::prelude::CallbackProgression::Stop).
    StopRequest,
    /// The callback was called for all attachments with an event, or the time was over.
    AllEventsHandled,
}

impl From<Signal> for WaitSetRunResult {
    fn from(signal: Signal) -> Self {
        match signal {
            Signal::Interrupt => WaitSetRunResult::Interrupt,
            Signal::Termination => WaitSetRunResult::TerminationRequest,
        }
    }
}
