//! Why a service is not opened or created.
use crate::error::errors;

errors! { RequestResponseOpenError RequestResponseCreateError RequestResponseOpenOrCreateError }

/// Why a service is not opened.
///
/// iceoryx2's `RequestResponseOpenError`.
#[derive(Debug, Clone, Copy, PartialEq, Eq, Hash)]
pub enum RequestResponseOpenError {
    /// There is no service of this name.
    DoesNotExist,
    /// The service has a lower `max_loaned_requests` than was set.
    DoesNotSupportRequestedAmountOfClientRequestLoans,
    /// The service has a lower `max_active_requests_per_client` than was set.
    DoesNotSupportRequestedAmountOfActiveRequestsPerClient,
    /// The service has a lower `max_response_buffer_size` than was set.
    DoesNotSupportRequestedResponseBufferSize,
    /// The service has lower `max_servers` than were set.
    DoesNotSupportRequestedAmountOfServers,
    /// The service has lower `max_clients` than were set.
    DoesNotSupportRequestedAmountOfClients,
    /// The service has lower `max_nodes` than were set.
    DoesNotSupportRequestedAmountOfNodes,
    /// The service has lower `max_borrowed_responses_per_pending_response` than were set.
    DoesNotSupportRequestedAmountOfBorrowedResponsesPerPendingResponse,
    /// As many nodes have the service open as may. It helps to drop all factories and ports of one.
    ExceedsMaxNumberOfNodes,
    /// Never returned here.
    HangsInCreation,
    /// The service has other requests or request headers.
    IncompatibleRequestType,
    /// The service has other responses or response headers.
    IncompatibleResponseType,
    /// Never returned here: services have no attributes.
    IncompatibleAttributes,
    /// Never returned here: there is one pattern.
    IncompatibleMessagingPattern,
    /// The service has another `enable_safe_overflow_for_requests` than was set.
    IncompatibleOverflowBehaviorForRequests,
    /// The service has another `enable_safe_overflow_for_responses` than was set.
    IncompatibleOverflowBehaviorForResponses,
    /// The service has another `enable_fire_and_forget_requests` than was set.
    IncompatibleBehaviorForFireAndForgetRequests,
    /// A service of the other policy of thread safety has the name, or one that belongs to another thread. It helps to
    /// use the kind `ipc_threadsafe` or `local_threadsafe` throughout. Not in iceoryx2.
    IncompatibleThreadsafetyPolicy,
    /// Never returned here.
    InsufficientPermissions,
    /// Never returned here.
    InternalFailure,
    /// Never returned here.
    IsMarkedForDestruction,
    /// Never returned here.
    ServiceInCorruptedState,
}

/// Why a service is not created.
///
/// iceoryx2's `RequestResponseCreateError`.
#[derive(Debug, Clone, Copy, PartialEq, Eq, Hash)]
pub enum RequestResponseCreateError {
    /// A service has the name.
    AlreadyExists,
    /// Never returned here.
    HangsInCreation,
    /// A service of the other policy of thread safety has the name, or one that belongs to another thread. Not in
    /// iceoryx2.
    IncompatibleThreadsafetyPolicy,
    /// Never returned here.
    InsufficientPermissions,
    /// The limits ask for more messages of a port than a `usize` counts, there was no memory for the service, or the
    /// thread is ending.
    InternalFailure,
    /// Never returned here.
    IsBeingCreatedByAnotherInstance,
    /// Never returned here.
    ServiceInCorruptedState,
}

/// Why a service is neither opened nor created.
///
/// iceoryx2's `RequestResponseOpenOrCreateError`.
#[derive(Debug, Clone, Copy, PartialEq, Eq, Hash)]
pub enum RequestResponseOpenOrCreateError {
    /// A service of this name was not opened.
    RequestResponseOpenError(RequestResponseOpenError),
    /// The service was not created.
    RequestResponseCreateError(RequestResponseCreateError),
    /// Never returned here.
    SystemInFlux,
}

impl From<RequestResponseOpenError> for RequestResponseOpenOrCreateError {
    fn from(error: RequestResponseOpenError) -> Self {
        RequestResponseOpenOrCreateError::RequestResponseOpenError(error)
    }
}

impl From<RequestResponseCreateError> for RequestResponseOpenOrCreateError {
    fn from(error: RequestResponseCreateError) -> Self {
        RequestResponseOpenOrCreateError::RequestResponseCreateError(error)
    }
}
