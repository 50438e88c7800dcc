//! Requests on loan that can be sent.
//!
//! ```
//! # extern crate rr as iceoryx2;
//! use iceoryx2::prelude::*;
//!
//! fn main() -> Result<(), Box<dyn core::error::Error>> {
//!     let node = NodeBuilder::new().create::<ipc::Service>()?;
//!     let service = node
//!         .service_builder(&"levels".try_into()?)
//!         .request_response::<u64, u64>()
//!         .request_user_header::<u32>()
//!         .open_or_create()?;
//!     let client = service.client_builder().create()?;
//!
//!     let mut request = client.loan()?;
//!     *request = 40;
//!     *request.payload_mut() += 2;
//!     *request.user_header_mut() = 7;
//!     let pending_response = request.send()?;
//!     assert_eq!((*pending_response, *pending_response.user_header()), (42, 7));
//!     Ok(())
//! }
//! ```
use crate::core::PolicyOf;
use crate::head::RequestHead;
use crate::message::{Loaned, Message, Pending};
use crate::pending_response::PendingResponse;
use crate::port::client::RequestSendError;
use crate::port::delivery::Blocked;
use crate::port::{Refused, ResponseTypes, SendError};
use crate::raw::Id;
use crate::service::Service;
use crate::service::header::request_response::RequestHeader;
use crate::state::Sent;
use crate::wait::Wait;
use crate::zero_copy_send::Sendable;
use std::any::type_name;
use std::fmt;
use std::marker::PhantomData;
use std::ops::{Deref, DerefMut};
use std::ptr::NonNull;

/// A request on loan that can be sent. Dropping it releases it.
///
/// iceoryx2's `request_mut::RequestMut`.
#[must_use = "a request that is dropped is released, not sent"]
pub struct RequestMut<S: Service, Q: Sendable + ?Sized, QH: Sendable, P: Sendable + ?Sized, PH: Sendable> {
    message: Message<PolicyOf<S>, Loaned, QH, Q>,
    types: ResponseTypes<P, PH>,
}

impl<S: Service, Q: Sendable + ?Sized, QH: Sendable, P: Sendable + ?Sized, PH: Sendable> RequestMut<S, Q, QH, P, PH> {
    #[inline]
    pub(crate) fn new(message: Message<PolicyOf<S>, Loaned, QH, Q>) -> Self {
        RequestMut { message, types: PhantomData }
    }

    /// Gives the payload another type.
    ///
    /// # Safety
    ///
    /// The payload is initialised as that type asks.
    #[inline]
    pub(crate) unsafe fn with_payload<R: Sendable + ?Sized>(
        self,
        retype: impl FnOnce(NonNull<Q>) -> NonNull<R>,
    ) -> RequestMut<S, R, QH, P, PH> {
        // SAFETY: as the caller says.
        RequestMut::new(unsafe { self.message.with_payload(retype) })
    }

    /// Returns the header of the request.
    #[inline]
    pub fn header(&self) -> &RequestHeader {
        &self.message.head().header
    }

    /// Returns the user header of the request.
    #[inline]
    pub fn user_header(&self) -> &QH {
        self.message.user_header()
    }

    /// Returns the user header of the request, to be changed.
    #[inline]
    pub fn user_header_mut(&mut self) -> &mut QH {
        self.message.user_header_mut()
    }

    /// Returns the payload of the request.
    #[inline]
    pub fn payload(&self) -> &Q {
        self.message.payload()
    }

    /// Returns the payload of the request, to be changed.
    #[inline]
    pub fn payload_mut(&mut self) -> &mut Q {
        self.message.payload_mut()
    }

    /// Returns whether each queue that the request would enter has room, or overflows.
    ///
    /// Not in iceoryx2.
    pub fn is_deliverable(&self) -> bool {
        self.message.core().call(|state| state.hub.is_deliverable(&self.message.id()))
    }

    /// Sends the request to all servers that are connected, and returns the handle of its responses.
    ///
    /// Where a queue is full and does not overflow, the client's handler and its
    /// [`BackpressureStrategy`](crate::port::backpressure_strategy::BackpressureStrategy) decide. With
    /// `RetryUntilDelivered`, the default, the call waits for room in a service that threads share.
    ///
    /// # Errors
    ///
    /// [`RequestSendError`]: the request is dropped then. [`RequestMut::try_send`] gives it back.
    #[inline]
    pub fn send(self) -> Result<PendingResponse<S, Q, QH, P, PH>, RequestSendError> {
        let (id, head) = (self.message.id(), self.message.head_at());
        // SAFETY: the request is on loan.
        let sent = self.message.core().call(|state| unsafe { state.send_request(&id, head, true) });
        match sent {
            Ok(Some(sent)) => Ok(self.into_pending(sent)),
            Ok(None) => self.send_blocked(),
            Err(error) => self.into_error(error),
        }
    }

    /// Sends the request without waiting for room, or gives it back with the error.
    ///
    /// A handler is asked once; to try again is left to the caller.
    ///
    /// Not in iceoryx2.
    ///
    /// # Errors
    ///
    /// [`Refused`] with `ExceedsMaxActiveRequests` or `UnableToDeliver`, and the request.
    ///
    /// # Examples
    ///
    /// ```
    /// # extern crate rr as iceoryx2;
    /// # use iceoryx2::{port::client::RequestSendError, prelude::*};
    /// # fn main() -> Result<(), Box<dyn core::error::Error>> {
    /// # let node = NodeBuilder::new().create::<ipc::Service>()?;
    /// # let service = node.service_builder(&"try_send".try_into()?).request_response::<u64, u64>()
    /// #     .max_active_requests_per_client(1).open_or_create()?;
    /// # let client = service.client_builder().create()?;
    /// let first = client.send_copy(1)?;
    /// let refused = client.loan_uninit()?.write_payload(2).try_send().unwrap_err();
    /// assert_eq!(refused.error, RequestSendError::ExceedsMaxActiveRequests);
    /// drop(first);
    /// assert_eq!(*refused.message.send()?, 2);
    /// # Ok(())
    /// # }
    /// ```
    #[allow(clippy::type_complexity)]
    pub fn try_send(self) -> Result<PendingResponse<S, Q, QH, P, PH>, Refused<Self, RequestSendError>> {
        let (id, head) = (self.message.id(), self.message.head_at());
        let attempt = |asks| {
            // SAFETY: the request is on loan.
            self.message
                .core()
                .call(|state| unsafe { state.try_send_request(&id, head, asks) })
        };
        let mut sent = attempt(true);
        if matches!(sent, Ok(None)) && self.blocked().passes_over() {
            sent = attempt(false);
        }
        match sent {
            Ok(Some(sent)) => Ok(self.into_pending(sent)),
            Ok(None) => Err(Refused { message: self, error: SendError::UnableToDeliver.into() }),
            Err(error) => Err(Refused { message: self, error }),
        }
    }

    /// Makes it the pending response that the library made of it.
    #[inline]
    pub(crate) fn into_pending(self, sent: Sent) -> PendingResponse<S, Q, QH, P, PH> {
        PendingResponse::new(self.message.turned::<Pending>(), sent)
    }

    /// Drops a request that the library has released.
    #[cold]
    fn into_error<T>(self, error: RequestSendError) -> Result<T, RequestSendError> {
        self.message.forget();
        Err(error)
    }

    fn blocked(&self) -> Blocked {
        let core = self.message.core();
        let (settings, receiver) = core.call(|state| {
            let mut servers = state.servers.taken().map(|it| it.details.server_id.value());
            let receiver = servers.next().filter(|_| servers.next().is_none());
            (state.clients[self.message.seat()].settings.clone(), receiver.unwrap_or(0))
        });
        Blocked::new(Wait::RequestRoom, settings, self.header().client_id.value(), receiver)
    }

    /// Sends a request that found no room.
    #[cold]
    pub(crate) fn send_blocked(self) -> Result<PendingResponse<S, Q, QH, P, PH>, RequestSendError> {
        let (id, head, seat): (Id, NonNull<RequestHead>, usize) =
            (self.message.id(), self.message.head_at(), self.message.seat());
        let sent = self.blocked().deliver(
            self.message.core(),
            // SAFETY: the request is on loan.
            |state, asks| unsafe { state.send_request(&id, head, asks) },
            |state| state.release_request(&id, seat),
        );
        match sent {
            Ok(sent) => Ok(self.into_pending(sent)),
            Err(error) => self.into_error(error),
        }
    }
}

impl<S: Service, Q: Sendable + ?Sized, QH: Sendable, P: Sendable + ?Sized, PH: Sendable> Deref
    for RequestMut<S, Q, QH, P, PH>
{
    type Target = Q;

    #[inline]
    fn deref(&self) -> &Q {
        self.payload()
    }
}

impl<S: Service, Q: Sendable + ?Sized, QH: Sendable, P: Sendable + ?Sized, PH: Sendable> DerefMut
    for RequestMut<S, Q, QH, P, PH>
{
    #[inline]
    fn deref_mut(&mut self) -> &mut Q {
        self.payload_mut()
    }
}

impl<S: Service, Q: Sendable + ?Sized, QH: Sendable, P: Sendable + ?Sized, PH: Sendable> fmt::Debug
    for RequestMut<S, Q, QH, P, PH>
{
    fn fmt(&self, f: &mut fmt::Formatter<'_>) -> fmt::Result {
        let types = (type_name::<S>(), type_name::<Q>(), type_name::<QH>(), type_name::<P>(), type_name::<PH>());
        write!(f, "RequestMut<{}, {}, {}, {}, {}> ", types.0, types.1, types.2, types.3, types.4)?;
        let (number, header) = (self.message.id().number, self.header());
        write!(f, "{{ number: {number}, request_id: {}, ", header.request_id)?;
        write!(f, "number_of_elements: {} }}", header.number_of_elements)
    }
}
