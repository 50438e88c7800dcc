//! Responses on loan that can be sent.
//!
//! ```
//! # extern crate rr as iceoryx2;
//! use iceoryx2::prelude::*;
//!
//! fn main() -> Result<(), Box<dyn core::error::Error>> {
//!     let node = NodeBuilder::new().create::<ipc::Service>()?;
//!     let service = node
//!         .service_builder(&"tagged".try_into()?)
//!         .request_response::<u64, u64>()
//!         .response_user_header::<[u8; 4]>()
//!         .open_or_create()?;
//!     let (client, server) = (service.client_builder().create()?, service.server_builder().create()?);
//!     let pending_response = client.send_copy(0)?;
//!     let active_request = server.receive()?.unwrap();
//!
//!     let mut response = active_request.loan()?;
//!     *response = 5;
//!     *response.user_header_mut() = *b"five";
//!     response.send()?;
//!     assert_eq!(pending_response.receive()?.unwrap().user_header(), b"five");
//!     Ok(())
//! }
//! ```
use crate::core::PolicyOf;
use crate::message::{Answer, Message};
use crate::port::delivery::Blocked;
use crate::port::{Refused, SendError};
use crate::service::Service;
use crate::service::header::request_response::ResponseHeader;
use crate::wait::Wait;
use crate::zero_copy_send::Sendable;
use std::any::type_name;
use std::fmt;
use std::ops::{Deref, DerefMut};
use std::ptr::NonNull;

/// A response on loan that can be sent. Dropping it releases it.
///
/// iceoryx2's `response_mut::ResponseMut`.
#[must_use = "a response that is dropped is released, not sent"]
pub struct ResponseMut<S: Service, P: Sendable + ?Sized, PH: Sendable> {
    message: Message<PolicyOf<S>, Answer, PH, P>,
}

impl<S: Service, P: Sendable + ?Sized, PH: Sendable> ResponseMut<S, P, PH> {
    #[inline]
    pub(crate) fn new(message: Message<PolicyOf<S>, Answer, PH, P>) -> Self {
        ResponseMut { message }
    }

    /// Gives the payload another type.
    ///
    /// # Safety
    ///
    /// The payload is initialised as that type asks.
    #[inline]
    pub(crate) unsafe fn with_payload<R: Sendable + ?Sized>(
        self,
        retype: impl FnOnce(NonNull<P>) -> NonNull<R>,
    ) -> ResponseMut<S, R, PH> {
        // SAFETY: as the caller says.
        ResponseMut::new(unsafe { self.message.with_payload(retype) })
    }

    /// Returns the header of the response.
    #[inline]
    pub fn header(&self) -> &ResponseHeader {
        &self.message.head().header
    }

    /// Returns the user header of the response.
    #[inline]
    pub fn user_header(&self) -> &PH {
        self.message.user_header()
    }

    /// Returns the user header of the response, to be changed.
    #[inline]
    pub fn user_header_mut(&mut self) -> &mut PH {
        self.message.user_header_mut()
    }

    /// Returns the payload of the response.
    #[inline]
    pub fn payload(&self) -> &P {
        self.message.payload()
    }

    /// Returns the payload of the response, to be changed.
    #[inline]
    pub fn payload_mut(&mut self) -> &mut P {
        self.message.payload_mut()
    }

    /// Returns whether a send would find room: the queue is not full or overflows, or the pending response was dropped.
    ///
    /// Not in iceoryx2.
    pub fn is_deliverable(&self) -> bool {
        self.message.core().call(|state| state.hub.is_deliverable(&self.message.id()))
    }

    /// Sends the response to the client whose request it answers. If its pending response was dropped, the response is
    /// dropped too.
    ///
    /// Where the queue is full and does not overflow, the server's handler and its
    /// [`BackpressureStrategy`](crate::port::backpressure_strategy::BackpressureStrategy) decide. With
    /// `RetryUntilDelivered`, the default, the call waits for room in a service that threads share.
    ///
    /// # Errors
    ///
    /// [`SendError::UnableToDeliver`]: the response is dropped then. [`ResponseMut::try_send`] gives it back.
    #[inline]
    pub fn send(self) -> Result<(), SendError> {
        if self.attempt(true) {
            self.message.forget();
            return Ok(());
        }
        self.send_blocked()
    }

    /// Sends the response without waiting for room, or gives it back with the error. A handler is asked once; to try
    /// again is left to the caller.
    ///
    /// Not in iceoryx2.
    ///
    /// # Errors
    ///
    /// [`Refused`] with `UnableToDeliver`, and the response.
    pub fn try_send(self) -> Result<(), Refused<Self, SendError>> {
        if self.attempt(true) || self.blocked().passes_over() && self.attempt(false) {
            self.message.forget();
            return Ok(());
        }
        Err(Refused { message: self, error: SendError::UnableToDeliver })
    }

    /// Sends the response, unless it `asks` and there is no room. Returns whether it did.
    #[inline]
    fn attempt(&self, asks: bool) -> bool {
        let (id, seat, to) = (self.message.id(), self.message.seat(), self.message.head().recipient());
        self.message.core().call(|state| state.send_response(&id, seat, to, asks))
    }

    fn blocked(&self) -> Blocked {
        let (core, head) = (self.message.core(), self.message.head());
        let settings = core.call(|state| state.servers[self.message.seat()].settings.clone());
        let wait = Wait::ResponseRoom { sequence: head.sequence };
        let (sender, receiver) = (head.header.server_id.value(), core.unique(head.client));
        Blocked::new(wait, settings, sender, receiver)
    }

    /// Sends a response that found no room.
    #[cold]
    pub(crate) fn send_blocked(self) -> Result<(), SendError> {
        let (id, seat, to) = (self.message.id(), self.message.seat(), self.message.head().recipient());
        let sent = self.blocked().deliver(
            self.message.core(),
            |state, asks| Ok(state.send_response(&id, seat, to, asks).then_some(())),
            |state| state.release_answer(&id, seat),
        );
        self.message.forget();
        sent
    }
}

impl<S: Service, P: Sendable + ?Sized, PH: Sendable> Deref for ResponseMut<S, P, PH> {
    type Target = P;

    #[inline]
    fn deref(&self) -> &P {
        self.payload()
    }
}

impl<S: Service, P: Sendable + ?Sized, PH: Sendable> DerefMut for ResponseMut<S, P, PH> {
    #[inline]
    fn deref_mut(&mut self) -> &mut P {
        self.payload_mut()
    }
}

impl<S: Service, P: Sendable + ?Sized, PH: Sendable> fmt::Debug for ResponseMut<S, P, PH> {
    fn fmt(&self, f: &mut fmt::Formatter<'_>) -> fmt::Result {
        write!(f, "ResponseMut<{}, {}, {}> ", type_name::<S>(), type_name::<P>(), type_name::<PH>())?;
        let (number, header) = (self.message.id().number, self.header());
        write!(f, "{{ number: {number}, request_id: {}, ", header.request_id)?;
        write!(f, "number_of_elements: {} }}", header.number_of_elements)
    }
}
