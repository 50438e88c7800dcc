//! Responses that a client received.
//!
//! ```
//! # extern crate rr as iceoryx2;
//! use iceoryx2::prelude::*;
//!
//! fn main() -> Result<(), Box<dyn core::error::Error>> {
//!     let node = NodeBuilder::new().create::<ipc::Service>()?;
//!     let service = node.service_builder(&"echo".try_into()?).request_response::<i8, i8>().open_or_create()?;
//!     let (client, server) = (service.client_builder().create()?, service.server_builder().create()?);
//!     let pending_response = client.send_copy(-3)?;
//!     let active_request = server.receive()?.unwrap();
//!     active_request.send_copy(*active_request)?;
//!
//!     let response = pending_response.receive()?.unwrap();
//!     assert_eq!((*response, response.origin()), (-3, server.id()));
//!     Ok(())
//! }
//! ```
use crate::core::PolicyOf;
use crate::identifiers::UniqueServerId;
use crate::message::{Message, Received};
use crate::service::Service;
use crate::service::header::request_response::ResponseHeader;
use crate::zero_copy_send::Sendable;
use std::any::type_name;
use std::fmt;
use std::ops::Deref;

/// A response that a client received. Dropping it returns its memory to the server.
///
/// iceoryx2's `response::Response`.
pub struct Response<S: Service, P: Sendable + ?Sized, PH: Sendable> {
    message: Message<PolicyOf<S>, Received, PH, P>,
}

impl<S: Service, P: Sendable + ?Sized, PH: Sendable> Response<S, P, PH> {
    #[inline]
    pub(crate) fn new(message: Message<PolicyOf<S>, Received, PH, P>) -> Self {
        Response { message }
    }

    /// Returns the header of the response.
    pub fn header(&self) -> &ResponseHeader {
        &self.message.head().header
    }

    /// Returns the user header of the response.
    pub fn user_header(&self) -> &PH {
        self.message.user_header()
    }

    /// Returns the payload of the response.
    #[inline]
    pub fn payload(&self) -> &P {
        self.message.payload()
    }

    /// Returns the id of the server that sent the response.
    pub fn origin(&self) -> UniqueServerId {
        self.header().server_id()
    }
}

impl<S: Service, P: Sendable + ?Sized, PH: Sendable> Deref for Response<S, P, PH> {
    type Target = P;

    #[inline]
    fn deref(&self) -> &P {
        self.payload()
    }
}

impl<S: Service, P: Sendable + ?Sized, PH: Sendable> fmt::Debug for Response<S, P, PH> {
    fn fmt(&self, f: &mut fmt::Formatter<'_>) -> fmt::Result {
        write!(f, "Response<{}, {}, {}> ", type_name::<S>(), type_name::<P>(), type_name::<PH>())?;
        let number = self.message.id().number;
        write!(f, "{{ number: {number}, origin: {:?}, request_id: {} }}", self.origin(), self.header().request_id)
    }
}
