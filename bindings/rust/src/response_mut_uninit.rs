//! Responses on loan whose payload has to be written.
//!
//! ```
//! # extern crate rr as iceoryx2;
//! use iceoryx2::prelude::*;
//!
//! fn main() -> Result<(), Box<dyn core::error::Error>> {
//!     let node = NodeBuilder::new().create::<ipc::Service>()?;
//!     let service = node.service_builder(&"table".try_into()?).request_response::<u64, [u64]>().open_or_create()?;
//!     let client = service.client_builder().create()?;
//!     let server = service.server_builder().initial_max_slice_len(16).create()?;
//!     let pending_response = client.send_copy(7)?;
//!     let active_request = server.receive()?.unwrap();
//!
//!     let response = active_request.loan_slice_uninit(3)?;
//!     response.write_from_fn(|index| *active_request * index as u64).send()?;
//!     assert_eq!(*pending_response.receive()?.unwrap(), [0, 7, 14]);
//!     Ok(())
//! }
//! ```
use crate::request_mut_uninit::write_elements;
use crate::response_mut::ResponseMut;
use crate::service::Service;
use crate::service::header::request_response::ResponseHeader;
use crate::zero_copy_send::Sendable;
use std::fmt;
use std::mem::MaybeUninit;
use std::ptr::NonNull;

/// A response on loan whose payload has to be written before it can be sent. Dropping it releases it.
///
/// The bytes of a payload that was not written are 0, or what an earlier response of the server left there.
///
/// iceoryx2's `response_mut_uninit::ResponseMutUninit`.
#[must_use = "a response that is dropped is released, not sent"]
pub struct ResponseMutUninit<S: Service, P: Sendable + ?Sized, PH: Sendable> {
    pub(crate) response: ResponseMut<S, P, PH>,
}

impl<S: Service, P: Sendable + ?Sized, PH: Sendable> ResponseMutUninit<S, P, PH> {
    /// Returns the header of the response.
    pub fn header(&self) -> &ResponseHeader {
        self.response.header()
    }

    /// Returns the user header of the response.
    pub fn user_header(&self) -> &PH {
        self.response.user_header()
    }

    /// Returns the user header of the response, to be changed.
    pub fn user_header_mut(&mut self) -> &mut PH {
        self.response.user_header_mut()
    }

    /// Returns the payload of the response.
    pub fn payload(&self) -> &P {
        self.response.payload()
    }

    /// Returns the payload of the response, to be written.
    #[inline]
    pub fn payload_mut(&mut self) -> &mut P {
        self.response.payload_mut()
    }
}

impl<S: Service, P: Sendable, PH: Sendable> ResponseMutUninit<S, MaybeUninit<P>, PH> {
    /// Writes the payload.
    #[inline]
    pub fn write_payload(mut self, value: P) -> ResponseMut<S, P, PH> {
        self.payload_mut().write(value);
        // SAFETY: the payload was written.
        unsafe { self.assume_init() }
    }

    /// Takes the payload for written.
    ///
    /// # Safety
    ///
    /// The payload was written, or its bytes are a value of its type.
    #[inline]
    pub unsafe fn assume_init(self) -> ResponseMut<S, P, PH> {
        // SAFETY: as the caller says.
        unsafe { self.response.with_payload(NonNull::cast) }
    }
}

impl<S: Service, P: Sendable, PH: Sendable> ResponseMutUninit<S, [MaybeUninit<P>], PH> {
    /// Takes all elements for written.
    ///
    /// # Safety
    ///
    /// Each element was written, or its bytes are a value of its type.
    #[inline]
    pub unsafe fn assume_init(self) -> ResponseMut<S, [P], PH> {
        // SAFETY: as the caller says.
        unsafe {
            self.response
                .with_payload(|it| NonNull::slice_from_raw_parts(it.cast(), it.len()))
        }
    }

    /// Writes each element, which the function makes of its index. If the function panics, the response is released.
    #[inline]
    pub fn write_from_fn<F: FnMut(usize) -> P>(mut self, mut initializer: F) -> ResponseMut<S, [P], PH> {
        for (index, element) in self.payload_mut().iter_mut().enumerate() {
            element.write(initializer(index));
        }
        // SAFETY: each element was written.
        unsafe { self.assume_init() }
    }
}

impl<S: Service, P: Copy + Sendable, PH: Sendable> ResponseMutUninit<S, [MaybeUninit<P>], PH> {
    /// Copies the elements.
    ///
    /// # Panics
    ///
    /// If the slice has another length than the response.
    #[inline]
    pub fn write_from_slice(mut self, value: &[P]) -> ResponseMut<S, [P], PH> {
        write_elements(self.payload_mut(), value);
        // SAFETY: each element was written.
        unsafe { self.assume_init() }
    }
}

impl<S: Service, P: Sendable + ?Sized, PH: Sendable> fmt::Debug for ResponseMutUninit<S, P, PH> {
    fn fmt(&self, f: &mut fmt::Formatter<'_>) -> fmt::Result {
        // The name is iceoryx2's.
        write!(f, "ResponseMut {{ response: {:?} }}", self.response)
    }
}
