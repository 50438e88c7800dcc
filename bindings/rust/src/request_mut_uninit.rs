//! Requests on loan whose payload has to be written.
//!
//! ```
//! # extern crate rr as iceoryx2;
//! use iceoryx2::prelude::*;
//!
//! fn main() -> Result<(), Box<dyn core::error::Error>> {
//!     let node = NodeBuilder::new().create::<ipc::Service>()?;
//!     let service = node.service_builder(&"words".try_into()?).request_response::<[char], u64>().open_or_create()?;
//!     let client = service.client_builder().initial_max_slice_len(8).create()?;
//!
//!     let request = client.loan_slice_uninit(2)?.write_from_slice(&['o', 'k']);
//!     assert_eq!(*request, ['o', 'k']);
//!     Ok(())
//! }
//! ```
use crate::request_mut::RequestMut;
use crate::service::Service;
use crate::service::header::request_response::RequestHeader;
use crate::zero_copy_send::Sendable;
use std::fmt;
use std::mem::MaybeUninit;
use std::ptr::NonNull;

/// A request on loan whose payload has to be written before it can be sent. Dropping it releases it.
///
/// The bytes of a payload that was not written are 0, or what an earlier request of the client left there.
///
/// iceoryx2's `request_mut_uninit::RequestMutUninit`.
#[must_use = "a request that is dropped is released, not sent"]
#[repr(transparent)]
pub struct RequestMutUninit<S: Service, Q: Sendable + ?Sized, QH: Sendable, P: Sendable + ?Sized, PH: Sendable> {
    pub(crate) request: RequestMut<S, Q, QH, P, PH>,
}

impl<S: Service, Q: Sendable + ?Sized, QH: Sendable, P: Sendable + ?Sized, PH: Sendable>
    RequestMutUninit<S, Q, QH, P, PH>
{
    /// Returns the header of the request.
    pub fn header(&self) -> &RequestHeader {
        self.request.header()
    }

    /// Returns the user header of the request.
    pub fn user_header(&self) -> &QH {
        self.request.user_header()
    }

    /// Returns the user header of the request, to be changed.
    pub fn user_header_mut(&mut self) -> &mut QH {
        self.request.user_header_mut()
    }

    /// Returns the payload of the request.
    pub fn payload(&self) -> &Q {
        self.request.payload()
    }

    /// Returns the payload of the request, to be written.
    #[inline]
    pub fn payload_mut(&mut self) -> &mut Q {
        self.request.payload_mut()
    }
}

impl<S: Service, Q: Sendable, QH: Sendable, P: Sendable + ?Sized, PH: Sendable>
    RequestMutUninit<S, MaybeUninit<Q>, QH, P, PH>
{
    /// Writes the payload.
    #[inline]
    pub fn write_payload(mut self, value: Q) -> RequestMut<S, Q, QH, P, PH> {
        self.payload_mut().write(value);
        // SAFETY: the payload was written.
        unsafe { self.assume_init() }
    }

    /// Takes the payload for written.
    ///
    /// # Safety
    ///
    /// The payload was written, or its bytes are a value of its type.
    #[inline]
    pub unsafe fn assume_init(self) -> RequestMut<S, Q, QH, P, PH> {
        // SAFETY: as the caller says.
        unsafe { self.request.with_payload(NonNull::cast) }
    }
}

impl<S: Service, Q: Sendable, QH: Sendable, P: Sendable + ?Sized, PH: Sendable>
    RequestMutUninit<S, [MaybeUninit<Q>], QH, P, PH>
{
    /// Takes all elements for written.
    ///
    /// # Safety
    ///
    /// Each element was written, or its bytes are a value of its type.
    #[inline]
    pub unsafe fn assume_init(self) -> RequestMut<S, [Q], QH, P, PH> {
        // SAFETY: as the caller says.
        unsafe {
            self.request
                .with_payload(|it| NonNull::slice_from_raw_parts(it.cast(), it.len()))
        }
    }

    /// Writes each element, which the function makes of its index. If the function panics, the request is released.
    #[inline]
    pub fn write_from_fn<F: FnMut(usize) -> Q>(mut self, mut initializer: F) -> RequestMut<S, [Q], QH, P, PH> {
        for (index, element) in self.payload_mut().iter_mut().enumerate() {
            element.write(initializer(index));
        }
        // SAFETY: each element was written.
        unsafe { self.assume_init() }
    }
}

impl<S: Service, Q: Copy + Sendable, QH: Sendable, P: Sendable + ?Sized, PH: Sendable>
    RequestMutUninit<S, [MaybeUninit<Q>], QH, P, PH>
{
    /// Copies the elements.
    ///
    /// # Panics
    ///
    /// If the slice has another length than the request.
    #[inline]
    pub fn write_from_slice(mut self, value: &[Q]) -> RequestMut<S, [Q], QH, P, PH> {
        write_elements(self.payload_mut(), value);
        // SAFETY: each element was written.
        unsafe { self.assume_init() }
    }
}

/// Copies elements to a payload of the same length.
#[inline]
pub(crate) fn write_elements<T: Copy>(payload: &mut [MaybeUninit<T>], value: &[T]) {
    assert_eq!(payload.len(), value.len(), "a slice is written whose length was loaned");
    // SAFETY: `MaybeUninit<T>` has the layout of `T`, and both slices have one length.
    unsafe {
        payload
            .as_mut_ptr()
            .cast::<T>()
            .copy_from_nonoverlapping(value.as_ptr(), value.len())
    }
}

impl<S: Service, Q: Sendable + ?Sized, QH: Sendable, P: Sendable + ?Sized, PH: Sendable> fmt::Debug
    for RequestMutUninit<S, Q, QH, P, PH>
{
    fn fmt(&self, f: &mut fmt::Formatter<'_>) -> fmt::Result {
        write!(f, "RequestMutUninit {{  request: {:?} }}", self.request)
    }
}
