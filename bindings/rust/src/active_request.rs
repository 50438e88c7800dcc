//! Requests that a server received, which loan their responses.
//!
//! ```
//! # extern crate rr as iceoryx2;
//! use iceoryx2::prelude::*;
//!
//! fn main() -> Result<(), Box<dyn core::error::Error>> {
//!     let node = NodeBuilder::new().create::<ipc::Service>()?;
//!     let service = node.service_builder(&"countdown".try_into()?).request_response::<u32, u32>().open_or_create()?;
//!     let (client, server) = (service.client_builder().create()?, service.server_builder().create()?);
//!     let pending_response = client.send_copy(2)?;
//!
//!     let active_request = server.receive()?.unwrap();
//!     // A request is answered as often as the server likes, as long as the client waits.
//!     for number in (0..*active_request).rev() {
//!         assert!(active_request.is_connected());
//!         active_request.loan_uninit()?.write_payload(number).send()?;
//!     }
//!     drop(active_request);
//!
//!     let numbers: Result<Vec<_>, _> = pending_response.responses().map(|it| it.map(|it| *it)).collect();
//!     assert_eq!(numbers?, [1, 0]);
//!     assert!(!pending_response.is_connected());
//!     Ok(())
//! }
//! ```
use crate::core::PolicyOf;
use crate::head::ResponseHead;
use crate::hub::Slot;
use crate::identifiers::UniqueClientId;
use crate::message::{Active, Answer, Copied, Layout, Message};
use crate::port::{LoanError, ResponseTypes, SendError};
use crate::response_mut::ResponseMut;
use crate::response_mut_uninit::ResponseMutUninit;
use crate::service::Service;
use crate::service::header::request_response::{RequestHeader, ResponseHeader};
use crate::state::State;
use crate::zero_copy_send::{Payload, Sendable};
use std::any::type_name;
use std::fmt;
use std::marker::PhantomData;
use std::mem::MaybeUninit;
use std::ops::Deref;

/// A request that a server received. It loans responses, each of which goes to the client that sent the request.
/// Dropping it tells the client that this server sends no further ones.
///
/// iceoryx2's `active_request::ActiveRequest`.
pub struct ActiveRequest<S: Service, Q: Sendable + ?Sized, QH: Sendable, P: Sendable + ?Sized, PH: Sendable> {
    message: Message<PolicyOf<S>, Active, QH, Q>,
    types: ResponseTypes<P, PH>,
}

impl<S: Service, Q: Sendable + ?Sized, QH: Sendable, P: Sendable + ?Sized, PH: Sendable>
    ActiveRequest<S, Q, QH, P, PH>
{
    #[inline]
    pub(crate) fn new(message: Message<PolicyOf<S>, Active, QH, Q>) -> Self {
        ActiveRequest { message, types: PhantomData }
    }

    /// Returns whether the client has asked for no further responses.
    pub fn has_disconnect_hint(&self) -> bool {
        self.message
            .core()
            .call(|state| state.hub.has_disconnect_hint(&self.message.id()))
    }

    /// Returns whether the client still waits for responses: its pending response lives.
    pub fn is_connected(&self) -> bool {
        self.message.core().call(|state| state.hub.is_connected(&self.message.id()))
    }

    /// Returns the payload of the request.
    #[inline]
    pub fn payload(&self) -> &Q {
        self.message.payload()
    }

    /// Returns the user header of the request.
    pub fn user_header(&self) -> &QH {
        self.message.user_header()
    }

    /// Returns the header of the request.
    pub fn header(&self) -> &RequestHeader {
        &self.message.head().header
    }

    /// Returns the id of the client that sent the request.
    pub fn origin(&self) -> UniqueClientId {
        self.header().client_id()
    }

    /// Loans a response with these elements, which take these bytes, and writes its head.
    #[inline]
    fn loan_slot(&self, state: &mut State, (elements, bytes): (usize, usize)) -> Result<Slot, LoanError> {
        let request = self.message.head();
        let (id, seat) = (self.message.id(), self.message.seat());
        let (slot, node_id, server_id) = state.loan_response(&id, seat, (elements, bytes))?;
        let (request_id, number_of_elements) = (request.header.request_id, elements as u64);
        let header = ResponseHeader { node_id, server_id, request_id, number_of_elements };
        let head = ResponseHead { header, sequence: request.sequence, client: request.client() };
        // SAFETY: nobody else has the slot (point 2 of `message.rs`), which begins with its head.
        unsafe { slot.at.cast().write(head) };
        Ok(slot)
    }

    #[inline]
    fn loan_of<U: Payload + Sendable + ?Sized>(&self, elements: usize) -> Result<ResponseMutUninit<S, U, PH>, LoanError>
    where
        PH: Default,
    {
        let bytes = Layout::<PH, U::Element>::bytes(elements).ok_or(LoanError::ExceedsMaxLoanSize)?;
        let user_header = PH::default();
        let (core, seat) = (self.message.core(), self.message.seat());
        let slot = core.call(|state| self.loan_slot(state, (elements, bytes)))?;
        // SAFETY: the response was just loaned with these bytes, and its head was written.
        let message = unsafe { Message::loaned(core.clone(), slot, seat, user_header) };
        Ok(ResponseMutUninit { response: ResponseMut::new(message) })
    }
}

impl<S: Service, Q: Sendable + ?Sized, QH: Sendable, P: Sendable, PH: Default + Sendable>
    ActiveRequest<S, Q, QH, P, PH>
{
    /// Loans a response whose payload has to be written. Its user header has its default.
    ///
    /// # Errors
    ///
    /// [`LoanError`], whose variants say when they come and what helps.
    #[inline]
    pub fn loan_uninit(&self) -> Result<ResponseMutUninit<S, MaybeUninit<P>, PH>, LoanError> {
        self.loan_of(1)
    }

    /// Sends a value as a response: loans, writes and sends it.
    ///
    /// # Errors
    ///
    /// [`SendError`], also with the [`LoanError`] of the loan.
    #[inline]
    pub fn send_copy(&self, value: P) -> Result<(), SendError> {
        let Some(bytes) = Layout::<PH, P>::bytes(1).filter(|_| Copied::<PH, P>::FITS) else {
            return self.loan_uninit()?.write_payload(value).send();
        };
        let copied = Copied::new(PH::default(), value);
        let (core, seat) = (self.message.core(), self.message.seat());
        let blocked = core.call(|state| -> Result<Option<Slot>, SendError> {
            let slot = self.loan_slot(state, (1, bytes))?;
            // SAFETY: the response was just loaned with these bytes.
            unsafe { copied.write(slot.at) };
            let request = self.message.head();
            let is_sent = state.send_response(&slot.id, seat, (request.sequence, request.client()), true);
            Ok((!is_sent).then_some(slot))
        })?;
        let Some(slot) = blocked else { return Ok(()) };
        // SAFETY: all parts were written.
        let message = unsafe { Message::<_, Answer, PH, P>::written(core.clone(), slot, seat) };
        ResponseMut::<S, P, PH>::new(message).send_blocked()
    }
}

impl<S: Service, Q: Sendable + ?Sized, QH: Sendable, P: Default + Sendable, PH: Default + Sendable>
    ActiveRequest<S, Q, QH, P, PH>
{
    /// Loans a response whose payload has its default.
    ///
    /// # Errors
    ///
    /// As of [`ActiveRequest::loan_uninit`].
    pub fn loan(&self) -> Result<ResponseMut<S, P, PH>, LoanError> {
        Ok(self.loan_uninit()?.write_payload(P::default()))
    }
}

impl<S: Service, Q: Sendable + ?Sized, QH: Sendable, P: Sendable + 'static, PH: Default + Sendable>
    ActiveRequest<S, Q, QH, [P], PH>
{
    /// Loans a response of `slice_len` elements, which have to be written. Its user header has its default.
    ///
    /// # Errors
    ///
    /// [`LoanError`], whose variants say when they come and what helps.
    #[inline]
    pub fn loan_slice_uninit(&self, slice_len: usize) -> Result<ResponseMutUninit<S, [MaybeUninit<P>], PH>, LoanError> {
        self.loan_of(slice_len)
    }
}

impl<S: Service, Q: Sendable + ?Sized, QH: Sendable, P: Default + Sendable + 'static, PH: Default + Sendable>
    ActiveRequest<S, Q, QH, [P], PH>
{
    /// Loans a response of `slice_len` elements, each with its default.
    ///
    /// # Errors
    ///
    /// As of [`ActiveRequest::loan_slice_uninit`].
    pub fn loan_slice(&self, slice_len: usize) -> Result<ResponseMut<S, [P], PH>, LoanError> {
        Ok(self.loan_slice_uninit(slice_len)?.write_from_fn(|_| P::default()))
    }
}

impl<S: Service, Q: Sendable + ?Sized, QH: Sendable, P: Sendable + ?Sized, PH: Sendable> Deref
    for ActiveRequest<S, Q, QH, P, PH>
{
    type Target = Q;

    #[inline]
    fn deref(&self) -> &Q {
        self.payload()
    }
}

impl<S: Service, Q: Sendable + ?Sized, QH: Sendable, P: Sendable + ?Sized, PH: Sendable> fmt::Debug
    for ActiveRequest<S, Q, QH, P, PH>
{
    fn fmt(&self, f: &mut fmt::Formatter<'_>) -> fmt::Result {
        let types = (type_name::<S>(), type_name::<Q>(), type_name::<QH>(), type_name::<P>(), type_name::<PH>());
        write!(f, "ActiveRequest<{}, {}, {}, {}, {}> ", types.0, types.1, types.2, types.3, types.4)?;
        let number = self.message.id().number;
        write!(f, "{{ number: {number}, origin: {:?}, request_id: {} }}", self.origin(), self.header().request_id)
    }
}
