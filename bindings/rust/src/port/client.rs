//! Clients, which send requests.
//!
//! ```
//! # extern crate rr as iceoryx2;
//! use iceoryx2::prelude::*;
//!
//! fn main() -> Result<(), Box<dyn core::error::Error>> {
//!     let node = NodeBuilder::new().create::<ipc::Service>()?;
//!     let service = node.service_builder(&"rooms".try_into()?).request_response::<[u16], u64>().open_or_create()?;
//!     let client = service.client_builder().initial_max_slice_len(3).create()?;
//!
//!     let request = client.loan_slice_uninit(3)?;
//!     let pending_response = request.write_from_fn(|index| index as u16 * 100).send()?;
//!     assert_eq!(*pending_response, [0, 100, 200]);
//!     // No server is there.
//!     assert_eq!(pending_response.number_of_server_connections(), 0);
//!     Ok(())
//! }
//! ```
use super::backpressure_strategy::BackpressureStrategy;
use super::update_connections::{ConnectionFailure, UpdateConnections};
use super::{LoanError, SendError, Types};
use crate::core::{CoreRef, PolicyOf};
use crate::error::errors;
use crate::head::RequestHead;
use crate::hub::Slot;
use crate::identifiers::UniqueClientId;
use crate::message::{Copied, Layout, Loaned, Message};
use crate::pending_response::PendingResponse;
use crate::policy::Policy;
use crate::raw::Id;
use crate::request_mut::RequestMut;
use crate::request_mut_uninit::RequestMutUninit;
use crate::service::Service;
use crate::service::header::request_response::RequestHeader;
use crate::service::registry::Opened;
use crate::state::{Sent, State};
use crate::zero_copy_send::{Payload, Sendable};
use std::fmt;
use std::marker::PhantomData;
use std::mem::MaybeUninit;
use std::sync::atomic::AtomicU32;

pub use crate::service::port_factory::client::ClientCreateError;

errors! { RequestSendError }

/// Why a request is not sent. It is dropped then, and used a request id up.
///
/// iceoryx2's `port::client::RequestSendError`.
#[repr(u64)]
#[derive(Debug, Clone, Copy, PartialEq, Eq)]
pub enum RequestSendError {
    /// The client has `max_active_requests_per_client` pending responses. It helps to drop one.
    ExceedsMaxActiveRequests,
    /// The request was not loaned, or not delivered.
    SendError(SendError),
}

impl From<SendError> for RequestSendError {
    fn from(error: SendError) -> Self {
        RequestSendError::SendError(error)
    }
}

impl From<LoanError> for RequestSendError {
    fn from(error: LoanError) -> Self {
        RequestSendError::SendError(SendError::LoanError(error))
    }
}

impl From<ConnectionFailure> for RequestSendError {
    fn from(error: ConnectionFailure) -> Self {
        RequestSendError::SendError(SendError::ConnectionError(error))
    }
}

/// A client: it loans requests, and sends each to all servers of its service.
///
/// A client that is dropped stays connected as long as a message of it lives.
///
/// iceoryx2's `port::client::Client`.
pub struct Client<S: Service, Q: Sendable + ?Sized, QH: Sendable, P: Sendable + ?Sized, PH: Sendable> {
    opened: <PolicyOf<S> as Policy>::Ref<Opened<PolicyOf<S>>>,
    port: Id,
    seat: usize,
    client_id: UniqueClientId,
    types: Types<S, Q, QH, P, PH>,
}

impl<S: Service, Q: Sendable + ?Sized, QH: Sendable, P: Sendable + ?Sized, PH: Sendable> Client<S, Q, QH, P, PH> {
    pub(crate) fn new(opened: <PolicyOf<S> as Policy>::Ref<Opened<PolicyOf<S>>>, port: (Id, usize)) -> Self {
        let client_id = UniqueClientId(opened.core.unique_id(&port.0));
        Client { opened, port: port.0, seat: port.1, client_id, types: PhantomData }
    }

    #[inline]
    fn core(&self) -> &CoreRef<S> {
        &self.opened.core
    }

    /// Returns the id of the client.
    pub fn id(&self) -> UniqueClientId {
        self.client_id
    }

    /// Returns what the client's sends do where a queue is full and does not overflow.
    pub fn backpressure_strategy(&self) -> BackpressureStrategy {
        self.core().call(|state| state.clients[self.seat].settings.delivery.strategy)
    }

    /// Loans a request with these elements, which take these bytes, and writes its head.
    #[inline]
    fn loan_slot(&self, state: &mut State, (elements, bytes): (usize, usize)) -> Result<Slot, LoanError> {
        let (slot, request_id) = state.loan_request(&self.port, self.seat, (elements, bytes))?;
        let (node_id, client_id, number_of_elements) = (self.opened.node, self.client_id, elements as u64);
        let header = RequestHeader { node_id, client_id, request_id, number_of_elements };
        let head = RequestHead { header, sequence: 0, seat: self.seat as u32, active: AtomicU32::new(0) };
        // SAFETY: nobody else has the slot (point 2 of `message.rs`), which begins with its head.
        unsafe { slot.at.cast().write(head) };
        Ok(slot)
    }

    /// Loans a request with this number of elements.
    #[inline]
    fn loan_of<U: Payload + Sendable + ?Sized>(
        &self,
        elements: usize,
    ) -> Result<RequestMutUninit<S, U, QH, P, PH>, LoanError>
    where
        QH: Default,
    {
        let bytes = Layout::<QH, U::Element>::bytes(elements).ok_or(LoanError::ExceedsMaxLoanSize)?;
        let user_header = QH::default();
        let slot = self.core().call(|state| self.loan_slot(state, (elements, bytes)))?;
        // SAFETY: the request was just loaned with these bytes, and its head was written.
        let message = unsafe { Message::loaned(self.core().clone(), slot, self.seat, user_header) };
        Ok(RequestMutUninit { request: RequestMut::new(message) })
    }
}

impl<S: Service, Q: Sendable, QH: Default + Sendable, P: Sendable + ?Sized, PH: Sendable> Client<S, Q, QH, P, PH> {
    /// Loans a request whose payload has to be written. Its user header has its default.
    ///
    /// # Errors
    ///
    /// [`LoanError`], whose variants say when they come and what helps.
    ///
    /// # Examples
    ///
    /// ```
    /// # extern crate rr as iceoryx2;
    /// # use iceoryx2::prelude::*;
    /// # fn main() -> Result<(), Box<dyn core::error::Error>> {
    /// # let node = NodeBuilder::new().create::<ipc::Service>()?;
    /// # let builder = node.service_builder(&"loan_uninit".try_into()?).request_response::<[f32; 4], u64>();
    /// # let service = builder.open_or_create()?;
    /// # let client = service.client_builder().create()?;
    /// let mut request = client.loan_uninit()?;
    /// let place = request.payload_mut().write([0.0; 4]);
    /// place[2] = 1.5;
    /// // SAFETY: the payload was written.
    /// let request = unsafe { request.assume_init() };
    /// assert_eq!(*request.send()?, [0.0, 0.0, 1.5, 0.0]);
    /// # Ok(())
    /// # }
    /// ```
    #[inline]
    pub fn loan_uninit(&self) -> Result<RequestMutUninit<S, MaybeUninit<Q>, QH, P, PH>, LoanError> {
        self.loan_of(1)
    }

    /// Sends a value as a request: loans, writes and sends it.
    ///
    /// # Errors
    ///
    /// [`RequestSendError`], also with the [`LoanError`] of the loan.
    #[inline]
    pub fn send_copy(&self, value: Q) -> Result<PendingResponse<S, Q, QH, P, PH>, RequestSendError> {
        let Some(bytes) = Layout::<QH, Q>::bytes(1).filter(|_| Copied::<QH, Q>::FITS) else {
            return self.loan_uninit()?.write_payload(value).send();
        };
        let copied = Copied::new(QH::default(), value);
        let (slot, sent) = self.core().call(|state| -> Result<(Slot, Option<Sent>), RequestSendError> {
            let slot = self.loan_slot(state, (1, bytes))?;
            // SAFETY: the request was just loaned with these bytes, and its head was written.
            let sent = unsafe {
                copied.write(slot.at);
                state.send_request(&slot.id, slot.at.cast(), true)?
            };
            Ok((slot, sent))
        })?;
        // SAFETY: all parts were written.
        let message = unsafe { Message::<_, Loaned, QH, Q>::written(self.core().clone(), slot, self.seat) };
        let request = RequestMut::new(message);
        match sent {
            Some(sent) => Ok(request.into_pending(sent)),
            None => request.send_blocked(),
        }
    }
}

impl<S: Service, Q: Default + Sendable, QH: Default + Sendable, P: Sendable + ?Sized, PH: Sendable>
    Client<S, Q, QH, P, PH>
{
    /// Loans a request whose payload has its default.
    ///
    /// # Errors
    ///
    /// As of [`Client::loan_uninit`].
    pub fn loan(&self) -> Result<RequestMut<S, Q, QH, P, PH>, LoanError> {
        Ok(self.loan_uninit()?.write_payload(Q::default()))
    }
}

impl<S: Service, Q: Sendable + 'static, QH: Sendable, P: Sendable + ?Sized, PH: Sendable> Client<S, [Q], QH, P, PH> {
    /// Returns how many elements a request may have before its slot has to grow.
    pub fn initial_max_slice_len(&self) -> usize {
        self.core().call(|state| state.clients[self.seat].details.max_slice_len)
    }
}

impl<S: Service, Q: Sendable + 'static, QH: Default + Sendable, P: Sendable + ?Sized, PH: Sendable>
    Client<S, [Q], QH, P, PH>
{
    /// Loans a request of `slice_len` elements, which have to be written. Its user header has its default.
    ///
    /// # Errors
    ///
    /// [`LoanError`], whose variants say when they come and what helps.
    #[inline]
    #[allow(clippy::type_complexity)]
    pub fn loan_slice_uninit(
        &self,
        slice_len: usize,
    ) -> Result<RequestMutUninit<S, [MaybeUninit<Q>], QH, P, PH>, LoanError> {
        self.loan_of(slice_len)
    }
}

impl<S: Service, Q: Default + Sendable + 'static, QH: Default + Sendable, P: Sendable + ?Sized, PH: Sendable>
    Client<S, [Q], QH, P, PH>
{
    /// Loans a request of `slice_len` elements, each with its default.
    ///
    /// # Errors
    ///
    /// As of [`Client::loan_slice_uninit`].
    pub fn loan_slice(&self, slice_len: usize) -> Result<RequestMut<S, [Q], QH, P, PH>, LoanError> {
        Ok(self.loan_slice_uninit(slice_len)?.write_from_fn(|_| Q::default()))
    }
}

impl<S: Service, Q: Sendable + ?Sized, QH: Sendable, P: Sendable + ?Sized, PH: Sendable> UpdateConnections
    for Client<S, Q, QH, P, PH>
{
    fn update_connections(&self) -> Result<(), ConnectionFailure> {
        Ok(())
    }
}

impl<S: Service, Q: Sendable + ?Sized, QH: Sendable, P: Sendable + ?Sized, PH: Sendable> fmt::Debug
    for Client<S, Q, QH, P, PH>
{
    fn fmt(&self, f: &mut fmt::Formatter<'_>) -> fmt::Result {
        f.debug_struct("Client").field("client_id", &self.client_id).finish()
    }
}

impl<S: Service, Q: Sendable + ?Sized, QH: Sendable, P: Sendable + ?Sized, PH: Sendable> Drop
    for Client<S, Q, QH, P, PH>
{
    fn drop(&mut self) {
        self.core().call(|state| state.close_client(&self.port, self.seat));
    }
}
