//! Requests that were sent, which receive their responses.
//!
//! ```
//! # extern crate rr as iceoryx2;
//! use iceoryx2::prelude::*;
//!
//! fn main() -> Result<(), Box<dyn core::error::Error>> {
//!     let node = NodeBuilder::new().create::<ipc_threadsafe::Service>()?;
//!     let service = node.service_builder(&"squares".try_into()?).request_response::<u64, u64>().open_or_create()?;
//!     let (client, server) = (service.client_builder().create()?, service.server_builder().create()?);
//!
//!     let pending_response = client.send_copy(12)?;
//!     let answering = std::thread::spawn(move || {
//!         let active_request = server.blocking_receive().unwrap();
//!         active_request.send_copy(*active_request * *active_request).unwrap();
//!     });
//!     // The stream of responses ends when the server has dropped the request.
//!     let mut squares = Vec::new();
//!     while let Some(response) = pending_response.blocking_receive()? {
//!         squares.push(*response);
//!     }
//!     assert_eq!(squares, [144]);
//!     answering.join().unwrap();
//!     Ok(())
//! }
//! ```
use crate::core::{CoreRef, PolicyOf};
use crate::hub::Slot;
use crate::message::{Message, Pending};
use crate::port::{ReceiveError, ResponseTypes};
use crate::raw::Id;
use crate::response::Response;
use crate::service::Service;
use crate::service::header::request_response::RequestHeader;
use crate::service::threadsafety::SharedByThreads;
use crate::state::{Sent, State};
use crate::wait::{Patience, Turn, Wait, Watched, block};
use crate::zero_copy_send::{Payload, Sendable};
use std::any::type_name;
use std::fmt;
use std::iter;
use std::marker::PhantomData;
use std::ops::Deref;
use std::pin::Pin;
use std::sync::atomic::{AtomicU64, Ordering};
use std::task::{Context, Poll};
use std::time::Duration;

/// A request that was sent. It receives the responses of all servers. Dropping it tells them that nobody waits for
/// their responses any more.
///
/// iceoryx2's `pending_response::PendingResponse`.
pub struct PendingResponse<S: Service, Q: Sendable + ?Sized, QH: Sendable, P: Sendable + ?Sized, PH: Sendable> {
    message: Message<PolicyOf<S>, Pending, QH, Q>,
    number_of_server_connections: usize,
    /// The number of the client's answers when the queue was last known to be empty.
    empty_at: AtomicU64,
    types: ResponseTypes<P, PH>,
}

/// The result of an attempt: a response, or that none can come any more.
type Found = Option<Slot>;

impl<S: Service, Q: Sendable + ?Sized, QH: Sendable, P: Sendable + ?Sized, PH: Sendable>
    PendingResponse<S, Q, QH, P, PH>
{
    #[inline]
    pub(crate) fn new(message: Message<PolicyOf<S>, Pending, QH, Q>, sent: Sent) -> Self {
        let empty_at = AtomicU64::new(sent.answered);
        PendingResponse { message, number_of_server_connections: sent.servers, empty_at, types: PhantomData }
    }

    /// Tells the servers that the client wants no further responses. A server may then send its last one and drop its
    /// active request.
    pub fn set_disconnect_hint(&self) {
        self.message
            .core()
            .call(|state| state.hub.set_disconnect_hint(&self.message.id()));
    }

    /// Returns whether a server may still answer, as far as the library knows. It also returns `true` as long as a
    /// server is connected whose full queue dropped the request or did not take it.
    pub fn is_connected(&self) -> bool {
        self.message.core().call(|state| state.hub.is_connected(&self.message.id()))
    }

    /// Returns the header of the request.
    pub fn header(&self) -> &RequestHeader {
        &self.message.head().header
    }

    /// Returns the user header of the request.
    pub fn user_header(&self) -> &QH {
        self.message.user_header()
    }

    /// Returns the payload of the request.
    #[inline]
    pub fn payload(&self) -> &Q {
        self.message.payload()
    }

    /// Returns how many servers' queues took the request when it was sent.
    pub fn number_of_server_connections(&self) -> usize {
        self.number_of_server_connections
    }

    /// Returns whether a response is queued.
    pub fn has_response(&self) -> bool {
        self.has_news() && self.message.core().call(|state| state.hub.has_entries(&self.message.id()))
    }

    /// Returns the number of the client's answers.
    #[inline]
    fn answered(&self) -> u64 {
        self.message.core().news.answered(self.message.head().client())
    }

    /// Returns whether something may have been queued since the queue was empty.
    #[inline]
    fn has_news(&self) -> bool {
        self.answered() != self.empty_at.load(Ordering::Relaxed)
    }

    #[inline]
    fn receive_slot(&self, state: &mut State) -> Result<Option<Slot>, ReceiveError> {
        let head = self.message.head();
        let received = state.receive_response(&self.message.id(), self.message.seat(), head.sequence)?;
        if received.is_none() {
            self.empty_at.store(self.answered(), Ordering::Relaxed);
        }
        Ok(received)
    }

    /// Attempts to receive, and finds that a response is queued, that none can come any more, or neither.
    fn attempt(&self, state: &mut State) -> Result<Option<Found>, ReceiveError> {
        match self.receive_slot(state)? {
            Some(slot) => Ok(Some(Some(slot))),
            None if state.may_be_answered(self.message.head()) => {
                debug_assert!(state.hub.is_connected(&self.message.id()));
                Ok(None)
            }
            None => Ok(Some(None)),
        }
    }

    pub(crate) fn wait(&self) -> Wait {
        Wait::Responses(Watched::new(self.message.head()))
    }

    /// Returns what a wait set needs of it.
    pub(crate) fn attachment(&self) -> (CoreRef<S>, Id, Wait) {
        (self.message.core().clone(), self.message.id(), self.wait())
    }
}

impl<S: Service, Q: Sendable + ?Sized, QH: Sendable, P: Payload + Sendable + ?Sized, PH: Sendable>
    PendingResponse<S, Q, QH, P, PH>
{
    #[inline]
    fn response(&self, slot: Slot) -> Response<S, P, PH> {
        // SAFETY: point 7 of `message.rs`: all servers of the service write responses of these types, and the library
        // just gave this one.
        Response::new(unsafe { Message::written(self.message.core().clone(), slot, self.message.seat()) })
    }

    /// Receives the next response, if one is queued.
    ///
    /// # Errors
    ///
    /// [`ReceiveError::ExceedsMaxBorrows`] if the pending response holds as many responses from each server with a
    /// queued one as it may.
    #[inline]
    pub fn receive(&self) -> Result<Option<Response<S, P, PH>>, ReceiveError> {
        if !self.has_news() {
            return Ok(None);
        }
        let received = self.message.core().call(|state| self.receive_slot(state))?;
        Ok(received.map(|slot| self.response(slot)))
    }

    /// Returns an iterator over the queued responses, which ends at the first error.
    ///
    /// Not in iceoryx2.
    pub fn responses(&self) -> impl Iterator<Item = Result<Response<S, P, PH>, ReceiveError>> + '_ {
        let mut has_failed = false;
        iter::from_fn(move || {
            let received = if has_failed { None } else { self.receive().transpose() };
            has_failed = matches!(received, Some(Err(_)));
            received
        })
    }

    /// Waits for the next response. Returns `None` when no response is queued and none can come any more.
    ///
    /// A response can come as long as an active request of this request lives, and as long as a server may still
    /// receive the request. A wait ends also where a server's full queue dropped the request or did not take it: at the
    /// next receive of this server that finds a later request of the client, or nothing. Responses on loan whose active
    /// request was dropped are not waited for.
    ///
    /// After iceoryx2's `Listener::blocking_wait_one`. Not in iceoryx2.
    ///
    /// # Errors
    ///
    /// As of [`PendingResponse::receive`].
    pub fn blocking_receive(&self) -> Result<Option<Response<S, P, PH>>, ReceiveError>
    where
        S::ThreadsafetyPolicy: SharedByThreads,
    {
        self.receive_within(Patience::Endless)
    }

    /// Waits for the next response, but no longer than this. Returns `None` also as
    /// [`PendingResponse::blocking_receive`].
    ///
    /// After iceoryx2's `Listener::timed_wait_one`. Not in iceoryx2.
    ///
    /// # Errors
    ///
    /// As of [`PendingResponse::receive`].
    pub fn timed_receive(&self, timeout: Duration) -> Result<Option<Response<S, P, PH>>, ReceiveError>
    where
        S::ThreadsafetyPolicy: SharedByThreads,
    {
        self.receive_within(Patience::of(timeout))
    }

    fn receive_within(&self, patience: Patience) -> Result<Option<Response<S, P, PH>>, ReceiveError> {
        let (core, has_news) = (self.message.core(), || self.has_news());
        let received = block(core, self.wait(), patience, has_news, |state| self.attempt(state))?;
        Ok(received.flatten().map(|slot| self.response(slot)))
    }

    /// Returns a future of the next response, or of `None` as [`PendingResponse::blocking_receive`]. A future that is
    /// dropped has received nothing.
    ///
    /// Not in iceoryx2.
    ///
    /// # Errors
    ///
    /// As of [`PendingResponse::receive`].
    pub fn async_receive(&self) -> ReceiveResponse<'_, S, Q, QH, P, PH> {
        ReceiveResponse { pending: self, turn: Turn::default() }
    }
}

/// The future of a response, which [`PendingResponse::async_receive`] returns.
///
/// Not in iceoryx2.
#[must_use = "a future does nothing unless it is awaited"]
pub struct ReceiveResponse<'a, S: Service, Q: Sendable + ?Sized, QH: Sendable, P: Sendable + ?Sized, PH: Sendable> {
    pending: &'a PendingResponse<S, Q, QH, P, PH>,
    turn: Turn,
}

impl<S: Service, Q: Sendable + ?Sized, QH: Sendable, P: Payload + Sendable + ?Sized, PH: Sendable> Future
    for ReceiveResponse<'_, S, Q, QH, P, PH>
{
    type Output = Result<Option<Response<S, P, PH>>, ReceiveError>;

    fn poll(self: Pin<&mut Self>, context: &mut Context<'_>) -> Poll<Self::Output> {
        let this = self.get_mut();
        let pending = this.pending;
        let found = this
            .turn
            .poll(pending.message.core(), pending.wait(), context, |state| pending.attempt(state));
        found.map_ok(|received| received.map(|slot| pending.response(slot)))
    }
}

impl<S: Service, Q: Sendable + ?Sized, QH: Sendable, P: Sendable + ?Sized, PH: Sendable> fmt::Debug
    for ReceiveResponse<'_, S, Q, QH, P, PH>
{
    fn fmt(&self, f: &mut fmt::Formatter<'_>) -> fmt::Result {
        write!(f, "ReceiveResponse {{ pending: {:?} }}", self.pending)
    }
}

impl<S: Service, Q: Sendable + ?Sized, QH: Sendable, P: Sendable + ?Sized, PH: Sendable> Drop
    for ReceiveResponse<'_, S, Q, QH, P, PH>
{
    fn drop(&mut self) {
        self.turn.end(self.pending.message.core());
    }
}

impl<S: Service, Q: Sendable + ?Sized, QH: Sendable, P: Sendable + ?Sized, PH: Sendable> Deref
    for PendingResponse<S, Q, QH, P, PH>
{
    type Target = Q;

    #[inline]
    fn deref(&self) -> &Q {
        self.payload()
    }
}

impl<S: Service, Q: Sendable + ?Sized, QH: Sendable, P: Sendable + ?Sized, PH: Sendable> fmt::Debug
    for PendingResponse<S, Q, QH, P, PH>
{
    fn fmt(&self, f: &mut fmt::Formatter<'_>) -> fmt::Result {
        let types = (type_name::<S>(), type_name::<Q>(), type_name::<QH>(), type_name::<P>(), type_name::<PH>());
        write!(f, "PendingResponse<{}, {}, {}, {}, {}> ", types.0, types.1, types.2, types.3, types.4)?;
        write!(f, "{{ number_of_server_connections: {} }}", self.number_of_server_connections)
    }
}
