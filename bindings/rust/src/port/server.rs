//! Servers, which receive requests.
//!
//! ```
//! # extern crate rr as iceoryx2;
//! use iceoryx2::prelude::*;
//!
//! fn main() -> Result<(), Box<dyn core::error::Error>> {
//!     let node = NodeBuilder::new().create::<ipc::Service>()?;
//!     let service = node.service_builder(&"halves".try_into()?).request_response::<f64, f64>().open_or_create()?;
//!     let (client, server) = (service.client_builder().create()?, service.server_builder().create()?);
//!     let pending_responses = [client.send_copy(1.0)?, client.send_copy(5.0)?];
//!
//!     while let Some(active_request) = server.receive()? {
//!         active_request.send_copy(*active_request / 2.0)?;
//!     }
//!     assert_eq!(*pending_responses[1].receive()?.unwrap(), 2.5);
//!     Ok(())
//! }
//! ```
use super::backpressure_strategy::BackpressureStrategy;
use super::update_connections::{ConnectionFailure, UpdateConnections};
use super::{ReceiveError, Types};
use crate::active_request::ActiveRequest;
use crate::core::{CoreRef, PolicyOf};
use crate::hub::Slot;
use crate::identifiers::UniqueServerId;
use crate::message::Message;
use crate::policy::Policy;
use crate::raw::Id;
use crate::service::Service;
use crate::service::registry::Opened;
use crate::service::threadsafety::SharedByThreads;
use crate::state::State;
use crate::wait::{Patience, Turn, Wait, block};
use crate::zero_copy_send::{Payload, Sendable};
use std::fmt;
use std::iter;
use std::marker::PhantomData;
use std::pin::Pin;
use std::sync::atomic::{AtomicU64, Ordering};
use std::task::{Context, Poll};
use std::time::Duration;

pub use crate::service::port_factory::server::ServerCreateError;

/// A number that no send of a request has.
const UNKNOWN: u64 = u64::MAX;

/// A server: it receives the requests of all clients of its service.
///
/// A server that is dropped stays connected as long as a message of it lives.
///
/// iceoryx2's `port::server::Server`.
pub struct Server<S: Service, Q: Sendable + ?Sized, QH: Sendable, P: Sendable + ?Sized, PH: Sendable> {
    opened: <PolicyOf<S> as Policy>::Ref<Opened<PolicyOf<S>>>,
    port: Id,
    seat: usize,
    server_id: UniqueServerId,
    /// The number of the last send of a request when the queues were last known to be empty.
    empty_at: AtomicU64,
    types: Types<S, Q, QH, P, PH>,
}

impl<S: Service, Q: Sendable + ?Sized, QH: Sendable, P: Sendable + ?Sized, PH: Sendable> Server<S, Q, QH, P, PH> {
    pub(crate) fn new(opened: <PolicyOf<S> as Policy>::Ref<Opened<PolicyOf<S>>>, port: (Id, usize)) -> Self {
        let server_id = UniqueServerId(opened.core.unique_id(&port.0));
        let empty_at = AtomicU64::new(UNKNOWN);
        Server { opened, port: port.0, seat: port.1, server_id, empty_at, types: PhantomData }
    }

    #[inline]
    fn core(&self) -> &CoreRef<S> {
        &self.opened.core
    }

    /// Returns the id of the server.
    pub fn id(&self) -> UniqueServerId {
        self.server_id
    }

    /// Returns whether a request is queued. In a service without fire-and-forget it may be one whose pending response
    /// was dropped, which the next receive passes over.
    ///
    /// # Errors
    ///
    /// None here. The type is iceoryx2's.
    pub fn has_requests(&self) -> Result<bool, ConnectionFailure> {
        Ok(self.has_news() && self.core().call(|state| state.hub.has_entries(&self.port)))
    }

    /// Returns what the server's sends do where a queue is full and does not overflow.
    pub fn backpressure_strategy(&self) -> BackpressureStrategy {
        self.core().call(|state| state.servers[self.seat].settings.delivery.strategy)
    }

    /// Returns whether something may have been queued since the queues were empty.
    #[inline]
    fn has_news(&self) -> bool {
        self.core().news.asked() != self.empty_at.load(Ordering::Relaxed)
    }

    #[inline]
    fn receive_slot(&self, state: &mut State) -> Result<Option<Slot>, ReceiveError> {
        let received = state.receive_request(&self.port, self.seat);
        self.empty_at.store(state.servers[self.seat].empty_at, Ordering::Relaxed);
        received
    }

    fn wait(&self) -> Wait {
        Wait::Requests { server: self.seat }
    }

    /// Returns what a wait set needs of it.
    pub(crate) fn attachment(&self) -> (CoreRef<S>, Id, Wait) {
        (self.core().clone(), self.port, self.wait())
    }
}

impl<S: Service, Q: Payload + Sendable + ?Sized, QH: Sendable, P: Sendable + ?Sized, PH: Sendable>
    Server<S, Q, QH, P, PH>
{
    #[inline]
    fn active_request(&self, slot: Slot) -> ActiveRequest<S, Q, QH, P, PH> {
        // SAFETY: point 7 of `message.rs`: all clients of the service write requests of these types, and the library
        // just gave this one.
        ActiveRequest::new(unsafe { Message::written(self.core().clone(), slot, self.seat) })
    }

    /// Receives the next request, if one is queued. The clients take turns.
    ///
    /// # Errors
    ///
    /// [`ReceiveError::ExceedsMaxBorrows`] if the server holds `max_active_requests_per_client` active requests of each
    /// client that has one queued.
    #[inline]
    #[allow(clippy::type_complexity)]
    pub fn receive(&self) -> Result<Option<ActiveRequest<S, Q, QH, P, PH>>, ReceiveError> {
        if !self.has_news() {
            return Ok(None);
        }
        let received = self.core().call(|state| self.receive_slot(state))?;
        Ok(received.map(|slot| self.active_request(slot)))
    }

    /// Returns an iterator over the queued requests, which ends at the first error.
    ///
    /// Not in iceoryx2.
    #[allow(clippy::type_complexity)]
    pub fn requests(&self) -> impl Iterator<Item = Result<ActiveRequest<S, Q, QH, P, PH>, ReceiveError>> + '_ {
        let mut has_failed = false;
        iter::from_fn(move || {
            let received = if has_failed { None } else { self.receive().transpose() };
            has_failed = matches!(received, Some(Err(_)));
            received
        })
    }

    /// Waits for the next request.
    ///
    /// After iceoryx2's `Listener::blocking_wait_one`. Not in iceoryx2.
    ///
    /// # Errors
    ///
    /// As of [`Server::receive`].
    ///
    /// # Examples
    ///
    /// A service of one thread has no such call, since nobody could send a request meanwhile:
    ///
    /// ```compile_fail,E0277
    /// # extern crate rr as iceoryx2;
    /// # use iceoryx2::prelude::*;
    /// # fn main() -> Result<(), Box<dyn core::error::Error>> {
    /// # let node = NodeBuilder::new().create::<ipc::Service>()?;
    /// # let service = node.service_builder(&"waits".try_into()?).request_response::<u64, u64>().open_or_create()?;
    /// let server = service.server_builder().create()?;
    /// let active_request = server.blocking_receive()?;
    /// # Ok(())
    /// # }
    /// ```
    pub fn blocking_receive(&self) -> Result<ActiveRequest<S, Q, QH, P, PH>, ReceiveError>
    where
        S::ThreadsafetyPolicy: SharedByThreads,
    {
        let received = self.receive_within(Patience::Endless)?;
        Ok(self.active_request(received.expect("an endless wait ends with a request or an error")))
    }

    /// Waits for the next request, but no longer than this.
    ///
    /// After iceoryx2's `Listener::timed_wait_one`. Not in iceoryx2.
    ///
    /// # Errors
    ///
    /// As of [`Server::receive`].
    #[allow(clippy::type_complexity)]
    pub fn timed_receive(&self, timeout: Duration) -> Result<Option<ActiveRequest<S, Q, QH, P, PH>>, ReceiveError>
    where
        S::ThreadsafetyPolicy: SharedByThreads,
    {
        let received = self.receive_within(Patience::of(timeout))?;
        Ok(received.map(|slot| self.active_request(slot)))
    }

    fn receive_within(&self, patience: Patience) -> Result<Option<Slot>, ReceiveError> {
        let has_news = || self.has_news();
        block(self.core(), self.wait(), patience, has_news, |state| self.receive_slot(state))
    }

    /// Returns a future of the next request. A future that is dropped has received nothing.
    ///
    /// Not in iceoryx2.
    ///
    /// # Errors
    ///
    /// As of [`Server::receive`].
    pub fn async_receive(&self) -> ReceiveRequest<'_, S, Q, QH, P, PH> {
        ReceiveRequest { server: self, turn: Turn::default() }
    }
}

/// The future of a request, which [`Server::async_receive`] returns.
///
/// Not in iceoryx2.
#[must_use = "a future does nothing unless it is awaited"]
pub struct ReceiveRequest<'a, S: Service, Q: Sendable + ?Sized, QH: Sendable, P: Sendable + ?Sized, PH: Sendable> {
    server: &'a Server<S, Q, QH, P, PH>,
    turn: Turn,
}

impl<S: Service, Q: Payload + Sendable + ?Sized, QH: Sendable, P: Sendable + ?Sized, PH: Sendable> Future
    for ReceiveRequest<'_, S, Q, QH, P, PH>
{
    type Output = Result<ActiveRequest<S, Q, QH, P, PH>, ReceiveError>;

    fn poll(self: Pin<&mut Self>, context: &mut Context<'_>) -> Poll<Self::Output> {
        let this = self.get_mut();
        let server = this.server;
        let found = this
            .turn
            .poll(server.core(), server.wait(), context, |state| server.receive_slot(state));
        found.map_ok(|slot| server.active_request(slot))
    }
}

impl<S: Service, Q: Sendable + ?Sized, QH: Sendable, P: Sendable + ?Sized, PH: Sendable> fmt::Debug
    for ReceiveRequest<'_, S, Q, QH, P, PH>
{
    fn fmt(&self, f: &mut fmt::Formatter<'_>) -> fmt::Result {
        write!(f, "ReceiveRequest {{ server: {:?} }}", self.server)
    }
}

impl<S: Service, Q: Sendable + ?Sized, QH: Sendable, P: Sendable + ?Sized, PH: Sendable> Drop
    for ReceiveRequest<'_, S, Q, QH, P, PH>
{
    fn drop(&mut self) {
        self.turn.end(self.server.core());
    }
}

impl<S: Service, Q: Sendable + ?Sized, QH: Sendable, P: Sendable, PH: Sendable> Server<S, Q, QH, [P], PH> {
    /// Returns how many elements a response may have before its slot has to grow.
    pub fn initial_max_slice_len(&self) -> usize {
        self.core().call(|state| state.servers[self.seat].details.max_slice_len)
    }
}

impl<S: Service, Q: Sendable + ?Sized, QH: Sendable, P: Sendable + ?Sized, PH: Sendable> UpdateConnections
    for Server<S, Q, QH, P, PH>
{
    fn update_connections(&self) -> Result<(), ConnectionFailure> {
        Ok(())
    }
}

impl<S: Service, Q: Sendable + ?Sized, QH: Sendable, P: Sendable + ?Sized, PH: Sendable> fmt::Debug
    for Server<S, Q, QH, P, PH>
{
    fn fmt(&self, f: &mut fmt::Formatter<'_>) -> fmt::Result {
        f.debug_struct("Server").field("server_id", &self.id()).finish()
    }
}

impl<S: Service, Q: Sendable + ?Sized, QH: Sendable, P: Sendable + ?Sized, PH: Sendable> Drop
    for Server<S, Q, QH, P, PH>
{
    fn drop(&mut self) {
        self.core().call(|state| state.close_server(&self.port, self.seat));
    }
}
