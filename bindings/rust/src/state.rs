//! The state of a service: its hub, its ports and nodes, and the waits.
use crate::head::RequestHead;
use crate::hub::{Hub, Slot};
use crate::identifiers::{UniqueNodeId, UniqueServerId};
use crate::port::client::{ClientCreateError, RequestSendError};
use crate::port::server::ServerCreateError;
use crate::port::{LoanError, ReceiveError};
use crate::raw::{self, Id};
use crate::seats::{ClientSeat, Seats, ServerSeat};
use crate::wait::{Change, Dues, News, Token, Wait, Waiters};
use std::ptr::NonNull;
use std::sync::Arc;
use std::task::Waker;

/// The state of a service. Each change that may end a wait goes through `State::wake`.
pub struct State {
    pub(crate) hub: Hub,
    pub(crate) clients: Seats<ClientSeat>,
    pub(crate) servers: Seats<ServerSeat>,
    /// The nodes that have the service open, each with the number of its factories and ports.
    nodes: Vec<(UniqueNodeId, usize)>,
    /// The number of the last send of a request.
    sequence: u64,
    news: Arc<News>,
    waiters: Waiters,
}

/// A request that was sent.
#[derive(Debug, Clone, Copy)]
pub(crate) struct Sent {
    /// How many queues took it.
    pub servers: usize,
    /// The number of the client's answers (`News::answered`) at the send.
    pub answered: u64,
}

impl State {
    pub(crate) fn new(hub: Hub, news: Arc<News>) -> Self {
        State {
            hub,
            clients: Seats::new(),
            servers: Seats::new(),
            nodes: Vec::new(),
            sequence: 0,
            news,
            waiters: Waiters::new(),
        }
    }
}

/// Ports and nodes.
impl State {
    /// Creates a client, which gets the seat that the function makes for its port.
    pub(crate) fn create_client(
        &mut self,
        settings: &raw::ClientSettings,
        client: impl FnOnce(&Id) -> ClientSeat,
    ) -> Result<(Id, usize), ClientCreateError> {
        let port = self.hub.create_client(settings)?;
        let seat = self.clients.take(client(&port));
        for server in self.servers.taken_mut() {
            server.last.resize(self.clients.len(), 0);
        }
        Ok((port, seat))
    }

    /// Creates a server, which gets the seat that the function makes for its port.
    pub(crate) fn create_server(
        &mut self,
        settings: &raw::ServerSettings,
        server: impl FnOnce(&Id) -> ServerSeat,
    ) -> Result<(Id, usize), ServerCreateError> {
        let port = self.hub.create_server(settings)?;
        let last = vec![0; self.clients.len()];
        let server = ServerSeat { last, empty_at: self.sequence, ..server(&port) };
        Ok((port, self.servers.take(server)))
    }

    /// Releases the port of a client.
    pub(crate) fn close_client(&mut self, port: &Id, seat: usize) {
        self.hub.release(port);
        self.leave_client(seat);
    }

    /// Releases the port of a server.
    pub(crate) fn close_server(&mut self, port: &Id, seat: usize) {
        self.servers[seat].is_open = false;
        self.hub.release(port);
        self.wake(Change::Closed { server: seat });
        self.leave_server(seat);
    }

    /// Removes a handle of a client. Without handles it is disconnected.
    #[inline]
    fn leave_client(&mut self, seat: usize) {
        let client = &mut self.clients[seat];
        client.handles -= 1;
        if client.handles == 0 {
            self.disconnect_client(seat);
        }
    }

    #[cold]
    fn disconnect_client(&mut self, seat: usize) {
        let handler = self.clients.free(seat).and_then(|it| it.settings.handler);
        self.waiters.drop_later(handler);
    }

    /// Removes a handle of a server. Without handles it is disconnected.
    #[inline]
    fn leave_server(&mut self, seat: usize) {
        let server = &mut self.servers[seat];
        server.handles -= 1;
        if server.handles == 0 {
            self.disconnect_server(seat);
        }
    }

    #[cold]
    fn disconnect_server(&mut self, seat: usize) {
        let handler = self.servers.free(seat).and_then(|it| it.settings.handler);
        self.waiters.drop_later(handler);
        self.wake(Change::Left);
    }

    /// Counts a node in, unless as many have the service open as may.
    pub(crate) fn enter_node(&mut self, node: UniqueNodeId, most: usize) -> bool {
        let has_room = self.nodes.len() < most;
        match self.nodes.iter_mut().find(|it| it.0 == node) {
            Some(entry) => entry.1 += 1,
            None if has_room => self.nodes.push((node, 1)),
            None => return false,
        }
        true
    }

    pub(crate) fn leave_node(&mut self, node: UniqueNodeId) {
        if let Some(at) = self.nodes.iter().position(|it| it.0 == node) {
            self.nodes[at].1 -= 1;
            if self.nodes[at].1 == 0 {
                self.nodes.swap_remove(at);
            }
        }
    }
}

/// Loans and sends.
impl State {
    /// Loans a request with these elements, which take these bytes, and returns how many the client had loaned before.
    #[inline]
    pub(crate) fn loan_request(
        &mut self,
        port: &Id,
        seat: usize,
        (elements, bytes): (usize, usize),
    ) -> Result<(Slot, u64), LoanError> {
        let client = &mut self.clients[seat];
        client.settings.check(elements)?;
        let slot = self.hub.loan(port, bytes)?;
        client.handles += 1;
        client.loans += 1;
        Ok((slot, client.loans - 1))
    }

    /// Loans a response with these elements, which take these bytes, and returns the ids of its node and its server.
    #[inline]
    pub(crate) fn loan_response(
        &mut self,
        active: &Id,
        seat: usize,
        (elements, bytes): (usize, usize),
    ) -> Result<(Slot, UniqueNodeId, UniqueServerId), LoanError> {
        let server = &mut self.servers[seat];
        server.settings.check(elements)?;
        let slot = self.hub.loan(active, bytes)?;
        server.handles += 1;
        Ok((slot, server.details.node_id, server.details.server_id))
    }

    /// Sends a request. If it `asks`, as its port does too, it sends nothing and returns `None` where a queue has no room.
    /// On an error the request is released.
    ///
    /// # Safety
    ///
    /// The request is on loan, and its head lies there.
    #[inline]
    pub(crate) unsafe fn send_request(
        &mut self,
        request: &Id,
        head: NonNull<RequestHead>,
        asks: bool,
    ) -> Result<Option<Sent>, RequestSendError> {
        // SAFETY: point 8 of `message.rs`.
        let seat = unsafe { (*head.as_ptr()).seat } as usize;
        if asks && self.clients[seat].settings.delivery.asks {
            let is_ready = self.is_request_ready(request);
            if !is_ready.inspect_err(|_| self.release_request(request, seat))? {
                return Ok(None);
            }
        }
        // SAFETY: as the caller says.
        let sent = unsafe { self.put_request(request, head) };
        sent.map(Some).inspect_err(|_| self.leave_client(seat))
    }

    /// Sends a request as `send_request`, but leaves it on loan on an error.
    ///
    /// # Safety
    ///
    /// As of `send_request`.
    pub(crate) unsafe fn try_send_request(
        &mut self,
        request: &Id,
        head: NonNull<RequestHead>,
        asks: bool,
    ) -> Result<Option<Sent>, RequestSendError> {
        // SAFETY: point 8 of `message.rs`.
        let seat = unsafe { (*head.as_ptr()).seat } as usize;
        let has_room = self.is_request_ready(request)?;
        if asks && self.clients[seat].settings.delivery.asks && !has_room {
            return Ok(None);
        }
        // SAFETY: as the caller says.
        let sent = unsafe { self.put_request(request, head) };
        Ok(Some(sent.expect("the library named no refusal")))
    }

    /// Returns whether all queues have room for a request, or why its send would be refused even if they have.
    fn is_request_ready(&mut self, request: &Id) -> Result<bool, RequestSendError> {
        match self.hub.send_refusal(request) {
            Some(why) => Err(why),
            None => Ok(self.hub.is_deliverable(request)),
        }
    }

    /// Gives a request the next sequence number and sends it.
    ///
    /// # Safety
    ///
    /// As of `send_request`.
    #[inline]
    unsafe fn put_request(&mut self, request: &Id, head: NonNull<RequestHead>) -> Result<Sent, RequestSendError> {
        self.sequence += 1;
        // SAFETY: point 8 of `message.rs`; the send may free the slot, so that no reference is made.
        let client = unsafe {
            (*head.as_ptr()).sequence = self.sequence;
            (*head.as_ptr()).client()
        };
        let servers = self.hub.send_request(request)?;
        self.news.ask(self.sequence);
        self.wake(Change::Asked);
        Ok(Sent { servers, answered: self.news.answered(client) })
    }

    /// Sends a response to the request of this sequence number and client. If it `asks`, as its port does too, and the
    /// queue has no room, it sends nothing and returns `false`.
    #[inline]
    pub(crate) fn send_response(&mut self, response: &Id, seat: usize, to: (u64, u64), asks: bool) -> bool {
        let (sequence, client) = to;
        let asks = asks && self.servers[seat].settings.delivery.asks;
        if asks && !self.hub.is_deliverable(response) {
            return false;
        }
        self.hub.send_response(response);
        self.news.answer(client);
        self.wake(Change::Answered { sequence });
        self.leave_server(seat);
        true
    }
}

/// Receives and releases.
impl State {
    /// Receives a request, and counts it among those that are being answered.
    #[inline]
    pub(crate) fn receive_request(&mut self, port: &Id, seat: usize) -> Result<Option<Slot>, ReceiveError> {
        let received = self.hub.receive(port);
        let server = &mut self.servers[seat];
        match &received {
            Ok(Some(slot)) => {
                // SAFETY: points 3, 5 and 8 of `message.rs`: a request begins with its head, and the library just gave
                // it to this server.
                let head: &RequestHead = unsafe { slot.at.cast().as_ref() };
                RequestHead::set_active(&head.active, |it| it + 1);
                let last = &mut server.last[head.seat as usize];
                *last = head.sequence.max(*last);
                server.handles += 1;
                server.note_received(self.sequence);
            }
            Ok(None) => server.note_empty(self.sequence),
            Err(_) => {}
        }
        self.wake(Change::Received);
        received
    }

    /// Receives a response to the request of this sequence number.
    #[inline]
    pub(crate) fn receive_response(
        &mut self,
        pending: &Id,
        seat: usize,
        sequence: u64,
    ) -> Result<Option<Slot>, ReceiveError> {
        let received = self.hub.receive(pending)?;
        if received.is_some() {
            self.clients[seat].handles += 1;
            self.wake(Change::Taken { sequence });
        }
        Ok(received)
    }

    pub(crate) fn release_request(&mut self, request: &Id, seat: usize) {
        self.hub.release(request);
        self.leave_client(seat);
    }

    #[inline]
    pub(crate) fn release_pending(&mut self, pending: &Id, seat: usize, sequence: u64) {
        self.hub.release(pending);
        self.wake(Change::Abandoned { sequence });
        self.leave_client(seat);
    }

    /// Releases an active request.
    ///
    /// # Safety
    ///
    /// Its head lies there.
    #[inline]
    pub(crate) unsafe fn release_active(&mut self, active: &Id, seat: usize, head: NonNull<RequestHead>) {
        // SAFETY: points 6 and 8 of `message.rs`.
        let (sequence, client) = unsafe {
            RequestHead::set_active(&(*head.as_ptr()).active, |it| it - 1);
            ((*head.as_ptr()).sequence, (*head.as_ptr()).client())
        };
        self.hub.release(active);
        self.news.answer(client);
        self.wake(Change::Finished { sequence });
        self.leave_server(seat);
    }

    pub(crate) fn release_answer(&mut self, response: &Id, seat: usize) {
        self.hub.release(response);
        self.leave_server(seat);
    }

    #[inline]
    pub(crate) fn release_response(&mut self, response: &Id, seat: usize) {
        self.hub.release(response);
        self.leave_client(seat);
    }
}

/// Waits.
impl State {
    /// Returns whether a request may still be answered (`Seats::may_answer`).
    pub(crate) fn may_be_answered(&self, head: &RequestHead) -> bool {
        self.servers.may_answer(head)
    }

    /// Returns whether a wait is over, or `None` if its port or its message has been dropped.
    pub(crate) fn has_come(&mut self, of: &Id, wait: &Wait) -> Option<bool> {
        let has_entries = self.hub.find_entries(of)?;
        Some(has_entries || wait.request().is_some_and(|head| !self.may_be_answered(head)))
    }

    /// Registers a wait, in the critical section that found nothing.
    pub(crate) fn register(&mut self, wait: Wait, waker: Waker) -> Token {
        self.waiters.add(wait, waker)
    }

    /// Removes a wait, and returns its waker if that is not due yet.
    pub(crate) fn unregister(&mut self, token: Token) -> Option<Waker> {
        self.waiters.remove(token)
    }

    /// Moves the wakers of all waits that a change ends to the list of what is due.
    #[inline]
    fn wake(&mut self, change: Change) {
        if !self.waiters.is_empty() {
            self.wake_some(change);
        }
    }

    fn wake_some(&mut self, change: Change) {
        let servers = &self.servers;
        self.waiters.end(|wait| change.ends(wait, servers));
    }

    /// Returns whether anything is due once the lock is free.
    #[inline]
    pub(crate) fn is_due(&self) -> bool {
        self.waiters.is_due()
    }

    /// Takes the oldest pieces of due work.
    pub(crate) fn take_due(&mut self) -> Dues {
        self.waiters.take_due()
    }
}
