//! Seats: indices of ports in a list. A port keeps its index as long as it or a message of it lives; then the index is
//! reused.
use crate::head::RequestHead;
use crate::port::LoanError;
use crate::port::backpressure::Handler;
use crate::port::delivery::Delivery;
use crate::service::dynamic_config::request_response::{ClientDetails, ServerDetails};
use std::ops::{Index, IndexMut};

#[derive(Debug)]
pub(crate) struct Seats<T>(Vec<Option<T>>);

impl<T> Seats<T> {
    pub fn new() -> Self {
        Seats(Vec::new())
    }

    /// Assigns the first free seat.
    pub fn take(&mut self, holder: T) -> usize {
        let seat = self.0.iter().position(Option::is_none).unwrap_or(self.0.len());
        if seat == self.0.len() {
            self.0.push(None);
        }
        self.0[seat] = Some(holder);
        seat
    }

    pub fn free(&mut self, seat: usize) -> Option<T> {
        self.0[seat].take()
    }

    /// Returns how many seats there are, taken or free.
    pub fn len(&self) -> usize {
        self.0.len()
    }

    pub fn taken(&self) -> impl Iterator<Item = &T> {
        self.0.iter().flatten()
    }

    pub fn taken_mut(&mut self) -> impl Iterator<Item = &mut T> {
        self.0.iter_mut().flatten()
    }
}

impl<T> Index<usize> for Seats<T> {
    type Output = T;

    #[inline]
    fn index(&self, seat: usize) -> &T {
        self.0[seat].as_ref().expect("a port or a message of it keeps its seat")
    }
}

impl<T> IndexMut<usize> for Seats<T> {
    #[inline]
    fn index_mut(&mut self, seat: usize) -> &mut T {
        self.0[seat].as_mut().expect("a port or a message of it keeps its seat")
    }
}

/// The settings of a port that its messages follow.
#[derive(Clone)]
pub(crate) struct PortSettings {
    pub delivery: Delivery,
    pub handler: Option<Handler>,
    /// How many elements a message may have: where slots do not grow, the initial length.
    pub most_elements: usize,
}

impl PortSettings {
    /// Checks the number of elements of a message.
    #[inline]
    pub fn check(&self, elements: usize) -> Result<(), LoanError> {
        if elements > self.most_elements { Err(LoanError::ExceedsMaxLoanSize) } else { Ok(()) }
    }
}

/// A client that is connected.
pub(crate) struct ClientSeat {
    pub details: ClientDetails,
    pub settings: PortSettings,
    /// How many handles it has: the port, requests on loan, pending responses and received responses.
    pub handles: usize,
    /// How many requests it has loaned.
    pub loans: u64,
}

impl ClientSeat {
    pub fn new(details: ClientDetails, settings: PortSettings) -> Self {
        ClientSeat { details, settings, handles: 1, loans: 0 }
    }
}

/// A server that is connected.
pub(crate) struct ServerSeat {
    pub details: ServerDetails,
    pub settings: PortSettings,
    /// How many handles it has: the port, active requests and responses on loan.
    pub handles: usize,
    /// Whether the port lives, so that it can receive.
    pub is_open: bool,
    /// The last sequence number that the port received from the client at each seat.
    pub last: Vec<u64>,
    /// The hub's sequence number when the port's queues were last known to be empty: at its creation, at a receive that
    /// found nothing, or at one that took the last of as many requests as were sent since.
    pub empty_at: u64,
    /// How many requests the port has received since then.
    pub taken: u64,
}

impl ServerSeat {
    pub fn new(details: ServerDetails, settings: PortSettings) -> Self {
        ServerSeat { details, settings, handles: 1, is_open: true, last: Vec::new(), empty_at: 0, taken: 0 }
    }

    /// Notes that the queues are empty at this sequence number.
    #[inline]
    pub fn note_empty(&mut self, sequence: u64) {
        self.empty_at = sequence;
        self.taken = 0;
    }

    /// Notes that a request was received at this sequence number. No more requests have entered the queues since they
    /// were empty than were sent, so that none is left if as many were received.
    #[inline]
    pub fn note_received(&mut self, sequence: u64) {
        self.taken += 1;
        if self.empty_at + self.taken == sequence {
            self.note_empty(sequence);
        }
    }
}

impl Seats<ServerSeat> {
    /// Returns whether a request may still be answered.
    ///
    /// An answer comes from an active request of it, or after a receive of it. A server that is open can still receive
    /// it only if its queue of this client holds it. Such a queue is first in, first out, and a request enters it at
    /// its send alone. So a receive of a request of this client with the same or a higher sequence number took it, or
    /// came after its place: `last`. And where the server's queues were empty after the send, it is in none of them:
    /// `empty_at`. This also covers a request that a full queue dropped by overflow, or did not take, of which the
    /// library still says that it is connected with the server.
    ///
    /// A client that reuses the seat of another one inherits its `last`. The other client had sent its last request by
    /// then, so that all of its sequence numbers are lower.
    pub fn may_answer(&self, head: &RequestHead) -> bool {
        let may_receive = |server: &ServerSeat| {
            server.is_open && server.last[head.seat as usize] < head.sequence && server.empty_at < head.sequence
        };
        head.is_active() || self.taken().any(may_receive)
    }
}
