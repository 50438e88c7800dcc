//! The changes of a service, and the waits that each ends.
use super::Wait;
use crate::seats::{Seats, ServerSeat};

/// A change that may end waits.
#[derive(Debug, Clone, Copy)]
pub(crate) enum Change {
    /// A request was sent.
    Asked,
    /// A response was sent to the request of this sequence number.
    Answered { sequence: u64 },
    /// A server polled its queues, with any result. This may also drop requests that no client waits for.
    Received,
    /// A pending response received a response to the request of this sequence number.
    Taken { sequence: u64 },
    /// An active request of the request of this sequence number was dropped.
    Finished { sequence: u64 },
    /// The pending response of the request of this sequence number was dropped.
    Abandoned { sequence: u64 },
    /// The port of the server at this seat was dropped.
    Closed { server: usize },
    /// A server lost its last handle, and its queues are gone.
    Left,
}

impl Change {
    /// Returns whether the change ends a wait.
    ///
    /// | Change | for requests | for responses | for room of a request | for room of a response |
    /// |---|---|---|---|---|
    /// | `Asked` | all | | | |
    /// | `Answered` | | this request's | | |
    /// | `Received` | | those of requests that may not be answered any more | all | |
    /// | `Taken` | | | | this request's |
    /// | `Finished` | | this request's, if it may not be answered any more | | |
    /// | `Abandoned` | | this request's, whose futures were leaked | | this request's |
    /// | `Closed` | this server's, whose futures were leaked | those of requests that may not be answered any more | all | |
    /// | `Left` | | | all | |
    pub fn ends(self, wait: &Wait, servers: &Seats<ServerSeat>) -> bool {
        use Change::{Abandoned, Answered, Asked, Closed, Finished, Left, Received, Taken};
        match (wait, self) {
            (Wait::Requests { .. }, Asked) => true,
            (Wait::Requests { server }, Closed { server: closed }) => *server == closed,
            (Wait::Requests { .. }, _) => false,
            (Wait::Responses(it), Answered { sequence } | Abandoned { sequence }) => it.sequence == sequence,
            (Wait::Responses(it), Finished { sequence }) => it.sequence == sequence && !servers.may_answer(it.head()),
            (Wait::Responses(it), Received | Closed { .. }) => !servers.may_answer(it.head()),
            (Wait::Responses(_), Asked | Taken { .. } | Left) => false,
            (Wait::RequestRoom, Received | Closed { .. } | Left) => true,
            (Wait::RequestRoom, _) => false,
            (Wait::ResponseRoom { sequence: of }, Taken { sequence } | Abandoned { sequence }) => *of == sequence,
            (Wait::ResponseRoom { .. }, _) => false,
        }
    }
}
