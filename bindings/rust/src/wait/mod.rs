//! Waits of threads and tasks.
//!
//! A wait is registered in the critical section that found nothing, so that no change is missed in between. The call
//! whose change ends a wait wakes it after it has released the lock.
mod change;
mod news;
mod task;
mod thread;

pub(crate) use change::Change;
pub(crate) use news::News;
pub(crate) use task::Turn;
pub(crate) use thread::{Parker, Patience, block};

use crate::head::RequestHead;
use crate::port::backpressure::Handler;
use std::array;
use std::collections::VecDeque;
use std::ptr::NonNull;
use std::task::Waker;

/// A wait, by its purpose.
#[derive(Clone, Copy)]
pub(crate) enum Wait {
    /// A request for the server at this seat.
    Requests { server: usize },
    /// A response to a request, or that none can come any more.
    Responses(Watched),
    /// Room for a request in the queues of servers.
    RequestRoom,
    /// Room for a response to the request of this sequence number.
    ResponseRoom { sequence: u64 },
}

impl Wait {
    /// Returns the head of the request whose responses are waited for. The caller has the service's lock, and the
    /// request is pending.
    pub fn request(&self) -> Option<&RequestHead> {
        match self {
            Wait::Responses(watched) => Some(watched.head()),
            _ => None,
        }
    }
}

/// A request that is pending as long as a wait for its responses is registered: the release of a pending response ends
/// all waits for it in the same critical section (`Change::Abandoned`), also those whose futures were leaked.
#[derive(Clone, Copy)]
pub(crate) struct Watched {
    pub sequence: u64,
    head: NonNull<RequestHead>,
}

// SAFETY: the head is read under the service's lock, by which another thread sees what the sender wrote (point 5 of
// `message.rs`).
unsafe impl Send for Watched {}

impl Watched {
    pub fn new(head: &RequestHead) -> Self {
        Watched { sequence: head.sequence, head: NonNull::from(head) }
    }

    fn head(&self) -> &RequestHead {
        // SAFETY: the request is pending, so that its slot is held (points 3 and 8 of `message.rs`).
        unsafe { self.head.as_ref() }
    }
}

/// The number of a registered wait, or 0.
#[derive(Debug, Clone, Copy, PartialEq, Eq, Default)]
pub(crate) struct Token(u64);

struct Waiter {
    token: Token,
    wait: Wait,
    waker: Waker,
}

/// A piece of work that is due when the lock is free, since it may run a user's code.
pub(crate) enum Due {
    Wake(Waker),
    Drop(Handler),
}

impl Due {
    pub fn carry_out(self) {
        match self {
            Due::Wake(waker) => waker.wake(),
            Due::Drop(handler) => drop(handler),
        }
    }
}

/// Due work that one critical section took. Its drop carries out the rest if a waker panics.
pub(crate) struct Dues([Option<Due>; 4]);

impl Dues {
    /// Carries out each piece. Returns whether more may be due.
    pub fn carry_out(mut self) -> bool {
        let is_full = self.0.iter().all(Option::is_some);
        self.carry_out_rest();
        is_full
    }

    fn carry_out_rest(&mut self) {
        while let Some(due) = self.0.iter_mut().find_map(Option::take) {
            due.carry_out();
        }
    }
}

impl Drop for Dues {
    fn drop(&mut self) {
        self.carry_out_rest();
    }
}

/// The registered waits of a service, and the work that is due. Both lists keep their memory, so that they allocate
/// only when they get longer than ever before.
pub(crate) struct Waiters {
    list: Vec<Waiter>,
    tokens: u64,
    due: VecDeque<Due>,
}

impl Waiters {
    pub fn new() -> Self {
        Waiters { list: Vec::new(), tokens: 0, due: VecDeque::new() }
    }

    #[inline]
    pub fn is_empty(&self) -> bool {
        self.list.is_empty()
    }

    pub fn add(&mut self, wait: Wait, waker: Waker) -> Token {
        self.tokens += 1;
        let token = Token(self.tokens);
        self.list.push(Waiter { token, wait, waker });
        token
    }

    pub fn remove(&mut self, token: Token) -> Option<Waker> {
        let at = self.list.iter().position(|it| it.token == token)?;
        Some(self.list.remove(at).waker)
    }

    /// Moves the wakers of the waits that the function selects to the due work, the oldest first.
    pub fn end(&mut self, mut is_over: impl FnMut(&Wait) -> bool) {
        let mut at = 0;
        while at < self.list.len() {
            if is_over(&self.list[at].wait) {
                self.due.push_back(Due::Wake(self.list.remove(at).waker));
            } else {
                at += 1;
            }
        }
    }

    pub fn drop_later(&mut self, handler: Option<Handler>) {
        self.due.extend(handler.map(Due::Drop));
    }

    #[inline]
    pub fn is_due(&self) -> bool {
        !self.due.is_empty()
    }

    /// Takes the oldest pieces of due work.
    #[cold]
    pub fn take_due(&mut self) -> Dues {
        Dues(array::from_fn(|_| self.due.pop_front()))
    }
}
