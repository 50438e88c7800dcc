//! Attachments of wait sets.
use super::WaitSet;
use crate::core::{Core, CoreRef};
use crate::pending_response::PendingResponse;
use crate::policy::Policy;
use crate::port::server::Server;
use crate::raw::Id;
use crate::service::Service;
use crate::service::threadsafety::SharedByThreads;
use crate::wait::{Token, Wait};
use crate::zero_copy_send::Sendable;
use std::cmp::Ordering;
use std::fmt::{self, Debug};
use std::hash::{Hash, Hasher};
use std::marker::PhantomData;
use std::ptr;
use std::task::Waker;

/// Servers and pending responses of services that threads share.
///
/// After iceoryx2's bound `SynchronousMultiplexing`, which its servers and pending responses do not satisfy.
pub trait Attachable: Sealed {}
impl<T: Sealed> Attachable for T {}

/// The requirements of a wait set on an attachment.
pub trait Sealed {
    fn notification(&self) -> Box<dyn Notification>;
}

/// An attachment of a wait set, independent of the types of its service.
pub trait Notification {
    /// Returns the address of the service, and the number of the port or the message in it.
    fn identity(&self) -> (usize, u64);

    /// Returns whether there is an event, or else registers the waker.
    fn look(&mut self, waker: &Waker) -> bool;

    /// Removes the registered waker.
    fn leave(&mut self);
}

struct Awaited<Safety: Policy> {
    core: Safety::Ref<Core<Safety>>,
    id: Id,
    wait: Wait,
    token: Token,
}

impl<Safety: Policy> Notification for Awaited<Safety> {
    fn identity(&self) -> (usize, u64) {
        (ptr::from_ref(&*self.core).addr(), self.id.number)
    }

    fn look(&mut self, waker: &Waker) -> bool {
        let mut waker = Some(waker.clone());
        self.core.call(|state| match state.has_come(&self.id, &self.wait) {
            // The guard was leaked, and the port or the message is gone.
            None => false,
            Some(false) => {
                self.token = state.register(self.wait, waker.take().expect("it is taken once"));
                false
            }
            Some(true) => true,
        })
    }

    fn leave(&mut self) {
        let token = std::mem::take(&mut self.token);
        if token != Token::default() {
            let waker = self.core.call(|state| state.unregister(token));
            drop(waker);
        }
    }
}

fn awaited<S: Service>((core, id, wait): (CoreRef<S>, Id, Wait)) -> Box<dyn Notification> {
    Box::new(Awaited::<S::ThreadsafetyPolicy> { core, id, wait, token: Token::default() })
}

impl<S, Q, QH, P, PH> Sealed for Server<S, Q, QH, P, PH>
where
    S: Service<ThreadsafetyPolicy: SharedByThreads>,
    Q: Sendable + ?Sized,
    QH: Sendable,
    P: Sendable + ?Sized,
    PH: Sendable,
{
    fn notification(&self) -> Box<dyn Notification> {
        awaited::<S>(self.attachment())
    }
}

impl<S, Q, QH, P, PH> Sealed for PendingResponse<S, Q, QH, P, PH>
where
    S: Service<ThreadsafetyPolicy: SharedByThreads>,
    Q: Sendable + ?Sized,
    QH: Sendable,
    P: Sendable + ?Sized,
    PH: Sendable,
{
    fn notification(&self) -> Box<dyn Notification> {
        awaited::<S>(self.attachment())
    }
}

/// Keeps something attached to a wait set, until it is dropped.
///
/// iceoryx2's `waitset::WaitSetGuard`.
#[must_use = "an attachment ends with its guard"]
pub struct WaitSetGuard<'waitset, 'attachment, S: Service> {
    pub(super) waitset: &'waitset WaitSet<S>,
    pub(super) number: u64,
    pub(super) attachment: PhantomData<&'attachment ()>,
}

impl<S: Service> Drop for WaitSetGuard<'_, '_, S> {
    fn drop(&mut self) {
        self.waitset.detach(self.number);
    }
}

impl<S: Service> Debug for WaitSetGuard<'_, '_, S> {
    fn fmt(&self, f: &mut fmt::Formatter<'_>) -> fmt::Result {
        write!(f, "WaitSetGuard {{ id: {:?} }}", WaitSetAttachmentId::from_guard(self))
    }
}

/// Names an attachment in callbacks.
///
/// iceoryx2's `waitset::WaitSetAttachmentId`.
pub struct WaitSetAttachmentId<S: Service> {
    pub(super) set: u64,
    pub(super) number: u64,
    pub(super) kind: PhantomData<fn() -> S>,
}

impl<S: Service> WaitSetAttachmentId<S> {
    /// Returns the id of a guard's attachment.
    pub fn from_guard(guard: &WaitSetGuard<'_, '_, S>) -> Self {
        guard.waitset.id(guard.number)
    }

    /// Returns whether the event came from this guard's attachment.
    pub fn has_event_from(&self, guard: &WaitSetGuard<'_, '_, S>) -> bool {
        *self == WaitSetAttachmentId::from_guard(guard)
    }

    fn key(&self) -> (u64, u64) {
        (self.set, self.number)
    }
}

impl<S: Service> Clone for WaitSetAttachmentId<S> {
    fn clone(&self) -> Self {
        *self
    }
}

impl<S: Service> Copy for WaitSetAttachmentId<S> {}

impl<S: Service> PartialEq for WaitSetAttachmentId<S> {
    fn eq(&self, other: &Self) -> bool {
        self.key() == other.key()
    }
}

impl<S: Service> Eq for WaitSetAttachmentId<S> {}

impl<S: Service> PartialOrd for WaitSetAttachmentId<S> {
    fn partial_cmp(&self, other: &Self) -> Option<Ordering> {
        Some(self.cmp(other))
    }
}

impl<S: Service> Ord for WaitSetAttachmentId<S> {
    fn cmp(&self, other: &Self) -> Ordering {
        self.key().cmp(&other.key())
    }
}

impl<S: Service> Hash for WaitSetAttachmentId<S> {
    fn hash<H: Hasher>(&self, state: &mut H) {
        self.key().hash(state);
    }
}

impl<S: Service> Debug for WaitSetAttachmentId<S> {
    fn fmt(&self, f: &mut fmt::Formatter<'_>) -> fmt::Result {
        write!(f, "WaitSetAttachmentId {{ set: {}, number: {} }}", self.set, self.number)
    }
}
