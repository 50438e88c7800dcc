//! Waits for several servers and pending responses at once, of any services that threads share.
//!
//! ```
//! # extern crate rr as iceoryx2;
//! use iceoryx2::prelude::*;
//!
//! fn main() -> Result<(), Box<dyn core::error::Error>> {
//!     let node = NodeBuilder::new().create::<ipc_threadsafe::Service>()?;
//!     let lengths = node.service_builder(&"lengths".try_into()?).request_response::<[u8], u64>().open_or_create()?;
//!     let halves = node.service_builder(&"halves".try_into()?).request_response::<f64, f64>().open_or_create()?;
//!     let (length_server, half_server) = (lengths.server_builder().create()?, halves.server_builder().create()?);
//!     let pending_response = halves.client_builder().create()?.send_copy(9.0)?;
//!
//!     let waitset = WaitSetBuilder::new().create::<ipc_threadsafe::Service>()?;
//!     let length_guard = waitset.attach_notification(&length_server)?;
//!     let half_guard = waitset.attach_notification(&half_server)?;
//!     waitset.wait_and_process(|id| {
//!         assert!(!id.has_event_from(&length_guard));
//!         if id.has_event_from(&half_guard) {
//!             let active_request = half_server.receive().unwrap().unwrap();
//!             active_request.send_copy(*active_request / 2.0).unwrap();
//!         }
//!         CallbackProgression::Stop
//!     })?;
//!     assert_eq!(*pending_response.receive()?.unwrap(), 4.5);
//!     Ok(())
//! }
//! ```
mod attachment;
mod errors;

pub use attachment::{Attachable, WaitSetAttachmentId, WaitSetGuard};
pub use errors::{WaitSetAttachmentError, WaitSetCreateError, WaitSetRunError, WaitSetRunResult};

use crate::callback_progression::CallbackProgression;
use crate::service::Service;
use crate::service::threadsafety::SharedByThreads;
use crate::signal_handling_mode::{SLICE, Signal, SignalHandlingMode};
use crate::wait::{Parker, Patience};
use attachment::Notification;
use std::cell::{Cell, RefCell};
use std::fmt::{self, Debug};
use std::marker::PhantomData;
use std::sync::atomic::{AtomicU64, Ordering};
use std::task::Waker;
use std::time::{Duration, Instant};

/// Builds a wait set.
///
/// iceoryx2's `waitset::WaitSetBuilder`.
#[derive(Debug, Clone, Default)]
pub struct WaitSetBuilder {
    mode: SignalHandlingMode,
}

impl WaitSetBuilder {
    /// Begins to build a wait set whose waits end at signals.
    pub fn new() -> Self {
        WaitSetBuilder::default()
    }

    /// Sets whether waits end at signals.
    pub fn signal_handling_mode(mut self, value: SignalHandlingMode) -> Self {
        self.mode = value;
        self
    }

    /// Creates a wait set, for services that threads share.
    ///
    /// # Errors
    ///
    /// None here. The type is iceoryx2's.
    ///
    /// # Examples
    ///
    /// On services of one thread nobody waits:
    ///
    /// ```compile_fail,E0277
    /// # extern crate rr as iceoryx2;
    /// # use iceoryx2::prelude::*;
    /// let waitset = WaitSetBuilder::new().create::<ipc::Service>();
    /// ```
    pub fn create<S: Service>(self) -> Result<WaitSet<S>, WaitSetCreateError>
    where
        S::ThreadsafetyPolicy: SharedByThreads,
    {
        static SETS: AtomicU64 = AtomicU64::new(0);
        let set = SETS.fetch_add(1, Ordering::Relaxed);
        let attachments = RefCell::new(Vec::new());
        Ok(WaitSet { set, attachments, attached: Cell::new(0), mode: self.mode, kind: PhantomData })
    }
}

/// A list of servers and pending responses, and of intervals, for which a thread waits.
///
/// An attachment has an event as long as something is queued for it; a pending response also when no response can come
/// any more, and an interval once for each time that it elapses. So a callback is called again for what it leaves
/// queued.
///
/// iceoryx2's `waitset::WaitSet`. There, listeners are attached.
pub struct WaitSet<S: Service> {
    set: u64,
    attachments: RefCell<Vec<Attachment>>,
    /// How many attachments there were.
    attached: Cell<u64>,
    mode: SignalHandlingMode,
    kind: PhantomData<fn() -> S>,
}

struct Attachment {
    number: u64,
    source: Source,
}

enum Source {
    Notification(Box<dyn Notification>),
    Interval { every: Duration, next: Instant },
}

impl<S: Service> WaitSet<S> {
    /// Attaches a server or a pending response, until the guard is dropped.
    ///
    /// # Errors
    ///
    /// [`WaitSetAttachmentError::AlreadyAttached`].
    pub fn attach_notification<'waitset, 'attachment, T: Attachable>(
        &'waitset self,
        attachment: &'attachment T,
    ) -> Result<WaitSetGuard<'waitset, 'attachment, S>, WaitSetAttachmentError> {
        let notification = attachment.notification();
        let is_it = |it: &Attachment| match &it.source {
            Source::Notification(other) => other.identity() == notification.identity(),
            Source::Interval { .. } => false,
        };
        if self.attachments.borrow().iter().any(is_it) {
            return Err(WaitSetAttachmentError::AlreadyAttached);
        }
        Ok(self.attach(Source::Notification(notification)))
    }

    /// Attaches an interval, which has an event each time that it elapses. Events that came late are made up by one.
    ///
    /// # Errors
    ///
    /// None here. The type is iceoryx2's.
    pub fn attach_interval(&self, interval: Duration) -> Result<WaitSetGuard<'_, 'static, S>, WaitSetAttachmentError> {
        let next = later(Instant::now(), interval);
        Ok(self.attach(Source::Interval { every: interval, next }))
    }

    fn attach<'attachment>(&self, source: Source) -> WaitSetGuard<'_, 'attachment, S> {
        let number = self.attached.replace(self.attached.get() + 1);
        self.attachments.borrow_mut().push(Attachment { number, source });
        WaitSetGuard { waitset: self, number, attachment: PhantomData }
    }

    /// Detaches what has this number. It is dropped outside of the list.
    fn detach(&self, number: u64) {
        let mut attachments = self.attachments.borrow_mut();
        let at = attachments.iter().position(|it| it.number == number);
        let detached = at.map(|at| attachments.remove(at));
        drop(attachments);
        drop(detached);
    }

    /// Returns how many things are attached.
    pub fn len(&self) -> usize {
        self.attachments.borrow().len()
    }

    /// Returns whether nothing is attached.
    pub fn is_empty(&self) -> bool {
        self.len() == 0
    }

    /// Returns how many things can be attached: as many as memory allows.
    pub fn capacity(&self) -> usize {
        usize::MAX
    }

    /// Returns whether waits end at signals.
    pub fn signal_handling_mode(&self) -> SignalHandlingMode {
        self.mode
    }

    /// Waits for events and calls the function for each, again and again, until it stops or a signal comes.
    ///
    /// # Errors
    ///
    /// [`WaitSetRunError::NoAttachments`].
    pub fn wait_and_process<F: FnMut(WaitSetAttachmentId<S>) -> CallbackProgression>(
        &self,
        mut callback: F,
    ) -> Result<WaitSetRunResult, WaitSetRunError> {
        loop {
            match self.process_once(&mut callback, Patience::Endless)? {
                WaitSetRunResult::AllEventsHandled => {}
                ended => return Ok(ended),
            }
        }
    }

    /// Waits until there are events, and calls the function once for each.
    ///
    /// # Errors
    ///
    /// [`WaitSetRunError::NoAttachments`].
    pub fn wait_and_process_once<F: FnMut(WaitSetAttachmentId<S>) -> CallbackProgression>(
        &self,
        mut callback: F,
    ) -> Result<WaitSetRunResult, WaitSetRunError> {
        self.process_once(&mut callback, Patience::Endless)
    }

    /// Waits until there are events, but no longer than this, and calls the function once for each.
    ///
    /// # Errors
    ///
    /// [`WaitSetRunError::NoAttachments`].
    pub fn wait_and_process_once_with_timeout<F: FnMut(WaitSetAttachmentId<S>) -> CallbackProgression>(
        &self,
        mut callback: F,
        timeout: Duration,
    ) -> Result<WaitSetRunResult, WaitSetRunError> {
        self.process_once(&mut callback, Patience::of(timeout))
    }

    fn process_once(
        &self,
        callback: &mut impl FnMut(WaitSetAttachmentId<S>) -> CallbackProgression,
        patience: Patience,
    ) -> Result<WaitSetRunResult, WaitSetRunError> {
        if self.is_empty() {
            return Err(WaitSetRunError::NoAttachments);
        }
        let events = match self.wait(patience) {
            Ok(events) => events,
            Err(signal) => return Ok(signal.into()),
        };
        let stops = events
            .into_iter()
            .any(|number| callback(self.id(number)) == CallbackProgression::Stop);
        Ok(if stops { WaitSetRunResult::StopRequest } else { WaitSetRunResult::AllEventsHandled })
    }

    fn id(&self, number: u64) -> WaitSetAttachmentId<S> {
        WaitSetAttachmentId { set: self.set, number, kind: PhantomData }
    }

    /// Waits until attachments have events, and returns their numbers: none if the patience is over.
    fn wait(&self, patience: Patience) -> Result<Vec<u64>, Signal> {
        let parker = Parker::borrow();
        loop {
            if let Some(signal) = self.mode.received() {
                return Err(signal);
            }
            parker.reset();
            let events = self.look(parker.waker());
            if !events.is_empty() || patience.is_over() {
                self.leave();
                return Ok(events);
            }
            parker.wait(self.until(patience));
            self.leave();
        }
    }

    /// Returns the numbers of the attachments with an event, and registers the waker with all others.
    fn look(&self, waker: &Waker) -> Vec<u64> {
        let now = Instant::now();
        let mut attachments = self.attachments.borrow_mut();
        let with_event = attachments
            .iter_mut()
            .filter_map(|it| it.source.look(waker, now).then_some(it.number));
        with_event.collect()
    }

    /// Takes back the waits of all attachments.
    fn leave(&self) {
        for attachment in self.attachments.borrow_mut().iter_mut() {
            if let Source::Notification(notification) = &mut attachment.source {
                notification.leave();
            }
        }
    }

    /// Returns how long the thread parks at most: to the next interval, or until it looks for signals.
    fn until(&self, patience: Patience) -> Patience {
        let look = self.mode.handles_signals().then(|| Instant::now() + SLICE);
        let attachments = self.attachments.borrow();
        let intervals = attachments.iter().filter_map(|it| match it.source {
            Source::Interval { next, .. } => Some(next),
            Source::Notification(_) => None,
        });
        intervals.chain(look).fold(patience, Patience::or_until)
    }
}

/// Adds a duration to a time. If the clock cannot represent the sum, it is a year.
fn later(time: Instant, by: Duration) -> Instant {
    const LONG: Duration = Duration::from_secs(60 * 60 * 24 * 365);
    time.checked_add(by).unwrap_or(time + LONG)
}

impl Source {
    /// Returns whether there is an event, or else registers the waker.
    fn look(&mut self, waker: &Waker, now: Instant) -> bool {
        match self {
            Source::Notification(notification) => notification.look(waker),
            Source::Interval { every, next } => {
                let has_elapsed = *next <= now;
                if has_elapsed {
                    let following = later(*next, *every);
                    *next = if following <= now { later(now, *every) } else { following };
                }
                has_elapsed
            }
        }
    }
}

impl<S: Service> Debug for WaitSet<S> {
    fn fmt(&self, f: &mut fmt::Formatter<'_>) -> fmt::Result {
        f.debug_struct("WaitSet")
            .field("len", &self.len())
            .field("signal_handling_mode", &self.mode)
            .finish()
    }
}
