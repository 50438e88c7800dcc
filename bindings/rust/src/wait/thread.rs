//! Waits of threads. A thread spins for some microseconds and then parks until another one wakes it.
use super::{Token, Wait};
use crate::core::Core;
use crate::policy::Policy;
use crate::state::State;
use std::cell::Cell;
use std::hint;
use std::sync::Arc;
use std::sync::atomic::{AtomicU32, Ordering};
use std::task::{Wake, Waker};
use std::thread::{self, Thread};
use std::time::{Duration, Instant};

/// How long a call waits.
#[derive(Debug, Clone, Copy)]
pub(crate) enum Patience {
    None,
    Until(Instant),
    Endless,
}

impl Patience {
    /// Returns the patience of a call that begins now. A deadline that the clock cannot represent is endless.
    pub fn of(timeout: Duration) -> Self {
        Instant::now().checked_add(timeout).map_or(Patience::Endless, Patience::Until)
    }

    pub fn is_over(self) -> bool {
        match self {
            Patience::None => true,
            Patience::Until(deadline) => deadline <= Instant::now(),
            Patience::Endless => false,
        }
    }

    /// Returns the shorter of two.
    pub fn or_until(self, deadline: Instant) -> Self {
        match self {
            Patience::None => Patience::None,
            Patience::Until(own) => Patience::Until(own.min(deadline)),
            Patience::Endless => Patience::Until(deadline),
        }
    }
}

const EMPTY: u32 = 0;
const PARKED: u32 = 1;
const WOKEN: u32 = 2;

/// How often a thread checks its state before it parks: at first with 1, 2, 4, .. pauses between, and then with a yield
/// between. A hypervisor may stop a processor that pauses for longer.
const LOOKS: u32 = 16;
const PAUSED_LOOKS: u32 = 7;

/// The waker of a thread.
struct Unparker {
    thread: Thread,
    state: AtomicU32,
}

impl Wake for Unparker {
    fn wake(self: Arc<Self>) {
        self.wake_by_ref();
    }

    fn wake_by_ref(self: &Arc<Self>) {
        if self.state.swap(WOKEN, Ordering::AcqRel) == PARKED {
            self.thread.unpark();
        }
    }
}

struct Parts {
    unparker: Arc<Unparker>,
    waker: Waker,
}

thread_local! {
    /// Allocated at the first wait of the thread.
    static PARTS: Cell<Option<Parts>> = const { Cell::new(None) };
}

/// A waker of this thread, and the place where the thread waits for it.
pub(crate) struct Parker(Option<Parts>);

impl Parker {
    /// Borrows the parker of this thread. Where that is in use, since a waker that this thread wakes waits itself, it
    /// makes another one.
    pub fn borrow() -> Self {
        let kept = PARTS.try_with(Cell::take).ok().flatten();
        Parker(Some(kept.unwrap_or_else(|| {
            let unparker = Arc::new(Unparker { thread: thread::current(), state: AtomicU32::new(EMPTY) });
            Parts { waker: Waker::from(unparker.clone()), unparker }
        })))
    }

    fn parts(&self) -> &Parts {
        self.0.as_ref().expect("it has its parts until its drop")
    }

    pub fn waker(&self) -> &Waker {
        &self.parts().waker
    }

    /// Forgets wake-ups that came before.
    pub fn reset(&self) {
        self.parts().unparker.state.store(EMPTY, Ordering::Release);
    }

    /// Waits to be woken. Returns whether it was in time.
    pub fn wait(&self, patience: Patience) -> bool {
        let state = &self.parts().unparker.state;
        spin(|| state.load(Ordering::Acquire) == WOKEN) || self.park(patience)
    }

    /// Waits as `wait`, but does not spin first.
    fn park(&self, patience: Patience) -> bool {
        let state = &self.parts().unparker.state;
        if state
            .compare_exchange(EMPTY, PARKED, Ordering::AcqRel, Ordering::Acquire)
            .is_ok()
        {
            while state.load(Ordering::Acquire) != WOKEN {
                if patience.is_over() {
                    return state.swap(EMPTY, Ordering::AcqRel) == WOKEN;
                }
                park(patience);
            }
        }
        true
    }
}

/// Looks for some microseconds. Returns whether what is looked for came.
fn spin(has_come: impl Fn() -> bool) -> bool {
    (0..LOOKS).any(|look| {
        let has_come = has_come();
        if has_come {
        } else if look < PAUSED_LOOKS {
            (0..1 << look).for_each(|_| hint::spin_loop());
        } else {
            thread::yield_now();
        }
        has_come
    })
}

impl Drop for Parker {
    fn drop(&mut self) {
        // A thread that is ending has no place for it any more.
        let _ = PARTS.try_with(|kept| kept.set(self.0.take()));
    }
}

fn park(patience: Patience) {
    match patience {
        Patience::Until(deadline) => thread::park_timeout(deadline.saturating_duration_since(Instant::now())),
        _ => thread::park(),
    }
}

/// Attempts until something is found, or the patience is over. As long as there is no news, an attempt would find
/// nothing, so that the thread spins before it makes one.
pub(crate) fn block<Safety: Policy, T, E>(
    core: &Core<Safety>,
    wait: Wait,
    patience: Patience,
    has_news: impl Fn() -> bool,
    mut attempt: impl FnMut(&mut State) -> Result<Option<T>, E>,
) -> Result<Option<T>, E> {
    if patience.is_over() {
        return core.call(attempt);
    }
    let parker = Parker::borrow();
    loop {
        let has_spun = !spin(&has_news);
        let token = match attempt_or_register(core, wait, &parker, &mut attempt) {
            Ok(token) => token,
            Err(found) => return found,
        };
        let is_woken = if has_spun { parker.park(patience) } else { parker.wait(patience) };
        if !is_woken {
            // The last attempt and the end of the wait are one critical section, so that nothing is missed.
            let (waker, found) = core.call(|state| (state.unregister(token), attempt(state)));
            drop(waker);
            return found;
        }
    }
}

/// Attempts once, and registers the thread's waker if nothing was found. Returns what was found as an error.
fn attempt_or_register<Safety: Policy, T, E>(
    core: &Core<Safety>,
    wait: Wait,
    parker: &Parker,
    attempt: &mut impl FnMut(&mut State) -> Result<Option<T>, E>,
) -> Result<Token, Result<Option<T>, E>> {
    parker.reset();
    let mut waker = Some(parker.waker().clone());
    core.call(|state| match attempt(state) {
        Ok(None) => Ok(state.register(wait, waker.take().expect("it is taken once"))),
        found => Err(found),
    })
}
