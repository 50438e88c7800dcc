//! Policies of thread safety: how a service is shared, kept and found by its name.
use crate::core::Core;
use crate::service::registry::Key;
use crate::service::threadsafety::{MutexProtected, SingleThreaded};
use std::cell::RefCell;
use std::collections::BTreeMap;
use std::fmt::Debug;
use std::ops::Deref;
use std::rc::{self, Rc};
use std::sync::{self, Arc, Mutex, PoisonError};
use std::thread::{self, ThreadId};

/// The services of a policy by name, as far as this thread may use them.
pub type Services<Safety> = BTreeMap<Key, <Safety as Policy>::Weak<Core<Safety>>>;

/// The crate's requirements on a policy of thread safety.
pub trait Policy: Debug + Sized + 'static {
    /// Whether several threads may use a service, so that a thread can wait for what another one does.
    const IS_SHARED: bool;

    /// A counted reference.
    type Ref<T: 'static>: Deref<Target = T> + Clone;
    /// A reference that keeps nothing.
    type Weak<T: 'static>;
    /// A place that one call at a time changes.
    type Cell<T: 'static>;

    fn share<T: 'static>(value: T) -> Self::Ref<T>;
    fn downgrade<T: 'static>(of: &Self::Ref<T>) -> Self::Weak<T>;
    fn upgrade<T: 'static>(of: &Self::Weak<T>) -> Option<Self::Ref<T>>;
    fn cell<T: 'static>(value: T) -> Self::Cell<T>;

    /// Runs a function on the value of the cell. The function must not use the cell itself.
    fn with<T: 'static, R>(cell: &Self::Cell<T>, change: impl FnOnce(&mut T) -> R) -> R;

    /// Runs a function on the map of services. Returns `None` if this thread is ending and its map is gone.
    fn with_services<R>(change: impl FnOnce(&mut Services<Self>) -> R) -> Option<R>;

    /// Returns the thread to which a service of this policy belongs, if it belongs to one.
    fn thread() -> Option<ThreadId>;
}

thread_local! {
    static OF_THIS_THREAD: RefCell<Services<SingleThreaded>> = const { RefCell::new(BTreeMap::new()) };
}

static OF_ALL_THREADS: Mutex<Services<MutexProtected>> = Mutex::new(BTreeMap::new());

impl Policy for SingleThreaded {
    const IS_SHARED: bool = false;
    type Ref<T: 'static> = Rc<T>;
    type Weak<T: 'static> = rc::Weak<T>;
    type Cell<T: 'static> = RefCell<T>;

    fn share<T: 'static>(value: T) -> Rc<T> {
        Rc::new(value)
    }

    fn downgrade<T: 'static>(of: &Rc<T>) -> rc::Weak<T> {
        Rc::downgrade(of)
    }

    fn upgrade<T: 'static>(of: &rc::Weak<T>) -> Option<Rc<T>> {
        of.upgrade()
    }

    fn cell<T: 'static>(value: T) -> RefCell<T> {
        RefCell::new(value)
    }

    #[inline]
    fn with<T: 'static, R>(cell: &RefCell<T>, change: impl FnOnce(&mut T) -> R) -> R {
        change(&mut cell.borrow_mut())
    }

    fn with_services<R>(change: impl FnOnce(&mut Services<Self>) -> R) -> Option<R> {
        OF_THIS_THREAD.try_with(|services| change(&mut services.borrow_mut())).ok()
    }

    fn thread() -> Option<ThreadId> {
        Some(thread::current().id())
    }
}

impl Policy for MutexProtected {
    const IS_SHARED: bool = true;
    type Ref<T: 'static> = Arc<T>;
    type Weak<T: 'static> = sync::Weak<T>;
    type Cell<T: 'static> = Mutex<T>;

    fn share<T: 'static>(value: T) -> Arc<T> {
        Arc::new(value)
    }

    fn downgrade<T: 'static>(of: &Arc<T>) -> sync::Weak<T> {
        Arc::downgrade(of)
    }

    fn upgrade<T: 'static>(of: &sync::Weak<T>) -> Option<Arc<T>> {
        of.upgrade()
    }

    fn cell<T: 'static>(value: T) -> Mutex<T> {
        Mutex::new(value)
    }

    /// A poisoned mutex is taken as it is: a call that panics leaves the state as the library left it.
    #[inline]
    fn with<T: 'static, R>(cell: &Mutex<T>, change: impl FnOnce(&mut T) -> R) -> R {
        change(&mut cell.lock().unwrap_or_else(PoisonError::into_inner))
    }

    fn with_services<R>(change: impl FnOnce(&mut Services<Self>) -> R) -> Option<R> {
        Some(change(&mut OF_ALL_THREADS.lock().unwrap_or_else(PoisonError::into_inner)))
    }

    fn thread() -> Option<ThreadId> {
        None
    }
}
