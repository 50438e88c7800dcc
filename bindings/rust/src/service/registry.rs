//! The services of this process, by name.
//!
//! `NAMES` maps each name to its holder: a thread, or all threads. The map of a policy leads to the service itself
//! (`Policy::with_services`), and does not keep it alive: port factories, ports and messages do. `NAMES` is locked
//! first. No reference to a service is dropped under either lock, since the last one takes the name out here.
use crate::core::Core;
use crate::identifiers::UniqueNodeId;
use crate::policy::Policy;
use crate::service::service_name::ServiceName;
use std::collections::BTreeMap;
use std::sync::{Mutex, MutexGuard, PoisonError};
use std::thread::ThreadId;

/// A namespace of services.
#[derive(Debug, Clone, Copy, PartialEq, Eq, PartialOrd, Ord)]
pub enum World {
    /// `ipc` and `ipc_threadsafe`.
    Ipc,
    /// `local` and `local_threadsafe`.
    Local,
}

/// The key of a service.
pub type Key = (World, ServiceName);

/// The holder of a name.
struct Holder {
    /// The service's number.
    serial: u64,
    /// Its thread, if the service belongs to one.
    thread: Option<ThreadId>,
}

type Names = BTreeMap<Key, Holder>;

static NAMES: Mutex<Names> = Mutex::new(BTreeMap::new());

fn names() -> MutexGuard<'static, Names> {
    NAMES.lock().unwrap_or_else(PoisonError::into_inner)
}

/// The result of a search by name.
pub(crate) enum Found<Safety: Policy> {
    /// This thread may use it.
    Here(Safety::Ref<Core<Safety>>),
    /// Another thread or another policy has the name.
    Elsewhere,
    Nowhere,
}

/// Returns whether any service has the name.
pub(crate) fn has(world: World, name: &ServiceName) -> bool {
    names().contains_key(&(world, name.clone()))
}

pub(crate) fn find<Safety: Policy>(world: World, name: &ServiceName) -> Found<Safety> {
    look_up(&names(), &(world, name.clone()))
}

fn look_up<Safety: Policy>(names: &Names, key: &Key) -> Found<Safety> {
    match names.get(key) {
        None => Found::Nowhere,
        Some(holder) if holder.thread != Safety::thread() => Found::Elsewhere,
        // A service whose last reference is being dropped is not found.
        Some(_) => Safety::with_services(|services| services.get(key).and_then(Safety::upgrade))
            .flatten()
            .map_or(Found::Nowhere, Found::Here),
    }
}

/// The result of entering a name.
pub(crate) enum Entered<Safety: Policy> {
    New(Safety::Ref<Core<Safety>>),
    Old(Safety::Ref<Core<Safety>>),
    /// Another thread or another policy has the name.
    Elsewhere,
    /// The service was not made, or this thread is ending and has no map of services any more.
    Failed,
}

/// Finds a service, or enters the one that the function makes, in one critical section.
pub(crate) fn find_or_enter<Safety: Policy>(
    world: World,
    name: &ServiceName,
    make: impl FnOnce() -> Option<Safety::Ref<Core<Safety>>>,
) -> Entered<Safety> {
    let mut names = names();
    let key = (world, name.clone());
    match look_up::<Safety>(&names, &key) {
        Found::Here(core) => return Entered::Old(core),
        Found::Elsewhere => return Entered::Elsewhere,
        Found::Nowhere => {}
    }
    let has_map = Safety::with_services(|_| ()).is_some();
    let Some(core) = has_map.then(make).flatten() else { return Entered::Failed };
    Safety::with_services(|services| services.insert(key.clone(), Safety::downgrade(&core)));
    names.insert(key, Holder { serial: core.serial, thread: Safety::thread() });
    Entered::New(core)
}

/// Takes out the name of a service that is being dropped, unless another one has it by now.
pub(crate) fn forget<Safety: Policy>(world: World, name: &ServiceName, serial: u64) {
    let mut names = names();
    let key = (world, name.clone());
    if names.get(&key).is_some_and(|it| it.serial == serial) {
        names.remove(&key);
        Safety::with_services(|services| services.remove(&key));
    }
}

/// A service that a node has open: the node's factories and ports share it.
pub struct Opened<Safety: Policy> {
    pub(crate) core: Safety::Ref<Core<Safety>>,
    pub(crate) node: UniqueNodeId,
}

impl<Safety: Policy> Opened<Safety> {
    /// Counts the node in, unless as many have the service open as may.
    pub fn new(core: Safety::Ref<Core<Safety>>, node: UniqueNodeId) -> Option<Safety::Ref<Self>> {
        let most = core.config.max_nodes;
        let is_in = core.call(|state| state.enter_node(node, most));
        is_in.then(|| Safety::share(Opened { core, node }))
    }
}

impl<Safety: Policy> Drop for Opened<Safety> {
    fn drop(&mut self) {
        self.core.call(|state| state.leave_node(self.node));
    }
}
