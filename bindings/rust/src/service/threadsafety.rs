//! The two policies of thread safety: ports of one thread, and ports that threads share.
//!
//! | Kind of service | Policy | Ports and messages |
//! |---|---|---|
//! | [`ipc::Service`](super::ipc::Service), [`local::Service`](super::local::Service) | [`SingleThreaded`] | stay in their thread; calls take no lock |
//! | [`ipc_threadsafe::Service`](super::ipc_threadsafe::Service), [`local_threadsafe::Service`](super::local_threadsafe::Service) | [`MutexProtected`] | are `Send` and `Sync`; each call takes the service's lock once |
use crate::policy::Policy;

/// A policy of thread safety. The two that exist are those of this module.
///
/// After the policies of iceoryx2's associated type `Service::ArcThreadSafetyPolicy`.
pub trait ThreadsafetyPolicy: Policy {}

/// All ports of a service belong to the thread that created it.
///
/// After iceoryx2's policy of the same name.
#[derive(Debug)]
pub enum SingleThreaded {}

/// Threads share the ports of a service, whose state lies in a `std::sync::Mutex`.
///
/// After iceoryx2's policy of the same name.
#[derive(Debug)]
pub enum MutexProtected {}

impl ThreadsafetyPolicy for SingleThreaded {}
impl ThreadsafetyPolicy for MutexProtected {}

/// Policies of services on which a thread can wait for another one: [`MutexProtected`] alone.
///
/// Not in iceoryx2.
#[diagnostic::on_unimplemented(
    message = "a thread cannot wait on a service of one thread",
    label = "this waits for another thread, and `{Self}` lets no other thread use the service",
    note = "use `ipc_threadsafe::Service` or `local_threadsafe::Service`, or `receive` and `async_receive`"
)]
pub trait SharedByThreads: ThreadsafetyPolicy {}

impl SharedByThreads for MutexProtected {}
