//! Services: their kinds, names, configurations and factories.
pub mod builder;
pub mod dynamic_config;
pub mod header;
pub mod messaging_pattern;
pub mod port_factory;
pub(crate) mod registry;
pub mod service_name;
pub mod static_config;
pub mod threadsafety;

use crate::config::Config;
use messaging_pattern::MessagingPattern;
use registry::World;
use service_name::ServiceName;
use std::convert::Infallible;
use std::fmt::Debug;
use threadsafety::ThreadsafetyPolicy;

mod sealed {
    pub trait Kind {
        const WORLD: super::World;
    }
}

/// A kind of service, which programs name as a type parameter.
///
/// Services of the kinds `ipc` and `ipc_threadsafe` see each other's names, and so do `local` and `local_threadsafe`.
/// All stay in this process. A name belongs to one policy of thread safety at a time, and to one thread if that is
/// [`SingleThreaded`](threadsafety::SingleThreaded): others are refused with `IncompatibleThreadsafetyPolicy`.
///
/// iceoryx2's `service::Service`.
pub trait Service: Debug + Clone + Sized + sealed::Kind + 'static {
    /// The policy by which the ports of the service are shared.
    ///
    /// After iceoryx2's associated type `ArcThreadSafetyPolicy`.
    type ThreadsafetyPolicy: ThreadsafetyPolicy;

    /// Returns whether a service of this name lives, in any thread.
    ///
    /// # Errors
    ///
    /// None.
    fn does_exist(name: &ServiceName, _config: &Config, pattern: MessagingPattern) -> Result<bool, Infallible> {
        Ok(pattern == MessagingPattern::RequestResponse && registry::has(Self::WORLD, name))
    }
}

macro_rules! services {
    ($($(#[$about:meta])* $module:ident: $world:ident $policy:ident,)*) => {
        $(
            $(#[$about])*
            pub mod $module {
                use super::registry::World;
                use super::threadsafety;

                /// Names this kind of service.
                #[derive(Debug, Clone)]
                pub struct Service {}

                impl super::sealed::Kind for Service {
                    const WORLD: World = World::$world;
                }

                impl super::Service for Service {
                    type ThreadsafetyPolicy = threadsafety::$policy;
                }
            }
        )*
    };
}
services! {
    /// Services of one thread.
    ///
    /// iceoryx2's `service::ipc`, without its other processes.
    ipc: Ipc SingleThreaded,
    /// Services that threads share.
    ///
    /// iceoryx2's `service::ipc_threadsafe`, without its other processes.
    ipc_threadsafe: Ipc MutexProtected,
    /// Services of one thread.
    ///
    /// iceoryx2's `service::local`.
    local: Local SingleThreaded,
    /// Services that threads share.
    ///
    /// iceoryx2's `service::local_threadsafe`.
    local_threadsafe: Local MutexProtected,
}
