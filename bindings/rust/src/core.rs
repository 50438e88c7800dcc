//! A service: its state, which its lock guards, and its constants.
use crate::hub::Hub;
use crate::policy::Policy;
use crate::raw::{self, Id};
use crate::service::registry::{self, World};
use crate::service::service_name::ServiceName;
use crate::service::static_config::request_response::StaticConfig;
use crate::state::State;
use crate::wait::{Dues, News};
use std::sync::Arc;
use std::sync::atomic::{AtomicU64, Ordering};

/// A service of this process. It lives as long as a port factory, a port or a message of it.
pub struct Core<Safety: Policy> {
    state: Safety::Cell<State>,
    pub(crate) news: Arc<News>,
    /// The service's number in this process, which no other one has.
    pub(crate) serial: u64,
    world: World,
    pub(crate) name: ServiceName,
    pub(crate) config: StaticConfig,
    pub(crate) limits: raw::Limits,
}

/// A reference to the service of a kind of service.
pub(crate) type CoreRef<S> = <PolicyOf<S> as Policy>::Ref<Core<PolicyOf<S>>>;
pub(crate) type PolicyOf<S> = <S as crate::service::Service>::ThreadsafetyPolicy;

impl<Safety: Policy> Core<Safety> {
    /// Creates a service, unless the library refuses its limits or has no memory.
    pub(crate) fn create(
        world: World,
        name: &ServiceName,
        config: StaticConfig,
        limits: raw::Limits,
    ) -> Option<Safety::Ref<Self>> {
        static SERIALS: AtomicU64 = AtomicU64::new(1);
        let hub = Hub::create(&limits)?;
        let news = Arc::new(News::default());
        Some(Safety::share(Core {
            state: Safety::cell(State::new(hub, news.clone())),
            news,
            serial: SERIALS.fetch_add(1, Ordering::Relaxed),
            world,
            name: name.clone(),
            config,
            limits,
        }))
    }

    /// Runs a function under the lock, and then wakes the waits that it ended.
    ///
    /// The function runs no code of a user: it clones, wakes and drops no waker, and drops no handler and no value.
    #[inline]
    pub(crate) fn call<R>(&self, change: impl FnOnce(&mut State) -> R) -> R {
        let (result, due) = Safety::with(&self.state, |state| {
            let result = change(state);
            (result, if state.is_due() { Some(state.take_due()) } else { None })
        });
        if let Some(due) = due {
            self.settle(due);
        }
        result
    }

    /// Carries out what is due, outside the lock.
    #[cold]
    fn settle(&self, due: Dues) {
        let mut has_more = due.carry_out();
        while has_more {
            has_more = Safety::with(&self.state, State::take_due).carry_out();
        }
    }

    /// Returns a number for a port that no other port of the process has.
    pub(crate) fn unique(&self, number: u64) -> u128 {
        u128::from(self.serial) << 64 | u128::from(number)
    }

    /// Returns such a number for the port of an id.
    pub(crate) fn unique_id(&self, port: &Id) -> u128 {
        self.unique(port.number)
    }
}

impl<Safety: Policy> Drop for Core<Safety> {
    fn drop(&mut self) {
        registry::forget::<Safety>(self.world, &self.name, self.serial);
    }
}
