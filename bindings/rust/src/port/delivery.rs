//! Sends that find a queue without room.
use super::SendError;
use super::backpressure::{BackpressureAction, BackpressureInfo};
use super::backpressure_strategy::BackpressureStrategy;
use crate::core::Core;
use crate::policy::Policy;
use crate::seats::PortSettings;
use crate::state::State;
use crate::wait::{Patience, Wait, block};
use std::time::{Duration, Instant};

/// A port's policy at full queues.
#[derive(Debug, Clone, Copy)]
pub(crate) struct Delivery {
    pub strategy: BackpressureStrategy,
    /// Whether a send asks for room first: full queues do not overflow, and are not simply passed over.
    pub asks: bool,
}

impl Delivery {
    pub fn new(strategy: BackpressureStrategy, overflows: bool, has_handler: bool) -> Self {
        let passes_over = strategy == BackpressureStrategy::DiscardData && !has_handler;
        Delivery { strategy, asks: !overflows && !passes_over }
    }
}

/// How long a send waits for room before it asks its handler again.
const PAUSE: Duration = Duration::from_millis(10);

/// The next step of a send.
enum Next {
    PassOver,
    Refuse,
    Wait(Patience),
}

/// A send that found a queue without room.
pub(crate) struct Blocked {
    wait: Wait,
    settings: PortSettings,
    info: BackpressureInfo,
    start: Instant,
}

impl Blocked {
    pub fn new(wait: Wait, settings: PortSettings, sender: u128, receiver: u128) -> Self {
        let info = BackpressureInfo {
            sender_port_id: sender,
            receiver_port_id: receiver,
            retries: 0,
            elapsed_time: Duration::ZERO,
        };
        Blocked { wait, settings, info, start: Instant::now() }
    }

    /// Asks the handler, if there is one, whose answer may be the strategy.
    fn ask(&mut self) -> BackpressureAction {
        let Some(handler) = &self.settings.handler else { return BackpressureAction::FollowBackpressureStrategy };
        self.info.elapsed_time = self.start.elapsed();
        let action = handler(&self.info);
        self.info.retries += 1;
        action
    }

    fn next(&mut self, is_shared: bool) -> Next {
        use BackpressureAction::{DiscardData, DiscardDataAndFail, FollowBackpressureStrategy, Retry};
        let pause = match (is_shared, &self.settings.handler) {
            (false, _) => Patience::None,
            (true, Some(_)) => Patience::of(PAUSE),
            (true, None) => Patience::Endless,
        };
        match (self.ask(), self.settings.delivery.strategy) {
            (DiscardData, _) | (FollowBackpressureStrategy, BackpressureStrategy::DiscardData) => Next::PassOver,
            (DiscardDataAndFail, _) => Next::Refuse,
            (FollowBackpressureStrategy, BackpressureStrategy::RetryUntilDelivered) if !is_shared => Next::Refuse,
            (Retry | FollowBackpressureStrategy, _) => Next::Wait(pause),
        }
    }

    /// Asks once whether the full queues are passed over.
    pub fn passes_over(mut self) -> bool {
        matches!(self.next(false), Next::PassOver)
    }

    /// Attempts until the message is sent or refused. An attempt that `asks` returns `None` where there is no room; one
    /// that fails has released the message, as does `release`.
    pub fn deliver<Safety: Policy, T, E: From<SendError>>(
        mut self,
        core: &Core<Safety>,
        mut attempt: impl FnMut(&mut State, bool) -> Result<Option<T>, E>,
        release: impl FnOnce(&mut State),
    ) -> Result<T, E> {
        loop {
            let sent = match self.next(Safety::IS_SHARED) {
                Next::PassOver => core.call(|state| attempt(state, false))?,
                Next::Wait(patience) => block(core, self.wait, patience, || true, |state| attempt(state, true))?,
                Next::Refuse => {
                    core.call(release);
                    return Err(SendError::UnableToDeliver.into());
                }
            };
            if let Some(sent) = sent {
                return Ok(sent);
            }
        }
    }
}
