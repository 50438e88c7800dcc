//! Waits of tasks.
use super::{Token, Wait};
use crate::core::Core;
use crate::policy::Policy;
use crate::state::State;
use std::task::{Context, Poll};

/// The wait of a future. Dropping the future removes it.
#[derive(Debug, Default)]
pub(crate) struct Turn {
    token: Token,
}

impl Turn {
    /// Attempts once, and registers the task's waker in place of an earlier one if nothing was found.
    pub fn poll<Safety: Policy, T, E>(
        &mut self,
        core: &Core<Safety>,
        wait: Wait,
        context: &mut Context<'_>,
        attempt: impl FnOnce(&mut State) -> Result<Option<T>, E>,
    ) -> Poll<Result<T, E>> {
        let mut waker = Some(context.waker().clone());
        let (found, earlier) = core.call(|state| {
            let earlier = state.unregister(self.token);
            let found = attempt(state);
            self.token = match &found {
                Ok(None) => state.register(wait, waker.take().expect("it is taken once")),
                _ => Token::default(),
            };
            (found, earlier)
        });
        drop((waker, earlier));
        match found.transpose() {
            None => Poll::Pending,
            Some(found) => Poll::Ready(found),
        }
    }

    /// Removes the wait.
    pub fn end<Safety: Policy>(&mut self, core: &Core<Safety>) {
        if self.token != Token::default() {
            let waker = core.call(|state| state.unregister(self.token));
            drop(waker);
        }
    }
}
