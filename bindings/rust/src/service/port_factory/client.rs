//! Builders of clients.
use super::request_response::PortFactory;
use crate::error::errors;
use crate::hub;
use crate::identifiers::UniqueClientId;
use crate::port::allocation_strategy::AllocationStrategy;
use crate::port::backpressure::{BackpressureFn, Handler};
use crate::port::backpressure_strategy::BackpressureStrategy;
use crate::port::client::Client;
use crate::port::degradation::DegradationFn;
use crate::port::delivery::Delivery;
use crate::raw;
use crate::seats::{ClientSeat, PortSettings};
use crate::service::Service;
use crate::service::dynamic_config::request_response::ClientDetails;
use crate::zero_copy_send::Sendable;
use std::fmt;
use std::sync::Arc;

errors! { ClientCreateError }

/// Why a client is not created.
///
/// iceoryx2's `service::port_factory::client::ClientCreateError`.
#[derive(Debug, Clone, Copy, PartialEq, Eq)]
pub enum ClientCreateError {
    /// There was no memory for the client's requests, or they take more bytes than a `usize` counts. It helps to
    /// preallocate less.
    UnableToCreateDataSegment,
    /// As many clients are connected as the service supports. It helps to drop one with its messages.
    ExceedsMaxSupportedClients,
    /// Never returned here.
    FailedToDeployThreadsafetyPolicy,
    /// The service has given all its numbers, 2 to the 62 of them.
    UnableToCreatePortTag,
}

/// Builds a client.
///
/// iceoryx2's `service::port_factory::client::PortFactoryClient`. It is not `Send`, since a callback need not be.
pub struct PortFactoryClient<
    'factory,
    S: Service,
    Q: Sendable + ?Sized,
    QH: Sendable,
    P: Sendable + ?Sized,
    PH: Sendable,
> {
    factory: &'factory PortFactory<S, Q, QH, P, PH>,
    initial_max_slice_len: usize,
    strategy: BackpressureStrategy,
    allocation: AllocationStrategy,
    preallocation: Option<Box<dyn Fn(usize) -> usize>>,
    handler: Option<Handler>,
}

impl<'factory, S: Service, Q: Sendable + ?Sized, QH: Sendable, P: Sendable + ?Sized, PH: Sendable>
    PortFactoryClient<'factory, S, Q, QH, P, PH>
{
    pub(crate) fn new(factory: &'factory PortFactory<S, Q, QH, P, PH>) -> Self {
        let defaults = &factory.node.config().defaults.request_response;
        PortFactoryClient {
            factory,
            initial_max_slice_len: 1,
            strategy: defaults.client_backpressure_strategy,
            allocation: defaults.client_allocation_strategy,
            preallocation: None,
            handler: None,
        }
    }

    /// Sets the function that answers for how many requests the client has memory. It is given the most that can live
    /// at one time, with which no loan up to the initial length is refused for lack of memory. Its answer is clamped
    /// between 1 and that number.
    pub fn override_request_preallocation<F: Fn(usize) -> usize + 'static>(mut self, callback: F) -> Self {
        self.preallocation = Some(Box::new(callback));
        self
    }

    /// Sets what sends do where a queue of requests is full and does not overflow.
    pub fn backpressure_strategy(mut self, value: BackpressureStrategy) -> Self {
        self.strategy = value;
        self
    }

    /// Takes a handler of degraded connections, which is never called: no connection within a process degrades.
    pub fn set_request_degradation_handler<F: DegradationFn + 'static>(self, _handler: F) -> Self {
        self
    }

    /// Takes a handler of degraded connections, which is never called: no connection within a process degrades.
    pub fn set_response_degradation_handler<F: DegradationFn + 'static>(self, _handler: F) -> Self {
        self
    }

    /// Sets the handler that sends ask where a queue of requests is full and does not overflow.
    pub fn set_backpressure_handler<F: BackpressureFn + 'static>(mut self, handler: F) -> Self {
        self.handler = Some(Arc::new(handler));
        self
    }

    /// Creates the client.
    ///
    /// # Errors
    ///
    /// [`ClientCreateError`], whose variants say when they come and what helps.
    pub fn create(mut self) -> Result<Client<S, Q, QH, P, PH>, ClientCreateError> {
        let opened = &self.factory.opened;
        let core = &opened.core;
        let bytes = core.config.request_message_type_details.bytes(self.initial_max_slice_len);
        // The library refuses what is too large, in the order of its refusals.
        let number_of_requests = hub::worst_case_requests(&core.limits)
            .map_or(0, |worst| self.preallocation.map_or(worst, |it| it(worst).clamp(1, worst)));
        let settings = raw::ClientSettings {
            initial_max_slice_len: bytes.unwrap_or(usize::MAX),
            preallocated_requests: number_of_requests,
            backpressure_strategy: raw::RR_BACKPRESSURE_DISCARD_DATA,
            allocation_strategy: self.allocation.number(),
        };
        let overflows = core.config.enable_safe_overflow_for_requests;
        let delivery = Delivery::new(self.strategy, overflows, self.handler.is_some());
        let most_elements = self.allocation.most_elements(self.initial_max_slice_len);
        let seat = |port: &raw::Id| {
            let details = ClientDetails {
                client_id: UniqueClientId(core.unique_id(port)),
                node_id: opened.node,
                number_of_requests,
                response_buffer_size: core.config.max_response_buffer_size,
                max_slice_len: self.initial_max_slice_len,
            };
            ClientSeat::new(details, PortSettings { delivery, handler: self.handler.take(), most_elements })
        };
        let port = core.call(|state| state.create_client(&settings, seat))?;
        Ok(Client::new(opened.clone(), port))
    }
}

impl<S: Service, Q: Sendable, QH: Sendable, P: Sendable + ?Sized, PH: Sendable>
    PortFactoryClient<'_, S, [Q], QH, P, PH>
{
    /// Sets how many elements a request may have before its slot has to grow.
    pub fn initial_max_slice_len(mut self, value: usize) -> Self {
        self.initial_max_slice_len = value;
        self
    }

    /// Sets whether slots grow for longer requests.
    pub fn allocation_strategy(mut self, value: AllocationStrategy) -> Self {
        self.allocation = value;
        self
    }
}

impl<S: Service, Q: Sendable + ?Sized, QH: Sendable, P: Sendable + ?Sized, PH: Sendable> fmt::Debug
    for PortFactoryClient<'_, S, Q, QH, P, PH>
{
    fn fmt(&self, f: &mut fmt::Formatter<'_>) -> fmt::Result {
        let mut it = f.debug_struct("PortFactoryClient");
        it.field("factory", &self.factory)
            .field("initial_max_slice_len", &self.initial_max_slice_len);
        it.field("backpressure_strategy", &self.strategy)
            .field("allocation_strategy", &self.allocation)
            .finish()
    }
}
