//! The ports of a request-response service.
use crate::callback_progression::CallbackProgression;
use crate::core::CoreRef;
use crate::identifiers::{UniqueClientId, UniqueNodeId, UniqueServerId};
use crate::service::Service;
use std::fmt;

/// A connected client.
///
/// iceoryx2's `ClientDetails`.
#[derive(Debug, Clone, Copy, PartialEq, Eq)]
pub struct ClientDetails {
    /// The id of the client.
    pub client_id: UniqueClientId,
    /// The id of its node.
    pub node_id: UniqueNodeId,
    /// How many requests it has memory for.
    pub number_of_requests: usize,
    /// How many responses a queue towards it may have.
    pub response_buffer_size: usize,
    /// How many elements a request may have before its slot grows.
    pub max_slice_len: usize,
}

/// A connected server.
///
/// iceoryx2's `ServerDetails`.
#[derive(Debug, Clone, Copy, PartialEq, Eq)]
pub struct ServerDetails {
    /// The id of the server.
    pub server_id: UniqueServerId,
    /// The id of its node.
    pub node_id: UniqueNodeId,
    /// How many requests a queue towards it may have.
    pub request_buffer_size: usize,
    /// How many responses it has memory for.
    pub number_of_responses: usize,
    /// How many elements a response may have before its slot grows.
    pub max_slice_len: usize,
}

/// The ports that a service has now. A port is connected as long as it or a message of it lives.
///
/// iceoryx2's `service::dynamic_config::request_response::DynamicConfig`.
pub struct DynamicConfig<S: Service> {
    pub(crate) core: CoreRef<S>,
}

impl<S: Service> DynamicConfig<S> {
    /// Returns how many clients are connected.
    pub fn number_of_clients(&self) -> usize {
        self.core.call(|state| state.clients.taken().count())
    }

    /// Returns how many servers are connected.
    pub fn number_of_servers(&self) -> usize {
        self.core.call(|state| state.servers.taken().count())
    }

    /// Calls the function with each client that was connected at the call, until it stops.
    pub fn list_clients<F: FnMut(&ClientDetails) -> CallbackProgression>(&self, mut callback: F) {
        let clients: Vec<_> = self.core.call(|state| state.clients.taken().map(|it| it.details).collect());
        let _ = clients.iter().any(|it| callback(it) == CallbackProgression::Stop);
    }

    /// Calls the function with each server that was connected at the call, until it stops.
    pub fn list_servers<F: FnMut(&ServerDetails) -> CallbackProgression>(&self, mut callback: F) {
        let servers: Vec<_> = self.core.call(|state| state.servers.taken().map(|it| it.details).collect());
        let _ = servers.iter().any(|it| callback(it) == CallbackProgression::Stop);
    }
}

impl<S: Service> fmt::Debug for DynamicConfig<S> {
    fn fmt(&self, f: &mut fmt::Formatter<'_>) -> fmt::Result {
        let mut it = f.debug_struct("DynamicConfig");
        it.field("number_of_clients", &self.number_of_clients());
        it.field("number_of_servers", &self.number_of_servers()).finish()
    }
}
