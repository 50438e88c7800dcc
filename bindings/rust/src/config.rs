//! Defaults of services and ports.
use crate::port::allocation_strategy::AllocationStrategy;
use crate::port::backpressure_strategy::BackpressureStrategy;
use std::sync::OnceLock;

/// The configuration of a node.
///
/// iceoryx2's `config::Config`, as far as request-response services of one process use it.
#[derive(Debug, Clone, Default, PartialEq)]
pub struct Config {
    /// The defaults of services and ports, which their builders may override.
    pub defaults: Defaults,
}

/// The defaults of each messaging pattern.
///
/// iceoryx2's `config::Defaults`.
#[derive(Debug, Clone, Default, PartialEq)]
pub struct Defaults {
    /// The defaults of request-response services.
    pub request_response: RequestResponse,
}

/// The defaults of request-response services and their ports.
///
/// iceoryx2's `config::RequestResponse`, with its values.
#[derive(Debug, Clone, PartialEq)]
pub struct RequestResponse {
    /// Whether a full queue of requests drops its oldest request for a new one.
    pub enable_safe_overflow_for_requests: bool,
    /// Whether a full queue of responses drops its oldest response for a new one.
    pub enable_safe_overflow_for_responses: bool,
    /// Whether servers receive requests whose pending response was dropped.
    pub enable_fire_and_forget_requests: bool,
    /// Pending responses of a client, requests in a queue, and active requests of a server from one client.
    pub max_active_requests_per_client: usize,
    /// Responses in a queue.
    pub max_response_buffer_size: usize,
    /// Connected servers.
    pub max_servers: usize,
    /// Connected clients.
    pub max_clients: usize,
    /// Nodes that have the service open.
    pub max_nodes: usize,
    /// Responses from one server that a pending response holds.
    pub max_borrowed_responses_per_pending_response: usize,
    /// Requests of a client that are on loan.
    pub max_loaned_requests: usize,
    /// Responses to one request that are on loan.
    pub server_max_loaned_responses_per_request: usize,
    /// The policy of clients at a full queue of requests.
    pub client_backpressure_strategy: BackpressureStrategy,
    /// The policy of servers at a full queue of responses.
    pub server_backpressure_strategy: BackpressureStrategy,
    /// Whether a client's slots grow.
    pub client_allocation_strategy: AllocationStrategy,
    /// Whether a server's slots grow.
    pub server_allocation_strategy: AllocationStrategy,
    /// Servers that left and whose responses a client keeps.
    pub client_expired_connection_buffer: usize,
    /// Clients that left and whose requests a server keeps.
    pub server_expired_connection_buffer: usize,
}

impl Default for RequestResponse {
    fn default() -> Self {
        RequestResponse {
            enable_safe_overflow_for_requests: true,
            enable_safe_overflow_for_responses: true,
            enable_fire_and_forget_requests: true,
            max_active_requests_per_client: 4,
            max_response_buffer_size: 2,
            max_servers: 2,
            max_clients: 8,
            max_nodes: 20,
            max_borrowed_responses_per_pending_response: 2,
            max_loaned_requests: 2,
            server_max_loaned_responses_per_request: 2,
            client_backpressure_strategy: BackpressureStrategy::RetryUntilDelivered,
            server_backpressure_strategy: BackpressureStrategy::RetryUntilDelivered,
            client_allocation_strategy: AllocationStrategy::Static,
            server_allocation_strategy: AllocationStrategy::Static,
            client_expired_connection_buffer: 128,
            server_expired_connection_buffer: 128,
        }
    }
}

impl Config {
    /// Returns the configuration of nodes that were given none.
    ///
    /// iceoryx2's `Config::global_config`, which reads a file where there is one.
    pub fn global_config() -> &'static Config {
        static GLOBAL: OnceLock<Config> = OnceLock::new();
        GLOBAL.get_or_init(Config::default)
    }
}
