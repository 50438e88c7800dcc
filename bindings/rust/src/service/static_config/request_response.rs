//! The configuration of a request-response service.
use super::message_type_details::MessageTypeDetails;
use crate::config;
use crate::raw;

/// The limits and types with which a service was created. They never change.
///
/// iceoryx2's `service::static_config::request_response::StaticConfig`.
#[derive(Debug, Clone, PartialEq, Eq)]
pub struct StaticConfig {
    pub(crate) enable_safe_overflow_for_requests: bool,
    pub(crate) enable_safe_overflow_for_responses: bool,
    pub(crate) enable_fire_and_forget_requests: bool,
    pub(crate) max_active_requests_per_client: usize,
    pub(crate) max_loaned_requests: usize,
    pub(crate) max_response_buffer_size: usize,
    pub(crate) max_servers: usize,
    pub(crate) max_clients: usize,
    pub(crate) max_nodes: usize,
    pub(crate) max_borrowed_responses_per_pending_response: usize,
    pub(crate) request_message_type_details: MessageTypeDetails,
    pub(crate) response_message_type_details: MessageTypeDetails,
}

impl StaticConfig {
    /// Returns whether a full queue of requests drops its oldest request for a new one.
    pub fn has_safe_overflow_for_requests(&self) -> bool {
        self.enable_safe_overflow_for_requests
    }

    /// Returns whether a full queue of responses drops its oldest response for a new one.
    pub fn has_safe_overflow_for_responses(&self) -> bool {
        self.enable_safe_overflow_for_responses
    }

    /// Returns whether servers receive requests whose pending response was dropped.
    pub fn does_support_fire_and_forget_requests(&self) -> bool {
        self.enable_fire_and_forget_requests
    }

    /// Returns how many pending responses a client may have, requests a queue, and active requests a server from one
    /// client.
    pub fn max_active_requests_per_client(&self) -> usize {
        self.max_active_requests_per_client
    }

    /// Returns how many requests a client may have on loan.
    pub fn max_loaned_requests(&self) -> usize {
        self.max_loaned_requests
    }

    /// Returns how many responses a queue may have.
    pub fn max_response_buffer_size(&self) -> usize {
        self.max_response_buffer_size
    }

    /// Returns how many servers may be connected.
    pub fn max_servers(&self) -> usize {
        self.max_servers
    }

    /// Returns how many clients may be connected.
    pub fn max_clients(&self) -> usize {
        self.max_clients
    }

    /// Returns how many nodes may have the service open.
    pub fn max_nodes(&self) -> usize {
        self.max_nodes
    }

    /// Returns how many responses from one server a pending response may hold.
    pub fn max_borrowed_responses_per_pending_response(&self) -> usize {
        self.max_borrowed_responses_per_pending_response
    }

    /// Returns the types of requests.
    pub fn request_message_type_details(&self) -> &MessageTypeDetails {
        &self.request_message_type_details
    }

    /// Returns the types of responses.
    pub fn response_message_type_details(&self) -> &MessageTypeDetails {
        &self.response_message_type_details
    }

    /// Returns the limits of the library's hub.
    pub(crate) fn limits(&self, defaults: &config::RequestResponse) -> raw::Limits {
        raw::Limits {
            max_clients: self.max_clients,
            max_servers: self.max_servers,
            max_loaned_requests: self.max_loaned_requests,
            max_active_requests_per_client: self.max_active_requests_per_client,
            max_response_buffer_size: self.max_response_buffer_size,
            max_borrowed_responses_per_pending_response: self.max_borrowed_responses_per_pending_response,
            client_expired_connection_buffer: defaults.client_expired_connection_buffer,
            server_expired_connection_buffer: defaults.server_expired_connection_buffer,
            enable_safe_overflow_for_requests: self.enable_safe_overflow_for_requests,
            enable_safe_overflow_for_responses: self.enable_safe_overflow_for_responses,
            enable_fire_and_forget_requests: self.enable_fire_and_forget_requests,
        }
    }
}
