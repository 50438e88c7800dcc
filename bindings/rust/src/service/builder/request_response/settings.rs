//! The settings of a builder, the configuration of the service that it creates, and the requirements on one that it opens.
use super::RequestResponseOpenError;
use crate::config::RequestResponse;
use crate::service::static_config::message_type_details::MessageTypeDetails;
use crate::service::static_config::request_response::StaticConfig;

/// The settings that the user made. No other one is compared when a service is opened.
#[derive(Debug, Clone, Copy, Default)]
pub(super) struct Settings {
    pub enable_safe_overflow_for_requests: Option<bool>,
    pub enable_safe_overflow_for_responses: Option<bool>,
    pub enable_fire_and_forget_requests: Option<bool>,
    pub max_active_requests_per_client: Option<usize>,
    pub max_loaned_requests: Option<usize>,
    pub max_response_buffer_size: Option<usize>,
    pub max_servers: Option<usize>,
    pub max_clients: Option<usize>,
    pub max_nodes: Option<usize>,
    pub max_borrowed_responses_per_pending_response: Option<usize>,
}

/// Returns a limit as it was set, or else its default. 0 counts as 1.
fn limit(set: Option<usize>, default: usize) -> usize {
    set.unwrap_or(default).max(1)
}

impl Settings {
    /// Returns the configuration of a service that is created.
    pub fn config(
        &self,
        defaults: &RequestResponse,
        request_message_type_details: MessageTypeDetails,
        response_message_type_details: MessageTypeDetails,
    ) -> StaticConfig {
        StaticConfig {
            enable_safe_overflow_for_requests: (self.enable_safe_overflow_for_requests)
                .unwrap_or(defaults.enable_safe_overflow_for_requests),
            enable_safe_overflow_for_responses: (self.enable_safe_overflow_for_responses)
                .unwrap_or(defaults.enable_safe_overflow_for_responses),
            enable_fire_and_forget_requests: (self.enable_fire_and_forget_requests)
                .unwrap_or(defaults.enable_fire_and_forget_requests),
            max_active_requests_per_client: limit(
                self.max_active_requests_per_client,
                defaults.max_active_requests_per_client,
            ),
            max_loaned_requests: limit(self.max_loaned_requests, defaults.max_loaned_requests),
            max_response_buffer_size: limit(self.max_response_buffer_size, defaults.max_response_buffer_size),
            max_servers: limit(self.max_servers, defaults.max_servers),
            max_clients: limit(self.max_clients, defaults.max_clients),
            max_nodes: limit(self.max_nodes, defaults.max_nodes),
            max_borrowed_responses_per_pending_response: limit(
                self.max_borrowed_responses_per_pending_response,
                defaults.max_borrowed_responses_per_pending_response,
            ),
            request_message_type_details,
            response_message_type_details,
        }
    }

    /// Refuses a service that differs in a flag, or has less of a limit, than what was set.
    pub fn compare(&self, config: &StaticConfig) -> Result<(), RequestResponseOpenError> {
        self.compare_flags(config)?;
        self.compare_limits(config)
    }

    fn compare_flags(&self, has: &StaticConfig) -> Result<(), RequestResponseOpenError> {
        use RequestResponseOpenError as Error;
        let differs = |set: Option<bool>, has: bool| set.is_some_and(|set| set != has);
        if differs(self.enable_safe_overflow_for_requests, has.enable_safe_overflow_for_requests) {
            return Err(Error::IncompatibleOverflowBehaviorForRequests);
        }
        if differs(self.enable_safe_overflow_for_responses, has.enable_safe_overflow_for_responses) {
            return Err(Error::IncompatibleOverflowBehaviorForResponses);
        }
        if differs(self.enable_fire_and_forget_requests, has.enable_fire_and_forget_requests) {
            return Err(Error::IncompatibleBehaviorForFireAndForgetRequests);
        }
        Ok(())
    }

    fn compare_limits(&self, has: &StaticConfig) -> Result<(), RequestResponseOpenError> {
        use RequestResponseOpenError as Error;
        let limits = [
            (
                self.max_active_requests_per_client,
                has.max_active_requests_per_client,
                Error::DoesNotSupportRequestedAmountOfActiveRequestsPerClient,
            ),
            (
                self.max_loaned_requests,
                has.max_loaned_requests,
                Error::DoesNotSupportRequestedAmountOfClientRequestLoans,
            ),
            (
                self.max_borrowed_responses_per_pending_response,
                has.max_borrowed_responses_per_pending_response,
                Error::DoesNotSupportRequestedAmountOfBorrowedResponsesPerPendingResponse,
            ),
            (
                self.max_response_buffer_size,
                has.max_response_buffer_size,
                Error::DoesNotSupportRequestedResponseBufferSize,
            ),
            (self.max_servers, has.max_servers, Error::DoesNotSupportRequestedAmountOfServers),
            (self.max_clients, has.max_clients, Error::DoesNotSupportRequestedAmountOfClients),
            (self.max_nodes, has.max_nodes, Error::DoesNotSupportRequestedAmountOfNodes),
        ];
        let lacking = limits.into_iter().find(|(set, has, _)| set.is_some_and(|set| *has < set));
        lacking.map_or(Ok(()), |(_, _, error)| Err(error))
    }
}
