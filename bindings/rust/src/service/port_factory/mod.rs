//! Factories of ports.
pub mod client;
pub mod request_response;
pub mod server;

use crate::service::Service;
use crate::service::service_name::ServiceName;
use std::fmt::Debug;

/// The queries of an open service.
///
/// iceoryx2's `service::port_factory::PortFactory`.
pub trait PortFactory: Debug {
    /// The kind of the service.
    type Service: Service;
    /// Returns the limits and types with which the service was created.
    type StaticConfig: Debug;
    /// Returns the ports and nodes that the service has now.
    type DynamicConfig;

    /// Returns the name of the service.
    fn name(&self) -> &ServiceName;

    /// Returns what the service was created with.
    fn static_config(&self) -> &Self::StaticConfig;

    /// Returns the ports of the service.
    fn dynamic_config(&self) -> &Self::DynamicConfig;
}
