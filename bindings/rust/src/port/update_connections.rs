//! Connections of ports.
use crate::error::errors;

errors! { ConnectionFailure }

/// Why two ports are not connected. In one process all are.
///
/// iceoryx2's `port::update_connections::ConnectionFailure`.
#[repr(u64)]
#[derive(Debug, Clone, Copy, PartialEq, Eq)]
pub enum ConnectionFailure {
    /// Never returned here.
    FailedToEstablishConnection,
    /// Never returned here.
    UnableToMapSendersDataSegment,
}

/// Ports that connect themselves with others.
///
/// iceoryx2's `port::update_connections::UpdateConnections`.
pub trait UpdateConnections {
    /// Connects the port with those that were created since. Here all ports of a service are connected from their
    /// creation on, so that the call changes nothing.
    ///
    /// # Errors
    ///
    /// None here. The type is iceoryx2's.
    fn update_connections(&self) -> Result<(), ConnectionFailure>;
}
