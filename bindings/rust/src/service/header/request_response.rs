//! Headers of requests and responses.
use crate::identifiers::{UniqueClientId, UniqueNodeId, UniqueServerId};
use crate::zero_copy_send::ZeroCopySend;

/// The header of a request.
///
/// iceoryx2's `service::header::request_response::RequestHeader`.
#[derive(Debug, Copy, Clone)]
#[repr(C)]
pub struct RequestHeader {
    pub(crate) node_id: UniqueNodeId,
    pub(crate) client_id: UniqueClientId,
    pub(crate) request_id: u64,
    pub(crate) number_of_elements: u64,
}

// SAFETY: numbers.
unsafe impl ZeroCopySend for RequestHeader {}

impl RequestHeader {
    /// Returns the id of the client that sent the request.
    pub fn client_id(&self) -> UniqueClientId {
        self.client_id
    }

    /// Returns how many requests the client had loaned before this one.
    ///
    /// Not in iceoryx2.
    pub fn request_id(&self) -> u64 {
        self.request_id
    }

    /// Returns how many elements the payload has: 1, or the length of a slice.
    pub fn number_of_elements(&self) -> u64 {
        self.number_of_elements
    }

    /// Returns the id of the client's node.
    pub fn node_id(&self) -> UniqueNodeId {
        self.node_id
    }
}

/// The header of a response.
///
/// iceoryx2's `service::header::request_response::ResponseHeader`.
#[derive(Debug, Copy, Clone)]
#[repr(C)]
pub struct ResponseHeader {
    pub(crate) node_id: UniqueNodeId,
    pub(crate) server_id: UniqueServerId,
    pub(crate) request_id: u64,
    pub(crate) number_of_elements: u64,
}

// SAFETY: numbers.
unsafe impl ZeroCopySend for ResponseHeader {}

impl ResponseHeader {
    /// Returns the id of the server's node.
    pub fn node_id(&self) -> UniqueNodeId {
        self.node_id
    }

    /// Returns the id of the server that sent the response.
    pub fn server_id(&self) -> UniqueServerId {
        self.server_id
    }

    /// Returns the id of the request that the response answers, which its [`RequestHeader::request_id`] tells too.
    ///
    /// Not in iceoryx2.
    pub fn request_id(&self) -> u64 {
        self.request_id
    }

    /// Returns how many elements the payload has: 1, or the length of a slice.
    pub fn number_of_elements(&self) -> u64 {
        self.number_of_elements
    }
}
