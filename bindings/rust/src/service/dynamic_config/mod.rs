//! The ports and nodes of a service now.
pub mod request_response;
