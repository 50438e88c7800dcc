//! The constants of a service.
pub mod message_type_details;
pub mod request_response;
