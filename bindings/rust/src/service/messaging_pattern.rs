//! Messaging patterns, of which the crate has one.

/// A messaging pattern.
///
/// iceoryx2's `service::messaging_pattern::MessagingPattern`.
#[derive(Debug, Clone, Copy, PartialEq, Eq)]
pub enum MessagingPattern {
    /// Not in this crate.
    PublishSubscribe,
    /// Not in this crate.
    Event,
    /// A client sends requests, and servers answer each by a stream of responses.
    RequestResponse,
    /// Not in this crate.
    Blackboard,
}
