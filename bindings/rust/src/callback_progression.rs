//! Answers of callbacks.

/// Whether a callback is to be called again.
///
/// iceoryx2's `CallbackProgression`.
#[derive(Debug, Clone, Copy, PartialEq, Eq)]
pub enum CallbackProgression {
    /// The callback is called for the next item.
    Continue,
    /// The callback is not called again.
    Stop,
}
