//! Names of nodes.
use crate::error::errors;
use std::fmt;

errors! { SemanticStringError }

/// Why a text is no name of a node.
///
/// iceoryx2's `SemanticStringError`.
#[derive(Debug, Clone, Copy, PartialEq, Eq)]
pub enum SemanticStringError {
    /// The text contains a zero byte.
    InvalidContent,
    /// The text is longer than [`NodeName::max_len`].
    ExceedsMaximumLength,
}

/// The name of a node: a text of at most 128 bytes, which may be empty. Several nodes may have one name.
///
/// iceoryx2's `node::node_name::NodeName`.
#[derive(Debug, Clone, Default, PartialEq, Eq, Hash)]
pub struct NodeName(String);

impl NodeName {
    /// Makes a name of a text.
    ///
    /// # Errors
    ///
    /// `InvalidContent` and `ExceedsMaximumLength`, as these variants say.
    pub fn new(name: &str) -> Result<Self, SemanticStringError> {
        if name.contains('\0') {
            return Err(SemanticStringError::InvalidContent);
        }
        if name.len() > NodeName::max_len() {
            return Err(SemanticStringError::ExceedsMaximumLength);
        }
        Ok(NodeName(name.to_string()))
    }

    /// Returns the most bytes of a name.
    pub const fn max_len() -> usize {
        128
    }

    /// Returns the text.
    pub fn as_str(&self) -> &str {
        &self.0
    }
}

impl fmt::Display for NodeName {
    fn fmt(&self, f: &mut fmt::Formatter<'_>) -> fmt::Result {
        f.write_str(&self.0)
    }
}

impl TryFrom<&str> for NodeName {
    type Error = SemanticStringError;

    fn try_from(name: &str) -> Result<Self, SemanticStringError> {
        NodeName::new(name)
    }
}

impl TryFrom<String> for NodeName {
    type Error = SemanticStringError;

    fn try_from(name: String) -> Result<Self, SemanticStringError> {
        NodeName::new(&name)
    }
}
