//! Names of services.
use crate::error::errors;
use std::fmt;

errors! { ServiceNameError }

/// Why a text is no name of a service.
///
/// iceoryx2's `service::service_name::ServiceNameError`.
#[derive(Debug, Clone, Copy, PartialEq, Eq)]
pub enum ServiceNameError {
    /// The text is empty, or contains a zero byte.
    InvalidContent,
    /// The text is longer than [`ServiceName::max_len`].
    ExceedsMaximumLength,
}

/// The name of a service: a text of 1 to 255 bytes.
///
/// iceoryx2's `service::service_name::ServiceName`.
#[derive(Debug, Clone, PartialEq, Eq, Hash, PartialOrd, Ord)]
pub struct ServiceName(String);

impl ServiceName {
    /// Makes a name of a text.
    ///
    /// # Errors
    ///
    /// `InvalidContent` and `ExceedsMaximumLength`, as these variants say.
    pub fn new(name: &str) -> Result<Self, ServiceNameError> {
        if name.is_empty() || name.contains('\0') {
            return Err(ServiceNameError::InvalidContent);
        }
        if name.len() > ServiceName::max_len() {
            return Err(ServiceNameError::ExceedsMaximumLength);
        }
        Ok(ServiceName(name.to_string()))
    }

    /// Returns the most bytes of a name.
    pub const fn max_len() -> usize {
        255
    }

    /// Returns the text.
    pub fn as_str(&self) -> &str {
        &self.0
    }
}

impl fmt::Display for ServiceName {
    fn fmt(&self, f: &mut fmt::Formatter<'_>) -> fmt::Result {
        f.write_str(&self.0)
    }
}

impl TryFrom<&str> for ServiceName {
    type Error = ServiceNameError;

    fn try_from(name: &str) -> Result<Self, ServiceNameError> {
        ServiceName::new(name)
    }
}

impl TryFrom<String> for ServiceName {
    type Error = ServiceNameError;

    fn try_from(name: String) -> Result<Self, ServiceNameError> {
        ServiceName::new(&name)
    }
}

impl PartialEq<&str> for ServiceName {
    fn eq(&self, other: &&str) -> bool {
        self.0 == *other
    }
}
