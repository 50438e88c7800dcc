//! Builders of services.
pub mod request_response;

use super::Service;
use super::service_name::ServiceName;
use crate::node::Node;
use crate::zero_copy_send::Sendable;
use std::fmt;

/// Builds a service, whose messaging pattern is to be chosen.
///
/// iceoryx2's `service::builder::Builder`.
pub struct Builder<S: Service> {
    node: Node<S>,
    name: ServiceName,
}

impl<S: Service> Builder<S> {
    pub(crate) fn new(node: Node<S>, name: &ServiceName) -> Self {
        Builder { node, name: name.clone() }
    }

    /// Begins to build a request-response service with requests `Q` and responses `P`: each a type of values, or a
    /// slice `[T]`.
    pub fn request_response<Q: Sendable + ?Sized, P: Sendable + ?Sized>(
        self,
    ) -> request_response::Builder<Q, (), P, (), S> {
        request_response::Builder::new(self.node, self.name)
    }
}

impl<S: Service> fmt::Debug for Builder<S> {
    fn fmt(&self, f: &mut fmt::Formatter<'_>) -> fmt::Result {
        f.debug_struct("Builder")
            .field("node", &self.node)
            .field("name", &self.name)
            .finish()
    }
}
