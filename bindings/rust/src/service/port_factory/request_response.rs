//! Open request-response services.
use super::client::PortFactoryClient;
use super::server::PortFactoryServer;
use crate::core::PolicyOf;
use crate::node::Node;
use crate::policy::Policy;
use crate::port::Types;
use crate::service::Service;
use crate::service::dynamic_config::request_response::DynamicConfig;
use crate::service::registry::Opened;
use crate::service::service_name::ServiceName;
use crate::service::static_config::request_response::StaticConfig;
use crate::zero_copy_send::Sendable;
use std::fmt;
use std::marker::PhantomData;

/// An open request-response service: it creates the ports of a node. The service lives as long as a factory, a port or
/// a message of it.
///
/// iceoryx2's `service::port_factory::request_response::PortFactory`.
pub struct PortFactory<S: Service, Q: Sendable + ?Sized, QH: Sendable, P: Sendable + ?Sized, PH: Sendable> {
    pub(crate) opened: <PolicyOf<S> as Policy>::Ref<Opened<PolicyOf<S>>>,
    pub(crate) node: Node<S>,
    dynamic_config: DynamicConfig<S>,
    types: Types<S, Q, QH, P, PH>,
}

impl<S: Service, Q: Sendable + ?Sized, QH: Sendable, P: Sendable + ?Sized, PH: Sendable> PortFactory<S, Q, QH, P, PH> {
    pub(crate) fn new(opened: <PolicyOf<S> as Policy>::Ref<Opened<PolicyOf<S>>>, node: Node<S>) -> Self {
        let dynamic_config = DynamicConfig { core: opened.core.clone() };
        PortFactory { opened, node, dynamic_config, types: PhantomData }
    }

    /// Begins to build a client.
    pub fn client_builder(&self) -> PortFactoryClient<'_, S, Q, QH, P, PH> {
        PortFactoryClient::new(self)
    }

    /// Begins to build a server.
    pub fn server_builder(&self) -> PortFactoryServer<'_, S, Q, QH, P, PH> {
        PortFactoryServer::new(self)
    }
}

impl<S: Service, Q: Sendable + ?Sized, QH: Sendable, P: Sendable + ?Sized, PH: Sendable> super::PortFactory
    for PortFactory<S, Q, QH, P, PH>
{
    type Service = S;
    type StaticConfig = StaticConfig;
    type DynamicConfig = DynamicConfig<S>;

    fn name(&self) -> &ServiceName {
        &self.opened.core.name
    }

    fn static_config(&self) -> &StaticConfig {
        &self.opened.core.config
    }

    fn dynamic_config(&self) -> &DynamicConfig<S> {
        &self.dynamic_config
    }
}

impl<S: Service, Q: Sendable + ?Sized, QH: Sendable, P: Sendable + ?Sized, PH: Sendable> Clone
    for PortFactory<S, Q, QH, P, PH>
{
    fn clone(&self) -> Self {
        PortFactory::new(self.opened.clone(), self.node.share())
    }
}

impl<S: Service, Q: Sendable + ?Sized, QH: Sendable, P: Sendable + ?Sized, PH: Sendable> fmt::Debug
    for PortFactory<S, Q, QH, P, PH>
{
    fn fmt(&self, f: &mut fmt::Formatter<'_>) -> fmt::Result {
        f.debug_struct("PortFactory")
            .field("name", &self.opened.core.name)
            .field("node", &self.node)
            .finish()
    }
}
