//! Builders of request-response services.
//!
//! ```
//! # extern crate rr as iceoryx2;
//! use iceoryx2::prelude::*;
//! use iceoryx2::service::builder::request_response::RequestResponseOpenError;
//!
//! fn main() -> Result<(), Box<dyn core::error::Error>> {
//!     let node = NodeBuilder::new().create::<ipc::Service>()?;
//!     let name: ServiceName = "pictures".try_into()?;
//!     let service = node
//!         .service_builder(&name)
//!         .request_response::<u64, [u8]>()
//!         .response_user_header::<u32>()
//!         .max_clients(3)
//!         .create()?;
//!     assert_eq!(service.static_config().max_clients(), 3);
//!
//!     // Another type is refused, and so are more clients than the service supports.
//!     let opened = node.service_builder(&name).request_response::<u64, [u16]>().response_user_header::<u32>().open();
//!     assert_eq!(opened.unwrap_err(), RequestResponseOpenError::IncompatibleResponseType);
//!     Ok(())
//! }
//! ```
mod errors;
mod settings;

pub use errors::{RequestResponseCreateError, RequestResponseOpenError, RequestResponseOpenOrCreateError};

use crate::core::{Core, CoreRef, PolicyOf};
use crate::node::Node;
use crate::port::Types;
use crate::service::Service;
use crate::service::header::request_response::{RequestHeader, ResponseHeader};
use crate::service::port_factory::request_response::PortFactory;
use crate::service::registry::{self, Entered, Found, Opened};
use crate::service::service_name::ServiceName;
use crate::service::static_config::message_type_details::MessageTypeDetails;
use crate::service::static_config::request_response::StaticConfig;
use crate::zero_copy_send::{Payload, Sendable, ZeroCopySend};
use settings::Settings;
use std::fmt;
use std::marker::PhantomData;

/// Builds a request-response service.
///
/// A service that is created gets the settings that are made here, and the others from the node's configuration. A
/// service that is opened must have at least, or exactly, the settings that are made; the others are not compared.
///
/// iceoryx2's `service::builder::request_response::Builder`.
pub struct Builder<Q: Sendable + ?Sized, QH: Sendable, P: Sendable + ?Sized, PH: Sendable, S: Service> {
    node: Node<S>,
    name: ServiceName,
    settings: Settings,
    types: Types<S, Q, QH, P, PH>,
}

macro_rules! setters {
    ($($(#[$about:meta])* $name:ident: $type:ty,)*) => {
        $(
            $(#[$about])*
            pub fn $name(mut self, value: $type) -> Self {
                self.settings.$name = Some(value);
                self
            }
        )*
    };
}

impl<Q: Sendable + ?Sized, QH: Sendable, P: Sendable + ?Sized, PH: Sendable, S: Service> Builder<Q, QH, P, PH, S> {
    pub(crate) fn new(node: Node<S>, name: ServiceName) -> Self {
        Builder { node, name, settings: Settings::default(), types: PhantomData }
    }

    setters! {
        /// Sets whether a full queue of requests drops its oldest request for a new one.
        enable_safe_overflow_for_requests: bool,
        /// Sets whether a full queue of responses drops its oldest response for a new one.
        enable_safe_overflow_for_responses: bool,
        /// Sets whether servers receive requests whose pending response was dropped.
        enable_fire_and_forget_requests: bool,
        /// Sets how many pending responses a client may have, requests a queue, and active requests a server from one
        /// client. 0 counts as 1.
        max_active_requests_per_client: usize,
        /// Sets how many requests a client may have on loan. 0 counts as 1.
        max_loaned_requests: usize,
        /// Sets how many responses a queue may have. 0 counts as 1.
        max_response_buffer_size: usize,
        /// Sets how many servers may be connected. 0 counts as 1.
        max_servers: usize,
        /// Sets how many clients may be connected. 0 counts as 1.
        max_clients: usize,
        /// Sets how many nodes may have the service open. 0 counts as 1.
        max_nodes: usize,
        /// Sets how many responses from one server a pending response may hold. 0 counts as 1.
        max_borrowed_responses_per_pending_response: usize,
    }

    /// Sets the type of the user header of requests.
    pub fn request_user_header<M: Sendable>(self) -> Builder<Q, M, P, PH, S> {
        self.retyped()
    }

    /// Sets the type of the user header of responses.
    pub fn response_user_header<M: Sendable>(self) -> Builder<Q, QH, P, M, S> {
        self.retyped()
    }

    fn retyped<A: Sendable, B: Sendable>(self) -> Builder<Q, A, P, B, S> {
        Builder { node: self.node, name: self.name, settings: self.settings, types: PhantomData }
    }
}

impl<Q, QH, P, PH, S> Builder<Q, QH, P, PH, S>
where
    Q: Sendable + Payload<Element: ZeroCopySend> + ?Sized,
    QH: Sendable,
    P: Sendable + Payload<Element: ZeroCopySend> + ?Sized,
    PH: Sendable,
    S: Service,
{
    /// Opens the service, or creates it if there is none of this name.
    ///
    /// # Errors
    ///
    /// Those of [`Builder::open`] and [`Builder::create`].
    pub fn open_or_create(self) -> Result<PortFactory<S, Q, QH, P, PH>, RequestResponseOpenOrCreateError> {
        match self.find_or_enter() {
            Entered::New(core) => Ok(self.opened(core)?),
            Entered::Old(core) => Ok(self.opened_if_compatible(core)?),
            Entered::Elsewhere => Err(RequestResponseOpenError::IncompatibleThreadsafetyPolicy.into()),
            Entered::Failed => Err(RequestResponseCreateError::InternalFailure.into()),
        }
    }

    /// Opens the service of this name.
    ///
    /// # Errors
    ///
    /// [`RequestResponseOpenError`], whose variants say when they come.
    pub fn open(self) -> Result<PortFactory<S, Q, QH, P, PH>, RequestResponseOpenError> {
        match registry::find::<PolicyOf<S>>(S::WORLD, &self.name) {
            Found::Here(core) => self.opened_if_compatible(core),
            Found::Elsewhere => Err(RequestResponseOpenError::IncompatibleThreadsafetyPolicy),
            Found::Nowhere => Err(RequestResponseOpenError::DoesNotExist),
        }
    }

    /// Creates the service.
    ///
    /// # Errors
    ///
    /// [`RequestResponseCreateError`], whose variants say when they come.
    pub fn create(self) -> Result<PortFactory<S, Q, QH, P, PH>, RequestResponseCreateError> {
        match self.find_or_enter() {
            Entered::New(core) => self.opened(core).map_err(|_| RequestResponseCreateError::InternalFailure),
            Entered::Old(_) => Err(RequestResponseCreateError::AlreadyExists),
            Entered::Elsewhere => Err(RequestResponseCreateError::IncompatibleThreadsafetyPolicy),
            Entered::Failed => Err(RequestResponseCreateError::InternalFailure),
        }
    }

    fn find_or_enter(&self) -> Entered<PolicyOf<S>> {
        let defaults = &self.node.config().defaults.request_response;
        let (request, response) = self.types();
        let config = self.settings.config(defaults, request, response);
        let limits = config.limits(defaults);
        let make = || Core::<PolicyOf<S>>::create(S::WORLD, &self.name, config, limits);
        registry::find_or_enter(S::WORLD, &self.name, make)
    }

    /// Returns the types of requests and responses.
    fn types(&self) -> (MessageTypeDetails, MessageTypeDetails) {
        (MessageTypeDetails::of::<RequestHeader, QH, Q>(), MessageTypeDetails::of::<ResponseHeader, PH, P>())
    }

    fn opened(self, core: CoreRef<S>) -> Result<PortFactory<S, Q, QH, P, PH>, RequestResponseOpenError> {
        let opened = Opened::<PolicyOf<S>>::new(core, *self.node.id());
        let opened = opened.ok_or(RequestResponseOpenError::ExceedsMaxNumberOfNodes)?;
        Ok(PortFactory::new(opened, self.node))
    }

    /// Opens a service that has these types, and what was set.
    fn opened_if_compatible(self, core: CoreRef<S>) -> Result<PortFactory<S, Q, QH, P, PH>, RequestResponseOpenError> {
        let (config, (request, response)): (&StaticConfig, _) = (&core.config, self.types());
        if !config.request_message_type_details.is_compatible(&request) {
            return Err(RequestResponseOpenError::IncompatibleRequestType);
        }
        if !config.response_message_type_details.is_compatible(&response) {
            return Err(RequestResponseOpenError::IncompatibleResponseType);
        }
        self.settings.compare(config)?;
        self.opened(core)
    }
}

impl<Q: Sendable + ?Sized, QH: Sendable, P: Sendable + ?Sized, PH: Sendable, S: Service> fmt::Debug
    for Builder<Q, QH, P, PH, S>
{
    fn fmt(&self, f: &mut fmt::Formatter<'_>) -> fmt::Result {
        let mut it = f.debug_struct("Builder");
        it.field("node", &self.node)
            .field("name", &self.name)
            .field("settings", &self.settings)
            .finish()
    }
}
