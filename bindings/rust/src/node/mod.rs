//! Nodes, which open services.
//!
//! ```
//! # extern crate rr as iceoryx2;
//! use core::time::Duration;
//! use iceoryx2::prelude::*;
//!
//! fn main() -> Result<(), Box<dyn core::error::Error>> {
//!     let node = NodeBuilder::new().name(&"camera".try_into()?).create::<ipc::Service>()?;
//!     assert_eq!(node.name().as_str(), "camera");
//!     // One turn of a loop `while node.wait(CYCLE_TIME).is_ok()`.
//!     assert!(node.wait(Duration::from_millis(1)).is_ok());
//!     Ok(())
//! }
//! ```
pub mod node_name;

use crate::config::Config;
use crate::core::PolicyOf;
use crate::error::errors;
use crate::identifiers::UniqueNodeId;
use crate::policy::Policy;
use crate::service::Service;
use crate::service::builder::Builder;
use crate::service::service_name::ServiceName;
use crate::signal_handling_mode::{SLICE, Signal, SignalHandlingMode};
use node_name::NodeName;
use std::fmt;
use std::process;
use std::sync::atomic::{AtomicU64, Ordering};
use std::thread;
use std::time::{Duration, Instant};

errors! { NodeCreationFailure NodeWaitFailure }

/// Why a node is not created. In one process every node is.
///
/// iceoryx2's `node::NodeCreationFailure`.
#[derive(Debug, Clone, Copy, PartialEq, Eq)]
pub enum NodeCreationFailure {
    /// Never returned here.
    InsufficientPermissions,
    /// Never returned here.
    InternalError,
}

/// Why a wait of a node ended early.
///
/// iceoryx2's `node::NodeWaitFailure`.
#[derive(Debug, Clone, Copy, PartialEq, Eq)]
pub enum NodeWaitFailure {
    /// SIGINT came.
    Interrupt,
    /// SIGTERM came.
    TerminationRequest,
}

impl From<Signal> for NodeWaitFailure {
    fn from(signal: Signal) -> Self {
        match signal {
            Signal::Interrupt => NodeWaitFailure::Interrupt,
            Signal::Termination => NodeWaitFailure::TerminationRequest,
        }
    }
}

struct Shared {
    id: UniqueNodeId,
    name: NodeName,
    config: Config,
    mode: SignalHandlingMode,
}

/// A node: the owner of services and ports in this process.
///
/// iceoryx2's `node::Node`.
pub struct Node<S: Service> {
    shared: <PolicyOf<S> as Policy>::Ref<Shared>,
}

impl<S: Service> Node<S> {
    /// Another reference to the same node.
    pub(crate) fn share(&self) -> Self {
        Node { shared: self.shared.clone() }
    }

    /// Returns the name of the node.
    pub fn name(&self) -> &NodeName {
        &self.shared.name
    }

    /// Returns the id of the node.
    pub fn id(&self) -> &UniqueNodeId {
        &self.shared.id
    }

    /// Returns the configuration of the node, whose defaults its services and ports have.
    pub fn config(&self) -> &Config {
        &self.shared.config
    }

    /// Returns whether waits of the node end at signals.
    pub fn signal_handling_mode(&self) -> SignalHandlingMode {
        self.shared.mode
    }

    /// Begins to build a service of this name.
    pub fn service_builder(&self, name: &ServiceName) -> Builder<S> {
        Builder::new(self.share(), name)
    }

    /// Waits for this time, and tells whether the program is to go on.
    ///
    /// # Errors
    ///
    /// [`NodeWaitFailure`] if SIGINT or SIGTERM came since the process first waited so, unless the node's mode is
    /// [`SignalHandlingMode::Disabled`]. The wait ends within 20 milliseconds then. It is refused from then on.
    pub fn wait(&self, cycle_time: Duration) -> Result<(), NodeWaitFailure> {
        let end = Instant::now().checked_add(cycle_time);
        loop {
            if let Some(signal) = self.shared.mode.received() {
                return Err(signal.into());
            }
            let left = end.map_or(Duration::MAX, |it| it.saturating_duration_since(Instant::now()));
            if left.is_zero() {
                return Ok(());
            }
            thread::sleep(if self.shared.mode.handles_signals() { left.min(SLICE) } else { left });
        }
    }
}

impl<S: Service> fmt::Debug for Node<S> {
    fn fmt(&self, f: &mut fmt::Formatter<'_>) -> fmt::Result {
        f.debug_struct("Node")
            .field("id", self.id())
            .field("name", self.name())
            .finish()
    }
}

/// Builds a node.
///
/// iceoryx2's `node::NodeBuilder`.
#[derive(Debug, Clone, Default)]
pub struct NodeBuilder {
    name: NodeName,
    config: Option<Config>,
    mode: SignalHandlingMode,
}

impl NodeBuilder {
    /// Begins to build a node without a name, with the global configuration.
    pub fn new() -> Self {
        NodeBuilder::default()
    }

    /// Sets the name of the node.
    pub fn name(mut self, value: &NodeName) -> Self {
        self.name = value.clone();
        self
    }

    /// Sets the configuration of the node.
    pub fn config(mut self, value: &Config) -> Self {
        self.config = Some(value.clone());
        self
    }

    /// Sets whether waits of the node end at signals.
    pub fn signal_handling_mode(mut self, value: SignalHandlingMode) -> Self {
        self.mode = value;
        self
    }

    /// Creates the node, for services of this kind.
    ///
    /// # Errors
    ///
    /// None here. The type is iceoryx2's.
    pub fn create<S: Service>(self) -> Result<Node<S>, NodeCreationFailure> {
        static NODES: AtomicU64 = AtomicU64::new(1);
        let number = NODES.fetch_add(1, Ordering::Relaxed);
        let shared = Shared {
            id: UniqueNodeId(u128::from(process::id()) << 64 | u128::from(number)),
            name: self.name,
            config: self.config.unwrap_or_else(|| Config::global_config().clone()),
            mode: self.mode,
        };
        Ok(Node { shared: <PolicyOf<S> as Policy>::share(shared) })
    }
}
