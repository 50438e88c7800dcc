//! The names that most programs need: `use iceoryx2::prelude::*`.
//!
//! iceoryx2's `prelude`, as far as request-response services of one process need it.
pub use crate::callback_progression::CallbackProgression;
pub use crate::config::Config;
pub use crate::log::{LogLevel, set_log_level, set_log_level_from_env_or, set_log_level_from_env_or_default};
pub use crate::node::node_name::NodeName;
pub use crate::node::{Node, NodeBuilder};
pub use crate::port::allocation_strategy::AllocationStrategy;
pub use crate::port::backpressure_strategy::BackpressureStrategy;
pub use crate::port::update_connections::UpdateConnections;
pub use crate::service::messaging_pattern::MessagingPattern;
pub use crate::service::port_factory::PortFactory;
pub use crate::service::service_name::ServiceName;
pub use crate::service::{Service, ipc, ipc_threadsafe, local, local_threadsafe};
pub use crate::signal_handling_mode::SignalHandlingMode;
pub use crate::waitset::{WaitSetAttachmentId, WaitSetBuilder};
pub use crate::zero_copy_send::ZeroCopySend;
pub use rr_derive::ZeroCopySend;
