//! iceoryx2's request-response in one process, over a proved library.
//!
//! A client loans a request, writes it in place and sends it to all servers of its service. A server answers it as
//! often as it likes. The client's pending response receives the answers. A message is written once, by its sender, and
//! read where it lies. Programs have iceoryx2's names, and name the crate as iceoryx2:
//!
//! ```toml
//! [dependencies]
//! iceoryx2 = { package = "rr", path = "../rr/bindings/rust" }
//! ```
//!
//! ```
//! # extern crate rr as iceoryx2;
//! use iceoryx2::prelude::*;
//!
//! #[derive(Debug, Clone, Copy, PartialEq, ZeroCopySend)]
//! #[repr(C)]
//! struct Position {
//!     x: f32,
//!     y: f32,
//! }
//!
//! fn main() -> Result<(), Box<dyn core::error::Error>> {
//!     let node = NodeBuilder::new().create::<ipc::Service>()?;
//!     let service = node
//!         .service_builder(&"robots/position".try_into()?)
//!         .request_response::<u64, Position>()
//!         .open_or_create()?;
//!     let client = service.client_builder().create()?;
//!     let server = service.server_builder().create()?;
//!
//!     // The client asks robot 7 where it is.
//!     let request = client.loan_uninit()?;
//!     let pending_response = request.write_payload(7).send()?;
//!
//!     // The server answers all requests that are queued, each in place.
//!     while let Some(active_request) = server.receive()? {
//!         let response = active_request.loan_uninit()?;
//!         response.write_payload(Position { x: *active_request as f32, y: 0.5 }).send()?;
//!     }
//!
//!     // The client reads the response where the server wrote it.
//!     let response = pending_response.receive()?.ok_or("no response")?;
//!     assert_eq!(*response, Position { x: 7.0, y: 0.5 });
//!     Ok(())
//! }
//! ```
//!
//! # Threads and tasks
//!
//! Ports and messages of the kinds [`ipc_threadsafe`](service::ipc_threadsafe) and
//! [`local_threadsafe`](service::local_threadsafe) are `Send` and `Sync`. Those of [`ipc`](service::ipc) and
//! [`local`](service::local) stay in the thread that opened their service, and take no lock. Each call is one critical
//! section. No payload is read or written in it, but for values of up to 256 bytes that `send_copy` copies.
//!
//! [`receive`](port::server::Server::receive) returns at once. iceoryx2 leaves waits to its event services; here
//! [`Server`](port::server::Server) and [`PendingResponse`](pending_response::PendingResponse) also have
//! `blocking_receive`, `timed_receive` and `async_receive`, and a [`WaitSet`](waitset::WaitSet) waits for several of
//! them. A wait for responses ends when none can come any more.
//!
//! # Limits and memory
//!
//! A port takes all its memory when it is created. After that, only a slice that is longer than the initial length
//! takes more, and the list of a service's waits grows to the largest number of them. Each limit has an error variant
//! of its own. A refused call leaves the service as it was, with two exceptions: a refused send drops its message,
//! unless it is a `try_send`; and a receive of a server drops the requests at the heads of its queues that no client
//! waits for.
//!
//! # Names
//!
//! Each item names the item of iceoryx2 that it stands for, or says that it is not in iceoryx2. The names and parameter
//! lists of ports, messages, their factories and headers are iceoryx2's. In type parameters `S` is the kind of service,
//! `Q` and `QH` are the payload and the user header of requests, and `P` and `PH` those of responses.
//!
//! The crate links the static archive `librr.a`, which `bindings/build` builds. The environment variable `RR_LIB_DIR`
//! names its folder, if that is not `../lib`.
#![deny(unsafe_op_in_unsafe_fn)]
#![warn(missing_docs)]

pub mod active_request;
mod callback_progression;
pub mod config;
mod core;
mod error;
mod head;
mod hub;
pub mod identifiers;
mod log;
mod message;
pub mod node;
pub mod pending_response;
mod policy;
pub mod port;
pub mod prelude;
#[doc(hidden)]
pub mod raw;
pub mod request_mut;
pub mod request_mut_uninit;
pub mod response;
pub mod response_mut;
pub mod response_mut_uninit;
mod seats;
pub mod service;
pub mod signal_handling_mode;
mod state;
mod wait;
pub mod waitset;
pub mod zero_copy_send;
