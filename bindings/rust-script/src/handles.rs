//! Ports and messages, as values under numbers.

use rr::active_request::ActiveRequest;
use rr::identifiers::UniqueNodeId;
use rr::pending_response::PendingResponse;
use rr::port::client::Client;
use rr::port::server::Server;
use rr::prelude::*;
use rr::request_mut::RequestMut;
use rr::request_mut_uninit::RequestMutUninit;
use rr::response::Response;
use rr::response_mut::ResponseMut;
use rr::response_mut_uninit::ResponseMutUninit;
use rr::service::header::request_response::{RequestHeader, ResponseHeader};
use std::fmt::Debug;
use std::mem::MaybeUninit;

/// A user header, of which a script sets the first eight bytes.
pub type Header = [u8; 16];

pub type Sender<S> = Client<S, [u8], Header, [u8], Header>;
pub type Sent<S> = PendingResponse<S, [u8], Header, [u8], Header>;
pub type Asked<S> = ActiveRequest<S, [u8], Header, [u8], Header>;
pub type Request<S> = RequestMut<S, [u8], Header, [u8], Header>;
pub type Answer<S> = ResponseMut<S, [u8], Header>;

/// A port or a message. One that is being written has its bytes beside it, since the crate writes a payload in one
/// call; a pending response has its request's number.
pub enum Handle<S: Service> {
    Client(Sender<S>),
    Server(Server<S, [u8], Header, [u8], Header>),
    RequestMutUninit(RequestMutUninit<S, [MaybeUninit<u8>], Header, [u8], Header>, Vec<u8>),
    RequestMut(Request<S>),
    PendingResponse(Sent<S>, u64),
    ActiveRequest(Asked<S>),
    ResponseMutUninit(ResponseMutUninit<S, [MaybeUninit<u8>], Header>, Vec<u8>),
    ResponseMut(Answer<S>),
    Response(Response<S, [u8], Header>),
}

/// The number in what the crate prints of a message, as in `ResponseMut<..> { number: 6, .. }`.
pub fn number_in(message: &impl Debug) -> u64 {
    let text = format!("{message:?}");
    let number = text.split_once("number: ").and_then(|(_, rest)| rest.split(',').next());
    number.and_then(|number| number.parse().ok()).expect("a name and a number")
}

/// The reply that tells a request's header. The hub's node is 0 in scripts.
fn request_header(header: &RequestHeader, node: UniqueNodeId) -> String {
    assert_eq!(header.node_id(), node);
    let client = header.client_id().value() as u64;
    format!("request-header {client} {} {} 0", header.request_id(), header.number_of_elements())
}

/// The reply that tells a response's header.
fn response_header(header: &ResponseHeader, node: UniqueNodeId) -> String {
    assert_eq!(header.node_id(), node);
    let server = header.server_id().value() as u64;
    format!("response-header {server} {} {} 0", header.request_id(), header.number_of_elements())
}

impl<S: Service> Handle<S> {
    /// The number of the port or the message.
    pub fn number(&self) -> u64 {
        match self {
            Handle::Client(client) => client.id().value() as u64,
            Handle::Server(server) => server.id().value() as u64,
            Handle::RequestMutUninit(request, _) => number_in(request),
            Handle::RequestMut(request) => number_in(request),
            Handle::PendingResponse(_, number) => *number,
            Handle::ActiveRequest(active) => number_in(active),
            Handle::ResponseMutUninit(response, _) => number_in(response),
            Handle::ResponseMut(response) => number_in(response),
            Handle::Response(response) => number_in(response),
        }
    }

    /// The reply that tells a message's header.
    pub fn header(&self, node: UniqueNodeId) -> Option<String> {
        Some(match self {
            Handle::Client(_) | Handle::Server(_) => return None,
            Handle::RequestMutUninit(request, _) => request_header(request.header(), node),
            Handle::RequestMut(request) => request_header(request.header(), node),
            Handle::PendingResponse(pending, _) => request_header(pending.header(), node),
            Handle::ActiveRequest(active) => request_header(active.header(), node),
            Handle::ResponseMutUninit(response, _) => response_header(response.header(), node),
            Handle::ResponseMut(response) => response_header(response.header(), node),
            Handle::Response(response) => response_header(response.header(), node),
        })
    }

    /// A message's user header.
    pub fn user_header(&self) -> Option<&Header> {
        Some(match self {
            Handle::Client(_) | Handle::Server(_) => return None,
            Handle::RequestMutUninit(request, _) => request.user_header(),
            Handle::RequestMut(request) => request.user_header(),
            Handle::PendingResponse(pending, _) => pending.user_header(),
            Handle::ActiveRequest(active) => active.user_header(),
            Handle::ResponseMutUninit(response, _) => response.user_header(),
            Handle::ResponseMut(response) => response.user_header(),
            Handle::Response(response) => response.user_header(),
        })
    }

    /// The user header of a message that was not sent, to be changed.
    pub fn user_header_mut(&mut self) -> Option<&mut Header> {
        match self {
            Handle::RequestMutUninit(request, _) => Some(request.user_header_mut()),
            Handle::RequestMut(request) => Some(request.user_header_mut()),
            Handle::ResponseMutUninit(response, _) => Some(response.user_header_mut()),
            Handle::ResponseMut(response) => Some(response.user_header_mut()),
            _ => None,
        }
    }

    /// A message's bytes, as far as they are written.
    pub fn payload(&self) -> Option<&[u8]> {
        match self {
            Handle::Client(_) | Handle::Server(_) => None,
            Handle::RequestMutUninit(_, written) | Handle::ResponseMutUninit(_, written) => Some(written),
            Handle::RequestMut(request) => Some(request.payload()),
            Handle::PendingResponse(pending, _) => Some(pending.payload()),
            Handle::ActiveRequest(active) => Some(active.payload()),
            Handle::ResponseMut(response) => Some(response.payload()),
            Handle::Response(response) => Some(response.payload()),
        }
    }

    /// The bytes of a message that was not sent, to be changed.
    pub fn payload_mut(&mut self) -> Option<&mut [u8]> {
        match self {
            Handle::RequestMutUninit(_, written) | Handle::ResponseMutUninit(_, written) => Some(written),
            Handle::RequestMut(request) => Some(request.payload_mut()),
            Handle::ResponseMut(response) => Some(response.payload_mut()),
            _ => None,
        }
    }

    /// How many bytes a message that is being written was loaned with, and those that are written.
    pub fn body(&mut self) -> Option<(usize, &mut Vec<u8>)> {
        match self {
            Handle::RequestMutUninit(request, written) => Some((request.payload_mut().len(), written)),
            Handle::ResponseMutUninit(response, written) => Some((response.payload_mut().len(), written)),
            _ => None,
        }
    }
}
