//! The commands of a script, each by the crate's call, and their replies.

use crate::handles::{Answer, Asked, Handle, Header, Request, Sender, number_in};
use rr::port::SendError;
use rr::port::client::RequestSendError;
use rr::port::update_connections::ConnectionFailure;
use rr::prelude::*;
use rr::service::port_factory::request_response::PortFactory;
use std::any::TypeId;
use std::collections::HashMap;
use std::fmt::Debug;

/// A reply, or a refusal by this program.
type Reply = Result<String, &'static str>;

const UNKNOWN: &str = "refused Unknown";
const WRONG_KIND: &str = "refused WrongKind";
const INCOMPLETE: &str = "refused Incomplete";

/// A service, and what lives of it.
pub struct Script<S: Service> {
    node: Node<S>,
    service: PortFactory<S, [u8], Header, [u8], Header>,
    handles: HashMap<u64, Handle<S>>,
    /// Whether sends with `RetryUntilDelivered` would wait: then `try_send` stands in for `send`.
    would_wait: bool,
}

/// The reply that tells an error: the names of its variants, the outermost first.
pub fn error(error: impl Debug) -> String {
    format!("error {}", format!("{error:?}").replace('(', " ").replace(')', ""))
}

/// The reply that tells a flag.
fn flag(flag: bool) -> Reply {
    Ok(flag.to_string())
}

fn done() -> Reply {
    Ok("done".into())
}

fn number(word: &str) -> u64 {
    word.parse().expect("a number")
}

fn count(word: &str) -> usize {
    word.parse().expect("a count")
}

fn strategy(word: &str) -> BackpressureStrategy {
    match word {
        "retry" => BackpressureStrategy::RetryUntilDelivered,
        _ => BackpressureStrategy::DiscardData,
    }
}

fn strategy_name(strategy: BackpressureStrategy) -> Reply {
    Ok(match strategy {
        BackpressureStrategy::RetryUntilDelivered => "retry".into(),
        BackpressureStrategy::DiscardData => "discard".into(),
    })
}

fn allocation(word: &str) -> AllocationStrategy {
    match word {
        "static" => AllocationStrategy::Static,
        "best" => AllocationStrategy::BestFit,
        _ => AllocationStrategy::PowerOfTwo,
    }
}

/// The result of a send: the pending response, or the refusal, after which the request is dropped.
fn send_request<S: Service>(request: Request<S>, would_wait: bool) -> Result<Handle<S>, RequestSendError> {
    let number = number_in(&request);
    let sent = if would_wait { request.try_send().map_err(|it| it.error) } else { request.send() };
    sent.map(|pending| Handle::PendingResponse(pending, number))
}

/// Sends a response, and gives its number. A refused response is gone.
fn send_response<S: Service>(response: Answer<S>, would_wait: bool) -> Result<u64, SendError> {
    let number = number_in(&response);
    let sent = if would_wait { response.try_send().map_err(|it| it.error) } else { response.send() };
    sent.map(|()| number)
}

/// Sends one byte as a request.
fn copy_request<S: Service>(client: &Sender<S>, byte: u8, would_wait: bool) -> Result<Handle<S>, RequestSendError> {
    send_request(client.loan_slice_uninit(1)?.write_from_slice(&[byte]), would_wait)
}

/// Sends one byte as a response, and gives its number.
fn copy_response<S: Service>(active: &Asked<S>, byte: u8, would_wait: bool) -> Result<u64, SendError> {
    send_response(active.loan_slice_uninit(1)?.write_from_fn(|_| byte), would_wait)
}

impl<S: Service> Script<S> {
    /// Makes the service of the first line, or tells why it is refused.
    pub fn begin(words: &[&str]) -> Result<Self, String> {
        let ["hub", "sliced", limits @ .., flags, client_expired, server_expired] = words else {
            panic!("the first line makes a hub of the sliced family");
        };
        let limits: Vec<_> = limits.iter().map(|word| count(word)).collect();
        let [clients, servers, loaned, active, buffer, borrowed] = limits[..] else { panic!("six limits") };
        if limits.contains(&0) {
            return Err("error ZeroLimit".into());
        }
        let mut config = Config::default();
        config.defaults.request_response.client_expired_connection_buffer = count(client_expired);
        config.defaults.request_response.server_expired_connection_buffer = count(server_expired);
        let node = NodeBuilder::new()
            .config(&config)
            .create::<S>()
            .expect("a node is always created");
        let created = node
            .service_builder(&"script".try_into().expect("a name"))
            .request_response::<[u8], [u8]>()
            .request_user_header::<Header>()
            .response_user_header::<Header>()
            .max_clients(clients)
            .max_servers(servers)
            .max_loaned_requests(loaned)
            .max_active_requests_per_client(active)
            .max_response_buffer_size(buffer)
            .max_borrowed_responses_per_pending_response(borrowed)
            .enable_safe_overflow_for_requests(flags.contains('q'))
            .enable_safe_overflow_for_responses(flags.contains('p'))
            .enable_fire_and_forget_requests(flags.contains('f'))
            .create();
        // The crate has one error for limits that are too large and for want of memory, of which a hub takes none.
        let service = created.map_err(|_| "error LimitsTooLarge")?;
        let would_wait = TypeId::of::<S>() == TypeId::of::<local_threadsafe::Service>();
        Ok(Script { node, service, handles: HashMap::new(), would_wait })
    }

    fn create_client(&mut self, how: &str, len: &str, growth: &str, slots: &str) -> Reply {
        let builder = self.service.client_builder().backpressure_strategy(strategy(how));
        let builder = builder
            .initial_max_slice_len(count(len))
            .allocation_strategy(allocation(growth));
        let created = match slots {
            "-" => builder.create(),
            slots => {
                let slots = count(slots);
                builder.override_request_preallocation(move |_| slots).create()
            }
        };
        self.kept("created", created.map(Handle::Client))
    }

    fn create_server(&mut self, how: &str, len: &str, growth: &str, slots: &str, loans: &str) -> Reply {
        let builder = self.service.server_builder().backpressure_strategy(strategy(how));
        let builder = builder
            .initial_max_slice_len(count(len))
            .allocation_strategy(allocation(growth));
        let builder = builder.max_loaned_responses_per_request(count(loans));
        let created = match slots {
            "-" => builder.create(),
            slots => {
                let slots = count(slots);
                builder.override_response_preallocation(move |_| slots).create()
            }
        };
        self.kept("created", created.map(Handle::Server))
    }

    /// Carries out a line, and returns its reply.
    pub fn reply(&mut self, words: &[&str]) -> String {
        let reply = match *words {
            ["client", how, len, growth, slots] => self.create_client(how, len, growth, slots),
            ["server", how, len, growth, slots, loans] => self.create_server(how, len, growth, slots, loans),
            [name, named, ref rest @ ..] => self.call(name, number(named), rest),
            _ => panic!("a line is a command"),
        };
        reply.unwrap_or_else(str::to_string)
    }

    /// Keeps what a call made, and tells its number after a name; or the call's error.
    fn kept(&mut self, name: &str, made: Result<Handle<S>, impl Debug>) -> Reply {
        Ok(match made {
            Ok(handle) => {
                let number = handle.number();
                self.handles.insert(number, handle);
                format!("{name} {number}")
            }
            Err(refusal) => error(refusal),
        })
    }

    /// Carries out a command on a port or a message.
    fn call(&mut self, name: &str, number: u64, rest: &[&str]) -> Reply {
        if !self.handles.contains_key(&number) {
            return Err(UNKNOWN);
        }
        match (name, rest) {
            ("loan", [len]) => self.loan(number, count(len)),
            ("default", [len]) => self.loan_default(number, count(len)),
            ("copy", [byte]) => self.copy(number, byte.parse().expect("a byte")),
            ("recv", []) => self.receive(number),
            ("init", []) => self.init(number),
            ("send", []) => self.send(number),
            ("drop", []) => {
                self.handles.remove(&number);
                done()
            }
            ("push" | "set" | "uset", _) => write(self.handle(number), name, rest),
            ("head", []) => self.handles[&number].header(*self.node.id()).ok_or(WRONG_KIND),
            (_, []) => ask(self.handle(number), name),
            _ => panic!("{name} has other words"),
        }
    }

    /// Returns the handle that has this number.
    fn handle(&mut self, number: u64) -> &mut Handle<S> {
        self.handles.get_mut(&number).expect("it was looked for")
    }

    fn loan(&mut self, number: u64, len: usize) -> Reply {
        let loaned = match self.handle(number) {
            Handle::Client(client) => client.loan_slice_uninit(len).map(|it| Handle::RequestMutUninit(it, Vec::new())),
            Handle::ActiveRequest(active) => active
                .loan_slice_uninit(len)
                .map(|it| Handle::ResponseMutUninit(it, Vec::new())),
            _ => return Err(WRONG_KIND),
        };
        self.kept("loaned", loaned)
    }

    fn loan_default(&mut self, number: u64, len: usize) -> Reply {
        let loaned = match self.handle(number) {
            Handle::Client(client) => client.loan_slice(len).map(Handle::RequestMut),
            Handle::ActiveRequest(active) => active.loan_slice(len).map(Handle::ResponseMut),
            _ => return Err(WRONG_KIND),
        };
        self.kept("loaned", loaned)
    }

    fn copy(&mut self, number: u64, byte: u8) -> Reply {
        let would_wait = self.would_wait;
        let sent = match self.handle(number) {
            Handle::Client(client) => copy_request(client, byte, would_wait),
            Handle::ActiveRequest(active) => {
                let sent = copy_response(active, byte, would_wait);
                return Ok(sent.map_or_else(error, |sent| format!("sent {sent}")));
            }
            _ => return Err(WRONG_KIND),
        };
        self.pending(sent)
    }

    /// Keeps a request that was sent, and tells its number and how many servers got it; or why it was not sent.
    fn pending(&mut self, sent: Result<Handle<S>, RequestSendError>) -> Reply {
        let servers = match &sent {
            Ok(Handle::PendingResponse(pending, _)) => pending.number_of_server_connections().to_string(),
            _ => return self.kept("pending", sent),
        };
        Ok(format!("{} {servers}", self.kept("pending", sent)?))
    }

    fn receive(&mut self, number: u64) -> Reply {
        let (name, received) = match self.handle(number) {
            Handle::Server(server) => ("active", server.receive().map(|it| it.map(Handle::ActiveRequest))),
            Handle::PendingResponse(pending, _) => ("response", pending.receive().map(|it| it.map(Handle::Response))),
            _ => return Err(WRONG_KIND),
        };
        match received.transpose() {
            Some(received) => self.kept(name, received),
            None => Ok("none".into()),
        }
    }

    /// Writes the bytes of a message that is complete.
    fn init(&mut self, number: u64) -> Reply {
        let (len, written) = self.handle(number).body().ok_or(WRONG_KIND)?;
        if written.len() < len {
            return Err(INCOMPLETE);
        }
        let written = match self.handles.remove(&number) {
            Some(Handle::RequestMutUninit(request, written)) => Handle::RequestMut(request.write_from_slice(&written)),
            Some(Handle::ResponseMutUninit(response, written)) => {
                Handle::ResponseMut(response.write_from_fn(|index| written[index]))
            }
            _ => unreachable!("it has a body"),
        };
        self.handles.insert(number, written);
        done()
    }

    fn send(&mut self, number: u64) -> Reply {
        match self.handles.remove(&number) {
            Some(Handle::RequestMut(request)) => self.pending(send_request(request, self.would_wait)),
            Some(Handle::ResponseMut(response)) => {
                let sent = send_response(response, self.would_wait);
                Ok(sent.map_or_else(error, |sent| format!("sent {sent}")))
            }
            Some(other) => {
                self.handles.insert(number, other);
                Err(WRONG_KIND)
            }
            None => Err(UNKNOWN),
        }
    }
}

/// Changes a message that was not sent.
fn write<S: Service>(handle: &mut Handle<S>, name: &str, rest: &[&str]) -> Reply {
    match (name, rest) {
        ("push", [byte]) => {
            let (len, written) = handle.body().ok_or(WRONG_KIND)?;
            let has_room = written.len() < len;
            if has_room {
                written.push(byte.parse().expect("a byte"));
            }
            flag(has_room)
        }
        ("set", [index, byte]) => match handle.payload_mut().ok_or(WRONG_KIND)?.get_mut(count(index)) {
            Some(element) => {
                *element = byte.parse().expect("a byte");
                flag(true)
            }
            None => flag(false),
        },
        ("uset", [header]) => {
            handle.user_header_mut().ok_or(WRONG_KIND)?[..8].copy_from_slice(&number(header).to_le_bytes());
            done()
        }
        _ => panic!("{name} has other words"),
    }
}

fn updated(result: Result<(), ConnectionFailure>) -> Reply {
    result.map_or_else(|it| Ok(error(it)), |()| done())
}

/// Answers a question about a port or a message.
fn ask<S: Service>(handle: &mut Handle<S>, name: &str) -> Reply {
    match (name, handle) {
        ("ready", Handle::RequestMut(request)) => flag(request.is_deliverable()),
        ("ready", Handle::ResponseMut(response)) => flag(response.is_deliverable()),
        ("has", Handle::Server(server)) => server.has_requests().map_or_else(|it| Ok(error(it)), flag),
        ("has", Handle::PendingResponse(pending, _)) => flag(pending.has_response()),
        ("conn", Handle::PendingResponse(pending, _)) => flag(pending.is_connected()),
        ("conn", Handle::ActiveRequest(active)) => flag(active.is_connected()),
        ("hint", Handle::PendingResponse(pending, _)) => {
            pending.set_disconnect_hint();
            done()
        }
        ("hinted", Handle::ActiveRequest(active)) => flag(active.has_disconnect_hint()),
        ("count", Handle::PendingResponse(pending, _)) => {
            Ok(format!("count {}", pending.number_of_server_connections()))
        }
        ("user", handle) => {
            let header = u128::from_le_bytes(*handle.user_header().ok_or(WRONG_KIND)?);
            Ok(format!("user {header}"))
        }
        ("data", handle) => {
            let bytes = handle.payload().ok_or(WRONG_KIND)?.iter().map(|byte| format!(" {byte}"));
            Ok(format!("data{}", bytes.collect::<String>()))
        }
        ("origin", Handle::ActiveRequest(active)) => Ok(format!("id {}", active.origin().value() as u64)),
        ("origin", Handle::Response(response)) => Ok(format!("id {}", response.origin().value() as u64)),
        ("strategy", Handle::Client(client)) => strategy_name(client.backpressure_strategy()),
        ("strategy", Handle::Server(server)) => strategy_name(server.backpressure_strategy()),
        ("maxlen", Handle::Client(client)) => Ok(format!("count {}", client.initial_max_slice_len())),
        ("maxlen", Handle::Server(server)) => Ok(format!("count {}", server.initial_max_slice_len())),
        ("update", Handle::Client(client)) => updated(client.update_connections()),
        ("update", Handle::Server(server)) => updated(server.update_connections()),
        _ => Err(WRONG_KIND),
    }
}
