//! Calls and drops in any order: each message is read as it was written, and a response answers its request.

mod common;

use common::{Random, builder};
use rr::active_request::ActiveRequest;
use rr::pending_response::PendingResponse;
use rr::port::client::Client;
use rr::port::server::Server;
use rr::prelude::*;
use rr::request_mut::RequestMut;
use rr::response::Response;
use rr::response_mut::ResponseMut;
use rr::service::port_factory::request_response::PortFactory;

type S = ipc::Service;
type Words = [u64];

const STEPS: usize = 50_000;

/// All ports and messages that live. A request is a number and as many copies of it as the number says modulo 8; a
/// response too, behind its request's number.
#[derive(Default)]
struct Living {
    clients: Vec<Client<S, Words, (), Words, ()>>,
    servers: Vec<Server<S, Words, (), Words, ()>>,
    requests: Vec<RequestMut<S, Words, (), Words, ()>>,
    pending: Vec<PendingResponse<S, Words, (), Words, ()>>,
    active: Vec<ActiveRequest<S, Words, (), Words, ()>>,
    responses: Vec<ResponseMut<S, Words, ()>>,
    received: Vec<Response<S, Words, ()>>,
    /// How many calls of each kind did something.
    done: [usize; 8],
}

fn is_request(payload: &[u64]) -> bool {
    payload.len() as u64 == 1 + payload[0] % 8 && payload.iter().all(|word| *word == payload[0])
}

fn is_response(payload: &[u64]) -> bool {
    payload.len() as u64 == 2 + payload[1] % 8 && payload[1..].iter().all(|word| *word == payload[1])
}

impl Living {
    fn create(&mut self, service: &PortFactory<S, Words, (), Words, ()>, random: &mut Random) {
        if random.below(2) == 0 {
            self.clients.extend(service.client_builder().initial_max_slice_len(8).create());
        } else {
            let builder = service
                .server_builder()
                .initial_max_slice_len(9)
                .max_loaned_responses_per_request(3);
            self.servers.extend(builder.create());
        }
    }

    fn loan_request(&mut self, random: &mut Random, number: u64) {
        let len = 1 + number as usize % 8;
        if let Some(Ok(request)) = random.choose(&self.clients).map(|it| it.loan_slice_uninit(len)) {
            let request = match number % 3 {
                0 => request.write_from_slice(&vec![number; len]),
                _ => request.write_from_fn(|_| number),
            };
            self.requests.push(request);
            self.done[0] += 1;
        }
    }

    fn loan_response(&mut self, random: &mut Random, number: u64) {
        let Some(active) = random.choose(&self.active) else { return };
        let asked = active[0];
        if let Ok(response) = active.loan_slice_uninit(2 + number as usize % 8) {
            self.responses
                .push(response.write_from_fn(|index| if index == 0 { asked } else { number }));
            self.done[1] += 1;
        }
    }

    fn send(&mut self, random: &mut Random) {
        if random.below(2) == 0 {
            if let Some(Ok(pending)) = random.take(&mut self.requests).map(|it| it.send()) {
                assert!(is_request(&pending));
                self.pending.push(pending);
                self.done[2] += 1;
            }
        } else if random.take(&mut self.responses).is_some_and(|it| it.send().is_ok()) {
            self.done[3] += 1;
        }
    }

    fn receive(&mut self, random: &mut Random) {
        if random.below(2) == 0 {
            if let Some(Ok(Some(active))) = random.choose(&self.servers).map(|it| it.receive()) {
                assert!(is_request(&active));
                self.active.push(active);
                self.done[4] += 1;
            }
            return;
        }
        let Some(pending) = random.choose(&self.pending) else { return };
        if let Ok(Some(response)) = pending.receive() {
            assert!(is_response(&response) && response[0] == pending[0]);
            self.received.push(response);
            self.done[5] += 1;
        }
    }

    fn drop_one(&mut self, random: &mut Random) {
        let dropped = match random.below(12) {
            0 => random.take(&mut self.clients).is_some(),
            1 => random.take(&mut self.servers).is_some(),
            2 => random.take(&mut self.requests).is_some(),
            3 | 4 => random.take(&mut self.pending).is_some(),
            5 | 6 => random.take(&mut self.active).is_some(),
            7 => random.take(&mut self.responses).is_some(),
            _ => random.take(&mut self.received).is_some(),
        };
        self.done[6] += usize::from(dropped);
    }

    /// Reads all messages and asks all queries.
    fn look(&mut self) {
        assert!(self.requests.iter().all(|request| is_request(request)));
        assert!(self.responses.iter().all(|response| is_response(response)));
        assert!(
            self.pending
                .iter()
                .all(|pending| is_request(pending) && pending.number_of_server_connections() <= 2)
        );
        assert!(
            self.active
                .iter()
                .all(|active| is_request(active) && active.origin() == active.header().client_id())
        );
        assert!(self.received.iter().all(|response| is_response(response)));
        let waiting =
            |pending: &&PendingResponse<S, Words, (), Words, ()>| pending.has_response() || pending.is_connected();
        self.done[7] += self.pending.iter().filter(waiting).count();
    }
}

fn walk(seed: u64, safe_overflow: bool, fire_and_forget: bool) {
    let service = builder::<S, Words, Words>(&format!("walk {seed}"))
        .max_clients(3)
        .enable_safe_overflow_for_requests(safe_overflow)
        .enable_safe_overflow_for_responses(safe_overflow)
        .enable_fire_and_forget_requests(fire_and_forget)
        .create()
        .unwrap();
    let mut random = Random(seed);
    let mut living = Living::default();
    for step in 0..STEPS {
        match random.below(16) {
            0 => living.create(&service, &mut random),
            1..=3 => living.loan_request(&mut random, step as u64),
            4..=6 => living.loan_response(&mut random, step as u64),
            7..=9 => living.send(&mut random),
            10..=12 => living.receive(&mut random),
            13 | 14 => living.drop_one(&mut random),
            _ => living.look(),
        }
    }
    assert!(living.done.iter().all(|count| *count > 100), "{:?}", living.done);
}

#[test]
fn queues_that_overflow() {
    walk(1, true, true);
    walk(2, true, false);
}

#[test]
fn queues_that_are_passed_over() {
    walk(3, false, true);
    walk(4, false, false);
}
