//! Threads do anything in any order to one service: create and drop ports, loan slices that grow, hand messages to each
//! other, wait and give up. Each payload is read as it was written, as often as it is looked at. The environment
//! variable `STEPS` sets how many steps each makes.

mod common;

use common::{Random, builder};
use rr::active_request::ActiveRequest;
use rr::pending_response::PendingResponse;
use rr::port::client::Client;
use rr::port::server::Server;
use rr::prelude::*;
use rr::request_mut::RequestMut;
use rr::response::Response;
use rr::response_mut::ResponseMut;
use rr::service::port_factory::request_response::PortFactory;
use std::sync::Barrier;
use std::sync::mpsc::{Receiver, Sender, channel};
use std::thread;
use std::time::Duration;

type L = local_threadsafe::Service;
type Words = [u64];
type H = [u32; 5];
type Service = PortFactory<L, Words, H, Words, H>;

enum Any {
    Client(Client<L, Words, H, Words, H>),
    Server(Server<L, Words, H, Words, H>),
    Request(RequestMut<L, Words, H, Words, H>),
    Pending(PendingResponse<L, Words, H, Words, H>),
    Active(ActiveRequest<L, Words, H, Words, H>),
    ResponseMut(ResponseMut<L, Words, H>),
    Response(Response<L, Words, H>),
}

fn check(words: &Words, header: &H, elements: u64) {
    assert_eq!(words.len() as u64, elements);
    assert!(words.iter().all(|it| *it == words[0]), "{words:?}");
    assert_eq!(*header, [words[0] as u32; 5]);
}

impl Any {
    /// Returns a number for each kind.
    fn kind(&self) -> usize {
        match self {
            Any::Client(_) => 0,
            Any::Server(_) => 1,
            Any::Request(_) => 2,
            Any::Pending(_) => 3,
            Any::Active(_) => 4,
            Any::ResponseMut(_) => 5,
            Any::Response(_) => 6,
        }
    }

    fn look(&self) {
        match self {
            Any::Client(_) | Any::Server(_) => {}
            Any::Request(it) => check(it, it.user_header(), it.header().number_of_elements()),
            Any::Pending(it) => check(it, it.user_header(), it.header().number_of_elements()),
            Any::Active(it) => check(it, it.user_header(), it.header().number_of_elements()),
            Any::ResponseMut(it) => check(it, it.user_header(), it.header().number_of_elements()),
            Any::Response(it) => check(it, it.user_header(), it.header().number_of_elements()),
        }
    }
}

fn create(random: &mut Random, service: &Service) -> Option<Any> {
    if random.below(2) == 0 {
        let client = service
            .client_builder()
            .allocation_strategy(AllocationStrategy::PowerOfTwo)
            .create();
        return client.ok().map(Any::Client);
    }
    let builder = service.server_builder().allocation_strategy(AllocationStrategy::BestFit);
    builder.create().ok().map(Any::Server)
}

/// Makes a message of a port or a message, if it gives one.
fn take(from: &Any, random: &mut Random, mark: u64) -> Option<Any> {
    let (len, waits) = (1 + random.below(200), random.below(2) == 0);
    let wait = Duration::from_micros(random.below(50) as u64);
    match from {
        Any::Client(client) => {
            let mut request = client.loan_slice_uninit(len).ok()?;
            *request.user_header_mut() = [mark as u32; 5];
            Some(Any::Request(request.write_from_fn(|_| mark)))
        }
        Any::Server(server) => {
            let received = if waits { server.timed_receive(wait) } else { server.receive() };
            received.ok()?.map(Any::Active)
        }
        Any::Pending(pending) => {
            let received = if waits { pending.timed_receive(wait) } else { pending.receive() };
            received.ok()?.map(Any::Response)
        }
        Any::Active(active) => {
            let mut response = active.loan_slice_uninit(len).ok()?;
            *response.user_header_mut() = [mark as u32; 5];
            Some(Any::ResponseMut(response.write_from_fn(|_| mark)))
        }
        Any::Request(_) | Any::ResponseMut(_) | Any::Response(_) => None,
    }
}

/// Sends a message on loan, and now and then drops or asks another thing.
fn go_on(it: Any, random: &mut Random) -> Option<Any> {
    match it {
        Any::Request(request) => request.try_send().ok().map(Any::Pending),
        Any::ResponseMut(response) => {
            let _ = response.try_send();
            None
        }
        Any::Pending(pending) if random.below(8) == 0 => {
            pending.set_disconnect_hint();
            pending.is_connected().then_some(Any::Pending(pending))
        }
        Any::Active(active) if random.below(8) == 0 => {
            (active.is_connected() && !active.has_disconnect_hint()).then_some(Any::Active(active))
        }
        it if random.below(6) == 0 => {
            drop(it);
            None
        }
        it => Some(it),
    }
}

fn step(has: &mut Vec<Any>, random: &mut Random, service: &Service, mark: u64) {
    if has.is_empty() || random.below(12) == 0 {
        has.extend(create(random, service));
        return;
    }
    let it = random.take(has).expect("it has something");
    it.look();
    has.extend(take(&it, random, mark));
    has.extend(go_on(it, random));
}

fn open(overflows: bool) -> Service {
    let builder = builder::<L, Words, Words>(&format!("stress {overflows}"))
        .request_user_header::<H>()
        .response_user_header::<H>()
        .enable_safe_overflow_for_requests(overflows)
        .enable_safe_overflow_for_responses(overflows)
        .enable_fire_and_forget_requests(overflows);
    builder.open_or_create().unwrap()
}

/// The things of each kind that a thread has had, and how many of all came from another thread.
#[derive(Default)]
struct Had {
    kinds: [usize; 7],
    handed: usize,
}

/// Makes so many steps.
fn work(number: u64, steps: usize, overflows: bool, from: Receiver<Any>, to: Sender<Any>) -> Had {
    let mut random = Random(number + 1);
    let mut has: Vec<Any> = Vec::new();
    let mut had = Had::default();
    let mut service = None;
    for turn in 0..steps {
        if service.is_none() || random.below(500) == 0 {
            service = Some(open(overflows));
        }
        step(&mut has, &mut random, service.as_ref().unwrap(), number << 32 | turn as u64);
        has.last().into_iter().for_each(|it| had.kinds[it.kind()] += 1);
        if random.below(10) == 0 {
            random.take(&mut has).into_iter().for_each(|it| drop(to.send(it)));
        }
        if let Ok(it) = from.try_recv() {
            had.handed += 1;
            has.push(it);
        }
        if has.len() > 60 || random.below(2000) == 0 {
            has.clear();
            service = None;
        }
    }
    had
}

fn stress(overflows: bool) {
    let steps = std::env::var("STEPS").map_or(5_000, |it| it.parse().unwrap());
    let (to, from): (Vec<_>, Vec<_>) = (0..4).map(|_| channel::<Any>()).unzip();
    let barrier = Barrier::new(4);
    let had: Vec<_> = thread::scope(|scope| {
        let start = |(number, from): (usize, Receiver<Any>)| {
            let (to, barrier) = (to[(number + 1) % 4].clone(), &barrier);
            scope.spawn(move || {
                barrier.wait();
                work(number as u64, steps, overflows, from, to)
            })
        };
        let threads: Vec<_> = from.into_iter().enumerate().map(start).collect();
        threads.into_iter().map(|it| it.join().unwrap()).collect()
    });
    // Few steps may not lead to a response.
    let kinds = (0..7).map(|kind| had.iter().map(|it| it.kinds[kind]).sum::<usize>());
    assert!(steps < 5_000 || kinds.min() > Some(0));
    assert!(had.iter().map(|it| it.handed).sum::<usize>() > 0);
}

#[test]
fn anything_in_any_order_with_overflow() {
    stress(true);
}

#[test]
fn anything_in_any_order_without_overflow() {
    stress(false);
}
