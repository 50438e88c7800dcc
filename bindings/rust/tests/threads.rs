//! Ports and messages in several threads.

mod common;

use common::{Done, builder, service};
use rr::active_request::ActiveRequest;
use rr::pending_response::PendingResponse;
use rr::port::client::Client;
use rr::port::server::Server;
use rr::prelude::*;
use rr::request_mut::RequestMut;
use rr::request_mut_uninit::RequestMutUninit;
use rr::response::Response;
use rr::response_mut::ResponseMut;
use rr::response_mut_uninit::ResponseMutUninit;
use rr::service::port_factory::PortFactory as _;
use rr::service::port_factory::request_response::PortFactory;
use std::cell::RefCell;
use std::sync::atomic::{AtomicBool, AtomicUsize, Ordering};
use std::thread;
use std::time::Duration;

type L = local_threadsafe::Service;
type Words = [u64];

fn is_send_and_sync<T: Send + Sync>() {}

#[test]
fn all_handles_of_a_shared_service_go_to_other_threads() {
    is_send_and_sync::<Node<L>>();
    is_send_and_sync::<PortFactory<L, Words, u32, u64, ()>>();
    is_send_and_sync::<Client<L, Words, u32, u64, ()>>();
    is_send_and_sync::<Server<L, Words, u32, u64, ()>>();
    is_send_and_sync::<RequestMutUninit<L, Words, u32, u64, ()>>();
    is_send_and_sync::<RequestMut<L, Words, u32, u64, ()>>();
    is_send_and_sync::<PendingResponse<L, Words, u32, u64, ()>>();
    is_send_and_sync::<ActiveRequest<L, Words, u32, u64, ()>>();
    is_send_and_sync::<ResponseMutUninit<L, u64, ()>>();
    is_send_and_sync::<ResponseMut<L, u64, ()>>();
    is_send_and_sync::<Response<L, u64, ()>>();
}

/// Is ambiguous, and so does not compile, if the type is `Send`.
macro_rules! is_not_send {
    ($($type:ty)*) => {
        $({
            trait Ambiguous<A> {
                fn holds() {}
            }
            impl<T: ?Sized> Ambiguous<()> for T {}
            struct IfSend;
            impl<T: ?Sized + Send> Ambiguous<IfSend> for T {}
            <$type as Ambiguous<_>>::holds();
        })*
    };
}

#[test]
fn no_handle_of_a_service_of_one_thread_leaves_it() {
    type I = ipc::Service;
    is_not_send! {
        Node<I> PortFactory<I, Words, u32, u64, ()> Client<I, Words, u32, u64, ()> Server<I, Words, u32, u64, ()>
        RequestMutUninit<I, Words, u32, u64, ()> RequestMut<I, Words, u32, u64, ()>
        PendingResponse<I, Words, u32, u64, ()> ActiveRequest<I, Words, u32, u64, ()>
        ResponseMutUninit<I, u64, ()> ResponseMut<I, u64, ()> Response<I, u64, ()>
    }
}

#[test]
fn two_threads_ask_and_answer() -> Done {
    const TURNS: u64 = 5_000;
    let answering = thread::spawn(|| {
        let server = builder::<L, u64, u64>("ping")
            .open_or_create()
            .unwrap()
            .server_builder()
            .create()
            .unwrap();
        for _ in 0..TURNS {
            let active = server.blocking_receive().unwrap();
            active.send_copy(*active + 1).unwrap();
        }
    });
    let service = builder::<L, u64, u64>("ping").open_or_create()?;
    let client = service.client_builder().create()?;
    while service.dynamic_config().number_of_servers() == 0 {
        thread::yield_now();
    }
    for turn in 0..TURNS {
        let pending = client.send_copy(turn)?;
        let response = pending.blocking_receive()?.ok_or("no answer")?;
        assert_eq!(*response, turn + 1);
        drop(response);
        assert!(pending.blocking_receive()?.is_none());
    }
    answering.join().unwrap();
    Ok(())
}

/// Answers each request by twice as many words, until it is told to stop.
fn answer(port: Server<L, Words, (), Words, ()>, number: u64, is_over: &AtomicBool, answered: &AtomicUsize) {
    while !is_over.load(Ordering::Relaxed) {
        let Some(active) = port.timed_receive(Duration::from_millis(5)).unwrap() else { continue };
        let first = active[0];
        assert!(active.iter().all(|it| *it == first), "{:?}", &active[..]);
        let response = active.loan_slice_uninit(active.len() * 2).unwrap();
        response.write_from_fn(|_| first + number).send().unwrap();
        assert!(active.iter().all(|it| *it == first), "{:?}", &active[..]);
        answered.fetch_add(1, Ordering::Relaxed);
    }
}

/// Asks four servers, and receives the answer of each.
fn ask(port: Client<L, Words, (), Words, ()>, number: u64, turns: usize) {
    for turn in 0..turns {
        let len = 1 + turn % 97;
        let mark = number << 32 | (turn as u64) << 4;
        let pending = port.loan_slice_uninit(len).unwrap().write_from_fn(|_| mark).send().unwrap();
        assert_eq!(pending.number_of_server_connections(), 4);
        let mut from = [0; 4];
        while let Some(response) = pending.blocking_receive().unwrap() {
            let server = response[0] - mark;
            assert!(response.len() == len * 2 && response.iter().all(|it| *it == mark + server));
            from[server as usize] += 1;
        }
        assert_eq!(from, [1; 4]);
        assert!(pending.iter().all(|it| *it == mark));
    }
}

#[test]
fn four_clients_ask_four_servers_with_growing_slices() -> Done {
    const TURNS: usize = 500;
    let service = builder::<L, Words, Words>("many")
        .max_clients(4)
        .max_servers(4)
        .enable_safe_overflow_for_requests(false)
        .enable_safe_overflow_for_responses(false)
        .create()?;
    let strategy = AllocationStrategy::PowerOfTwo;
    let servers = [(); 4].map(|()| service.server_builder().allocation_strategy(strategy).create().unwrap());
    let clients = [(); 4].map(|()| service.client_builder().allocation_strategy(strategy).create().unwrap());
    let (is_over, answered) = (&AtomicBool::new(false), &AtomicUsize::new(0));
    thread::scope(|scope| {
        for (number, port) in (0..).zip(servers) {
            scope.spawn(move || answer(port, number, is_over, answered));
        }
        let clients = (0..)
            .zip(clients)
            .map(|(number, port)| scope.spawn(move || ask(port, number, TURNS)));
        clients.collect::<Vec<_>>().into_iter().for_each(|it| it.join().unwrap());
        is_over.store(true, Ordering::Relaxed);
    });
    assert_eq!(answered.load(Ordering::Relaxed), 4 * 4 * TURNS);
    Ok(())
}

#[test]
fn threads_share_a_server_and_a_client() -> Done {
    const TURNS: u64 = 1_000;
    let service = builder::<L, u64, u64>("shared")
        .max_active_requests_per_client(8)
        .max_loaned_requests(8)
        .create()?;
    let (client, server) = (service.client_builder().create()?, service.server_builder().create()?);
    let answered = AtomicUsize::new(0);
    let answer = || {
        while let Some(active) = server.timed_receive(Duration::from_secs(5)).unwrap() {
            if *active == u64::MAX {
                break;
            }
            active.send_copy(*active + 1).unwrap();
            answered.fetch_add(1, Ordering::Relaxed);
        }
    };
    let ask = |first: u64| {
        for turn in first..first + TURNS {
            let pending = client.send_copy(turn).unwrap();
            assert_eq!(*pending.blocking_receive().unwrap().unwrap(), turn + 1);
        }
    };
    thread::scope(|scope| {
        let servers = [(); 3].map(|()| scope.spawn(answer));
        let clients = [0, 1 << 20, 2 << 20, 3 << 20].map(|first| scope.spawn(move || ask(first)));
        clients.into_iter().for_each(|it| it.join().unwrap());
        servers.iter().for_each(|_| drop(client.send_copy(u64::MAX).unwrap()));
    });
    assert_eq!(answered.load(Ordering::Relaxed) as u64, 4 * TURNS);
    Ok(())
}

#[test]
fn threads_have_services_of_one_thread_of_their_own() {
    let threads = [0u64, 1, 2, 3].map(|number| {
        thread::spawn(move || {
            let service = service::<local::Service, u64, u64>(&format!("own {number}"));
            for turn in 0..1_000 {
                let (client, server) =
                    (service.client_builder().create().unwrap(), service.server_builder().create().unwrap());
                let pending = client.send_copy(turn).unwrap();
                server.receive().unwrap().unwrap().send_copy(turn * number).unwrap();
                assert_eq!(*pending.receive().unwrap().unwrap(), turn * number);
            }
        })
    });
    threads.into_iter().for_each(|it| it.join().unwrap());
}

type KeptClient = Client<local::Service, u64, (), u64, ()>;

thread_local! {
    static KEPT: RefCell<Option<KeptClient>> = const { RefCell::new(None) };
}

/// A service of one thread that a thread-local variable keeps is dropped as the thread ends, with its name.
#[test]
fn a_service_may_end_with_its_thread() -> Done {
    let keeps = || {
        KEPT.with(|kept| {
            let service = service::<local::Service, u64, u64>("ends with its thread");
            *kept.borrow_mut() = Some(service.client_builder().create().unwrap());
        });
    };
    for _ in 0..2 {
        thread::spawn(keeps).join().unwrap();
        let pattern = MessagingPattern::RequestResponse;
        let name = "ends with its thread".try_into()?;
        assert!(!local::Service::does_exist(&name, Config::global_config(), pattern)?);
    }
    Ok(())
}
