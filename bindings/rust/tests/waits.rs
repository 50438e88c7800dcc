//! The ends of waits.

mod common;

use common::{Count, Done, builder, least, service};
use rr::pending_response::PendingResponse;
use rr::port::ReceiveError;
use rr::prelude::*;
use std::future::Future;
use std::mem::ManuallyDrop;
use std::pin::{Pin, pin};
use std::sync::Arc;
use std::task::{Context, Waker};
use std::thread;
use std::time::{Duration, Instant};

type L = local_threadsafe::Service;
type Pending = PendingResponse<L, u64, (), u64, ()>;

const SHORT: Duration = Duration::from_millis(20);

/// Asserts that a wait does not end before these changes are made, and ends with nothing after them.
fn ends_after(pending: &Pending, changes: impl FnOnce()) -> Done {
    thread::scope(|scope| {
        let waiting = scope.spawn(|| pending.blocking_receive().unwrap().is_none());
        thread::sleep(SHORT);
        assert!(!waiting.is_finished());
        changes();
        assert!(waiting.join().unwrap());
    });
    Ok(())
}

/// Asserts that a wait is not over.
fn goes_on(pending: &Pending) {
    let (count, waker) = counting();
    let mut future = pin!(pending.async_receive());
    assert!(future.as_mut().poll(&mut Context::from_waker(&waker)).is_pending());
    assert_eq!(count.get(), 0);
}

fn counting() -> (Arc<Count>, Waker) {
    let count = Arc::new(Count::default());
    (count.clone(), count.into())
}

/// More clients than there are counters of answers.
#[test]
fn each_of_forty_clients_hears_its_own_answer_alone() -> Done {
    let service = builder::<L, u64, u64>("forty clients").max_clients(40).create()?;
    let server = service.server_builder().create()?;
    let clients: Vec<_> = (0..40).map(|_| service.client_builder().create().unwrap()).collect();
    let pending: Vec<_> = clients
        .iter()
        .zip(0..)
        .map(|(it, number)| it.send_copy(number).unwrap())
        .collect();
    let received = || -> Vec<u64> { pending.iter().filter_map(|it| it.receive().unwrap()).map(|it| *it).collect() };
    assert_eq!(received(), []);
    for _ in 0..40 {
        let active = server.receive()?.unwrap();
        assert_eq!(received(), []);
        active.send_copy(*active)?;
        assert_eq!(received(), [*active]);
    }
    assert!(server.receive()?.is_none() && !server.has_requests()?);
    Ok(())
}

#[test]
fn a_response_ends_it() -> Done {
    let service = service::<L, u64, u64>("ended by a response");
    let (client, server) = (service.client_builder().create()?, service.server_builder().create()?);
    let pending = client.send_copy(1)?;
    let active = server.blocking_receive()?;
    thread::scope(|scope| {
        let waiting = scope.spawn(|| *pending.blocking_receive().unwrap().unwrap());
        thread::sleep(SHORT);
        active.send_copy(7).unwrap();
        assert_eq!(waiting.join().unwrap(), 7);
    });
    Ok(())
}

#[test]
fn time_ends_it() -> Done {
    let service = service::<L, u64, u64>("ended by time");
    let (client, server) = (service.client_builder().create()?, service.server_builder().create()?);
    let start = Instant::now();
    assert!(server.timed_receive(SHORT)?.is_none());
    assert!(start.elapsed() >= SHORT);
    let pending = client.send_copy(1)?;
    assert!(pending.timed_receive(SHORT)?.is_none());
    assert!(start.elapsed() >= 2 * SHORT);
    goes_on(&pending);
    // No time at all, and more than a clock can tell.
    assert!(pending.timed_receive(Duration::ZERO)?.is_none());
    assert_eq!(*server.timed_receive(Duration::MAX)?.unwrap(), 1);
    Ok(())
}

#[test]
fn the_drop_of_the_active_request_ends_it() -> Done {
    let service = service::<L, u64, u64>("ended by a drop");
    let (client, server) = (service.client_builder().create()?, service.server_builder().create()?);
    let pending = client.send_copy(1)?;
    let active = server.receive()?.unwrap();
    assert!(server.receive()?.is_none());
    ends_after(&pending, || drop(active))
}

#[test]
fn all_servers_have_to_be_done() -> Done {
    let service = service::<L, u64, u64>("ended by two");
    let servers = [service.server_builder().create()?, service.server_builder().create()?];
    let pending = service.client_builder().create()?.send_copy(1)?;
    drop(servers[0].receive()?.unwrap());
    goes_on(&pending);
    let active = servers[1].receive()?.unwrap();
    goes_on(&pending);
    ends_after(&pending, || drop(active))
}

#[test]
fn the_drop_of_the_last_server_ends_it() -> Done {
    let service = service::<L, u64, u64>("ended by servers");
    let servers = [service.server_builder().create()?, service.server_builder().create()?];
    let pending = service.client_builder().create()?.send_copy(1)?;
    let [first, last] = servers;
    drop(first);
    goes_on(&pending);
    ends_after(&pending, || drop(last))
}

#[test]
fn a_server_that_only_a_message_keeps_receives_no_more() -> Done {
    let service = service::<L, u64, u64>("kept by a message");
    let (client, server) = (service.client_builder().create()?, service.server_builder().create()?);
    let received = client.send_copy(1)?;
    let active = server.receive()?.unwrap();
    let queued = client.send_copy(2)?;
    ends_after(&queued, || drop(server))?;
    assert!(queued.is_connected());
    goes_on(&received);
    active.send_copy(3)?;
    assert_eq!(*received.blocking_receive()?.unwrap(), 3);
    ends_after(&received, || drop(active))
}

#[test]
fn nobody_waits_for_a_request_that_reached_nobody() -> Done {
    let service = service::<L, u64, u64>("reached nobody");
    let pending = service.client_builder().create()?.send_copy(1)?;
    assert!(pending.blocking_receive()?.is_none());
    // A server that comes later has not got it.
    let _server = service.server_builder().create()?;
    assert!(pending.blocking_receive()?.is_none());
    Ok(())
}

#[test]
fn what_is_queued_comes_before_the_end() -> Done {
    let service = service::<L, u64, u64>("queued first");
    let (client, server) = (service.client_builder().create()?, service.server_builder().create()?);
    let pending = client.send_copy(1)?;
    let active = server.receive()?.unwrap();
    active.send_copy(2)?;
    active.send_copy(3)?;
    drop((active, server));
    assert_eq!(*pending.blocking_receive()?.unwrap(), 2);
    assert_eq!(*pending.blocking_receive()?.unwrap(), 3);
    assert!(pending.blocking_receive()?.is_none());
    Ok(())
}

#[test]
fn a_request_that_overflow_dropped_is_waited_for_until_a_later_one_is_received() -> Done {
    let service = builder::<L, u64, u64>("dropped by overflow")
        .max_active_requests_per_client(2)
        .create()?;
    let (client, server) = (service.client_builder().create()?, service.server_builder().create()?);
    let first = client.send_copy(1)?;
    drop(client.send_copy(2)?);
    drop(client.send_copy(3)?);
    goes_on(&first);
    ends_after(&first, || assert_eq!(*server.receive().unwrap().unwrap(), 2))?;
    // The library leaves the server among those that may answer.
    assert!(first.is_connected());
    Ok(())
}

#[test]
fn a_request_that_a_full_queue_did_not_take_is_waited_for_until_the_queue_is_empty() -> Done {
    let builder = least::<L>("passed over").max_active_requests_per_client(2).max_clients(2);
    let service = builder.create()?;
    let strategy = BackpressureStrategy::DiscardData;
    let client = service.client_builder().backpressure_strategy(strategy).create()?;
    let other = service.client_builder().create()?;
    let server = service.server_builder().create()?;
    drop((client.send_copy(1)?, client.send_copy(2)?));
    let third = client.send_copy(3)?;
    let fourth = other.send_copy(4)?;
    assert_eq!((third.number_of_server_connections(), fourth.number_of_server_connections()), (0, 1));
    for _ in 0..3 {
        drop(server.receive()?.unwrap());
        goes_on(&third);
    }
    assert!(fourth.blocking_receive()?.is_none());
    ends_after(&third, || assert!(server.receive().unwrap().is_none()))?;
    assert!(third.is_connected());
    // The next request goes its way.
    let fifth = client.send_copy(5)?;
    goes_on(&fifth);
    server.receive()?.unwrap().send_copy(6)?;
    assert_eq!(*fifth.blocking_receive()?.unwrap(), 6);
    Ok(())
}

/// Clients come and go at one seat, and an old request is received late.
#[test]
fn requests_of_a_client_that_left_say_nothing_of_those_of_the_next() -> Done {
    let service = builder::<L, u64, u64>("seats").max_clients(2).create()?;
    let server = service.server_builder().create()?;
    let left = service.client_builder().create()?;
    drop(left.send_copy(1)?);
    drop(left);
    let client = service.client_builder().create()?;
    let (second, third) = (client.send_copy(2)?, client.send_copy(3)?);
    let mut received = [*server.receive()?.unwrap(), *server.receive()?.unwrap()];
    received.sort();
    assert_eq!(received, [1, 2]);
    assert!(second.blocking_receive()?.is_none());
    goes_on(&third);
    assert_eq!(*server.receive()?.unwrap(), 3);
    assert!(third.blocking_receive()?.is_none());
    Ok(())
}

#[test]
fn a_request_that_outlives_its_client_is_waited_for() -> Done {
    let service = builder::<L, u64, u64>("outlives").max_clients(3).create()?;
    let server = service.server_builder().create()?;
    let first = service.client_builder().create()?;
    let (pending, request) = (first.send_copy(1)?, first.loan()?);
    drop(first);
    let second = service.client_builder().create()?;
    let later = second.send_copy(2)?;
    let last = request.send()?;
    goes_on(&pending);
    assert_eq!(*server.receive()?.unwrap(), 1);
    assert!(pending.blocking_receive()?.is_none());
    goes_on(&later);
    goes_on(&last);
    drop((server.receive()?, server.receive()?));
    assert!(later.blocking_receive()?.is_none() && last.blocking_receive()?.is_none());
    Ok(())
}

#[test]
fn an_error_ends_it() -> Done {
    let service = least::<L>("ended by an error").max_response_buffer_size(2).create()?;
    let (client, server) = (service.client_builder().create()?, service.server_builder().create()?);
    let pending = client.send_copy(1)?;
    let active = server.blocking_receive()?;
    active.send_copy(2)?;
    active.send_copy(3)?;
    let _response = pending.blocking_receive()?.unwrap();
    assert_eq!(pending.blocking_receive().unwrap_err(), ReceiveError::ExceedsMaxBorrows);
    assert_eq!(pending.timed_receive(SHORT).unwrap_err(), ReceiveError::ExceedsMaxBorrows);
    Ok(())
}

#[test]
fn a_send_waits_for_room_for_a_response() -> Done {
    let service = least::<L>("room for responses").create()?;
    let (client, server) = (service.client_builder().create()?, service.server_builder().create()?);
    let pending = client.send_copy(100)?;
    thread::scope(|scope| {
        scope.spawn(|| {
            let active = server.receive().unwrap().unwrap();
            (0..*active).for_each(|it| active.send_copy(it).unwrap());
        });
        let mut next = 0;
        while let Some(response) = pending.blocking_receive().unwrap() {
            assert_eq!(*response, next);
            next += 1;
        }
        assert_eq!(next, 100);
    });
    Ok(())
}

#[test]
fn a_send_of_a_response_ends_with_its_pending_response() -> Done {
    let service = least::<L>("room by a drop").create()?;
    let (client, server) = (service.client_builder().create()?, service.server_builder().create()?);
    let pending = client.send_copy(1)?;
    let active = server.receive()?.unwrap();
    active.send_copy(2)?;
    thread::scope(|scope| {
        let sending = scope.spawn(|| active.send_copy(3));
        thread::sleep(SHORT);
        assert!(!sending.is_finished());
        drop(pending);
        assert!(sending.join().unwrap().is_ok());
    });
    Ok(())
}

#[test]
fn a_send_waits_for_room_for_a_request() -> Done {
    let service = least::<L>("room for requests").create()?;
    let (client, server) = (service.client_builder().create()?, service.server_builder().create()?);
    drop(client.send_copy(1)?);
    thread::scope(|scope| {
        let sending = scope.spawn(|| *client.send_copy(2).unwrap());
        thread::sleep(SHORT);
        assert!(!sending.is_finished());
        assert_eq!(*server.receive().unwrap().unwrap(), 1);
        assert_eq!(sending.join().unwrap(), 2);
    });
    assert_eq!(*server.receive()?.unwrap(), 2);
    Ok(())
}

#[test]
fn a_send_of_a_request_ends_when_the_full_server_leaves() -> Done {
    let service = least::<L>("room by leaving").create()?;
    let (client, server) = (service.client_builder().create()?, service.server_builder().create()?);
    drop(client.send_copy(1)?);
    let active = server.receive()?.unwrap();
    drop(client.send_copy(2)?);
    thread::scope(|scope| {
        let sending = scope.spawn(|| client.send_copy(3).unwrap().number_of_server_connections());
        drop(server);
        thread::sleep(SHORT);
        assert!(!sending.is_finished());
        drop(active);
        assert_eq!(sending.join().unwrap(), 0);
    });
    Ok(())
}

/// A waiter is woken when its wait is over, and not before.
#[test]
fn waiters_are_woken_exactly_when_their_wait_is_over() -> Done {
    let service = builder::<L, u64, u64>("exactly").max_active_requests_per_client(3).create()?;
    let (client, server) = (service.client_builder().create()?, service.server_builder().create()?);
    let pending = [client.send_copy(1)?, client.send_copy(2)?, client.send_copy(3)?];
    let (counts, wakers): (Vec<_>, Vec<_>) = pending.iter().map(|_| counting()).unzip();
    let mut futures: Vec<_> = pending.iter().map(|it| Box::pin(it.async_receive())).collect();
    for (future, waker) in futures.iter_mut().zip(&wakers) {
        assert!(future.as_mut().poll(&mut Context::from_waker(waker)).is_pending());
    }
    let woken = || counts.iter().map(|it| it.get()).collect::<Vec<_>>();
    let active = [server.receive()?.unwrap(), server.receive()?.unwrap()];
    assert_eq!(woken(), [0, 0, 0]);
    active[1].send_copy(4)?;
    assert_eq!(woken(), [0, 1, 0]);
    let [first, _second] = active;
    drop(first);
    assert_eq!(woken(), [1, 1, 0]);
    drop(server.receive()?.unwrap());
    assert_eq!(woken(), [1, 1, 1]);
    Ok(())
}

/// Polls a future that has to wait, and leaks it.
fn leak(future: impl Future + Unpin, waker: &Waker) {
    let mut future = ManuallyDrop::new(future);
    assert!(Pin::new(&mut *future).poll(&mut Context::from_waker(waker)).is_pending());
}

/// A future that is leaked leaves its waker behind, which goes with what it waited for.
#[test]
fn leaked_futures_do_no_harm() -> Done {
    let service = service::<L, u64, u64>("leaked");
    let (client, server) = (service.client_builder().create()?, service.server_builder().create()?);
    let (count, waker) = counting();
    let pending = client.send_copy(1)?;
    leak(pending.async_receive(), &waker);
    drop(server.receive()?);
    assert_eq!(count.get(), 1);
    assert!(pending.blocking_receive()?.is_none());
    let second = client.send_copy(2)?;
    leak(second.async_receive(), &waker);
    drop(second);
    assert_eq!(count.get(), 2);
    assert_eq!(*server.receive()?.unwrap(), 2);
    leak(server.async_receive(), &waker);
    drop(server);
    assert_eq!(count.get(), 3);
    drop(waker);
    assert_eq!(Arc::strong_count(&count), 1);
    Ok(())
}
