//! Waits for several things at once.

mod common;

use common::{Done, Random, builder, service};
use rr::prelude::*;
use rr::waitset::{WaitSet, WaitSetAttachmentError, WaitSetRunError, WaitSetRunResult};
use std::sync::atomic::{AtomicUsize, Ordering};
use std::thread;
use std::time::{Duration, Instant};

type L = local_threadsafe::Service;

const SHORT: Duration = Duration::from_millis(20);

fn waitset() -> WaitSet<L> {
    WaitSetBuilder::new().create().unwrap()
}

#[test]
fn an_empty_set_does_not_wait() {
    let waitset = waitset();
    assert!(waitset.is_empty() && waitset.capacity() > 0);
    assert_eq!(waitset.signal_handling_mode(), SignalHandlingMode::HandleTerminationRequests);
    let stop = |_| CallbackProgression::Stop;
    assert_eq!(waitset.wait_and_process(stop).unwrap_err(), WaitSetRunError::NoAttachments);
    assert_eq!(waitset.wait_and_process_once(stop).unwrap_err(), WaitSetRunError::NoAttachments);
    let guard = waitset.attach_interval(SHORT).unwrap();
    assert_eq!(waitset.len(), 1);
    drop(guard);
    assert_eq!(waitset.wait_and_process(stop).unwrap_err(), WaitSetRunError::NoAttachments);
}

#[test]
fn each_of_16_servers_of_as_many_services_is_woken() -> Done {
    const ASKED: usize = 200;
    let services: Vec<_> = (0..16).map(|it| service::<L, u64, u64>(&format!("one of 16: {it}"))).collect();
    let servers: Vec<_> = services.iter().map(|it| it.server_builder().create().unwrap()).collect();
    let waitset = waitset();
    let guards: Vec<_> = servers.iter().map(|it| waitset.attach_notification(it).unwrap()).collect();
    let mut served = [0; 16];
    thread::scope(|scope| {
        let asking = scope.spawn(|| {
            let clients: Vec<_> = services.iter().map(|it| it.client_builder().create().unwrap()).collect();
            let mut random = Random(1);
            for turn in 0..ASKED {
                let which = if turn < 16 { turn } else { random.below(16) };
                let pending = clients[which].send_copy(turn as u64).unwrap();
                assert_eq!(*pending.blocking_receive().unwrap().unwrap(), turn as u64 + 1);
            }
        });
        let serve = |id: WaitSetAttachmentId<L>| {
            let which = guards.iter().position(|it| id.has_event_from(it)).unwrap();
            let active = servers[which].receive().unwrap().unwrap();
            active.send_copy(*active + 1).unwrap();
            served[which] += 1;
            if served.iter().sum::<usize>() == ASKED {
                CallbackProgression::Stop
            } else {
                CallbackProgression::Continue
            }
        };
        assert_eq!(waitset.wait_and_process(serve).unwrap(), WaitSetRunResult::StopRequest);
        asking.join().unwrap();
    });
    assert!(served.iter().all(|it| *it > 0) && served.iter().sum::<usize>() == ASKED);
    Ok(())
}

/// How often each guard's attachment has an event in one wait.
fn events<const N: usize>(waitset: &WaitSet<L>, guards: [&rr::waitset::WaitSetGuard<'_, '_, L>; N]) -> [usize; N] {
    let mut events = [0; N];
    let note = |id: WaitSetAttachmentId<L>| {
        for (event, guard) in events.iter_mut().zip(guards) {
            *event += usize::from(id == WaitSetAttachmentId::from_guard(guard));
        }
        CallbackProgression::Continue
    };
    let result = waitset.wait_and_process_once_with_timeout(note, SHORT).unwrap();
    assert_eq!(result, WaitSetRunResult::AllEventsHandled);
    events
}

#[test]
fn an_event_lasts_as_long_as_something_is_queued() -> Done {
    let service = service::<L, u64, u64>("level");
    let (client, server) = (service.client_builder().create()?, service.server_builder().create()?);
    let other = service.server_builder().create()?;
    let waitset = waitset();
    let (first, second) = (waitset.attach_notification(&server)?, waitset.attach_notification(&other)?);
    assert_eq!(events(&waitset, [&first, &second]), [0, 0]);
    drop((client.send_copy(1)?, client.send_copy(2)?));
    assert_eq!(events(&waitset, [&first, &second]), [1, 1]);
    drop(server.receive()?);
    assert_eq!(events(&waitset, [&first, &second]), [1, 1]);
    drop((server.receive()?, other.receive()?));
    assert_eq!(events(&waitset, [&first, &second]), [0, 1]);
    Ok(())
}

#[test]
fn a_pending_response_has_an_event_too_when_no_response_can_come() -> Done {
    let service = service::<L, u64, u64>("pending");
    let (client, server) = (service.client_builder().create()?, service.server_builder().create()?);
    let pending = [client.send_copy(1)?, client.send_copy(2)?];
    let waitset = waitset();
    let (first, second) = (waitset.attach_notification(&pending[0])?, waitset.attach_notification(&pending[1])?);
    let active = [server.receive()?.unwrap(), server.receive()?.unwrap()];
    assert_eq!(events(&waitset, [&first, &second]), [0, 0]);
    active[0].send_copy(3)?;
    assert_eq!(events(&waitset, [&first, &second]), [1, 0]);
    assert_eq!(*pending[0].receive()?.unwrap(), 3);
    assert_eq!(events(&waitset, [&first, &second]), [0, 0]);
    let [one, other] = active;
    drop(one);
    assert_eq!(events(&waitset, [&first, &second]), [1, 0]);
    // The drop comes while the thread waits.
    thread::scope(|scope| {
        scope.spawn(|| {
            thread::sleep(SHORT / 2);
            drop(other);
        });
        drop(first);
        let end = |id: WaitSetAttachmentId<L>| {
            assert!(id.has_event_from(&second));
            CallbackProgression::Stop
        };
        assert_eq!(waitset.wait_and_process(end).unwrap(), WaitSetRunResult::StopRequest);
    });
    Ok(())
}

#[test]
fn services_of_several_types_are_in_one_set() -> Done {
    let words = builder::<local_threadsafe::Service, [u64], u64>("words")
        .request_user_header::<u8>()
        .create()?;
    let bytes = builder::<ipc_threadsafe::Service, u8, ()>("bytes").create()?;
    let (word_server, byte_server) = (words.server_builder().create()?, bytes.server_builder().create()?);
    let waitset = waitset();
    let (first, second) = (waitset.attach_notification(&word_server)?, waitset.attach_notification(&byte_server)?);
    let _pending = bytes.client_builder().create()?.send_copy(1)?;
    assert_eq!(events(&waitset, [&first, &second]), [0, 1]);
    Ok(())
}

#[test]
fn an_interval_has_an_event_each_time() -> Done {
    let waitset = waitset();
    let (short, long) = (waitset.attach_interval(SHORT / 2)?, waitset.attach_interval(Duration::MAX)?);
    let (start, mut ticks) = (Instant::now(), 0);
    let result = waitset.wait_and_process(|id| {
        assert!(id.has_event_from(&short) && !id.has_event_from(&long));
        ticks += 1;
        if ticks == 3 { CallbackProgression::Stop } else { CallbackProgression::Continue }
    })?;
    assert_eq!(result, WaitSetRunResult::StopRequest);
    assert!(start.elapsed() >= 3 * (SHORT / 2));
    Ok(())
}

#[test]
fn a_wait_ends_with_its_time() -> Done {
    let service = service::<L, u64, u64>("timeout");
    let server = service.server_builder().create()?;
    let waitset = waitset();
    let _guard = waitset.attach_notification(&server)?;
    let start = Instant::now();
    let result = waitset.wait_and_process_once_with_timeout(|_| unreachable!(), SHORT)?;
    assert_eq!(result, WaitSetRunResult::AllEventsHandled);
    assert!(start.elapsed() >= SHORT);
    Ok(())
}

#[test]
fn nothing_is_attached_twice() -> Done {
    let service = service::<L, u64, u64>("twice");
    let (client, server) = (service.client_builder().create()?, service.server_builder().create()?);
    let pending = client.send_copy(1)?;
    let waitset = waitset();
    let _pending_guard = waitset.attach_notification(&pending)?;
    let guard = waitset.attach_notification(&server)?;
    assert_eq!(waitset.attach_notification(&server).unwrap_err(), WaitSetAttachmentError::AlreadyAttached);
    assert_eq!(waitset.attach_notification(&pending).unwrap_err(), WaitSetAttachmentError::AlreadyAttached);
    drop(guard);
    assert!(waitset.attach_notification(&server).is_ok());
    Ok(())
}

/// A callback may attach and detach, and use the services.
#[test]
fn callbacks_change_the_set() -> Done {
    let service = service::<L, u64, u64>("changes");
    let (client, server) = (service.client_builder().create()?, service.server_builder().create()?);
    let waitset = waitset();
    let mut guard = Some(waitset.attach_notification(&server)?);
    let mut later = None;
    let _pending = client.send_copy(1)?;
    let calls = AtomicUsize::new(0);
    waitset.wait_and_process(|_| {
        guard = None;
        later = Some(waitset.attach_interval(Duration::ZERO).unwrap());
        if calls.fetch_add(1, Ordering::Relaxed) == 1 {
            CallbackProgression::Stop
        } else {
            CallbackProgression::Continue
        }
    })?;
    assert!(guard.is_none() && later.is_some() && calls.load(Ordering::Relaxed) == 2);
    Ok(())
}

#[test]
fn a_leaked_guard_does_no_harm() -> Done {
    let service = service::<L, u64, u64>("leaked guard");
    let (client, server) = (service.client_builder().create()?, service.server_builder().create()?);
    let waitset = waitset();
    let pending = client.send_copy(1)?;
    std::mem::forget(waitset.attach_notification(&pending)?);
    std::mem::forget(waitset.attach_notification(&server)?);
    drop((pending, server));
    let result = waitset.wait_and_process_once_with_timeout(|_| unreachable!(), SHORT)?;
    assert_eq!(result, WaitSetRunResult::AllEventsHandled);
    Ok(())
}
