//! Full queues: the information for handlers, the effect of their answers, and sends that return the message.

mod common;

use common::{Done, builder, least};
use rr::port::client::RequestSendError;
use rr::port::{BackpressureAction, BackpressureInfo, DegradationAction, SendError};
use rr::prelude::*;
use std::sync::atomic::{AtomicUsize, Ordering};
use std::sync::{Arc, Mutex};
use std::thread;
use std::time::Duration;

type S = ipc::Service;
type L = local_threadsafe::Service;

const FULL: RequestSendError = RequestSendError::SendError(SendError::UnableToDeliver);

/// Sends a request to a full queue of a client with this handler and this strategy.
fn send_to_a_full_queue(
    name: &str,
    strategy: BackpressureStrategy,
    action: BackpressureAction,
) -> Result<usize, RequestSendError> {
    let service = least::<S>(name).create().unwrap();
    let server = service.server_builder().create().unwrap();
    let builder = service.client_builder().backpressure_strategy(strategy);
    let client = builder.set_backpressure_handler(move |_| action).create().unwrap();
    drop(client.send_copy(1).unwrap());
    let sent = client.send_copy(2).map(|it| it.number_of_server_connections());
    // The request on loan is gone, and the queue has what it had.
    assert!(client.loan().is_ok());
    assert_eq!(*server.receive().unwrap().unwrap(), 1);
    assert!(server.receive().unwrap().is_none());
    sent
}

#[test]
fn a_handler_decides_or_leaves_it_to_the_strategy() {
    use BackpressureAction::{DiscardData, DiscardDataAndFail, FollowBackpressureStrategy};
    use BackpressureStrategy as Strategy;
    let retry = |action| send_to_a_full_queue("retry", Strategy::RetryUntilDelivered, action);
    assert_eq!(retry(DiscardData), Ok(0));
    assert_eq!(retry(DiscardDataAndFail), Err(FULL));
    // Nobody else could make room in a service of one thread.
    assert_eq!(retry(FollowBackpressureStrategy), Err(FULL));
    let discard = |action| send_to_a_full_queue("discard", Strategy::DiscardData, action);
    assert_eq!(discard(DiscardData), Ok(0));
    assert_eq!(discard(DiscardDataAndFail), Err(FULL));
    assert_eq!(discard(FollowBackpressureStrategy), Ok(0));
}

#[test]
fn a_handler_is_told_who_sends_to_whom_and_how_often_it_was_asked() -> Done {
    let service = least::<S>("told").create()?;
    let server = service.server_builder();
    let told = Arc::new(Mutex::new(Vec::new()));
    let hears = told.clone();
    let handler = move |info: &BackpressureInfo| {
        hears.lock().unwrap().push(*info);
        if info.retries < 3 { BackpressureAction::Retry } else { BackpressureAction::DiscardDataAndFail }
    };
    let server = server.set_backpressure_handler(handler.clone()).create()?;
    let client = service.client_builder().set_backpressure_handler(handler).create()?;
    drop(client.send_copy(1)?);
    assert_eq!(client.send_copy(2).unwrap_err(), FULL);
    let active = server.receive()?.unwrap();
    drop(active);
    let pending = client.send_copy(3)?;
    let active = server.receive()?.unwrap();
    active.send_copy(4)?;
    assert_eq!(active.send_copy(5).unwrap_err(), SendError::UnableToDeliver);
    let told = told.lock().unwrap();
    assert_eq!(told.iter().map(|it| it.retries).collect::<Vec<_>>(), [0, 1, 2, 3, 0, 1, 2, 3]);
    let (client, server) = (client.id().value(), server.id().value());
    assert!(
        told[..4]
            .iter()
            .all(|it| (it.sender_port_id, it.receiver_port_id) == (client, server))
    );
    assert!(
        told[4..]
            .iter()
            .all(|it| (it.sender_port_id, it.receiver_port_id) == (server, client))
    );
    assert!(told[0].elapsed_time <= told[3].elapsed_time);
    assert_eq!(*pending.receive()?.unwrap(), 4);
    Ok(())
}

/// A handler may use the service, since no lock is held as it is called.
#[test]
fn a_handler_may_make_room() -> Done {
    let service = least::<L>("makes room").create()?;
    let server = Arc::new(service.server_builder().create()?);
    let receiver = server.clone();
    let handler = move |_: &BackpressureInfo| {
        assert_eq!(*receiver.receive().unwrap().unwrap(), 1);
        BackpressureAction::Retry
    };
    let client = service.client_builder().set_backpressure_handler(handler).create()?;
    drop(client.send_copy(1)?);
    assert_eq!(client.send_copy(2)?.number_of_server_connections(), 1);
    assert_eq!(*server.receive()?.unwrap(), 2);
    Ok(())
}

#[test]
fn a_handler_that_retries_is_asked_again_without_room() -> Done {
    let service = least::<L>("asked again").create()?;
    let _server = service.server_builder().create()?;
    let asked = Arc::new(AtomicUsize::new(0));
    let counts = asked.clone();
    let handler = move |info: &BackpressureInfo| {
        counts.fetch_add(1, Ordering::Relaxed);
        // Each wait for room ends after 10 milliseconds.
        assert!(info.elapsed_time >= Duration::from_millis(10 * info.retries));
        if info.retries == 3 { BackpressureAction::DiscardDataAndFail } else { BackpressureAction::Retry }
    };
    let client = service.client_builder().set_backpressure_handler(handler).create()?;
    drop(client.send_copy(1)?);
    assert_eq!(client.send_copy(2).unwrap_err(), FULL);
    assert_eq!(asked.load(Ordering::Relaxed), 4);
    Ok(())
}

#[test]
fn a_handler_goes_with_the_last_message_of_its_port() -> Done {
    let service = least::<S>("goes").create()?;
    let kept = Arc::new(());
    let keeps = kept.clone();
    let builder = service.client_builder().set_backpressure_handler(move |_| {
        let _ = &keeps;
        BackpressureAction::DiscardData
    });
    let client = builder.create()?;
    let request = client.loan()?;
    drop(client);
    assert_eq!(Arc::strong_count(&kept), 2);
    drop(request);
    assert_eq!(Arc::strong_count(&kept), 1);
    // A client that is not created takes none.
    let _client = service.client_builder().create()?;
    let keeps = kept.clone();
    let refused = service.client_builder().set_backpressure_handler(move |_| {
        let _ = &keeps;
        BackpressureAction::Retry
    });
    assert!(refused.create().is_err());
    assert_eq!(Arc::strong_count(&kept), 1);
    Ok(())
}

#[test]
fn degradation_handlers_are_taken_and_never_called() -> Done {
    let service = least::<S>("degradation").create()?;
    let _client = service
        .client_builder()
        .set_request_degradation_handler(|_, _| unreachable!())
        .set_response_degradation_handler(|_, _| DegradationAction::Warn)
        .create()?;
    let _server = service
        .server_builder()
        .set_request_degradation_handler(|_, _| DegradationAction::Ignore)
        .set_response_degradation_handler(|_, _| unreachable!())
        .create()?;
    Ok(())
}

/// Sends that do not wait, in a service on which a send would.
fn try_sends<K: Service>() -> Done {
    let service = least::<K>("try_send").create()?;
    let (client, server) = (service.client_builder().create()?, service.server_builder().create()?);
    let first = client.send_copy(1)?;
    let refused = client.loan_uninit()?.write_payload(2).try_send().unwrap_err();
    assert_eq!(refused.error, RequestSendError::ExceedsMaxActiveRequests);
    drop(first);
    let refused = refused.message.try_send().unwrap_err();
    assert_eq!(refused.error, FULL);
    assert!(refused.to_string().ends_with("RequestSendError::SendError(UnableToDeliver)"));
    let active = server.receive()?.unwrap();
    drop(active);
    let mut request = refused.message;
    *request += 10;
    let pending = request.try_send()?;
    let active = server.receive()?.unwrap();
    assert_eq!(*active, 12);
    active.loan_uninit()?.write_payload(3).try_send()?;
    let refused = active.loan_uninit()?.write_payload(4).try_send().unwrap_err();
    assert_eq!((refused.error, *refused.message), (SendError::UnableToDeliver, 4));
    assert_eq!(*pending.receive()?.unwrap(), 3);
    refused.message.try_send()?;
    assert_eq!(*pending.receive()?.unwrap(), 4);
    Ok(())
}

#[test]
fn a_refused_message_is_given_back() -> Done {
    try_sends::<S>()?;
    try_sends::<L>()
}

#[test]
fn a_send_that_does_not_wait_asks_the_handler_once() -> Done {
    let service = least::<L>("asked once").create()?;
    let server = service.server_builder().create()?;
    let asked = Arc::new(AtomicUsize::new(0));
    let counts = asked.clone();
    let handler = move |_: &BackpressureInfo| match counts.fetch_add(1, Ordering::Relaxed) {
        0 => BackpressureAction::Retry,
        _ => BackpressureAction::DiscardData,
    };
    let client = service.client_builder().set_backpressure_handler(handler).create()?;
    drop(client.send_copy(1)?);
    let refused = client.loan_uninit()?.write_payload(2).try_send().unwrap_err();
    assert_eq!((refused.error, asked.load(Ordering::Relaxed)), (FULL, 1));
    assert_eq!(refused.message.try_send()?.number_of_server_connections(), 0);
    assert_eq!((*server.receive()?.unwrap(), asked.load(Ordering::Relaxed)), (1, 2));
    Ok(())
}

/// No handler is asked, and no send waits, if the queues overflow or there is no server.
#[test]
fn no_handler_is_asked_where_there_is_room() -> Done {
    let service = builder::<L, u64, u64>("room").max_active_requests_per_client(1).create()?;
    let client = service.client_builder().set_backpressure_handler(|_| unreachable!()).create()?;
    let server = service.server_builder().create()?;
    (0..3).try_for_each(|it| client.send_copy(it).map(drop))?;
    assert_eq!(*server.receive()?.unwrap(), 2);
    let least = least::<L>("nobody").create()?;
    let client = least.client_builder().set_backpressure_handler(|_| unreachable!()).create()?;
    (0..3).try_for_each(|it| client.send_copy(it).map(drop))?;
    Ok(())
}

#[test]
fn several_threads_ask_one_handler() -> Done {
    let service = least::<L>("several")
        .max_loaned_requests(8)
        .max_active_requests_per_client(8)
        .create()?;
    let server = service.server_builder().create()?;
    let handler = |_: &BackpressureInfo| BackpressureAction::FollowBackpressureStrategy;
    let client = service.client_builder().set_backpressure_handler(handler).create()?;
    (0..8).try_for_each(|it| client.send_copy(it).map(drop))?;
    thread::scope(|scope| {
        let client = &client;
        let sending = [8, 9, 10].map(|it| scope.spawn(move || drop(client.send_copy(it).unwrap())));
        let mut received = Vec::new();
        while received.len() < 11 {
            received.extend(server.timed_receive(Duration::from_secs(5)).unwrap().map(|it| *it));
        }
        received.sort();
        assert_eq!(received, (0..11).collect::<Vec<_>>());
        sending.into_iter().for_each(|it| it.join().unwrap());
    });
    Ok(())
}
