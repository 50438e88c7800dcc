//! One thread serves three services of different types, and a client's thread asks each of them.

use rr::prelude::*;
use std::thread;

type Kind = local_threadsafe::Service;
type Outcome = Result<(), Box<dyn core::error::Error>>;

/// Asks each service once. A request of no bytes ends the serving thread.
fn ask() -> Outcome {
    let node = NodeBuilder::new().create::<Kind>()?;
    let halves = node
        .service_builder(&"half".try_into()?)
        .request_response::<f64, f64>()
        .open()?;
    let lengths = node
        .service_builder(&"length".try_into()?)
        .request_response::<[u8], u64>()
        .open()?;
    let stops = node.service_builder(&"stop".try_into()?).request_response::<(), ()>().open()?;

    let half = halves.client_builder().create()?.send_copy(9.0)?;
    println!("half of {} is {}", *half, *half.blocking_receive()?.ok_or("no server")?);

    let client = lengths.client_builder().initial_max_slice_len(5).create()?;
    let length = client.loan_slice_uninit(5)?.write_from_slice(b"hello").send()?;
    println!("{} bytes", *length.blocking_receive()?.ok_or("no server")?);

    stops.client_builder().create()?.send_copy(())?.blocking_receive()?;
    Ok(())
}

fn main() -> Outcome {
    let node = NodeBuilder::new().create::<Kind>()?;
    let halves = node
        .service_builder(&"half".try_into()?)
        .request_response::<f64, f64>()
        .create()?;
    let lengths = node
        .service_builder(&"length".try_into()?)
        .request_response::<[u8], u64>()
        .create()?;
    let stops = node
        .service_builder(&"stop".try_into()?)
        .request_response::<(), ()>()
        .create()?;
    let half_server = halves.server_builder().create()?;
    let length_server = lengths.server_builder().create()?;
    let stop_server = stops.server_builder().create()?;
    let asking = thread::spawn(|| ask().map_err(|error| error.to_string()));

    let waitset = WaitSetBuilder::new().create::<Kind>()?;
    let half_guard = waitset.attach_notification(&half_server)?;
    let length_guard = waitset.attach_notification(&length_server)?;
    let stop_guard = waitset.attach_notification(&stop_server)?;
    waitset.wait_and_process(|id| {
        if id.has_event_from(&stop_guard) {
            return CallbackProgression::Stop;
        }
        let sent = if id.has_event_from(&half_guard) {
            half_server
                .receive()
                .map(|it| it.map(|request| request.send_copy(*request / 2.0)))
        } else if id.has_event_from(&length_guard) {
            length_server
                .receive()
                .map(|it| it.map(|request| request.send_copy(request.len() as u64)))
        } else {
            Ok(None)
        };
        assert!(matches!(sent, Ok(None | Some(Ok(())))), "no limit is reached: {sent:?}");
        CallbackProgression::Continue
    })?;
    drop(stop_server.receive()?);
    Ok(asking.join().map_err(|_| "the client panicked")??)
}
