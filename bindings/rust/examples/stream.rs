//! A server streams the powers of two until its client has seen enough.

use rr::prelude::*;
use std::thread;

type Kind = local_threadsafe::Service;

fn main() -> Result<(), Box<dyn core::error::Error>> {
    let node = NodeBuilder::new().create::<Kind>()?;
    // Without overflow a send waits until the queue has room, so no response is dropped.
    let service = node
        .service_builder(&"powers".try_into()?)
        .request_response::<u64, u64>()
        .enable_safe_overflow_for_responses(false)
        .open_or_create()?;
    let (client, server) = (service.client_builder().create()?, service.server_builder().create()?);

    let streaming = thread::spawn(move || {
        let active_request = server.blocking_receive().expect("the server holds no request");
        let mut power = *active_request;
        while !active_request.has_disconnect_hint() && active_request.is_connected() {
            active_request.send_copy(power).expect("the send waits for room");
            power = power.wrapping_mul(2);
        }
    });

    let pending_response = client.send_copy(1)?;
    while let Some(response) = pending_response.blocking_receive()? {
        println!("{}", *response);
        if *response == 32 {
            pending_response.set_disconnect_hint();
            break;
        }
    }
    // The drop ends the wait of a send that has no room.
    drop(pending_response);
    streaming.join().map_err(|_| "the server panicked")?;
    Ok(())
}
