//! A client asks for readings, and a server answers each request by as many readings as it asks for.
//!
//! But for the line below, this is a program of iceoryx2.
extern crate rr as iceoryx2;

use core::time::Duration;
use iceoryx2::prelude::*;

const CYCLE_TIME: Duration = Duration::from_millis(10);

#[derive(Debug, Clone, Copy, ZeroCopySend)]
#[repr(C)]
struct Reading {
    sensor: u64,
    value: f64,
}

fn main() -> Result<(), Box<dyn core::error::Error>> {
    let node = NodeBuilder::new().create::<ipc::Service>()?;
    let service = node
        .service_builder(&"Readings".try_into()?)
        .request_response::<u64, Reading>()
        .max_response_buffer_size(8)
        .open_or_create()?;
    let client = service.client_builder().create()?;
    let server = service.server_builder().create()?;

    // The first request is a copy of a value.
    let mut sensors = 1;
    println!("client sends {sensors}");
    let mut pending_response = client.send_copy(sensors)?;

    while node.wait(CYCLE_TIME).is_ok() {
        // The server answers each request by as many readings as it asks for, and writes them where the client reads
        // them.
        while let Some(active_request) = server.receive()? {
            println!("  server received {} from {:?}", *active_request, active_request.origin());
            for sensor in 0..*active_request {
                let response = active_request.loan_uninit()?;
                response.write_payload(Reading { sensor, value: sensor as f64 * 0.5 }).send()?;
            }
        }

        // The client receives all that was answered.
        while let Some(response) = pending_response.receive()? {
            println!("    client received {:?} from {:?}", *response, response.origin());
        }

        // The other requests are written in place.
        if sensors == 5 {
            break;
        }
        sensors += 1;
        println!("client sends {sensors}");
        let request = client.loan_uninit()?;
        pending_response = request.write_payload(sensors).send()?;
    }
    Ok(())
}
