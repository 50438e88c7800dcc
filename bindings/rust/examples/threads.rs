//! Two servers wait in a thread each, and a client's thread waits for the answers of both.

use rr::prelude::*;
use std::thread;

/// Text of a fixed length.
type Text = [u8; 16];

fn main() -> Result<(), Box<dyn core::error::Error>> {
    let node = NodeBuilder::new().create::<local_threadsafe::Service>()?;
    let service = node
        .service_builder(&"shouts".try_into()?)
        .request_response::<Text, Text>()
        .open_or_create()?;
    let servers = [service.server_builder().create()?, service.server_builder().create()?];
    let client = service.client_builder().create()?;

    thread::scope(|scope| {
        for server in servers {
            scope.spawn(move || {
                let active_request = server.blocking_receive().expect("at most one request is held");
                let mut response = active_request.loan().expect("at most one response is on loan");
                *response = active_request.map(|byte| byte.to_ascii_uppercase());
                response.send().expect("the queue overflows");
            });
        }

        // The stream ends when both servers have dropped the request.
        let pending_response = client.send_copy(*b"hello, servers! ")?;
        while let Some(response) = pending_response.blocking_receive()? {
            println!("{} from {:?}", String::from_utf8_lossy(&response[..]).trim_end(), response.origin());
        }
        Ok(())
    })
}
