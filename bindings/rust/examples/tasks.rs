//! A client and a server are two tasks of one thread, without a run time: a loop polls both until the client is done.

use rr::prelude::*;
use std::future::Future;
use std::pin::pin;
use std::sync::Arc;
use std::sync::atomic::{AtomicBool, Ordering};
use std::task::{Context, Poll, Wake, Waker};

type Client = rr::port::client::Client<local::Service, u64, (), u64, ()>;
type Server = rr::port::server::Server<local::Service, u64, (), u64, ()>;
type Outcome = Result<(), Box<dyn core::error::Error>>;

/// Answers each request by the numbers up to the one that it asks for.
async fn count(server: Server) -> Outcome {
    loop {
        let active_request = server.async_receive().await?;
        for number in 1..=*active_request {
            active_request.send_copy(number)?;
        }
    }
}

/// Asks twice, and prints each stream of numbers.
async fn ask(client: Client) -> Outcome {
    for most in [2, 3] {
        let pending_response = client.send_copy(most)?;
        while let Some(response) = pending_response.async_receive().await? {
            println!("{} of {most}", *response);
        }
    }
    Ok(())
}

/// Says that a task can go on.
#[derive(Default)]
struct Ready(AtomicBool);

impl Wake for Ready {
    fn wake(self: Arc<Self>) {
        self.0.store(true, Ordering::Release);
    }
}

fn main() -> Outcome {
    let node = NodeBuilder::new().create::<local::Service>()?;
    let service = node
        .service_builder(&"numbers".try_into()?)
        .request_response::<u64, u64>()
        .max_response_buffer_size(3)
        .open_or_create()?;
    let mut asking = pin!(ask(service.client_builder().create()?));
    let mut counting = pin!(count(service.server_builder().create()?));

    let ready = Arc::new(Ready::default());
    let waker = Waker::from(ready.clone());
    let mut context = Context::from_waker(&waker);
    loop {
        if let Poll::Ready(done) = asking.as_mut().poll(&mut context) {
            return done;
        }
        if let Poll::Ready(done) = counting.as_mut().poll(&mut context) {
            return done;
        }
        assert!(ready.0.swap(false, Ordering::Acquire), "both tasks wait, and nothing woke them");
    }
}
