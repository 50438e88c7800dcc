//! Code of users that panics: what it held is released, and the service works as before.

mod common;

use common::{Done, builder, least};
use rr::port::BackpressureInfo;
use rr::prelude::*;
use rr::service::port_factory::PortFactory as _;
use rr::service::port_factory::request_response::PortFactory;
use std::panic::{AssertUnwindSafe, catch_unwind};
use std::sync::Arc;
use std::task::{Context, Wake, Waker};
use std::thread;

type L = local_threadsafe::Service;

/// Runs a function that has to panic.
fn panics<T>(run: impl FnOnce() -> T) {
    assert!(catch_unwind(AssertUnwindSafe(|| drop(run()))).is_err());
}

/// Asserts that a service of one client with one loan, and one server, works, and that nothing is left in it.
fn works<S: Service>(service: &PortFactory<S, u64, (), u64, ()>) {
    let ports = service.dynamic_config();
    assert_eq!((ports.number_of_clients(), ports.number_of_servers()), (0, 0));
    let (client, server) = (service.client_builder().create().unwrap(), service.server_builder().create().unwrap());
    let pending = client.send_copy(1).unwrap();
    server.receive().unwrap().unwrap().send_copy(2).unwrap();
    assert_eq!(*pending.receive().unwrap().unwrap(), 2);
}

fn messages_are_released<S: Service>() -> Done {
    let service = least::<S>("held messages").create()?;
    panics(|| {
        let client = service.client_builder().create().unwrap();
        let server = service.server_builder().create().unwrap();
        let pending = client.send_copy(1).unwrap();
        let active = server.receive().unwrap().unwrap();
        active.send_copy(2).unwrap();
        let response = pending.receive().unwrap().unwrap();
        let (_loaned, _request) = (active.loan().unwrap(), client.loan().unwrap());
        panic!("with all handles held: {}", *response);
    });
    works(&service);
    Ok(())
}

#[test]
fn messages_are_released_on_unwinding() -> Done {
    messages_are_released::<ipc::Service>()?;
    messages_are_released::<L>()
}

#[test]
fn initializers_release_what_they_write() -> Done {
    let service = builder::<L, [u64], [u64]>("initializers").max_loaned_requests(1).create()?;
    let client = service.client_builder().initial_max_slice_len(8).create()?;
    let server = service
        .server_builder()
        .initial_max_slice_len(8)
        .max_loaned_responses_per_request(1)
        .create()?;
    let write = |index| if index < 5 { 1 } else { panic!("an initializer") };
    panics(|| client.loan_slice_uninit(8).unwrap().write_from_fn(write));
    let _pending = client.loan_slice(8)?.send()?;
    let active = server.receive()?.unwrap();
    panics(|| active.loan_slice_uninit(8).unwrap().write_from_fn(write));
    assert_eq!(*active.loan_slice(8)?, [0; 8]);
    Ok(())
}

#[derive(Debug, Clone, Copy, ZeroCopySend)]
#[repr(C)]
struct Unwilling;

impl Default for Unwilling {
    fn default() -> Self {
        panic!("a default")
    }
}

#[test]
fn defaults_of_user_headers_leave_nothing_on_loan() -> Done {
    let builder = builder::<L, u64, u64>("defaults").max_loaned_requests(1);
    let service = builder.request_user_header::<Unwilling>().create()?;
    let client = service.client_builder().create()?;
    panics(|| client.loan());
    panics(|| client.send_copy(1));
    drop(client);
    assert_eq!(service.dynamic_config().number_of_clients(), 0);
    Ok(())
}

#[test]
fn handlers_release_what_was_to_be_sent() -> Done {
    let service = least::<L>("handlers").create()?;
    {
        let server = service.server_builder().create()?;
        let handler = |_: &BackpressureInfo| panic!("a handler");
        let client = service.client_builder().set_backpressure_handler(handler).create()?;
        drop(client.send_copy(1)?);
        panics(|| client.send_copy(2));
        panics(|| client.loan().unwrap().try_send());
        assert!(client.loan().is_ok());
        assert_eq!(*server.receive()?.unwrap(), 1);
    }
    works(&service);
    Ok(())
}

#[test]
fn preallocation_callbacks_create_nothing() -> Done {
    let service = least::<L>("preallocation").create()?;
    panics(|| {
        service
            .client_builder()
            .override_request_preallocation(|_| panic!("a callback"))
            .create()
    });
    panics(|| {
        service
            .server_builder()
            .override_response_preallocation(|_| panic!("a callback"))
            .create()
    });
    works(&service);
    Ok(())
}

#[test]
fn callbacks_of_lists_leave_the_service() -> Done {
    let service = least::<L>("lists").create()?;
    let client = service.client_builder().create()?;
    panics(|| service.dynamic_config().list_clients(|_| panic!("a callback")));
    drop(client);
    works(&service);
    Ok(())
}

struct Panics;

impl Wake for Panics {
    fn wake(self: Arc<Self>) {
        panic!("a waker");
    }
}

/// Two tasks wait, and the waker of the first panics. The second is woken by the next call.
#[test]
fn wakers_leave_the_service() -> Done {
    let service = builder::<L, u64, u64>("wakers").max_clients(1).max_servers(1).create()?;
    {
        let (client, server) = (service.client_builder().create()?, service.server_builder().create()?);
        let count = Arc::new(common::Count::default());
        let (mut first, mut second) = (Box::pin(server.async_receive()), Box::pin(server.async_receive()));
        let (panicking, counting) = (Waker::from(Arc::new(Panics)), Waker::from(count.clone()));
        assert!(first.as_mut().poll(&mut Context::from_waker(&panicking)).is_pending());
        assert!(second.as_mut().poll(&mut Context::from_waker(&counting)).is_pending());
        let request = client.loan()?;
        panics(|| request.send());
        assert_eq!(*server.receive()?.unwrap(), 0);
        assert_eq!(count.get(), 1);
    }
    works(&service);
    Ok(())
}

#[test]
fn callbacks_of_wait_sets_leave_the_set() -> Done {
    let service = builder::<L, u64, u64>("wait sets").create()?;
    let (client, server) = (service.client_builder().create()?, service.server_builder().create()?);
    let waitset = WaitSetBuilder::new().create::<L>()?;
    let _guard = waitset.attach_notification(&server)?;
    drop(client.send_copy(1)?);
    panics(|| waitset.wait_and_process(|_| panic!("a callback")));
    waitset.wait_and_process(|_| CallbackProgression::Stop)?;
    assert_eq!(*server.receive()?.unwrap(), 1);
    Ok(())
}

/// A thread that panics while it holds messages of a shared service.
#[test]
fn threads_that_panic_leave_the_service_to_others() -> Done {
    let service = least::<L>("threads").create()?;
    let factory = service.clone();
    let panicked = thread::spawn(move || {
        let client = factory.client_builder().create().unwrap();
        let _request = client.loan().unwrap();
        panic!("a thread");
    });
    assert!(panicked.join().is_err());
    works(&service);
    Ok(())
}
