//! Programs that are generic over the kind of service and the payloads, and keep ports in structs, threads and statics.

mod common;

use common::{Done, builder};
use rr::active_request::ActiveRequest;
use rr::pending_response::PendingResponse;
use rr::port::client::{Client, RequestSendError};
use rr::port::server::Server;
use rr::prelude::*;
use rr::response::Response;
use rr::service::port_factory::request_response::PortFactory;
use std::collections::HashMap;
use std::error::Error;
use std::fmt::Debug;
use std::sync::{Arc, Mutex, OnceLock, mpsc};
use std::thread;

type Outcome<T> = Result<T, Box<dyn Error>>;

/// A struct with iceoryx2's bounds, which keeps a client and its pending responses.
struct Calls<S: Service, Q: Debug + ZeroCopySend + 'static, P: Debug + ZeroCopySend + 'static> {
    _node: Node<S>,
    service: PortFactory<S, Q, (), P, ()>,
    client: Client<S, Q, (), P, ()>,
    pending: HashMap<u64, PendingResponse<S, Q, (), P, ()>>,
}

impl<S: Service, Q: Debug + ZeroCopySend + 'static, P: Debug + ZeroCopySend + Copy + 'static> Calls<S, Q, P> {
    fn open(name: &str) -> Outcome<Self> {
        let node = NodeBuilder::new().create::<S>()?;
        let service = node
            .service_builder(&name.try_into()?)
            .request_response::<Q, P>()
            .open_or_create()?;
        let client = service.client_builder().create()?;
        Ok(Calls { _node: node, service, client, pending: HashMap::new() })
    }

    fn server(&self) -> Outcome<Server<S, Q, (), P, ()>> {
        Ok(self.service.server_builder().create()?)
    }

    fn ask(&mut self, key: u64, value: Q) -> Result<(), RequestSendError> {
        self.pending.insert(key, self.client.send_copy(value)?);
        Ok(())
    }

    fn answer_to(&mut self, key: u64) -> Outcome<Option<P>> {
        let response: Option<Response<S, P, ()>> = self.pending[&key].receive()?;
        Ok(response.map(|it| *it))
    }
}

fn answer<S: Service, P: Debug + ZeroCopySend>(
    active: ActiveRequest<S, u64, (), P, ()>,
    with: impl FnOnce(u64) -> P,
) -> Outcome<()> {
    Ok(active.loan_uninit()?.write_payload(with(*active)).send()?)
}

fn halves<S: Service>() -> Done {
    let mut calls = Calls::<S, u64, f64>::open("halves")?;
    let server = calls.server()?;
    calls.ask(1, 10)?;
    calls.ask(2, 20)?;
    while let Some(active) = server.receive()? {
        answer(active, |it| it as f64 / 2.0)?;
    }
    assert_eq!((calls.answer_to(2)?, calls.answer_to(1)?, calls.answer_to(1)?), (Some(10.0), Some(5.0), None));
    Ok(())
}

#[test]
fn a_program_runs_with_each_kind_of_service() -> Done {
    halves::<ipc::Service>()?;
    halves::<local::Service>()?;
    halves::<ipc_threadsafe::Service>()?;
    halves::<local_threadsafe::Service>()
}

/// Creates ports of payloads that may be slices: iceoryx2's bounds are all that it takes.
#[allow(clippy::type_complexity)]
fn ports<S: Service, Q: Debug + ZeroCopySend + ?Sized, P: Debug + ZeroCopySend + ?Sized>(
    service: &PortFactory<S, Q, (), P, ()>,
) -> Outcome<(Client<S, Q, (), P, ()>, Server<S, Q, (), P, ()>)> {
    Ok((service.client_builder().create()?, service.server_builder().create()?))
}

#[test]
fn ports_are_created_without_a_word_on_slices() -> Done {
    let service = builder::<ipc::Service, [u64], u64>("any form").create()?;
    let (client, server) = ports(&service)?;
    let _pending_response = client.loan_slice_uninit(1)?.write_from_slice(&[8]).send()?;
    assert_eq!(*server.receive()?.unwrap(), [8]);
    Ok(())
}

type L = local_threadsafe::Service;

#[test]
fn messages_go_to_other_threads() -> Done {
    let mut calls = Calls::<L, u64, u64>::open("workers")?;
    let server = calls.server()?;
    let (work, works) = mpsc::channel::<ActiveRequest<L, u64, (), u64, ()>>();
    let works = Arc::new(Mutex::new(works));
    let square = move || {
        let next = || works.lock().unwrap().recv();
        while let Ok(active) = next() {
            active.send_copy(*active * *active).unwrap();
        }
    };
    let workers = [(); 3].map(|()| thread::spawn(square.clone()));
    for key in 0..4 {
        calls.ask(key, key + 7)?;
        work.send(server.receive()?.ok_or("no request")?)?;
    }
    for key in 0..4 {
        assert_eq!(*calls.pending[&key].blocking_receive()?.ok_or("no answer")?, (key + 7) * (key + 7));
    }
    drop(work);
    workers.into_iter().for_each(|it| it.join().unwrap());
    Ok(())
}

#[test]
fn a_port_stands_in_a_static() -> Done {
    static CLIENT: OnceLock<Client<L, [u8], u32, u64, ()>> = OnceLock::new();
    let builder = builder::<L, [u8], u64>("static").request_user_header::<u32>();
    let service = builder.max_active_requests_per_client(8).max_loaned_requests(8).create()?;
    let server = service.server_builder().create()?;
    let client = || CLIENT.get_or_init(|| service.client_builder().initial_max_slice_len(16).create().unwrap());
    let ask = |byte: u8| {
        let mut request = client().loan_slice_uninit(16).unwrap();
        *request.user_header_mut() = byte.into();
        let pending = request.write_from_slice(&[byte; 16]).send().unwrap();
        assert_eq!(*pending.blocking_receive().unwrap().unwrap(), u64::from(byte) * 16);
    };
    thread::scope(|scope| {
        (0..4).for_each(|byte| drop(scope.spawn(move || ask(byte))));
        for _ in 0..4 {
            let active = server.blocking_receive().unwrap();
            assert!(active.iter().all(|it| u32::from(*it) == *active.user_header()));
            active.send_copy(active.iter().map(|it| u64::from(*it)).sum()).unwrap();
        }
    });
    Ok(())
}
