//! Round trips through ports.
use crate::table::Row;
use crate::{Outcome, calls, channels};
use iceoryx2::port::client::Client;
use iceoryx2::port::server::Server;
use iceoryx2::prelude::*;
use std::sync::mpsc::{Receiver, Sender, channel};
use std::thread;
use std::time::Instant;

/// The threads that a crowd has on each side.
pub const CROWD: usize = 4;

/// The round trips of each client in a sample of a crowd.
pub const CROWD_TRIPS: u64 = 100;

type Words<S> = (Client<S, [u64], (), [u64], ()>, Server<S, [u64], (), [u64], ()>);
type Numbers<S> = (Client<S, u64, (), u64, ()>, Server<S, u64, (), u64, ()>);

/// Makes a client and a server of slices of `len` words.
fn words<S: Service>(name: &str, len: usize) -> Outcome<Words<S>> {
    let node = NodeBuilder::new().create::<S>()?;
    let service = node
        .service_builder(&name.try_into()?)
        .request_response::<[u64], [u64]>()
        .max_clients(1)
        .max_servers(1)
        .open_or_create()?;
    let client = service.client_builder().initial_max_slice_len(len).create()?;
    Ok((client, service.server_builder().initial_max_slice_len(len).create()?))
}

/// Makes a client and a server of numbers.
pub fn numbers<S: Service>(name: &str) -> Outcome<Numbers<S>> {
    let node = NodeBuilder::new().create::<S>()?;
    let service = node
        .service_builder(&name.try_into()?)
        .request_response::<u64, u64>()
        .max_clients(1)
        .max_servers(1)
        .open_or_create()?;
    Ok((service.client_builder().create()?, service.server_builder().create()?))
}

/// A question and its answer, both written in place.
fn words_in_place<S: Service>((client, server): &Words<S>, len: usize, number: u64) -> Outcome<u64> {
    let pending = client.loan_slice_uninit(len)?.write_from_fn(|_| number).send()?;
    let active = server.receive()?.ok_or("no request")?;
    let asked = active[len - 1];
    active.loan_slice_uninit(len)?.write_from_fn(|_| asked + 1).send()?;
    drop(active);
    let response = pending.receive()?.ok_or("no response")?;
    Ok(response[len - 1])
}

/// A number and its successor, both written in place.
pub fn number_in_place<S: Service>((client, server): &Numbers<S>, number: u64) -> Outcome<u64> {
    let pending = client.loan_uninit()?.write_payload(number).send()?;
    let active = server.receive()?.ok_or("no request")?;
    active.loan_uninit()?.write_payload(*active + 1).send()?;
    drop(active);
    let response = pending.receive()?.ok_or("no response")?;
    Ok(*response)
}

/// A number and its successor, both copied.
fn number_copied<S: Service>((client, server): &Numbers<S>, number: u64) -> Outcome<u64> {
    let pending = client.send_copy(number)?;
    let active = server.receive()?.ok_or("no request")?;
    active.send_copy(*active + 1)?;
    drop(active);
    let response = pending.receive()?.ok_or("no response")?;
    Ok(*response)
}

/// Rows of one thread: slices of `len` words, and numbers where `len` is 1.
pub fn one_thread(len: usize) -> Outcome<Vec<Row>> {
    let trips = if len == 1 { 400 } else { 20 };
    let bytes = size_of::<u64>() * len;
    let (alone, shared) = (words::<local::Service>("alone", len)?, words::<local_threadsafe::Service>("shared", len)?);
    let mut pair = calls::Pair::new(bytes)?;
    let mut rows = vec![
        Row::of_trips("the library's calls, thirteen", trips, move |it| pair.thirteen(len, it)),
        Row::of_trips("slices, local", trips, move |it| words_in_place(&alone, len, it).expect("a round trip")),
        Row::of_trips("slices, local_threadsafe", trips, move |it| {
            words_in_place(&shared, len, it).expect("a round trip")
        }),
    ];
    if len == 1 {
        let (alone, shared) = (numbers::<local::Service>("one")?, numbers::<local_threadsafe::Service>("one shared")?);
        rows.push(Row::of_trips("values, local", trips, move |it| number_in_place(&alone, it).expect("a round trip")));
        rows.push(Row::of_trips("values, local_threadsafe", trips, move |it| {
            number_in_place(&shared, it).expect("a round trip")
        }));
    }
    Ok(rows)
}

/// Rows of one thread that copies numbers.
pub fn copies() -> Outcome<Vec<Row>> {
    const TRIPS: u64 = 400;
    let (alone, shared) =
        (numbers::<local::Service>("copied")?, numbers::<local_threadsafe::Service>("copied shared")?);
    Ok(vec![
        Row::of_trips("crossbeam, a reply channel for each request", TRIPS, channels::one_thread()),
        Row::of_trips("send_copy, local", TRIPS, move |it| number_copied(&alone, it).expect("a round trip")),
        Row::of_trips("send_copy, local_threadsafe", TRIPS, move |it| {
            number_copied(&shared, it).expect("a round trip")
        }),
    ])
}

/// Rows of a thread that asks and one that answers.
pub fn two_threads() -> Outcome<Vec<Row>> {
    const TRIPS: u64 = 200;
    let (client, server) = numbers::<local_threadsafe::Service>("two threads")?;
    thread::spawn(move || {
        while let Ok(active) = server.blocking_receive() {
            active.send_copy(*active + 1).expect("the client waits");
        }
    });
    let ask = move |number| {
        let pending = client.send_copy(number).expect("a request");
        *pending.blocking_receive().expect("a response").expect("the server answers")
    };
    Ok(vec![
        Row::of_trips("crossbeam, a reply channel for each request", TRIPS, channels::two_threads()),
        Row::of_trips("crossbeam, two channels", TRIPS, channels::two_threads_two_channels()),
        Row::of_trips("local_threadsafe, blocking_receive", TRIPS, ask),
    ])
}

/// A pool of threads, each of which repeats its work on demand.
pub struct Crew {
    start: Vec<Sender<()>>,
    done: Receiver<()>,
}

impl Crew {
    /// Starts a thread for each work.
    pub fn new<Work: FnMut() + Send + 'static>(works: Vec<Work>) -> Crew {
        let (say, done) = channel();
        let threads = works.into_iter().map(|mut work| {
            let ((start, started), say) = (channel(), say.clone());
            thread::spawn(move || {
                while started.recv().is_ok() {
                    work();
                    say.send(()).expect("the crew waits");
                }
            });
            start
        });
        Crew { start: threads.collect(), done }
    }

    /// Has each work done once, and returns the nanoseconds of one of `trips` round trips of each.
    pub fn sample(&self, trips: u64) -> f64 {
        let began = Instant::now();
        self.start.iter().for_each(|it| it.send(()).expect("the thread waits"));
        self.start
            .iter()
            .for_each(|_| self.done.recv().expect("the thread ends its work"));
        began.elapsed().as_nanos() as f64 / (trips * self.start.len() as u64) as f64
    }
}

/// Rows of four clients, whose requests reach four servers; one of these answers.
pub fn crowds() -> Outcome<Vec<Row>> {
    let node = NodeBuilder::new().create::<local_threadsafe::Service>()?;
    let service = node
        .service_builder(&"a crowd".try_into()?)
        .request_response::<u64, u64>()
        .max_clients(CROWD)
        .max_servers(CROWD)
        .open_or_create()?;
    for mine in 0..CROWD as u64 {
        let server = service.server_builder().create()?;
        thread::spawn(move || {
            while let Ok(active) = server.blocking_receive() {
                if *active % CROWD as u64 == mine {
                    active.send_copy(*active + 1).expect("the client waits");
                }
            }
        });
    }
    let mut clients = Vec::new();
    for _ in 0..CROWD {
        let client = service.client_builder().create()?;
        clients.push(move || {
            for number in 0..CROWD_TRIPS {
                let pending = client.send_copy(number).expect("a request");
                let response = pending.blocking_receive().expect("a response").expect("a server answers");
                assert_eq!(*response, number + 1);
            }
        });
    }
    let (ports, crossbeam) = (Crew::new(clients), channels::crowd());
    Ok(vec![
        Row::timed("crossbeam, a reply channel for each request", move || crossbeam.sample(CROWD_TRIPS)),
        Row::timed("local_threadsafe, blocking_receive", move || ports.sample(CROWD_TRIPS)),
    ])
}
