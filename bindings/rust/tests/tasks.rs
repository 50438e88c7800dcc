//! Waits of tasks, under two executors: one that parks its thread, and one with a queue of tasks and several threads.

mod common;

use common::{Count, Done, builder, service};
use rr::pending_response::PendingResponse;
use rr::port::client::Client;
use rr::port::server::Server;
use rr::prelude::*;
use std::collections::VecDeque;
use std::future::Future;
use std::pin::{Pin, pin};
use std::sync::{Arc, Condvar, Mutex};
use std::task::{Context, Poll, Wake, Waker};
use std::thread;

type L = local_threadsafe::Service;

/// Wakes a thread that is parked.
struct Unpark(thread::Thread);

impl Wake for Unpark {
    fn wake(self: Arc<Self>) {
        self.0.unpark();
    }
}

/// Runs one future in this thread.
fn block_on<F: Future>(future: F) -> F::Output {
    let waker = Waker::from(Arc::new(Unpark(thread::current())));
    let mut future = pin!(future);
    loop {
        match future.as_mut().poll(&mut Context::from_waker(&waker)) {
            Poll::Ready(output) => return output,
            Poll::Pending => thread::park(),
        }
    }
}

/// The tasks that can run, and how many there are in all.
#[derive(Default)]
struct Queue {
    tasks: Mutex<(VecDeque<Arc<Task>>, usize)>,
    changed: Condvar,
}

struct Task {
    future: Mutex<Pin<Box<dyn Future<Output = ()> + Send>>>,
    queue: Arc<Queue>,
}

impl Wake for Task {
    fn wake(self: Arc<Self>) {
        self.queue.tasks.lock().unwrap().0.push_back(self.clone());
        self.queue.changed.notify_one();
    }
}

impl Queue {
    fn spawn(self: &Arc<Self>, future: impl Future<Output = ()> + Send + 'static) {
        let task = Arc::new(Task { future: Mutex::new(Box::pin(future)), queue: self.clone() });
        self.tasks.lock().unwrap().1 += 1;
        task.wake();
    }

    fn next(&self) -> Option<Arc<Task>> {
        let tasks = self.tasks.lock().unwrap();
        let mut tasks = self.changed.wait_while(tasks, |it| it.0.is_empty() && it.1 > 0).unwrap();
        tasks.0.pop_front()
    }

    /// Runs tasks until all have ended.
    fn run(&self) {
        while let Some(task) = self.next() {
            let waker = Waker::from(task.clone());
            let mut future = task.future.lock().unwrap();
            if future.as_mut().poll(&mut Context::from_waker(&waker)).is_ready() {
                *future = Box::pin(std::future::pending());
                self.tasks.lock().unwrap().1 -= 1;
                self.changed.notify_all();
            }
        }
    }
}

/// Sends `turns` requests, and returns the sum of all responses.
async fn ask<S: Service>(client: Client<S, u64, (), u64, ()>, turns: u64) -> u64 {
    let mut sum = 0;
    for turn in 0..turns {
        let pending = client.send_copy(turn).unwrap();
        while let Some(response) = pending.async_receive().await.unwrap() {
            sum += *response;
        }
    }
    sum
}

/// Answers `turns` requests, each by two responses.
async fn answer<S: Service>(server: Server<S, u64, (), u64, ()>, turns: u64) {
    for _ in 0..turns {
        let active = server.async_receive().await.unwrap();
        active.send_copy(*active * 2).unwrap();
        active.send_copy(1).unwrap();
    }
}

const TURNS: u64 = 500;
const SUM: u64 = TURNS * (TURNS - 1) + TURNS;

/// Runs two futures in one task, and returns what the first one returns.
async fn both<F: Future>(first: F, second: impl Future<Output = ()>) -> F::Output {
    let (mut first, mut second) = (pin!(first), pin!(second));
    let (mut output, mut is_over) = (None, false);
    std::future::poll_fn(move |context| {
        is_over = is_over || second.as_mut().poll(context).is_ready();
        if output.is_none() {
            output = ready(first.as_mut().poll(context));
        }
        if is_over && output.is_some() { Poll::Ready(output.take().unwrap()) } else { Poll::Pending }
    })
    .await
}

fn ready<T>(poll: Poll<T>) -> Option<T> {
    match poll {
        Poll::Ready(output) => Some(output),
        Poll::Pending => None,
    }
}

fn in_one_task<S: Service>(name: &str) -> Done {
    let service = service::<S, u64, u64>(name);
    let (client, server) = (service.client_builder().create()?, service.server_builder().create()?);
    assert_eq!(block_on(both(ask(client, TURNS), answer(server, TURNS))), SUM);
    Ok(())
}

#[test]
fn a_task_asks_and_answers_with_each_policy() -> Done {
    in_one_task::<ipc::Service>("task of one thread")?;
    in_one_task::<ipc_threadsafe::Service>("task that is shared")
}

#[test]
fn two_threads_run_a_task_each() -> Done {
    let service = service::<L, u64, u64>("two threads");
    let (client, server) = (service.client_builder().create()?, service.server_builder().create()?);
    let answering = thread::spawn(move || block_on(answer(server, TURNS)));
    assert_eq!(block_on(ask(client, TURNS)), SUM);
    answering.join().unwrap();
    Ok(())
}

#[test]
fn four_clients_and_two_servers_are_tasks_of_three_threads() -> Done {
    let service = builder::<L, u64, u64>("many tasks").create()?;
    let queue = Arc::new(Queue::default());
    for _ in 0..2 {
        queue.spawn(answer(service.server_builder().create()?, 4 * TURNS));
    }
    let sums = Arc::new(Mutex::new(Vec::new()));
    for _ in 0..4 {
        let (client, sums) = (service.client_builder().create()?, sums.clone());
        queue.spawn(async move {
            let sum = ask(client, TURNS).await;
            sums.lock().unwrap().push(sum);
        });
    }
    thread::scope(|scope| (0..3).for_each(|_| drop(scope.spawn(|| queue.run()))));
    // Two servers answer each request.
    assert_eq!(*sums.lock().unwrap(), [2 * SUM; 4]);
    Ok(())
}

/// Polls a future once, and says whether it is ready.
fn is_ready<F: Future>(future: Pin<&mut F>, waker: &Waker) -> bool {
    future.poll(&mut Context::from_waker(waker)).is_ready()
}

#[test]
fn futures_that_are_dropped_have_received_nothing_and_keep_no_waker() -> Done {
    let service = service::<L, u64, u64>("dropped futures");
    let (client, server) = (service.client_builder().create()?, service.server_builder().create()?);
    let count = Arc::new(Count::default());
    let waker = Waker::from(count.clone());
    let mut first = Box::pin(server.async_receive());
    let mut second = Box::pin(server.async_receive());
    assert!(!is_ready(first.as_mut(), &waker) && !is_ready(first.as_mut(), &waker));
    assert!(!is_ready(second.as_mut(), &waker));
    drop(second);
    let pending: PendingResponse<_, _, _, _, _> = client.send_copy(1)?;
    assert_eq!(count.get(), 1);
    // It was woken, and has not received yet.
    drop(first);
    assert_eq!(*server.receive()?.unwrap(), 1);
    let mut response = Box::pin(pending.async_receive());
    assert!(is_ready(response.as_mut(), &waker));
    drop((response, waker));
    assert_eq!(Arc::strong_count(&count), 1);
    Ok(())
}

#[test]
fn a_future_wakes_the_task_that_polled_it_last() -> Done {
    let service = service::<ipc::Service, u64, u64>("polled by two");
    let (client, server) = (service.client_builder().create()?, service.server_builder().create()?);
    let counts = [Arc::new(Count::default()), Arc::new(Count::default())];
    let mut future = Box::pin(server.async_receive());
    for count in &counts {
        assert!(!is_ready(future.as_mut(), &Waker::from(count.clone())));
    }
    let _pending = client.send_copy(1)?;
    assert_eq!(counts.each_ref().map(|it| it.get()), [0, 1]);
    assert!(is_ready(future.as_mut(), Waker::noop()));
    Ok(())
}

/// A waker may use the service: it is woken, cloned and dropped without the service's lock.
#[test]
fn a_waker_may_use_the_service() -> Done {
    struct Receives(Arc<Server<L, u64, (), u64, ()>>, Mutex<Vec<u64>>);
    impl Wake for Receives {
        fn wake(self: Arc<Self>) {
            self.1.lock().unwrap().extend(self.0.receive().unwrap().map(|it| *it));
        }
    }
    let service = service::<L, u64, u64>("waker");
    let (client, server) = (service.client_builder().create()?, Arc::new(service.server_builder().create()?));
    let receives = Arc::new(Receives(server.clone(), Mutex::default()));
    let mut future = Box::pin(server.async_receive());
    assert!(!is_ready(future.as_mut(), &Waker::from(receives.clone())));
    drop(client.send_copy(7)?);
    assert_eq!(*receives.1.lock().unwrap(), [7]);
    assert!(!is_ready(future.as_mut(), Waker::noop()));
    Ok(())
}
