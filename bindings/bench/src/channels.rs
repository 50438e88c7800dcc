//! Round trips through channels of crossbeam.
use crate::ports::{CROWD, CROWD_TRIPS, Crew};
use crossbeam_channel::{Sender, bounded};
use std::thread;

/// A number, and where its successor goes.
type Question = (u64, Sender<u64>);

/// The requests that a channel holds, as many as a queue of a service by default.
const QUEUED: usize = 4;

/// One thread asks and answers itself.
pub fn one_thread() -> impl FnMut(u64) -> u64 {
    let (ask, asked) = bounded::<Question>(QUEUED);
    move |number| {
        let (answer, answered) = bounded(1);
        ask.send((number, answer)).expect("there is room");
        let (number, answer) = asked.recv().expect("a question");
        answer.send(number + 1).expect("there is room");
        answered.recv().expect("an answer")
    }
}

/// Asks one thread.
pub fn two_threads() -> impl FnMut(u64) -> u64 {
    let (ask, asked) = bounded::<Question>(QUEUED);
    thread::spawn(move || {
        for (number, answer) in asked {
            answer.send(number + 1).expect("the client waits");
        }
    });
    move |number| {
        let (answer, answered) = bounded(1);
        ask.send((number, answer)).expect("the server waits");
        answered.recv().expect("an answer")
    }
}

/// Asks one thread through two channels that stay.
pub fn two_threads_two_channels() -> impl FnMut(u64) -> u64 {
    let ((ask, asked), (answer, answered)) = (bounded::<u64>(QUEUED), bounded(QUEUED));
    thread::spawn(move || {
        for number in asked {
            answer.send(number + 1).expect("the client waits");
        }
    });
    move |number| {
        ask.send(number).expect("the server waits");
        answered.recv().expect("an answer")
    }
}

/// Four clients, whose requests reach four servers; one of these answers.
pub fn crowd() -> Crew {
    let servers: Vec<Sender<Question>> = (0..CROWD as u64)
        .map(|mine| {
            let (ask, asked) = bounded::<Question>(QUEUED * CROWD);
            thread::spawn(move || {
                for (number, answer) in asked {
                    if number % CROWD as u64 == mine {
                        answer.send(number + 1).expect("the client waits");
                    }
                }
            });
            ask
        })
        .collect();
    let clients = (0..CROWD).map(|_| {
        let servers = servers.clone();
        move || {
            for number in 0..CROWD_TRIPS {
                let (answer, answered) = bounded(1);
                servers
                    .iter()
                    .for_each(|it| it.send((number, answer.clone())).expect("the server waits"));
                assert_eq!(answered.recv(), Ok(number + 1));
            }
        }
    });
    Crew::new(clients.collect())
}
