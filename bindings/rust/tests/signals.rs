//! Signals end waits. They are noted for the whole process, so that this program has one test.

mod common;

use common::{Done, service};
use rr::node::NodeWaitFailure;
use rr::prelude::*;
use rr::waitset::WaitSetRunResult;
use std::thread;
use std::time::{Duration, Instant};

type L = local_threadsafe::Service;

const SIGINT: i32 = 2;
const SIGTERM: i32 = 15;
const LONG: Duration = Duration::from_secs(30);

unsafe extern "C" {
    fn raise(signal: i32) -> i32;
}

/// Sends a signal to this process after a while.
fn raise_later(signal: i32) -> thread::JoinHandle<i32> {
    thread::spawn(move || {
        thread::sleep(Duration::from_millis(30));
        // SAFETY: the waits have installed handlers.
        unsafe { raise(signal) }
    })
}

#[test]
fn signals_end_waits() -> Done {
    let node = NodeBuilder::new().create::<L>()?;
    assert_eq!(node.signal_handling_mode(), SignalHandlingMode::HandleTerminationRequests);
    assert!(node.wait(Duration::from_millis(1)).is_ok());
    let start = Instant::now();
    let raised = raise_later(SIGINT);
    assert_eq!(node.wait(LONG).unwrap_err(), NodeWaitFailure::Interrupt);
    assert_eq!(node.wait(LONG).unwrap_err(), NodeWaitFailure::Interrupt);
    assert_eq!(raised.join().unwrap(), 0);

    let server = service::<L, u64, u64>("signals").server_builder().create()?;
    let waitset = WaitSetBuilder::new().create::<L>()?;
    let _guard = waitset.attach_notification(&server)?;
    assert_eq!(waitset.wait_and_process(|_| unreachable!())?, WaitSetRunResult::Interrupt);
    raise_later(SIGTERM).join().unwrap();
    assert_eq!(waitset.wait_and_process(|_| unreachable!())?, WaitSetRunResult::TerminationRequest);
    assert_eq!(node.wait(LONG).unwrap_err(), NodeWaitFailure::TerminationRequest);

    let mode = SignalHandlingMode::Disabled;
    let deaf = NodeBuilder::new().signal_handling_mode(mode).create::<L>()?;
    assert!(deaf.wait(Duration::from_millis(1)).is_ok());
    let waitset = WaitSetBuilder::new().signal_handling_mode(mode).create::<L>()?;
    let _guard = waitset.attach_notification(&server)?;
    let timeout = Duration::from_millis(1);
    let result = waitset.wait_and_process_once_with_timeout(|_| unreachable!(), timeout)?;
    assert_eq!(result, WaitSetRunResult::AllEventsHandled);
    assert!(start.elapsed() < LONG);
    Ok(())
}
