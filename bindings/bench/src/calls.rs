//! Round trips by the library's own calls, as a program in C makes them.
use crate::Outcome;
use iceoryx2::raw::{self, Hub, Id};
use std::ptr;

/// A hub with a client and a server, whose slots have room for as many bytes as a round trip writes.
pub struct Pair {
    hub: Hub,
    client: Id,
    server: Id,
    bytes: usize,
}

/// Checks a code.
fn done(code: u32) {
    assert_eq!(code, raw::RR_OK, "{}", raw::code_name(code));
}

// SAFETY, of each call: the hub is this thread's alone, and each pointer leads to a live value; payloads are written between a loan and its
// send, and read between a receive and its release.
impl Pair {
    pub fn new(bytes: usize) -> Outcome<Pair> {
        let mut hub = Hub { at: ptr::null_mut() };
        let limits = raw::Limits { max_clients: 1, max_servers: 1, ..raw::limits_default() };
        let (mut client, mut server) = (Id::NONE, Id::NONE);
        unsafe {
            done(raw::rr_hub_create(&limits, 0, &mut hub.at));
            done(raw::rr_client_create(&mut hub, &raw::client_settings_default(bytes), &mut client));
            done(raw::rr_server_create(&mut hub, &raw::server_settings_default(bytes), &mut server));
        }
        Ok(Pair { hub, client, server, bytes })
    }

    /// Loans a message by two calls, fills it with a number and sends it. Returns its id.
    fn send(&mut self, from: Id, len: usize, number: u64) -> Id {
        let (mut id, mut at, mut bytes, mut servers) = (Id::NONE, ptr::null_mut(), 0, 0);
        unsafe {
            done(raw::rr_loan_slice_uninit(&mut self.hub, &from, self.bytes, &mut id));
            done(raw::rr_payload_mut(&mut self.hub, &id, &mut at, &mut bytes));
            let words = at.cast::<u64>();
            (0..len).for_each(|it| words.add(it).write(number));
            done(raw::rr_send(&mut self.hub, &id, &mut servers));
        }
        id
    }

    /// Receives a message by two calls. Returns its id, and its last word.
    fn receive(&mut self, from: Id, len: usize) -> (Id, u64) {
        let (mut id, mut at, mut bytes) = (Id::NONE, ptr::null(), 0);
        unsafe {
            done(raw::rr_receive(&mut self.hub, &from, &mut id));
            done(raw::rr_payload(&mut self.hub, &id, &mut at, &mut bytes));
            (id, at.cast::<u64>().add(len - 1).read())
        }
    }

    fn release(&mut self, id: Id) {
        done(unsafe { raw::rr_release(&mut self.hub, &id) });
    }

    /// A question and its answer of `len` words by thirteen calls.
    pub fn thirteen(&mut self, len: usize, number: u64) -> u64 {
        let pending = self.send(self.client, len, number);
        let (active, asked) = self.receive(self.server, len);
        self.send(active, len, asked + 1);
        self.release(active);
        let (response, answered) = self.receive(pending, len);
        self.release(response);
        self.release(pending);
        answered
    }
}
