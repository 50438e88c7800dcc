//! The library's hub: each call that the crate makes, with its refusals by name.
use crate::port::client::{ClientCreateError, RequestSendError};
use crate::port::server::ServerCreateError;
use crate::port::{LoanError, ReceiveError, SendError};
use crate::raw::{self, Id};
use std::ptr::{self, NonNull};

/// A hub of the library. Dropping it frees all that it holds.
#[derive(Debug)]
pub(crate) struct Hub(raw::Hub);

// SAFETY: `rr.h` lets any thread call if a lock makes one thread's calls happen before the other's. All calls but the
// drop take `&mut`.
unsafe impl Send for Hub {}

/// A message that the library just gave: its id, and the address of its bytes.
#[derive(Debug, Clone, Copy)]
pub(crate) struct Slot {
    pub id: Id,
    pub at: NonNull<u8>,
}

/// Panics with the name of a code that a call cannot return, since an id names a living port or message that has this
/// call.
#[cold]
#[inline(never)]
fn impossible(code: u32) -> ! {
    panic!("a call of the library returned {}, which it cannot", raw::code_name(code))
}

#[inline]
fn done(code: u32) {
    if code != raw::RR_OK {
        impossible(code)
    }
}

/// Returns why a loan was refused.
#[cold]
fn loan_error(code: u32) -> LoanError {
    match code {
        raw::RR_LOAN_OUT_OF_MEMORY => LoanError::OutOfMemory,
        raw::RR_LOAN_EXCEEDS_MAX_LOANS => LoanError::ExceedsMaxLoans,
        raw::RR_LOAN_EXCEEDS_MAX_LOAN_SIZE => LoanError::ExceedsMaxLoanSize,
        raw::RR_NUMBERS_EXHAUSTED => LoanError::InternalFailure,
        code => impossible(code),
    }
}

/// Returns why the send of a request was refused.
#[cold]
fn request_send_error(code: u32) -> RequestSendError {
    match code {
        raw::RR_SEND_EXCEEDS_MAX_ACTIVE_REQUESTS => RequestSendError::ExceedsMaxActiveRequests,
        raw::RR_SEND_UNABLE_TO_DELIVER => RequestSendError::SendError(SendError::UnableToDeliver),
        code => impossible(code),
    }
}

/// The version of the crate, as `rr_version` returns that of the library.
const VERSION: u32 = {
    const fn number(text: &str) -> u32 {
        match u32::from_str_radix(text, 10) {
            Ok(number) => number,
            Err(_) => panic!("a version has three numbers"),
        }
    }
    10000 * number(env!("CARGO_PKG_VERSION_MAJOR"))
        + 100 * number(env!("CARGO_PKG_VERSION_MINOR"))
        + number(env!("CARGO_PKG_VERSION_PATCH"))
};

/// Panics if the library has another version than the crate.
fn check_version() {
    // SAFETY: the function takes nothing and touches nothing.
    let of = unsafe { raw::rr_version() };
    assert!(
        of == VERSION,
        "librr.a has version {}.{}.{}, and the crate rr needs {}",
        of / 10000,
        of / 100 % 100,
        of % 100,
        env!("CARGO_PKG_VERSION")
    );
}

type Query<T> = unsafe extern "C" fn(*mut raw::Hub, *const Id, *mut T) -> u32;

// SAFETY, of each call below: the hub lives, the pointers lead to live values, and `&mut self` keeps other calls away.
impl Hub {
    /// Creates a hub, unless its limits are refused or there is no memory. Panics if the library has another version.
    pub fn create(limits: &raw::Limits) -> Option<Hub> {
        check_version();
        let mut hub = raw::Hub { at: ptr::null_mut() };
        let code = unsafe { raw::rr_hub_create(limits, 0, &mut hub.at) };
        (code == raw::RR_OK).then_some(Hub(hub))
    }

    pub fn create_client(&mut self, settings: &raw::ClientSettings) -> Result<Id, ClientCreateError> {
        let mut id = Id::NONE;
        match unsafe { raw::rr_client_create(&mut self.0, settings, &mut id) } {
            raw::RR_OK => Ok(id),
            raw::RR_CLIENT_CREATE_UNABLE_TO_CREATE_DATA_SEGMENT => Err(ClientCreateError::UnableToCreateDataSegment),
            raw::RR_CLIENT_CREATE_EXCEEDS_MAX_SUPPORTED_CLIENTS => Err(ClientCreateError::ExceedsMaxSupportedClients),
            raw::RR_CLIENT_CREATE_UNABLE_TO_CREATE_PORT_TAG => Err(ClientCreateError::UnableToCreatePortTag),
            code => impossible(code),
        }
    }

    pub fn create_server(&mut self, settings: &raw::ServerSettings) -> Result<Id, ServerCreateError> {
        let mut id = Id::NONE;
        match unsafe { raw::rr_server_create(&mut self.0, settings, &mut id) } {
            raw::RR_OK => Ok(id),
            raw::RR_SERVER_CREATE_UNABLE_TO_CREATE_DATA_SEGMENT => Err(ServerCreateError::UnableToCreateDataSegment),
            raw::RR_SERVER_CREATE_EXCEEDS_MAX_SUPPORTED_SERVERS => Err(ServerCreateError::ExceedsMaxSupportedServers),
            raw::RR_SERVER_CREATE_UNABLE_TO_CREATE_PORT_TAG => Err(ServerCreateError::UnableToCreatePortTag),
            code => impossible(code),
        }
    }

    /// Loans a message from a client or an active request.
    #[inline]
    pub fn loan(&mut self, from: &Id, bytes: usize) -> Result<Slot, LoanError> {
        let (mut id, mut at) = (Id::NONE, ptr::null_mut());
        match unsafe { raw::rr_loan_in_place(&mut self.0, from, bytes, &mut id, &mut at) } {
            raw::RR_OK => Ok(Slot { id, at: NonNull::new(at).expect("a message lies somewhere") }),
            code => Err(loan_error(code)),
        }
    }

    /// Receives a message from a server or a pending response.
    #[inline]
    pub fn receive(&mut self, from: &Id) -> Result<Option<Slot>, ReceiveError> {
        let (mut id, mut at) = (Id::NONE, ptr::null());
        match unsafe { raw::rr_receive_in_place(&mut self.0, from, &mut id, &mut at, &mut 0) } {
            raw::RR_OK => Ok(Some(Slot { id, at: NonNull::new(at.cast_mut()).expect("a message lies somewhere") })),
            raw::RR_NOTHING => Ok(None),
            raw::RR_RECEIVE_EXCEEDS_MAX_BORROWS => Err(ReceiveError::ExceedsMaxBorrows),
            code => impossible(code),
        }
    }

    /// Sends a request, and returns how many queues took it. Refused, it is released.
    #[inline]
    pub fn send_request(&mut self, request: &Id) -> Result<usize, RequestSendError> {
        let mut servers = 0;
        match unsafe { raw::rr_send(&mut self.0, request, &mut servers) } {
            raw::RR_OK => Ok(servers),
            code => Err(request_send_error(code)),
        }
    }

    /// Sends a response, which no port of the crate refuses: all are created to pass full queues over.
    #[inline]
    pub fn send_response(&mut self, response: &Id) {
        done(unsafe { raw::rr_send(&mut self.0, response, &mut 0) });
    }

    /// Returns why a send of the request would be refused now.
    pub fn send_refusal(&mut self, request: &Id) -> Option<RequestSendError> {
        match self.ask(raw::rr_send_refusal, request, raw::RR_OK) {
            raw::RR_OK => None,
            why => Some(request_send_error(why)),
        }
    }

    #[inline]
    pub fn release(&mut self, id: &Id) {
        done(unsafe { raw::rr_release(&mut self.0, id) });
    }

    pub fn set_disconnect_hint(&mut self, pending: &Id) {
        done(unsafe { raw::rr_set_disconnect_hint(&mut self.0, pending) });
    }

    #[inline]
    fn ask<T>(&mut self, query: Query<T>, id: &Id, mut answer: T) -> T {
        done(unsafe { query(&mut self.0, id, &mut answer) });
        answer
    }

    /// Returns whether no queue that the message reaches is full without overflow.
    pub fn is_deliverable(&mut self, message: &Id) -> bool {
        self.ask(raw::rr_is_deliverable, message, false)
    }

    /// Returns whether something is queued for a server or a pending response.
    pub fn has_entries(&mut self, of: &Id) -> bool {
        self.ask(raw::rr_has_entries, of, false)
    }

    /// Returns whether something is queued, or `None` if the id does not name anything any more.
    pub fn find_entries(&mut self, of: &Id) -> Option<bool> {
        let mut has_entries = false;
        match unsafe { raw::rr_has_entries(&mut self.0, of, &mut has_entries) } {
            raw::RR_UNKNOWN => None,
            code => {
                done(code);
                Some(has_entries)
            }
        }
    }

    pub fn is_connected(&mut self, handle: &Id) -> bool {
        self.ask(raw::rr_is_connected, handle, false)
    }

    pub fn has_disconnect_hint(&mut self, active: &Id) -> bool {
        self.ask(raw::rr_has_disconnect_hint, active, false)
    }
}

/// Returns the slots of a client's whole pool, unless no hub has these limits or a `usize` does not count them.
pub(crate) fn worst_case_requests(limits: &raw::Limits) -> Option<usize> {
    let mut slots = 0;
    // SAFETY: both pointers lead to live values.
    let code = unsafe { raw::rr_worst_case_requests(limits, &mut slots) };
    (code == raw::RR_OK).then_some(slots)
}

/// Returns the slots of a server's whole pool, unless no hub has these limits or a `usize` does not count them.
pub(crate) fn worst_case_responses(limits: &raw::Limits, loans: usize) -> Option<usize> {
    let mut slots = 0;
    // SAFETY: both pointers lead to live values.
    let code = unsafe { raw::rr_worst_case_responses(limits, loans, &mut slots) };
    (code == raw::RR_OK).then_some(slots)
}

impl Drop for Hub {
    fn drop(&mut self) {
        // SAFETY: the hub is not used after this.
        unsafe { raw::rr_hub_drop(raw::Hub { at: self.0.at }) }
    }
}
