//! Prints how the crate `rr` declares what rr.h declares, in the lines of bindings/c/tests/layout.c.

use rr::raw;
use std::mem::{align_of, offset_of, size_of};

/// The size of what a pointer to a field leads to.
fn size_at<T>(_: *const T) -> usize {
    size_of::<T>()
}

/// Prints a struct and its fields.
macro_rules! print_type {
    ($name:literal $type:ty: $($field:ident)*) => {
        println!("{} {} {}", $name, size_of::<$type>(), align_of::<$type>());
        let value = std::mem::MaybeUninit::<$type>::uninit();
        $(
            // SAFETY: the field's place lies in the value, and is not read.
            let size = size_at(unsafe { &raw const (*value.as_ptr()).$field });
            println!("{}.{} {} {size}", $name, stringify!($field), offset_of!($type, $field));
        )*
    };
}

/// Prints constants.
macro_rules! print_constants {
    ($($name:ident)*) => {
        $(println!("{} {}", stringify!($name), raw::$name);)*
    };
}

/// Prints codes, each as the crate names it.
macro_rules! print_codes {
    ($($name:ident)*) => {
        $(println!("{} {}", raw::code_name(raw::$name), raw::$name);)*
    };
}

fn print_small_types() {
    print_type! { "rr_hub_t" raw::Hub: at }
    print_type! { "rr_id_t" raw::Id: number row index }
    print_type! { "rr_header_t" raw::Header: port_id request_id number_of_elements node_id is_response }
    print_type! { "rr_user_header_t" raw::UserHeader: bytes }
}

fn print_limits() {
    print_type! { "rr_limits_t" raw::Limits:
        max_clients max_servers max_loaned_requests max_active_requests_per_client max_response_buffer_size
        max_borrowed_responses_per_pending_response client_expired_connection_buffer server_expired_connection_buffer
        enable_safe_overflow_for_requests enable_safe_overflow_for_responses enable_fire_and_forget_requests
    }
}

fn print_settings() {
    print_type! { "rr_client_settings_t" raw::ClientSettings:
        initial_max_slice_len preallocated_requests backpressure_strategy allocation_strategy
    }
    print_type! { "rr_server_settings_t" raw::ServerSettings:
        initial_max_slice_len preallocated_responses max_loaned_responses_per_request backpressure_strategy allocation_strategy
    }
}

fn print_codes() {
    print_codes! {
        RR_OK RR_UNKNOWN RR_WRONG_KIND RR_NUMBERS_EXHAUSTED RR_INCOMPLETE RR_WRONG_LENGTH RR_NOTHING RR_INVALID_SETTING
        RR_CLIENT_CREATE_UNABLE_TO_CREATE_DATA_SEGMENT RR_CLIENT_CREATE_EXCEEDS_MAX_SUPPORTED_CLIENTS
        RR_CLIENT_CREATE_UNABLE_TO_CREATE_PORT_TAG
        RR_SERVER_CREATE_EXCEEDS_MAX_SUPPORTED_SERVERS RR_SERVER_CREATE_UNABLE_TO_CREATE_DATA_SEGMENT
        RR_SERVER_CREATE_UNABLE_TO_CREATE_PORT_TAG
        RR_LOAN_OUT_OF_MEMORY RR_LOAN_EXCEEDS_MAX_LOANS RR_LOAN_EXCEEDS_MAX_LOAN_SIZE
        RR_SEND_UNABLE_TO_DELIVER RR_SEND_EXCEEDS_MAX_ACTIVE_REQUESTS
        RR_RECEIVE_EXCEEDS_MAX_BORROWS
        RR_HUB_CREATE_ZERO_LIMIT RR_HUB_CREATE_LIMITS_TOO_LARGE RR_HUB_CREATE_OUT_OF_MEMORY
    }
}

fn print_choices() {
    print_constants! {
        RR_BACKPRESSURE_RETRY_UNTIL_DELIVERED RR_BACKPRESSURE_DISCARD_DATA
        RR_ALLOCATION_STATIC RR_ALLOCATION_BEST_FIT RR_ALLOCATION_POWER_OF_TWO
        RR_KIND_CLIENT RR_KIND_SERVER RR_KIND_REQUEST_MUT_UNINIT RR_KIND_REQUEST_MUT RR_KIND_PENDING_RESPONSE
        RR_KIND_ACTIVE_REQUEST RR_KIND_RESPONSE_MUT_UNINIT RR_KIND_RESPONSE_MUT RR_KIND_RESPONSE
    }
}

fn print_defaults() {
    let limits = raw::limits_default();
    let sizes = [
        limits.max_clients,
        limits.max_servers,
        limits.max_loaned_requests,
        limits.max_active_requests_per_client,
        limits.max_response_buffer_size,
        limits.max_borrowed_responses_per_pending_response,
        limits.client_expired_connection_buffer,
        limits.server_expired_connection_buffer,
    ];
    let flags = [
        limits.enable_safe_overflow_for_requests,
        limits.enable_safe_overflow_for_responses,
        limits.enable_fire_and_forget_requests,
    ];
    let words: Vec<_> = sizes
        .into_iter()
        .chain(flags.map(usize::from))
        .map(|it| it.to_string())
        .collect();
    println!("rr_limits_default {}", words.join(" "));
    let it = raw::client_settings_default(5);
    print!("rr_client_settings_default {} {}", it.initial_max_slice_len, it.preallocated_requests);
    println!(" {} {}", it.backpressure_strategy, it.allocation_strategy);
    let it = raw::server_settings_default(5);
    print!("rr_server_settings_default {} {}", it.initial_max_slice_len, it.preallocated_responses);
    println!(" {} {} {}", it.max_loaned_responses_per_request, it.backpressure_strategy, it.allocation_strategy);
}

fn main() {
    print_small_types();
    print_limits();
    print_settings();
    print_codes();
    print_choices();
    print_defaults();
}
