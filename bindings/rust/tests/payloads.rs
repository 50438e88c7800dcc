//! The places of payloads and headers in a slot, and their contents.

mod common;

use common::{Done, address, builder, service};
use rr::port::LoanError;
use rr::prelude::*;
use std::fmt::Debug;

type S = ipc::Service;

/// A struct with padding between its fields.
#[derive(Debug, Clone, Copy, PartialEq, Default)]
#[repr(C)]
struct Sample {
    flag: bool,
    value: f64,
    letter: char,
    counts: [u16; 5],
    large: u128,
}

// SAFETY: plain values.
unsafe impl ZeroCopySend for Sample {}

#[derive(Debug, Clone, Copy, PartialEq)]
#[repr(C, align(16))]
struct Aligned([u8; 48]);

// SAFETY: bytes.
unsafe impl ZeroCopySend for Aligned {}

#[test]
fn each_loan_is_aligned_to_16_bytes() -> Done {
    let service = builder::<S, [u8], [u8]>("each_loan_is_aligned_to_16_bytes")
        .max_loaned_requests(8)
        .create()?;
    let client = service.client_builder().initial_max_slice_len(37).create()?;
    let server = service
        .server_builder()
        .initial_max_slice_len(37)
        .max_loaned_responses_per_request(8)
        .create()?;
    let _pending_response = client.loan_slice(1)?.send()?;
    let active_request = server.receive()?.unwrap();
    let (mut requests, mut responses) = (Vec::new(), Vec::new());
    for len in 1..=8 {
        let mut request = client.loan_slice_uninit(len)?;
        assert_eq!(request.payload_mut().as_ptr() as usize % 16, 0);
        requests.push(request);
        let mut response = active_request.loan_slice_uninit(len)?;
        assert_eq!(response.payload_mut().as_ptr() as usize % 16, 0);
        responses.push(response);
    }
    assert!(client.loan_slice(1).is_err() && active_request.loan_slice(1).is_err());
    Ok(())
}

#[test]
fn a_slice_that_grows_is_aligned_to_16_bytes() -> Done {
    let service = service::<S, [u8], u64>("a_slice_that_grows_is_aligned_to_16_bytes");
    let client = service
        .client_builder()
        .allocation_strategy(AllocationStrategy::BestFit)
        .create()?;
    for len in [1, 3, 17, 100, 1000, 99_999, 5] {
        let request = client.loan_slice_uninit(len)?.write_from_fn(|index| index as u8);
        assert_eq!(address(request.payload()) % 16, 0);
        assert!(request.iter().enumerate().all(|(index, byte)| *byte == index as u8));
    }
    Ok(())
}

#[test]
fn a_message_is_read_where_it_was_written() -> Done {
    let service = service::<S, [u32], Sample>("a_message_is_read_where_it_was_written");
    let client = service.client_builder().initial_max_slice_len(100).create()?;
    let (server, other) = (service.server_builder().create()?, service.server_builder().create()?);
    let mut request = client.loan_slice_uninit(100)?;
    let at = address(request.payload());
    assert_eq!(address(request.payload_mut()), at);
    let request = request.write_from_fn(|index| index as u32);
    assert_eq!(address(request.payload()), at);
    let pending_response = request.send()?;
    assert_eq!(pending_response.number_of_server_connections(), 2);
    let (active_request, other_request) = (server.receive()?.unwrap(), other.receive()?.unwrap());
    for payload in [pending_response.payload(), active_request.payload(), other_request.payload()] {
        assert_eq!(address(payload), at);
        assert!(payload.iter().enumerate().all(|(index, word)| *word == index as u32));
    }

    let mut response = active_request.loan()?;
    let at = address(response.payload());
    response.value = 2.5;
    assert_eq!(address(response.payload_mut()), at);
    response.send()?;
    let response = pending_response.receive()?.unwrap();
    assert_eq!(address(response.payload()), at);
    assert_eq!(response.value, 2.5);
    Ok(())
}

#[test]
fn structs_come_as_they_were_sent() -> Done {
    let service = service::<S, Sample, Aligned>("structs_come_as_they_were_sent");
    let client = service.client_builder().create()?;
    let server = service.server_builder().create()?;
    let sample = Sample { flag: true, value: -0.5, letter: 'ß', counts: [1, 2, 3, 4, 65535], large: u128::MAX - 1 };
    let pending_response = client.send_copy(sample)?;
    let active_request = server.receive()?.unwrap();
    assert_eq!(*active_request, sample);
    assert_eq!(*pending_response, sample);
    let bytes = std::array::from_fn(|index| index as u8);
    active_request.send_copy(Aligned(bytes))?;
    let response = pending_response.receive()?.unwrap();
    assert_eq!(*response, Aligned(bytes));
    assert_eq!(address(response.payload()) % 16, 0);
    Ok(())
}

#[test]
fn slices_of_structs_come_as_they_were_sent() -> Done {
    let service = service::<S, [Sample], [Aligned]>("slices_of_structs_come_as_they_were_sent");
    let client = service.client_builder().initial_max_slice_len(7).create()?;
    let server = service.server_builder().initial_max_slice_len(7).create()?;
    assert_eq!((client.initial_max_slice_len(), server.initial_max_slice_len()), (7, 7));
    let samples = [Sample { counts: [9; 5], ..Sample::default() }; 7];
    let pending_response = client.loan_slice_uninit(7)?.write_from_slice(&samples).send()?;
    let active_request = server.receive()?.unwrap();
    assert_eq!(*active_request, samples);
    assert_eq!(active_request.header().number_of_elements(), 7);
    active_request
        .loan_slice_uninit(5)?
        .write_from_fn(|index| Aligned([index as u8; 48]))
        .send()?;
    let response = pending_response.receive()?.unwrap();
    assert_eq!(response.len(), 5);
    assert_eq!(response.header().number_of_elements(), 5);
    assert!(
        response
            .iter()
            .enumerate()
            .all(|(index, element)| *element == Aligned([index as u8; 48]))
    );
    Ok(())
}

#[test]
fn arrays_come_as_they_were_sent() -> Done {
    let service = service::<S, [u64; 1000], [[f32; 3]; 4]>("arrays_come_as_they_were_sent");
    let client = service.client_builder().create()?;
    let server = service.server_builder().create()?;
    let asked = std::array::from_fn(|index| index as u64);
    let pending_response = client.send_copy(asked)?;
    let active_request = server.receive()?.unwrap();
    assert_eq!(*active_request, asked);
    assert_eq!(active_request.header().number_of_elements(), 1);
    active_request.loan_uninit()?.write_payload([[1.5; 3]; 4]).send()?;
    assert_eq!(*pending_response.receive()?.unwrap(), [[1.5; 3]; 4]);
    Ok(())
}

#[test]
fn a_slice_may_be_empty() -> Done {
    let service = service::<S, [Aligned], [u64]>("a_slice_may_be_empty");
    let client = service.client_builder().initial_max_slice_len(0).create()?;
    let server = service.server_builder().create()?;
    assert_eq!(client.initial_max_slice_len(), 0);
    // SAFETY: nothing has to be initialised.
    let request = unsafe { client.loan_slice_uninit(0)?.assume_init() };
    assert!(request.is_empty());
    let pending_response = request.send()?;
    let active_request = server.receive()?.unwrap();
    assert!(active_request.is_empty());
    assert_eq!(address(active_request.payload()) % 16, 0);
    assert_eq!(active_request.header().number_of_elements(), 0);
    active_request.loan_slice_uninit(0)?.write_from_slice(&[]).send()?;
    assert!(pending_response.receive()?.unwrap().is_empty());
    Ok(())
}

#[test]
fn memory_on_loan_is_zero_or_what_an_earlier_message_left() -> Done {
    let service = builder::<S, [u64], u64>("memory_on_loan_is_zero_or_what_an_earlier_message_left")
        .max_loaned_requests(1)
        .create()?;
    let client = service
        .client_builder()
        .initial_max_slice_len(16)
        .override_request_preallocation(|_| 1)
        .create()?;
    // SAFETY: any bytes are a value of these elements.
    let request = unsafe { client.loan_slice_uninit(9)?.assume_init() };
    assert_eq!(*request, [0; 9]);
    drop(request);
    drop(client.loan_slice_uninit(16)?.write_from_fn(|index| index as u64));
    for len in [16, 3, 16, 9] {
        let request = client.loan_slice_uninit(len)?;
        assert_eq!(request.payload().len(), len);
        // SAFETY: as above.
        let request = unsafe { request.assume_init() };
        assert!(request.iter().copied().eq(0..len as u64));
    }
    Ok(())
}

#[test]
fn a_payload_is_changed_until_it_is_sent() -> Done {
    let service = service::<S, [u64], u64>("a_payload_is_changed_until_it_is_sent");
    let client = service.client_builder().initial_max_slice_len(4).create()?;
    let server = service.server_builder().create()?;
    let mut request = client.loan_slice_uninit(4)?.write_from_slice(&[1, 2, 3, 4]);
    request[0] = 10;
    request.payload_mut()[3] = 40;
    assert_eq!(*request, [10, 2, 3, 40]);
    let mut rewritten = client.loan_slice_uninit(2)?;
    rewritten.payload_mut()[0].write(1);
    let rewritten = rewritten.write_from_slice(&[5, 6]);
    let _pending_responses = [request.send()?, rewritten.send()?];
    assert_eq!(*server.receive()?.unwrap(), [10, 2, 3, 40]);
    assert_eq!(*server.receive()?.unwrap(), [5, 6]);
    Ok(())
}

#[test]
fn headers_tell_who_and_what() -> Done {
    let node = NodeBuilder::new().create::<S>()?;
    let builder = node.service_builder(&"headers_tell_who_and_what".try_into()?);
    let service = builder.request_response::<u64, [u64]>().create()?;
    let client = service.client_builder().create()?;
    let server = service.server_builder().initial_max_slice_len(3).create()?;
    drop(client.loan()?);
    let request = client.loan_uninit()?;
    assert_eq!(request.header().request_id(), 1);
    let pending_response = request.write_payload(5).send()?;
    let active_request = server.receive()?.unwrap();
    for header in [pending_response.header(), active_request.header()] {
        assert_eq!((header.client_id(), header.request_id()), (client.id(), 1));
        assert_eq!((header.number_of_elements(), header.node_id()), (1, *node.id()));
    }
    assert_eq!(active_request.origin(), client.id());
    active_request.loan_slice(3)?.send()?;
    let response = pending_response.receive()?.unwrap();
    let header = response.header();
    assert_eq!((header.server_id(), header.request_id()), (server.id(), 1));
    assert_eq!((header.number_of_elements(), header.node_id()), (3, *node.id()));
    assert_ne!(client.id().value(), server.id().value());
    Ok(())
}

#[test]
fn ports_of_several_services_have_ids_of_their_own() -> Done {
    let services = ["ids_one", "ids_two"].map(service::<S, u64, u64>);
    let clients = [services[0].client_builder().create()?, services[1].client_builder().create()?];
    assert_ne!(clients[0].id(), clients[1].id());
    Ok(())
}

#[derive(Debug, Clone, Copy, PartialEq, Default, ZeroCopySend)]
#[repr(C)]
struct Stamp {
    time: u64,
    tag: [u8; 3],
}

#[test]
fn user_headers_go_along() -> Done {
    let service = builder::<S, u64, u64>("user_headers_go_along")
        .request_user_header::<Stamp>()
        .response_user_header::<[u64; 32]>()
        .create()?;
    let client = service.client_builder().create()?;
    let server = service.server_builder().create()?;
    let mut request = client.loan_uninit()?;
    assert_eq!(*request.user_header(), Stamp::default());
    request.user_header_mut().time = 77;
    let mut request = request.write_payload(1);
    request.user_header_mut().tag = *b"tag";
    let pending_response = request.send()?;
    let active_request = server.receive()?.unwrap();
    for header in [pending_response.user_header(), active_request.user_header()] {
        assert_eq!(*header, Stamp { time: 77, tag: *b"tag" });
    }
    active_request.send_copy(1)?;
    assert_eq!(*pending_response.receive()?.unwrap().user_header(), [0; 32]);
    let mut response = active_request.loan()?;
    response.user_header_mut()[31] = 7;
    response.send()?;
    assert_eq!(pending_response.receive()?.unwrap().user_header()[30..], [0, 7]);
    Ok(())
}

/// Sends slices and values of a type with user headers of another, and looks where they lie.
fn aligned<T, H>(name: &str, value: T) -> Done
where
    T: Debug + Copy + PartialEq + ZeroCopySend + 'static,
    H: Debug + Copy + Default + PartialEq + ZeroCopySend,
{
    let service = builder::<S, [T], T>(name)
        .request_user_header::<H>()
        .response_user_header::<H>()
        .create()?;
    let strategy = AllocationStrategy::PowerOfTwo;
    let client = service
        .client_builder()
        .initial_max_slice_len(2)
        .allocation_strategy(strategy)
        .create()?;
    let server = service.server_builder().create()?;
    for len in [0, 1, 2, 3, 40] {
        let request = client.loan_slice_uninit(len)?.write_from_fn(|_| value);
        assert_eq!(address(&request[..]) % align_of::<T>(), 0);
        assert_eq!(address(request.user_header()) % align_of::<H>(), 0);
        let pending_response = request.send()?;
        let active_request = server.receive()?.unwrap();
        assert!(active_request.len() == len && active_request.iter().all(|it| *it == value));
        assert_eq!(*active_request.user_header(), H::default());
        active_request.send_copy(value)?;
        let response = pending_response.receive()?.unwrap();
        assert_eq!((*response, address(&*response) % align_of::<T>()), (value, 0));
        assert_eq!(*response.user_header(), H::default());
    }
    Ok(())
}

#[derive(Debug, Clone, Copy, PartialEq, Default, ZeroCopySend)]
#[repr(C, align(64))]
struct Line(u8);

#[derive(Debug, Clone, Copy, PartialEq, Default, ZeroCopySend)]
#[repr(C, align(4096))]
struct Page(u64);

#[derive(Debug, Clone, Copy, PartialEq, Default, ZeroCopySend)]
#[repr(C, align(256))]
struct Nothing;

#[test]
fn payloads_and_headers_of_any_alignment() -> Done {
    aligned::<u8, u128>("aligned_1", 7)?;
    aligned::<u128, u8>("aligned_2", u128::MAX)?;
    aligned::<Line, u8>("aligned_3", Line(9))?;
    aligned::<u16, Line>("aligned_4", 500)?;
    aligned::<Page, Line>("aligned_5", Page(1))?;
    aligned::<[u64; 100], Page>("aligned_6", [3; 100])
}

#[test]
fn payloads_and_headers_without_bytes() -> Done {
    aligned::<(), ()>("empty_1", ())?;
    aligned::<Nothing, Page>("empty_2", Nothing)?;
    aligned::<u64, Nothing>("empty_3", 5)
}

#[test]
fn slices_without_bytes_have_a_length() -> Done {
    let service = service::<S, u64, [Nothing]>("slices_without_bytes_have_a_length");
    let (client, server) = (service.client_builder().create()?, service.server_builder().create()?);
    let _pending_response = client.send_copy(1)?;
    let active_request = server.receive()?.unwrap();
    assert_eq!(active_request.loan_slice(2).unwrap_err(), LoanError::ExceedsMaxLoanSize);
    assert_eq!(active_request.loan_slice(1)?.len(), 1);
    let strategy = AllocationStrategy::BestFit;
    let growing = service.server_builder().allocation_strategy(strategy).create()?;
    let _pending_response = client.send_copy(1)?;
    assert_eq!(growing.receive()?.unwrap().loan_slice_uninit(usize::MAX)?.payload().len(), usize::MAX);
    Ok(())
}

/// A value of 256 bytes is copied in one critical section, and a longer one in place.
#[test]
fn copies_of_any_size() -> Done {
    fn copies<const N: usize>(name: &str) -> Done {
        let service = builder::<S, [u8; N], [u8; N]>(name).response_user_header::<Line>().create()?;
        let (client, server) = (service.client_builder().create()?, service.server_builder().create()?);
        let value = std::array::from_fn(|at| at as u8);
        let pending_response = client.send_copy(value)?;
        assert_eq!(*pending_response, value);
        let active_request = server.receive()?.unwrap();
        active_request.send_copy(*active_request)?;
        assert_eq!(*pending_response.receive()?.unwrap(), value);
        Ok(())
    }
    copies::<0>("copies_0")?;
    copies::<256>("copies_256")?;
    copies::<257>("copies_257")?;
    copies::<100_000>("copies_100000")
}
