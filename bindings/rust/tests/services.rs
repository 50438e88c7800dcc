//! Services: their names, what is compared when they are opened, how long they live, and who may open them.

mod common;

use common::{Done, builder, service};
use rr::node::node_name::SemanticStringError;
use rr::prelude::*;
use rr::service::builder::request_response::{
    RequestResponseCreateError as CreateError, RequestResponseOpenError as OpenError,
    RequestResponseOpenOrCreateError as OpenOrCreateError,
};
use rr::service::service_name::ServiceNameError;
use rr::service::static_config::message_type_details::TypeVariant;
use std::thread;

type S = ipc::Service;

#[test]
fn names_have_a_length() -> Done {
    assert_eq!(ServiceName::new("").unwrap_err(), ServiceNameError::InvalidContent);
    assert_eq!(ServiceName::new("a\0b").unwrap_err(), ServiceNameError::InvalidContent);
    assert_eq!(ServiceName::new(&"a".repeat(256)).unwrap_err(), ServiceNameError::ExceedsMaximumLength);
    assert_eq!(ServiceName::new(&"a".repeat(255))?.as_str().len(), ServiceName::max_len());
    assert_eq!(NodeName::new(&"a".repeat(129)).unwrap_err(), SemanticStringError::ExceedsMaximumLength);
    let name: ServiceName = String::from("some/service").try_into()?;
    assert_eq!((name == "some/service", name.to_string().as_str()), (true, "some/service"));
    let node = NodeBuilder::new().name(&"a node".try_into()?).create::<S>()?;
    let other = NodeBuilder::new().create::<S>()?;
    assert_eq!((node.name().as_str(), other.name().as_str()), ("a node", ""));
    assert_ne!(node.id(), other.id());
    Ok(())
}

#[test]
fn a_service_is_created_once_and_opened_often() -> Done {
    let open = || builder::<S, u64, u64>("created_once");
    assert_eq!(open().open().unwrap_err(), OpenError::DoesNotExist);
    let created = open().create()?;
    assert_eq!(open().create().unwrap_err(), CreateError::AlreadyExists);
    let (opened, again) = (open().open()?, open().open_or_create()?);
    let client = created.client_builder().create()?;
    let server = opened.server_builder().create()?;
    let pending_response = client.send_copy(3)?;
    assert_eq!(*server.receive()?.unwrap(), 3);
    assert_eq!(pending_response.number_of_server_connections(), 1);
    assert_eq!(again.dynamic_config().number_of_clients(), 1);
    assert!(*again.name() == "created_once");
    Ok(())
}

#[test]
fn a_service_lives_as_long_as_a_message_of_it() -> Done {
    let open = || builder::<S, u64, u64>("lives_long");
    let service = open().create()?;
    let client = service.client_builder().create()?;
    drop(service);
    let request = client.loan()?;
    drop(client);
    assert!(open().open().is_ok());
    let pending_response = request.send()?;
    assert!(open().open().is_ok());
    drop(pending_response);
    assert_eq!(open().open().unwrap_err(), OpenError::DoesNotExist);
    // The name is free for other types.
    assert!(builder::<S, u8, u8>("lives_long").create().is_ok());
    Ok(())
}

#[test]
fn types_are_compared() -> Done {
    let _service = builder::<S, u64, [u64]>("types").request_user_header::<u8>().create()?;
    let open = || builder::<S, u64, [u64]>("types");
    assert!(open().request_user_header::<u8>().open().is_ok());
    assert_eq!(open().open().unwrap_err(), OpenError::IncompatibleRequestType);
    assert_eq!(open().request_user_header::<i8>().open().unwrap_err(), OpenError::IncompatibleRequestType);
    let with_other_header = open().request_user_header::<u8>().response_user_header::<u8>();
    assert_eq!(with_other_header.open().unwrap_err(), OpenError::IncompatibleResponseType);
    let with_value = builder::<S, u64, u64>("types").request_user_header::<u8>();
    assert_eq!(
        with_value.open_or_create().unwrap_err(),
        OpenOrCreateError::RequestResponseOpenError(OpenError::IncompatibleResponseType)
    );
    let with_other_elements = builder::<S, u64, [i64]>("types").request_user_header::<u8>();
    assert_eq!(with_other_elements.open().unwrap_err(), OpenError::IncompatibleResponseType);
    Ok(())
}

mod first {
    use rr::prelude::*;

    #[derive(Debug, Clone, Copy, PartialEq, ZeroCopySend)]
    #[type_name("Point")]
    #[repr(C)]
    pub struct Point {
        pub x: u32,
        pub y: u32,
    }
}

mod second {
    use rr::prelude::*;

    #[derive(Debug, Clone, Copy, PartialEq, ZeroCopySend)]
    #[type_name("Point")]
    #[repr(C)]
    pub struct Point {
        pub x: u32,
        pub y: u32,
    }

    #[derive(Debug, ZeroCopySend)]
    #[repr(C)]
    pub struct Unnamed {
        pub x: u32,
        pub y: u32,
    }
}

#[test]
fn types_are_one_by_the_name_that_their_authors_gave_them() -> Done {
    let service = service::<S, first::Point, first::Point>("named");
    let other = builder::<S, second::Point, second::Point>("named").open()?;
    let (client, server) = (service.client_builder().create()?, other.server_builder().create()?);
    let _pending_response = client.send_copy(first::Point { x: 1, y: 2 })?;
    assert_eq!(*server.receive()?.unwrap(), second::Point { x: 1, y: 2 });
    let unnamed = builder::<S, second::Unnamed, second::Unnamed>("named");
    assert_eq!(unnamed.open().unwrap_err(), OpenError::IncompatibleRequestType);
    let details = &service.static_config().request_message_type_details().payload;
    assert_eq!((details.type_name(), details.size(), details.alignment()), ("Point", 8, 4));
    assert_eq!(details.variant(), TypeVariant::FixedSize);
    Ok(())
}

#[test]
fn flags_are_compared_if_they_are_set() -> Done {
    let _service = builder::<S, u64, u64>("flags")
        .enable_safe_overflow_for_requests(false)
        .create()?;
    let open = || builder::<S, u64, u64>("flags");
    assert!(open().open().is_ok());
    assert_eq!(
        open().enable_safe_overflow_for_requests(true).open().unwrap_err(),
        OpenError::IncompatibleOverflowBehaviorForRequests
    );
    assert_eq!(
        open().enable_safe_overflow_for_responses(false).open().unwrap_err(),
        OpenError::IncompatibleOverflowBehaviorForResponses
    );
    assert_eq!(
        open().enable_fire_and_forget_requests(false).open().unwrap_err(),
        OpenError::IncompatibleBehaviorForFireAndForgetRequests
    );
    Ok(())
}

#[test]
fn limits_are_met_by_as_much_or_more() -> Done {
    let open = || builder::<S, u64, u64>("limits");
    let set = |most| {
        open()
            .max_clients(most)
            .max_servers(most)
            .max_nodes(most)
            .max_loaned_requests(most)
            .max_active_requests_per_client(most)
            .max_response_buffer_size(most)
            .max_borrowed_responses_per_pending_response(most)
    };
    let _service = set(3).create()?;
    assert!(set(2).open().is_ok() && set(3).open().is_ok());
    let refused = |builder: rr::service::builder::request_response::Builder<_, _, _, _, S>| builder.open().unwrap_err();
    assert_eq!(refused(open().max_clients(4)), OpenError::DoesNotSupportRequestedAmountOfClients);
    assert_eq!(refused(open().max_servers(4)), OpenError::DoesNotSupportRequestedAmountOfServers);
    assert_eq!(refused(open().max_nodes(4)), OpenError::DoesNotSupportRequestedAmountOfNodes);
    assert_eq!(refused(open().max_loaned_requests(4)), OpenError::DoesNotSupportRequestedAmountOfClientRequestLoans);
    assert_eq!(
        refused(open().max_active_requests_per_client(4)),
        OpenError::DoesNotSupportRequestedAmountOfActiveRequestsPerClient
    );
    assert_eq!(refused(open().max_response_buffer_size(4)), OpenError::DoesNotSupportRequestedResponseBufferSize);
    assert_eq!(
        refused(open().max_borrowed_responses_per_pending_response(4)),
        OpenError::DoesNotSupportRequestedAmountOfBorrowedResponsesPerPendingResponse
    );
    Ok(())
}

#[test]
fn nodes_are_counted_as_long_as_they_have_the_service_open() -> Done {
    let name: ServiceName = "nodes".try_into()?;
    let nodes = [(); 3].map(|()| NodeBuilder::new().create::<S>().unwrap());
    let open = |at: usize| nodes[at].service_builder(&name).request_response::<u64, u64>();
    let first = open(0).max_nodes(2).create()?;
    let again = open(0).open()?;
    let second = open(1).open()?;
    assert_eq!(open(2).open().unwrap_err(), OpenError::ExceedsMaxNumberOfNodes);
    // A port keeps its node.
    let client = second.client_builder().create()?;
    drop(second);
    assert_eq!(open(2).open().unwrap_err(), OpenError::ExceedsMaxNumberOfNodes);
    drop(client);
    assert!(open(2).open().is_ok());
    drop((first, again));
    Ok(())
}

#[test]
fn defaults_come_from_the_configuration_of_the_node() -> Done {
    let mut config = Config::default();
    config.defaults.request_response.max_clients = 5;
    config.defaults.request_response.enable_safe_overflow_for_responses = false;
    config.defaults.request_response.client_backpressure_strategy = BackpressureStrategy::DiscardData;
    let node = NodeBuilder::new().config(&config).create::<S>()?;
    let service = node
        .service_builder(&"configured".try_into()?)
        .request_response::<u64, u64>()
        .create()?;
    assert_eq!(service.static_config().max_clients(), 5);
    assert!(!service.static_config().has_safe_overflow_for_responses());
    assert!(service.static_config().does_support_fire_and_forget_requests());
    let client = service.client_builder().create()?;
    assert_eq!(client.backpressure_strategy(), BackpressureStrategy::DiscardData);
    Ok(())
}

/// A client keeps the responses of servers that left, as many as its node's configuration says.
#[test]
fn responses_of_servers_that_left_are_kept_as_configured() -> Done {
    for (buffer, kept) in [(1, Some(2)), (0, None)] {
        let mut config = Config::default();
        config.defaults.request_response.client_expired_connection_buffer = buffer;
        let node = NodeBuilder::new().config(&config).create::<S>()?;
        let service = node
            .service_builder(&"expired".try_into()?)
            .request_response::<u64, u64>()
            .create()?;
        let (client, server) = (service.client_builder().create()?, service.server_builder().create()?);
        let pending_response = client.send_copy(1)?;
        server.receive()?.unwrap().send_copy(2)?;
        drop(server);
        assert_eq!(pending_response.receive()?.map(|it| *it), kept);
    }
    Ok(())
}

#[test]
fn the_ports_of_a_service_are_listed() -> Done {
    let service = service::<S, u64, [u8]>("listed");
    let clients = [service.client_builder().create()?, service.client_builder().create()?];
    let server = service.server_builder().initial_max_slice_len(9).create()?;
    let mut listed = Vec::new();
    service.dynamic_config().list_clients(|it| {
        listed.push(it.client_id);
        CallbackProgression::Continue
    });
    assert_eq!(listed, clients.each_ref().map(|it| it.id()));
    let mut first = Vec::new();
    service.dynamic_config().list_clients(|it| {
        first.push(it.number_of_requests);
        CallbackProgression::Stop
    });
    // Two on loan, four pending, and for each of two servers four queued and four held.
    assert_eq!(first, [2 + 4 + 2 * 2 * 4]);
    service.dynamic_config().list_servers(|it| {
        assert_eq!((it.server_id, it.max_slice_len, it.request_buffer_size), (server.id(), 9, 4));
        CallbackProgression::Continue
    });
    // A message keeps its port connected.
    let request = clients[0].loan()?;
    drop(clients);
    assert_eq!(service.dynamic_config().number_of_clients(), 1);
    drop((request, server));
    let ports = service.dynamic_config();
    assert_eq!((ports.number_of_clients(), ports.number_of_servers()), (0, 0));
    Ok(())
}

#[test]
fn ipc_and_local_are_two_worlds() -> Done {
    let _here = service::<ipc::Service, u64, u64>("worlds");
    assert!(builder::<local::Service, u8, u8>("worlds").create().is_ok());
    let exists = |pattern| ipc::Service::does_exist(&"worlds".try_into().unwrap(), Config::global_config(), pattern);
    assert!(exists(MessagingPattern::RequestResponse)? && !exists(MessagingPattern::Event)?);
    Ok(())
}

/// Opens, creates, and opens or creates a service that the thread may not use.
fn is_refused<K: Service>(name: &str) {
    let open = || builder::<K, u64, u64>(name);
    assert_eq!(open().open().unwrap_err(), OpenError::IncompatibleThreadsafetyPolicy);
    assert_eq!(open().create().unwrap_err(), CreateError::IncompatibleThreadsafetyPolicy);
    assert_eq!(
        open().open_or_create().unwrap_err(),
        OpenOrCreateError::RequestResponseOpenError(OpenError::IncompatibleThreadsafetyPolicy)
    );
}

#[test]
fn a_name_belongs_to_one_policy_at_a_time() -> Done {
    let single = service::<ipc::Service, u64, u64>("policies");
    is_refused::<ipc_threadsafe::Service>("policies");
    drop(single);
    let shared = builder::<ipc_threadsafe::Service, u64, u64>("policies").create()?;
    is_refused::<ipc::Service>("policies");
    drop(shared);
    assert!(builder::<ipc::Service, u64, u64>("policies").create().is_ok());
    Ok(())
}

#[test]
fn a_service_of_one_thread_is_refused_to_others() -> Done {
    let service = service::<local::Service, u64, u64>("of_one_thread");
    thread::spawn(|| is_refused::<local::Service>("of_one_thread")).join().unwrap();
    drop(service);
    let other = thread::spawn(|| builder::<local::Service, u64, u64>("of_one_thread").create().map(drop));
    other.join().unwrap()?;
    Ok(())
}

#[test]
fn threads_open_one_service() -> Done {
    let service = service::<local_threadsafe::Service, u64, u64>("of_all_threads");
    let opened: Vec<_> = (0..8)
        .map(|_| thread::spawn(|| builder::<local_threadsafe::Service, u64, u64>("of_all_threads").open_or_create()))
        .map(|it| it.join().unwrap())
        .collect::<Result<_, _>>()?;
    let clients: Vec<_> = opened.iter().map(|it| it.client_builder().create().unwrap()).collect();
    assert_eq!(service.dynamic_config().number_of_clients(), clients.len());
    Ok(())
}
