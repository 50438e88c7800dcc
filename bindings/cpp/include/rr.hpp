/// Request-response ports in one process, for C++17: a client loans a request, writes it in place and sends it to all servers of its
/// service; a server answers it as often as it likes; the client receives a stream of responses.
///
///     #include <rr.hpp>
///
///     auto node = rr::NodeBuilder().create<rr::ServiceType::LocalThreadsafe>();
///     auto service = node.service_builder("doubles").request_response<std::uint64_t, std::uint64_t>().create().expect("a service");
///     auto client = service.client_builder().create().expect("a client");
///     auto server = service.server_builder().create().expect("a server");
///
///     auto pending = client.send_copy(21).expect("sent");
///     if (auto active = server.receive().expect("received")) {
///         active->send_copy(2 * active->payload()).expect("answered");
///     }
///     auto response = pending.timed_receive(std::chrono::seconds(1)).expect("received");
///
/// Ports and messages are moved, not copied, and release themselves at their end. They have iceoryx2's names. A payload is a trivially
/// copyable type, or `rr::Slice<T>` of one: it is written once, by its sender, and read where it lies, outside the service's lock. No call
/// throws: each that can be refused returns an `rr::Result`, with an `rr::Error` that says when it comes and what helps. Besides the
/// library's memory, nodes and services take some by `operator new`; ports and messages take none.
///
/// What a caller owes, and nothing checks:
///   - a service of `ServiceType::Local`, with its ports and messages, is used by one thread at a time;
///   - one port or message is not moved, sent or released while another thread uses it. All else of a service of
///     `ServiceType::LocalThreadsafe` any thread may do at any time;
///   - a reference or view of a payload is used only as long as its message lives and was not sent.
#ifndef RR_HPP
#define RR_HPP
#include "rr/service.hpp"
#endif
