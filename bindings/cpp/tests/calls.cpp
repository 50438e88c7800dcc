/// Each call of `rr.hpp`, in services of one thread and in services that threads share: what it does, and each error that can come.
#include "check.hpp"
#include <array>
#include <cstdint>
#include <string>
#include <vector>

namespace {

using rr::Error;
using rr::ServiceType;

struct Point {
    double x, y;
    bool operator==(const Point& other) const { return x == other.x && y == other.y; }
};

struct alignas(16) Wide {
    std::uint8_t bytes[48];
};

/// Compiles if a type is moved and not copied.
template <typename T>
void is_moved_alone() {
    static_assert(!std::is_copy_constructible_v<T> && !std::is_copy_assignable_v<T>);
    static_assert(std::is_nothrow_move_constructible_v<T> && std::is_nothrow_move_assignable_v<T>);
}

template <ServiceType S>
void values_are_exchanged() {
    const auto node = rr::NodeBuilder().create<S>();
    auto service = done(node.service_builder("points").template request_response<Point, std::uint32_t>().create());
    const auto client = done(service.client_builder().create());
    const auto server = done(service.server_builder().create());
    is_moved_alone<std::remove_const_t<decltype(client)>>();

    auto request = done(client.loan_uninit());
    request.payload_mut() = {1, 2};
    HOLDS(is_done(request.set_user_header(std::uint64_t{77})));
    auto pending = done(std::move(request).assume_init().send());
    is_moved_alone<decltype(pending)>();
    HOLDS((*pending == Point{1, 2}) && pending->y == 2 && pending.number_of_server_connections() == 1);
    HOLDS(server.has_requests() && !pending.has_response() && pending.is_connected());

    auto active = some(server.receive());
    HOLDS((*active == Point{1, 2}) && &*active == &*pending);
    HOLDS(active.template user_header<std::uint64_t>() == 77 && active.origin() == client.id());
    HOLDS(active.header().client_id == client.id() && active.header().request_id == 0);
    HOLDS(active.header().number_of_elements == 1 && active.header().node_id == node.id());
    HOLDS(active.is_connected() && !active.has_disconnect_hint());

    auto answer = done(active.loan());
    HOLDS(answer.payload() == 0 && answer.is_deliverable());
    answer.payload_mut() = 5;
    HOLDS(is_done(std::move(answer).send()));
    HOLDS(is_done(active.send_copy(6)));
    auto response = some(pending.receive());
    HOLDS(*response == 5 && response.origin() == server.id());
    HOLDS(response.header().server_id == server.id() && response.header().request_id == 0);
    HOLDS(response.header().node_id == node.id() && response.header().number_of_elements == 1);
    HOLDS(response.template user_header<std::uint64_t>() == 0);
    HOLDS(*some(pending.receive()) == 6 && is_none(pending.receive()));

    HOLDS(is_done(pending.set_disconnect_hint()) && active.has_disconnect_hint());
    HOLDS(is_done(active.release()) && !pending.is_connected());
    HOLDS(is_done(client.update_connections()) && is_done(server.update_connections()));
}

template <ServiceType S>
void slices_are_exchanged() {
    const auto node = rr::NodeBuilder().create<S>();
    const auto builder = node.service_builder("slices").template request_response<rr::Slice<std::uint16_t>, rr::Slice<Wide>>();
    const auto service = done(builder.open_or_create());
    const auto client = done(service.client_builder().initial_max_slice_len(3).create());
    const auto server = done(
        service.server_builder().initial_max_slice_len(1).allocation_strategy(rr::AllocationStrategy::PowerOfTwo).create());
    HOLDS(client.initial_max_slice_len() == 3 && server.initial_max_slice_len() == 1);

    const std::vector<std::uint16_t> words = {1, 2, 3};
    auto pending = done(client.send_slice_copy(words));
    HOLDS(pending.payload().size() == 3 && pending.payload()[2] == 3);
    const auto active = some(server.receive());
    HOLDS(std::vector<std::uint16_t>(active.payload().begin(), active.payload().end()) == words);
    HOLDS(active.header().number_of_elements == 3);

    // The slot grows.
    auto response = done(active.loan_slice_uninit(40));
    HOLDS(reinterpret_cast<std::uintptr_t>(response.payload_mut().data()) % 16 == 0);
    HOLDS(is_done(std::move(response).write_from_fn([](std::size_t index) { return Wide{{std::uint8_t(index)}}; }).send()));
    const auto received = some(pending.receive());
    HOLDS(received.payload().size() == 40 && received.payload()[39].bytes[0] == 39);

    REFUSED(Error::LoanExceedsMaxLoanSize, client.loan_slice(4));
    REFUSED(Error::LoanExceedsMaxLoanSize, client.loan_slice_uninit(SIZE_MAX));
    auto uninit = done(client.loan_slice_uninit(2));
    REFUSED(Error::WrongLength, std::move(uninit).write_from_slice(words));
    HOLDS(!uninit.is_moved_from());
    auto request = done(std::move(uninit).write_from_slice({words.data(), 2}));
    request.payload_mut()[1] = 9;
    HOLDS(request.payload()[1] == 9 && request.header().number_of_elements == 2);
    HOLDS(done(client.loan_slice(0)).payload().empty());
    HOLDS(done(client.send_slice_copy({})).payload().empty());
    HOLDS(is_done(active.send_slice_copy(std::vector<Wide>(6, Wide{{7}}))) && some(pending.receive()).payload()[5].bytes[0] == 7);
}

/// A service is found by its name and its types, in its node, as long as something of it lives.
template <ServiceType S>
void services_have_names() {
    const auto node = rr::NodeBuilder().create<S>();
    const auto builder = node.service_builder("service").template request_response<int, int>();
    REFUSED(Error::DoesNotExist, builder.open());
    {
        const auto service = done(builder.create());
        REFUSED(Error::AlreadyExists, builder.create());
        const auto client = done(service.client_builder().create());
        const auto server = done(done(builder.open()).server_builder().create());
        HOLDS(done(client.send_copy(1)).number_of_server_connections() == 1);
        HOLDS(done(done(builder.open_or_create()).client_builder().create()).id() != client.id());
        const auto other = node.service_builder("service").template request_response<int, long>();
        REFUSED(Error::IncompatibleTypes, other.open());
        REFUSED(Error::IncompatibleTypes, other.open_or_create());
        const auto elsewhere = rr::NodeBuilder().create<S>();
        REFUSED(Error::DoesNotExist, (elsewhere.service_builder("service").template request_response<int, int>().open()));
    }
    REFUSED(Error::DoesNotExist, builder.open());
    HOLDS(builder.open_or_create().has_value());
}

/// What was moved from, sent or released refuses each call by name.
template <ServiceType S>
void what_was_moved_from_is_refused() {
    const auto service = done(small<S, int, int>().create());
    auto client = done(service.client_builder().create());
    auto server = done(service.server_builder().create());
    auto request = done(client.loan());
    auto pending = done(std::move(request).send());
    HOLDS(request.is_moved_from() && request.number() == 0);
    REFUSED(Error::MovedFrom, std::move(request).send());
    REFUSED(Error::MovedFrom, request.set_user_header(1));
    REFUSED(Error::MovedFrom, request.release());

    auto active = some(server.receive());
    auto response = done(active.loan_uninit());
    auto written = std::move(response).write_payload(1);
    HOLDS(std::move(response).write_payload(2).is_moved_from());
    HOLDS(is_done(std::move(written).send()));
    REFUSED(Error::MovedFrom, std::move(written).send());
    auto moved = std::move(active);
    REFUSED(Error::MovedFrom, active.send_copy(1));
    REFUSED(Error::MovedFrom, active.loan());
    HOLDS(is_done(moved.release()));
    REFUSED(Error::MovedFrom, moved.release());

    auto other = std::move(pending);
    REFUSED(Error::MovedFrom, pending.receive());
    REFUSED(Error::MovedFrom, pending.set_disconnect_hint());
    pending = std::move(other);
    HOLDS(*some(pending.receive()) == 1);
    HOLDS(is_done(client.release()) && is_done(server.release()));
    REFUSED(Error::MovedFrom, client.send_copy(1));
    REFUSED(Error::MovedFrom, server.receive());
    REFUSED(Error::MovedFrom, server.update_connections());
}

template <ServiceType S>
void limits_refuse_by_name() {
    REFUSED(Error::HubCreateZeroLimit, (small<S, int, int>().max_servers(0).create()));
    REFUSED(Error::HubCreateLimitsTooLarge, (small<S, int, int>().max_servers(SIZE_MAX).create()));
    const auto service = done(small<S, rr::Slice<Wide>, int>().create());
    REFUSED(Error::ClientCreateUnableToCreateDataSegment, service.client_builder().initial_max_slice_len(SIZE_MAX).create());
    const auto client = done(service.client_builder().preallocated_requests(3).create());
    const auto server = done(service.server_builder().create());
    REFUSED(Error::ClientCreateExceedsMaxSupportedClients, service.client_builder().create());
    REFUSED(Error::ServerCreateExceedsMaxSupportedServers, service.server_builder().create());
    HOLDS(client.backpressure_strategy() == rr::BackpressureStrategy::DiscardData);

    auto first = done(client.loan_slice(1));
    auto second = done(client.loan_slice(1));
    REFUSED(Error::LoanExceedsMaxLoans, client.loan_slice(1));
    const auto pending = done(std::move(first).send());
    const auto other = done(std::move(second).send());
    auto third = done(client.loan_slice(1));
    REFUSED(Error::LoanOutOfMemory, client.loan_slice(1));
    REFUSED(Error::SendExceedsMaxActiveRequests, std::move(third).send());
    HOLDS(third.is_moved_from() && !done(client.loan_slice(1)).is_moved_from());
}

template <ServiceType S>
void full_queues_and_borrows_refuse_by_name() {
    const auto service = done(small<S, int, int>().max_borrowed_responses_per_pending_response(1).create());
    const auto client = done(service.client_builder().backpressure_strategy(rr::BackpressureStrategy::RetryUntilDelivered).create());
    const auto server = done(service.server_builder()
                                 .backpressure_strategy(rr::BackpressureStrategy::RetryUntilDelivered)
                                 .max_loaned_responses_per_request(2)
                                 .preallocated_responses(100)
                                 .create());
    const auto pending = done(client.send_copy(1));
    const auto active = some(server.receive());
    HOLDS(is_done(active.send_copy(1)) && is_done(active.send_copy(2)));
    HOLDS(!done(active.loan()).is_deliverable());
    REFUSED(Error::SendUnableToDeliver, active.send_copy(3));
    auto first = some(pending.receive());
    REFUSED(Error::ReceiveExceedsMaxBorrows, pending.receive());
    HOLDS(is_done(first.release()) && *some(pending.receive()) == 2);
    const auto loaned = done(active.loan());
    const auto another = done(active.loan());
    REFUSED(Error::LoanExceedsMaxLoans, active.send_copy(1));
}

/// Each end releases, so that as many exchanges as one likes fit into the smallest pools.
template <ServiceType S>
void ends_release() {
    const auto service = done(small<S, std::uint64_t, std::uint64_t>().create());
    const auto server = done(service.server_builder().create());
    for (std::uint64_t turn = 0; turn < 100; ++turn) {
        const auto client = done(service.client_builder().create());
        const auto dropped = done(client.loan());
        const auto pending = done(client.send_copy(turn));
        const auto active = some(server.receive());
        const auto unsent = done(active.loan_uninit());
    }
    const auto client = done(service.client_builder().create());
    HOLDS(client.number() > 500);
}

void slices_view() {
    std::array<int, 3> array = {1, 2, 3};
    rr::Slice<int> slice(array);
    slice[0] = 7;
    const rr::Slice<const int> view = slice;
    HOLDS(view.size() == 3 && *view.begin() == 7 && array[0] == 7 && rr::Slice<const char>(std::string("ab")).size() == 2);
    int sum = 0;
    for (const int element : view) {
        sum += element;
    }
    HOLDS(sum == 12 && rr::Slice<int>().empty());
    static_assert(!std::is_constructible_v<rr::Slice<int>, const std::vector<int>&> && !std::is_constructible_v<rr::Slice<int>, int>);
}

template <ServiceType S>
void all_calls() {
    values_are_exchanged<S>();
    slices_are_exchanged<S>();
    services_have_names<S>();
    what_was_moved_from_is_refused<S>();
    limits_refuse_by_name<S>();
    full_queues_and_borrows_refuse_by_name<S>();
    ends_release<S>();
}

} // namespace

int main() {
    all_calls<ServiceType::Local>();
    all_calls<ServiceType::LocalThreadsafe>();
    slices_view();
    std::puts("the calls hold");
    return 0;
}
