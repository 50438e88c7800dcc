// Two threads: one asks for the double of a number, the other one answers.
#include <cinttypes>
#include <cstdio>
#include <rr.hpp>
#include <thread>

using Number = std::uint64_t;
using Server = rr::Server<rr::ServiceType::LocalThreadsafe, Number, Number>;

/// Waits for a request, and answers it with twice its number.
rr::Result<void> answer(const Server& server) {
    auto received = server.blocking_receive();
    if (!received) {
        return received.error();
    }
    const auto& active = **received;
    std::printf("the server received %" PRIu64 "\n", *active);
    return active.send_copy(2 * *active);
}

int main() {
    const auto node = rr::NodeBuilder().create<rr::ServiceType::LocalThreadsafe>();
    const auto service = node.service_builder("doubles").request_response<Number, Number>().create().expect("a service");
    const auto client = service.client_builder().create().expect("a client");
    std::thread answering([server = service.server_builder().create().expect("a server")] { answer(server).expect("an answer"); });

    const auto pending = client.send_copy(21).expect("a request");
    auto response = pending.blocking_receive().expect("a response");
    answering.join();
    if (!response) {
        return 1;
    }
    std::printf("the client received %" PRIu64 "\n", **response);
    return 0;
}
