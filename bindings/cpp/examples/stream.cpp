// A server streams the powers of two until its client has seen enough.
#include <chrono>
#include <cinttypes>
#include <cstdio>
#include <rr.hpp>
#include <thread>

using Number = std::uint64_t;
using Server = rr::Server<rr::ServiceType::LocalThreadsafe, Number, Number>;

/// Answers a request with one power after the other, and waits for room in the client's queue.
void stream(const Server& server) {
    const auto active = server.blocking_receive().expect("a request").value();
    for (Number power = *active; active.is_connected() && !active.has_disconnect_hint(); power *= 2) {
        auto response = active.loan_uninit().expect("a loan");
        if (!std::move(response).write_payload(power).timed_send(std::chrono::seconds(10))) {
            return;
        }
    }
}

int main() {
    const auto node = rr::NodeBuilder().create<rr::ServiceType::LocalThreadsafe>();
    // Without overflow no response is dropped.
    const auto service = node.service_builder("powers")
                             .request_response<Number, Number>()
                             .enable_safe_overflow_for_responses(false)
                             .create()
                             .expect("a service");
    auto server = service.server_builder()
                      .backpressure_strategy(rr::BackpressureStrategy::RetryUntilDelivered)
                      .create()
                      .expect("a server");
    const auto client = service.client_builder().create().expect("a client");
    std::thread streaming([server = std::move(server)] { stream(server); });

    auto pending = client.send_copy(1).expect("a request");
    while (const auto response = pending.blocking_receive().expect("received")) {
        std::printf("%" PRIu64 "\n", **response);
        if (**response == 32) {
            break;
        }
    }
    // Nobody waits any more: the server's send needs no room, and its stream ends.
    pending.set_disconnect_hint().expect("told");
    pending.release().expect("released");
    streaming.join();
    std::puts("the server has stopped");
    return 0;
}
