/// Threads that share a service: exchanges, waits with and without deadlines, what ends them, and any calls in any order.
#include "check.hpp"
#include <atomic>
#include <chrono>
#include <random>
#include <thread>
#include <vector>

namespace {

using namespace std::chrono_literals;
using rr::Error;
constexpr auto SHARED = rr::ServiceType::LocalThreadsafe;
using Clock = std::chrono::steady_clock;
using Number = std::uint64_t;

/// A wait that nothing should end by itself: a test that waits so long has failed.
constexpr auto LONG = 60s;

void numbers_are_exchanged() {
    constexpr Number TURNS = 2000;
    const auto service = done(small<SHARED, Number, Number>().create());
    const auto client = done(service.client_builder().create());
    std::thread serving([server = done(service.server_builder().create())] {
        for (Number turn = 0; turn < TURNS; ++turn) {
            const auto active = some(server.blocking_receive());
            HOLDS(is_done(active.send_copy(*active + 1)));
        }
    });
    for (Number turn = 0; turn < TURNS; ++turn) {
        const auto pending = done(client.send_copy(turn));
        HOLDS(*some(pending.blocking_receive()) == turn + 1);
        HOLDS(is_none(pending.timed_receive(LONG)));
    }
    serving.join();
}

void deadlines_end_waits() {
    const auto service = done(small<SHARED, Number, Number>().create());
    const auto client = done(service.client_builder().create());
    const auto server = done(service.server_builder().create());
    const auto begun = Clock::now();
    HOLDS(is_none(server.timed_receive(20ms)) && Clock::now() - begun >= 20ms);
    HOLDS(is_none(server.receive_until(begun)) && is_none(server.timed_receive(-1s)));
    HOLDS(is_none(server.timed_receive(Clock::duration::min())));
    const auto pending = done(client.send_copy(1));
    HOLDS(is_none(pending.timed_receive(20ms)) && is_none(pending.receive_until(Clock::now() + 20ms)));
    // More than the clock counts: there is something to receive.
    HOLDS(*some(server.timed_receive(std::chrono::hours::max())) == 1);
    HOLDS(Clock::now() - begun < LONG);
}

/// A wait for responses ends when the last server has released the request, or has left.
void the_last_server_ends_waits() {
    const auto service = done(small<SHARED, Number, Number>().max_servers(2).create());
    const auto client = done(service.client_builder().create());
    auto server = done(service.server_builder().create());
    auto other = done(service.server_builder().create());
    const auto pending = done(client.send_copy(1));
    auto active = some(server.receive());
    HOLDS(is_done(active.send_copy(5)));
    std::thread leaving([active = std::move(active), other = std::move(other)]() mutable {
        std::this_thread::sleep_for(10ms);
        HOLDS(is_done(active.release()));
        std::this_thread::sleep_for(10ms);
        HOLDS(is_done(other.release()));
    });
    HOLDS(*some(pending.blocking_receive()) == 5);
    HOLDS(is_none(pending.blocking_receive()) && !pending.is_connected());
    leaving.join();
    HOLDS(is_done(server.release()) && is_none(done(client.send_copy(2)).blocking_receive()));
}

void sends_wait_for_room() {
    const auto service = done(small<SHARED, Number, Number>().create());
    const auto client = done(service.client_builder().backpressure_strategy(rr::BackpressureStrategy::RetryUntilDelivered).create());
    const auto server =
        done(service.server_builder().backpressure_strategy(rr::BackpressureStrategy::RetryUntilDelivered).create());
    const auto pending = done(client.send_copy(1));
    const auto active = some(server.receive());
    HOLDS(is_done(active.send_copy(0)) && is_done(active.send_copy(1)));
    REFUSED(Error::SendUnableToDeliver, done(active.loan()).timed_send(20ms));
    std::thread receiving([&pending] {
        std::this_thread::sleep_for(10ms);
        for (Number turn = 0; turn < 100; ++turn) {
            HOLDS(*some(pending.timed_receive(LONG)) == turn);
        }
    });
    for (Number turn = 2; turn < 100; ++turn) {
        HOLDS(is_done(done(active.loan_uninit()).write_payload(Number(turn)).timed_send(LONG)));
    }
    receiving.join();
    const auto second = done(done(client.loan()).timed_send(LONG));
    REFUSED(Error::SendExceedsMaxActiveRequests, done(client.loan()).timed_send(LONG));
}

/// A receive that finds only requests that nobody waits for makes room, also one that goes on waiting.
void receives_of_nothing_make_room() {
    const auto service = done(small<SHARED, Number, Number>().create());
    const auto client = done(service.client_builder().backpressure_strategy(rr::BackpressureStrategy::RetryUntilDelivered).create());
    const auto server = done(service.server_builder().create());
    const auto begun = Clock::now();
    for (const bool waits : {false, true}) {
        HOLDS(is_done(done(client.send_copy(0)).release()) && is_done(done(client.send_copy(0)).release()));
        std::thread sending([&client] { HOLDS(is_none(done(done(client.loan()).timed_send(LONG)).timed_receive(LONG))); });
        std::this_thread::sleep_for(20ms);
        HOLDS(waits || is_none(server.receive()));
        HOLDS(some(server.timed_receive(LONG)).number() > 0);
        sending.join();
    }
    HOLDS(Clock::now() - begun < LONG);
}

/// What a thread of `any_order` has, and does at random.
struct Worker {
    rr::PortFactoryRequestResponse<SHARED, Number, Number> service;
    std::atomic<Number>& answered;
    std::mt19937 random;

    bool chance(unsigned percent) { return random() % 100 < percent; }

    void ask(const rr::Client<SHARED, Number, Number>& client) {
        const Number number = random();
        const auto pending = client.send_copy(number);
        if (!pending) {
            return;
        }
        for (auto response = done(pending->timed_receive(1ms)); response; response = done(pending->timed_receive(1ms))) {
            HOLDS(**response == number + 1);
            answered.fetch_add(1);
            if (chance(10)) {
                HOLDS(is_done(pending->set_disconnect_hint()));
                return;
            }
        }
    }

    void answer(const rr::Server<SHARED, Number, Number>& server) {
        const auto active = server.timed_receive(1ms);
        for (unsigned turn = 0; active && *active && turn < 3 && !(*active)->has_disconnect_hint() && !chance(20); ++turn) {
            HOLDS(is_done((*active)->send_copy(***active + 1)));
        }
    }

    void run() {
        while (answered.load() < 2000) {
            const auto client = service.client_builder().create();
            const auto server = service.server_builder().create();
            for (unsigned turn = 0; turn < 20; ++turn) {
                if (client && (chance(50) || !server)) {
                    ask(*client);
                } else if (server) {
                    answer(*server);
                }
            }
        }
    }
};

void any_order() {
    const auto node = rr::NodeBuilder().create<SHARED>();
    const auto service = done(node.service_builder("any").request_response<Number, Number>().max_clients(3).max_servers(3).create());
    std::atomic<Number> answered{0};
    std::vector<std::thread> threads;
    for (unsigned seed = 0; seed < 4; ++seed) {
        threads.emplace_back([&answered, service, seed] { Worker{service, answered, std::mt19937(seed)}.run(); });
    }
    for (std::thread& thread : threads) {
        thread.join();
    }
    HOLDS(answered.load() >= 2000);
}

/// Threads that open a service by name find the same one.
void one_service_is_created() {
    const auto node = rr::NodeBuilder().create<SHARED>();
    const auto builder = node.service_builder("one").request_response<Number, Number>().max_clients(4);
    const auto kept = done(builder.open_or_create());
    std::vector<std::thread> threads;
    std::atomic<unsigned> created{0};
    for (unsigned at = 0; at < 4; ++at) {
        threads.emplace_back([&builder, &created] {
            const auto client = done(done(builder.open_or_create()).client_builder().create());
            created.fetch_add(1);
            while (created.load() < 4) {
                std::this_thread::yield();
            }
        });
    }
    for (std::thread& thread : threads) {
        thread.join();
    }
    HOLDS(done(kept.client_builder().create()).id() == 4);
}

} // namespace

int main() {
    numbers_are_exchanged();
    deadlines_end_waits();
    the_last_server_ends_waits();
    sends_wait_for_room();
    receives_of_nothing_make_room();
    any_order();
    one_service_is_created();
    std::puts("the threads hold");
    return 0;
}
