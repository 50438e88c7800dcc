/// Times round trips, as `time.c` does: a line is `c++ BYTES NANOSECONDS TRIPS`, the best of the samples, of a service of one thread, and
/// `c++-shared ..` of one that threads share. Each trip checks that the answer is the question plus one.
#include "check.hpp"
#include <algorithm>
#include <chrono>

namespace {

constexpr int SAMPLES = 15;
constexpr int TRIPS = 20000;
using Number = std::uint64_t;

template <rr::ServiceType S>
void measure(const char* name) {
    const auto service = done(small<S, Number, Number>().create());
    const auto client = done(service.client_builder().create());
    const auto server = done(service.server_builder().create());
    Number word = 0;
    double best = 0;
    for (int sample = 0; sample < SAMPLES; ++sample) {
        const auto start = std::chrono::steady_clock::now();
        for (int trip = 0; trip < TRIPS; ++trip) {
            const auto pending = done(client.send_copy(word));
            {
                const auto active = some(server.receive());
                HOLDS(is_done(active.send_copy(*active + 1)));
            }
            word = *some(pending.receive());
        }
        const std::chrono::duration<double, std::nano> taken = std::chrono::steady_clock::now() - start;
        best = sample == 0 ? taken.count() / TRIPS : std::min(best, taken.count() / TRIPS);
    }
    HOLDS(word == Number(SAMPLES) * TRIPS);
    std::printf("%s %zu %.1f %d\n", name, sizeof word, best, TRIPS);
}

} // namespace

int main() {
    measure<rr::ServiceType::Local>("c++");
    measure<rr::ServiceType::LocalThreadsafe>("c++-shared");
    return 0;
}
