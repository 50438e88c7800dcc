// A client sends a picture and a server answers with its histogram. Both are written and read where they lie.
#include <array>
#include <cstdio>
#include <rr.hpp>

using Picture = rr::Slice<std::uint8_t>;
using Histogram = std::array<std::uint32_t, 256>;

int main() {
    const auto node = rr::NodeBuilder().create<rr::ServiceType::Local>();
    const auto service = node.service_builder("histograms").request_response<Picture, Histogram>().create().expect("a service");
    const auto client = service.client_builder().initial_max_slice_len(4096).create().expect("a client");
    const auto server = service.server_builder().create().expect("a server");

    auto picture = client.loan_slice_uninit(4096).expect("a loan");
    const auto pending = std::move(picture).write_from_fn([](std::size_t pixel) { return pixel % 256; }).send().expect("a request");

    while (const auto active = server.receive().expect("received")) {
        auto histogram = active->loan().expect("a loan");
        for (const std::uint8_t shade : active->payload()) {
            ++histogram.payload_mut()[shade];
        }
        std::move(histogram).send().expect("an answer");
    }
    const auto response = pending.receive().expect("received");
    if (!response) {
        return 1;
    }
    const Histogram& shades = response->payload();
    std::printf("%zu shades: %u black pixels, %u white ones\n", shades.size(), shades[0], shades[255]);
    return 0;
}
