/// Misuse that ends a program with the error's name: `misuse N` does the Nth, and 0 is all well.
///
/// With `-DMISUSE=N` the Nth of the other list is compiled, which no compiler may accept; without it, or with 0, all is.
#include "check.hpp"
#include <string>

using Service = rr::PortFactoryRequestResponse<rr::ServiceType::Local, int, rr::Slice<char>>;

int main(int count, char** words) {
    const int misuse = count > 1 ? std::atoi(words[1]) : 0;
    const Service service = done(small<rr::ServiceType::Local, int, rr::Slice<char>>().create());
    auto client = done(service.client_builder().create());
    auto server = done(service.server_builder().create());
    auto request = done(client.loan());
    if (misuse == 1) {
        auto other = std::move(request);
        std::printf("%d\n", request.payload());
    } else if (misuse == 2) {
        auto other = std::move(request);
        request.payload_mut() = 1;
    } else if (misuse == 3) {
        auto other = std::move(server);
        std::printf("%d\n", server.has_requests());
    } else if (misuse == 4) {
        auto pending = std::move(request).send().expect("sent");
        auto again = std::move(request).send().expect("sent again");
    } else if (misuse == 5) {
        auto second = client.loan();
        auto third = client.loan();
        std::printf("%d\n", third->payload());
    } else if (misuse == 6) {
        std::printf("%s\n", rr::name(client.loan().error()));
    }
#if MISUSE == 1
    auto copy = client;
#elif MISUSE == 2
    auto pending = request.send();
#elif MISUSE == 3
    server.blocking_receive().value();
#elif MISUSE == 4
    rr::NodeBuilder().create<rr::ServiceType::Local>().service_builder("").request_response<std::string, int>().create()->client_builder();
#elif MISUSE == 5
    client.loan_slice(3).value();
#elif MISUSE == 6
    client.send_copy(3);
#elif MISUSE == 7
    request.set_user_header(rr_id_t{}).value();
#elif MISUSE == 8
    std::move(request).timed_send(std::chrono::seconds(1)).value();
#elif MISUSE == 9
    some(server.receive()).payload() = 3;
#endif
    std::puts("well");
    return 0;
}
