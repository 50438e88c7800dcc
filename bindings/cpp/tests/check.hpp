/// What the tests share: checks that end the program, and a service of small limits.
#ifndef CHECK_HPP
#define CHECK_HPP
#include "rr.hpp"

/// Ends the program unless the fact holds.
#define HOLDS(fact) ((fact) ? void() : does_not_hold(__FILE__, __LINE__, #fact))

/// Ends the program unless the call is refused with this error.
#define REFUSED(wanted, call) HOLDS(is_refused((call), (wanted)))

[[noreturn]] inline void does_not_hold(const char* file, int line, const char* fact) {
    std::fprintf(stderr, "%s:%d: it does not hold: %s\n", file, line, fact);
    std::exit(1);
}

template <typename T>
bool is_refused(const rr::Result<T>& result, rr::Error wanted) {
    return !result.has_value() && result.error() == wanted;
}

/// Returns the value of a call that must be done.
template <typename T>
T done(rr::Result<T>&& result) {
    return std::move(result).expect("a call is done");
}

/// Returns whether a call is done that returns nothing.
inline bool is_done(const rr::Result<void>& result) {
    return result.has_value();
}

/// Returns the message that a call must receive.
template <typename T>
T some(rr::Result<std::optional<T>>&& result) {
    std::optional<T> received = std::move(result).expect("a call is done");
    HOLDS(received.has_value());
    return std::move(*received);
}

template <typename T>
bool is_none(rr::Result<std::optional<T>>&& result) {
    return !std::move(result).expect("a call is done").has_value();
}

/// A builder of a service with one client and one server, two of all else and no flags.
template <rr::ServiceType S, typename Q, typename P>
rr::ServiceBuilderRequestResponse<S, Q, P> small(const char* name = "small") {
    const auto node = rr::NodeBuilder().create<S>();
    return node.service_builder(name)
        .template request_response<Q, P>()
        .max_clients(1)
        .max_servers(1)
        .max_loaned_requests(2)
        .max_active_requests_per_client(2)
        .max_response_buffer_size(2)
        .max_borrowed_responses_per_pending_response(2)
        .client_expired_connection_buffer(1)
        .server_expired_connection_buffer(1)
        .enable_safe_overflow_for_requests(false)
        .enable_safe_overflow_for_responses(false)
        .enable_fire_and_forget_requests(false);
}
#endif
