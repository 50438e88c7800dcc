/// What services and ports are created with, and the headers of messages.
#ifndef RR_SETTINGS_HPP
#define RR_SETTINGS_HPP
#include "rr.h"
#include <cstdint>

namespace rr {

/// By whom a service is used.
enum class ServiceType {
    /// By one thread at a time: no call takes a lock, and none waits. What one thread leaves another may take over, if a lock, a channel,
    /// or a thread's start or join makes the calls of the first happen before those of the other.
    Local,
    /// By any threads at the same time: each call takes the service's lock, and threads may wait for messages.
    LocalThreadsafe,
};

/// What a port's sends do at a full queue that no safe overflow empties.
enum class BackpressureStrategy : std::uint32_t {
    /// The send is refused with `Error::SendUnableToDeliver`; `timed_send` waits for room first.
    RetryUntilDelivered = RR_BACKPRESSURE_RETRY_UNTIL_DELIVERED,
    /// The queue is passed over.
    DiscardData = RR_BACKPRESSURE_DISCARD_DATA,
};

/// Whether a port's slots may grow for slices longer than `initial_max_slice_len`, and to which length.
enum class AllocationStrategy : std::uint32_t {
    Static = RR_ALLOCATION_STATIC,
    BestFit = RR_ALLOCATION_BEST_FIT,
    PowerOfTwo = RR_ALLOCATION_POWER_OF_TWO,
};

/// The header of a request.
struct RequestHeader {
    std::uint64_t client_id;          ///< the client that loaned it
    std::uint64_t request_id;         ///< how many requests that client had loaned before
    std::uint64_t number_of_elements; ///< of its payload
    std::uint64_t node_id;            ///< the node that created the service
};

/// The header of a response.
struct ResponseHeader {
    std::uint64_t server_id;          ///< the server that loaned it
    std::uint64_t request_id;         ///< of the request that it answers
    std::uint64_t number_of_elements; ///< of its payload
    std::uint64_t node_id;            ///< the node that created the service
};

} // namespace rr
#endif
