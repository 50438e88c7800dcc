/// Clients and servers, and what builds them.
#ifndef RR_PORTS_HPP
#define RR_PORTS_HPP
#include "rr/requests.hpp"

namespace rr {
namespace detail {

/// A client or a server, whose messages have this payload.
template <ServiceType S, typename T>
class Port : public Handle<S> {
  public:
    Port(CoreRef<S> core, const rr_id_t& id) noexcept : Handle<S>(std::move(core), id) {}

    /// Returns its number, which the service gives to nothing else.
    std::uint64_t id() const noexcept { return this->number(); }

    /// Returns what its sends do at a full queue.
    BackpressureStrategy backpressure_strategy() const {
        return static_cast<BackpressureStrategy>(this->template ask<std::uint32_t>(rr_backpressure_strategy, "backpressure_strategy"));
    }

    /// Returns for how many elements each of its slots has room from the start.
    std::size_t initial_max_slice_len() const {
        return this->template ask<std::size_t>(rr_initial_max_slice_len, "initial_max_slice_len") / sizeof(typename Payload<T>::Element);
    }

    /// Changes nothing: ports are connected from the creation of the later one on. Refused with `MovedFrom`.
    Result<void> update_connections() const { return result_of(this->call(rr_update_connections)); }
};

/// Returns how many bytes so many elements have, or the most that there are, for which no pool has room.
template <typename T>
std::size_t bytes_of(std::size_t elements) {
    constexpr std::size_t MOST = std::numeric_limits<std::size_t>::max();
    return elements > MOST / sizeof(T) ? MOST : elements * sizeof(T);
}

} // namespace detail

/// Sends requests to all servers of its service. A client that ended stays connected as long as a message of it lives.
template <ServiceType S, typename Q, typename P>
class Client : public detail::Port<S, Q>, public detail::Sender<Client<S, Q, P>, RequestMut<S, Q, P>> {
  public:
    using detail::Port<S, Q>::Port;
};

/// Receives the requests of all clients of its service. A server that ended stays connected as long as a message of it lives.
template <ServiceType S, typename Q, typename P>
class Server : public detail::Port<S, P>, public detail::Receiver<Server<S, Q, P>, ActiveRequest<S, Q, P>> {
  public:
    static constexpr ServiceType SERVICE_TYPE = S;
    using detail::Port<S, P>::Port;

    /// Returns whether a request is queued. In a service without fire-and-forget it may be one whose pending response ended, which the next
    /// receive drops.
    bool has_requests() const { return this->template ask<bool>(rr_has_entries, "has_requests"); }

  private:
    friend class detail::Receiver<Server, ActiveRequest<S, Q, P>>;

    static bool may_receive(rr_hub_t*, const rr_id_t&) { return true; }
};

/// Builds a client.
template <ServiceType S, typename Q, typename P>
class PortFactoryClient {
  public:
    explicit PortFactoryClient(detail::CoreRef<S> core)
        : core_(std::move(core)), settings_(rr_client_settings_default(sizeof(typename detail::Payload<Q>::Element))) {}

    /// Sets for how many elements a slot has room from the start, of 1 if it is not set. For slices alone.
    PortFactoryClient& initial_max_slice_len(std::size_t elements) {
        static_assert(detail::Payload<Q>::IS_SLICE, "a request has one value");
        settings_.initial_max_slice_len = detail::bytes_of<typename detail::Payload<Q>::Element>(elements);
        return *this;
    }

    /// Sets whether slots may grow. For slices alone.
    PortFactoryClient& allocation_strategy(AllocationStrategy strategy) {
        static_assert(detail::Payload<Q>::IS_SLICE, "a request has one value");
        settings_.allocation_strategy = static_cast<std::uint32_t>(strategy);
        return *this;
    }

    /// Sets what sends do at a full queue, which they pass over if it is not set.
    PortFactoryClient& backpressure_strategy(BackpressureStrategy strategy) {
        settings_.backpressure_strategy = static_cast<std::uint32_t>(strategy);
        return *this;
    }

    /// Sets how many slots the pool has: with fewer than the limits can ask for, a loan may be refused with `LoanOutOfMemory`.
    PortFactoryClient& preallocated_requests(std::size_t slots) {
        settings_.preallocated_requests = slots;
        return *this;
    }

    /// Creates the client. Refused with `ClientCreate..`.
    Result<Client<S, Q, P>> create() const {
        rr_id_t id = {0, 0, 0};
        const std::uint32_t code = core_->call([&](rr_hub_t* hub) { return rr_client_create(hub, &settings_, &id); });
        return code == RR_OK ? Result<Client<S, Q, P>>(Client<S, Q, P>(core_, id)) : static_cast<Error>(code);
    }

  private:
    detail::CoreRef<S> core_;
    rr_client_settings_t settings_;
};

/// Builds a server.
template <ServiceType S, typename Q, typename P>
class PortFactoryServer {
  public:
    explicit PortFactoryServer(detail::CoreRef<S> core)
        : core_(std::move(core)), settings_(rr_server_settings_default(sizeof(typename detail::Payload<P>::Element))) {}

    /// Sets for how many elements a slot has room from the start, of 1 if it is not set. For slices alone.
    PortFactoryServer& initial_max_slice_len(std::size_t elements) {
        static_assert(detail::Payload<P>::IS_SLICE, "a response has one value");
        settings_.initial_max_slice_len = detail::bytes_of<typename detail::Payload<P>::Element>(elements);
        return *this;
    }

    /// Sets whether slots may grow. For slices alone.
    PortFactoryServer& allocation_strategy(AllocationStrategy strategy) {
        static_assert(detail::Payload<P>::IS_SLICE, "a response has one value");
        settings_.allocation_strategy = static_cast<std::uint32_t>(strategy);
        return *this;
    }

    /// Sets what sends do at a full queue, which they pass over if it is not set.
    PortFactoryServer& backpressure_strategy(BackpressureStrategy strategy) {
        settings_.backpressure_strategy = static_cast<std::uint32_t>(strategy);
        return *this;
    }

    /// Sets how many slots the pool has: with fewer than the limits can ask for, a loan may be refused with `LoanOutOfMemory`.
    PortFactoryServer& preallocated_responses(std::size_t slots) {
        settings_.preallocated_responses = slots;
        return *this;
    }

    /// Sets how many responses an active request may have on loan, 1 if it is not set. 0 counts as 1.
    PortFactoryServer& max_loaned_responses_per_request(std::size_t responses) {
        settings_.max_loaned_responses_per_request = responses;
        return *this;
    }

    /// Creates the server. Refused with `ServerCreate..`.
    Result<Server<S, Q, P>> create() const {
        rr_id_t id = {0, 0, 0};
        const std::uint32_t code = core_->call([&](rr_hub_t* hub) { return rr_server_create(hub, &settings_, &id); });
        return code == RR_OK ? Result<Server<S, Q, P>>(Server<S, Q, P>(core_, id)) : static_cast<Error>(code);
    }

  private:
    detail::CoreRef<S> core_;
    rr_server_settings_t settings_;
};

} // namespace rr
#endif
