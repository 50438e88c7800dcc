/// Nodes, and the services that they find by name.
#ifndef RR_SERVICE_HPP
#define RR_SERVICE_HPP
#include "rr/ports.hpp"
#include <atomic>
#include <map>
#include <string>

namespace rr {
namespace detail {

/// A lock of the services of a node, if threads share it.
template <ServiceType S>
struct Lock {
    void lock() noexcept {}
    void unlock() noexcept {}
};

template <>
struct Lock<ServiceType::LocalThreadsafe> : std::mutex {};

/// What two payload types are told apart by: the address of a variable of their own.
template <typename Q, typename P>
inline char TYPES = 0;

/// Returns a number that no other node of the process has.
inline std::uint64_t next_node_id() {
    static std::atomic<std::uint64_t> last{0};
    return last.fetch_add(1) + 1;
}

/// The services of a node by name, as long as they live.
template <ServiceType S>
struct Services {
    struct Entry {
        std::weak_ptr<Core<S>> core;
        const void* types;
    };

    const std::uint64_t node_id = next_node_id();
    Lock<S> lock = {};
    std::map<std::string, Entry> by_name = {};
};

} // namespace detail

/// A service, as a node's builder returns it: creates ports. Its copies are the same service, which lives as long as one of them, a port or
/// a message.
template <ServiceType S, typename Q, typename P>
class PortFactoryRequestResponse {
  public:
    explicit PortFactoryRequestResponse(detail::CoreRef<S> core) noexcept : core_(std::move(core)) {}

    PortFactoryClient<S, Q, P> client_builder() const { return PortFactoryClient<S, Q, P>(core_); }
    PortFactoryServer<S, Q, P> server_builder() const { return PortFactoryServer<S, Q, P>(core_); }

  private:
    detail::CoreRef<S> core_;
};

/// Builds a service with requests `Q` and responses `P`: a trivially copyable type, or a `Slice` of one. The limits are iceoryx2's, with
/// its defaults. They count for a service that is created; one that is opened stays as it is.
template <ServiceType S, typename Q, typename P>
class ServiceBuilderRequestResponse {
  public:
    using Factory = PortFactoryRequestResponse<S, Q, P>;

    ServiceBuilderRequestResponse(std::shared_ptr<detail::Services<S>> services, std::string name)
        : services_(std::move(services)), name_(std::move(name)) {}

    /// Sets how many clients may be connected.
    ServiceBuilderRequestResponse& max_clients(std::size_t value) { return limits_.max_clients = value, *this; }
    /// Sets how many servers may be connected.
    ServiceBuilderRequestResponse& max_servers(std::size_t value) { return limits_.max_servers = value, *this; }
    /// Sets how many requests a client may have on loan.
    ServiceBuilderRequestResponse& max_loaned_requests(std::size_t value) { return limits_.max_loaned_requests = value, *this; }
    /// Sets how many pending responses a client may have, requests a queue, and active requests a server from one client.
    ServiceBuilderRequestResponse& max_active_requests_per_client(std::size_t value) {
        return limits_.max_active_requests_per_client = value, *this;
    }
    /// Sets how many responses a queue may have.
    ServiceBuilderRequestResponse& max_response_buffer_size(std::size_t value) { return limits_.max_response_buffer_size = value, *this; }
    /// Sets how many responses from one server a pending response may hold.
    ServiceBuilderRequestResponse& max_borrowed_responses_per_pending_response(std::size_t value) {
        return limits_.max_borrowed_responses_per_pending_response = value, *this;
    }
    /// Sets of how many servers that left a client keeps responses.
    ServiceBuilderRequestResponse& client_expired_connection_buffer(std::size_t value) {
        return limits_.client_expired_connection_buffer = value, *this;
    }
    /// Sets of how many clients that left a server keeps requests.
    ServiceBuilderRequestResponse& server_expired_connection_buffer(std::size_t value) {
        return limits_.server_expired_connection_buffer = value, *this;
    }
    /// Sets whether a full queue of requests drops its oldest one for a new one.
    ServiceBuilderRequestResponse& enable_safe_overflow_for_requests(bool value) {
        return limits_.enable_safe_overflow_for_requests = value, *this;
    }
    /// Sets whether a full queue of responses drops its oldest one for a new one.
    ServiceBuilderRequestResponse& enable_safe_overflow_for_responses(bool value) {
        return limits_.enable_safe_overflow_for_responses = value, *this;
    }
    /// Sets whether servers receive requests whose pending response ended.
    ServiceBuilderRequestResponse& enable_fire_and_forget_requests(bool value) {
        return limits_.enable_fire_and_forget_requests = value, *this;
    }

    /// Creates the service. Refused with `AlreadyExists`, `HubCreate..`, `LibraryVersion`.
    Result<Factory> create() const {
        const std::lock_guard<detail::Lock<S>> lock(services_->lock);
        return found() ? Result<Factory>(Error::AlreadyExists) : created();
    }

    /// Opens the service. Refused with `DoesNotExist`, `IncompatibleTypes`.
    Result<Factory> open() const {
        const std::lock_guard<detail::Lock<S>> lock(services_->lock);
        return opened(found());
    }

    /// Opens the service, or creates it if the node has none of this name. Refused as `open` and `create`.
    Result<Factory> open_or_create() const {
        const std::lock_guard<detail::Lock<S>> lock(services_->lock);
        const detail::CoreRef<S> core = found();
        return core ? opened(core) : created();
    }

  private:
    detail::CoreRef<S> found() const {
        const auto at = services_->by_name.find(name_);
        return at == services_->by_name.end() ? nullptr : at->second.core.lock();
    }

    Result<Factory> opened(const detail::CoreRef<S>& core) const {
        if (!core) {
            return Error::DoesNotExist;
        }
        const bool is_compatible = services_->by_name.at(name_).types == &detail::TYPES<Q, P>;
        return is_compatible ? Result<Factory>(Factory(core)) : Error::IncompatibleTypes;
    }

    Result<Factory> created() const {
        if (rr_version() != RR_VERSION) {
            return Error::LibraryVersion;
        }
        rr_hub_t hub = {};
        const std::uint32_t code = rr_hub_create(&limits_, services_->node_id, &hub.at);
        if (code != RR_OK) {
            return static_cast<Error>(code);
        }
        const auto core = std::make_shared<detail::Core<S>>(hub);
        services_->by_name[name_] = {core, &detail::TYPES<Q, P>};
        return Factory(core);
    }

    std::shared_ptr<detail::Services<S>> services_;
    std::string name_;
    rr_limits_t limits_ = rr_limits_default();
};

/// Builds a service of a name.
template <ServiceType S>
class ServiceBuilder {
  public:
    ServiceBuilder(std::shared_ptr<detail::Services<S>> services, std::string name)
        : services_(std::move(services)), name_(std::move(name)) {}

    template <typename Q, typename P>
    ServiceBuilderRequestResponse<S, Q, P> request_response() const {
        return {services_, name_};
    }

  private:
    std::shared_ptr<detail::Services<S>> services_;
    std::string name_;
};

/// A node, in which services have names. Its copies are the same node; other nodes have services of their own.
template <ServiceType S>
class Node {
  public:
    Node() : services_(std::make_shared<detail::Services<S>>()) {}

    /// Returns its number, which no other node of the process has.
    std::uint64_t id() const noexcept { return services_->node_id; }

    ServiceBuilder<S> service_builder(std::string name) const { return {services_, std::move(name)}; }

  private:
    std::shared_ptr<detail::Services<S>> services_;
};

/// Builds a node.
class NodeBuilder {
  public:
    template <ServiceType S>
    Node<S> create() const {
        return Node<S>();
    }
};

} // namespace rr
#endif
