/// Requests, on both sides.
#ifndef RR_REQUESTS_HPP
#define RR_REQUESTS_HPP
#include "rr/responses.hpp"

namespace rr {

/// A request that was sent. It receives the responses of all servers. Its end tells them that nobody waits for their responses any more.
///
/// A wait for responses ends without one when every server that was connected at the send has released the request or left. A server whose
/// full queue dropped the request counts until it leaves: `timed_receive` bounds such a wait.
template <ServiceType S, typename Q, typename P>
class PendingResponse : public detail::Message<S, Q>, public detail::Receiver<PendingResponse<S, Q, P>, Response<S, P>> {
  public:
    static constexpr ServiceType SERVICE_TYPE = S;

    PendingResponse(detail::CoreRef<S> core, const detail::Slot& slot, std::size_t servers) noexcept
        : detail::Message<S, Q>(std::move(core), slot), servers_(servers) {}

    RequestHeader header() const { return this->template header_as<RequestHeader>(); }

    /// Returns how many queues took the request as it was sent.
    std::size_t number_of_server_connections() const noexcept { return servers_; }

    /// Returns whether a response is queued.
    bool has_response() const { return this->template ask<bool>(rr_has_entries, "has_response"); }

    /// Returns whether a server may still answer.
    bool is_connected() const { return this->template ask<bool>(rr_is_connected, "is_connected"); }

    /// Tells the servers that the client wants no more responses. Refused with `MovedFrom`.
    Result<void> set_disconnect_hint() const { return detail::result_of(this->call(rr_set_disconnect_hint)); }

  private:
    friend class detail::Receiver<PendingResponse, Response<S, P>>;

    static bool may_receive(rr_hub_t* hub, const rr_id_t& id) {
        bool is_connected = false;
        return rr_is_connected(hub, &id, &is_connected) == RR_OK && is_connected;
    }

    std::size_t servers_;
};

/// A request on loan that can be sent.
template <ServiceType S, typename Q, typename P>
class RequestMut : public detail::Unsent<S, Q> {
  public:
    using Sent = PendingResponse<S, Q, P>;
    static constexpr bool IS_SLICE = detail::Payload<Q>::IS_SLICE;

    RequestMut(detail::CoreRef<S> core, const detail::Slot& slot) noexcept : detail::Unsent<S, Q>(std::move(core), slot) {}

    RequestHeader header() const { return this->template header_as<RequestHeader>(); }

    /// Sends it to all connected servers. Refused with `SendExceedsMaxActiveRequests` and `SendUnableToDeliver`, after which it is
    /// released, and with `MovedFrom`.
    Result<Sent> send() && {
        std::size_t servers = 0;
        const std::uint32_t code = this->put(servers);
        const detail::Slot slot = this->slot();
        detail::CoreRef<S> core = this->give_up();
        return code == RR_OK ? sent(std::move(core), slot, servers) : static_cast<Error>(code);
    }
    Result<Sent> send() & = delete; // std::move(request).send()

    /// Sends it as `send`, and waits for room first, at most this long.
    template <typename Rep, typename Period>
    Result<Sent> timed_send(std::chrono::duration<Rep, Period> timeout) && {
        this->await_room(detail::deadline_after(timeout));
        return std::move(*this).send();
    }

  private:
    template <typename Self, typename Sendable>
    friend class detail::Sender;

    static Result<Sent> sent(detail::CoreRef<S> core, const detail::Slot& slot, std::size_t servers) {
        return Sent(std::move(core), slot, servers);
    }
};

/// A request on loan whose payload has to be written.
template <ServiceType S, typename Q, typename P>
using RequestMutUninit = detail::Uninit<RequestMut<S, Q, P>>;

/// A request that a server received. It loans responses, each of which goes to the client that asked. Its end tells the client that this
/// server sends no more of them.
template <ServiceType S, typename Q, typename P>
class ActiveRequest : public detail::Message<S, Q>, public detail::Sender<ActiveRequest<S, Q, P>, ResponseMut<S, P>> {
  public:
    ActiveRequest(detail::CoreRef<S> core, const detail::Slot& slot) noexcept : detail::Message<S, Q>(std::move(core), slot) {}

    RequestHeader header() const { return this->template header_as<RequestHeader>(); }

    /// Returns the number of the client that sent it.
    std::uint64_t origin() const { return this->template ask<std::uint64_t>(rr_origin, "origin"); }

    /// Returns whether the client waits for responses.
    bool is_connected() const { return this->template ask<bool>(rr_is_connected, "is_connected"); }

    /// Returns whether the client wants no more responses.
    bool has_disconnect_hint() const { return this->template ask<bool>(rr_has_disconnect_hint, "has_disconnect_hint"); }
};

} // namespace rr
#endif
