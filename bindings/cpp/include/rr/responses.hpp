/// Responses.
#ifndef RR_RESPONSES_HPP
#define RR_RESPONSES_HPP
#include "rr/exchange.hpp"

namespace rr {

/// A response that a client received. It counts as borrowed until its end.
template <ServiceType S, typename P>
class Response : public detail::Message<S, P> {
  public:
    Response(detail::CoreRef<S> core, const detail::Slot& slot) noexcept : detail::Message<S, P>(std::move(core), slot) {}

    ResponseHeader header() const { return this->template header_as<ResponseHeader>(); }

    /// Returns the number of the server that sent it.
    std::uint64_t origin() const { return this->template ask<std::uint64_t>(rr_origin, "origin"); }
};

/// A response on loan that can be sent.
template <ServiceType S, typename P>
class ResponseMut : public detail::Unsent<S, P> {
  public:
    using Sent = void;
    static constexpr bool IS_SLICE = detail::Payload<P>::IS_SLICE;

    ResponseMut(detail::CoreRef<S> core, const detail::Slot& slot) noexcept : detail::Unsent<S, P>(std::move(core), slot) {}

    ResponseHeader header() const { return this->template header_as<ResponseHeader>(); }

    /// Sends it to the client that asked. Where that no longer waits it reaches nobody, and the send succeeds. Refused with
    /// `SendUnableToDeliver`, after which it is released, and with `MovedFrom`.
    Result<void> send() && {
        std::size_t servers = 0;
        const std::uint32_t code = this->put(servers);
        this->give_up();
        return detail::result_of(code);
    }
    Result<void> send() & = delete; // std::move(response).send()

    /// Sends it as `send`, and waits for room first, at most this long.
    template <typename Rep, typename Period>
    Result<void> timed_send(std::chrono::duration<Rep, Period> timeout) && {
        this->await_room(detail::deadline_after(timeout));
        return std::move(*this).send();
    }

  private:
    template <typename Self, typename Sendable>
    friend class detail::Sender;

    static Result<void> sent(const detail::CoreRef<S>&, const detail::Slot&, std::size_t) { return {}; }
};

/// A response on loan whose payload has to be written.
template <ServiceType S, typename P>
using ResponseMutUninit = detail::Uninit<ResponseMut<S, P>>;

} // namespace rr
#endif
