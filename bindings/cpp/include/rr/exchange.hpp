/// Loans and receives: what a client and an active request, and a server and a pending response, have in common.
#ifndef RR_EXCHANGE_HPP
#define RR_EXCHANGE_HPP
#include "rr/message.hpp"
#include <limits>

namespace rr::detail {

/// What messages are loaned from, as `Self`. `Sendable` is a message of it that can be sent.
template <typename Self, typename Sendable>
class Sender {
  public:
    using Element = typename Sendable::Element;
    using Sent = typename Sendable::Sent;

    /// Loans a message whose value has to be written. Refused with `LoanExceedsMaxLoans`, `LoanOutOfMemory`, `NumbersExhausted`,
    /// `MovedFrom`.
    Result<Uninit<Sendable>> loan_uninit() const {
        static_assert(!Sendable::IS_SLICE, "a slice is loaned by loan_slice_uninit");
        return uninit(loan_of(1));
    }

    /// Loans a message with the value `Element()`. Refused as `loan_uninit`.
    Result<Sendable> loan() const {
        Result<Uninit<Sendable>> loaned = loan_uninit();
        return loaned ? Result<Sendable>(std::move(*loaned).write_payload(Element())) : loaned.error();
    }

    /// Sends a copy of the value. Refused as `loan_uninit` and as the message's `send`.
    Result<Sent> send_copy(const Element& value) const {
        static_assert(!Sendable::IS_SLICE, "a slice is sent by send_slice_copy");
        return copied({&value, 1});
    }

    /// Loans a message of this many elements, which have to be written. Refused with `LoanExceedsMaxLoanSize`, and as `loan_uninit`.
    Result<Uninit<Sendable>> loan_slice_uninit(std::size_t size) const {
        static_assert(Sendable::IS_SLICE, "a value is loaned by loan_uninit");
        return uninit(loan_of(size));
    }

    /// Loans a message of this many elements `Element()`. Refused as `loan_slice_uninit`.
    Result<Sendable> loan_slice(std::size_t size) const {
        Result<Uninit<Sendable>> loaned = loan_slice_uninit(size);
        if (!loaned) {
            return loaned.error();
        }
        return std::move(*loaned).write_from_fn([](std::size_t) { return Element(); });
    }

    /// Sends a copy of the elements. Refused as `loan_slice_uninit` and as the message's `send`.
    Result<Sent> send_slice_copy(Slice<const Element> elements) const {
        static_assert(Sendable::IS_SLICE, "a value is sent by send_copy");
        return copied(elements);
    }

  protected:
    Sender() = default;
    Sender(Sender&&) noexcept = default;
    Sender& operator=(Sender&&) noexcept = default;
    ~Sender() = default;

  private:
    /// The most bytes that are copied under the service's lock.
    static constexpr std::size_t MOST_COPIED = 256;

    const Self& self() const { return *static_cast<const Self*>(this); }

    /// Sends a copy of the elements: if they are few, by one call.
    Result<Sent> copied(Slice<const Element> elements) const {
        if (elements.size() <= MOST_COPIED / sizeof(Element)) {
            return copied_at_once(elements);
        }
        Result<Sendable> loaned = loan_of(elements.size());
        if (!loaned) {
            return loaned.error();
        }
        std::memcpy(static_cast<void*>(loaned->first()), elements.data(), elements.size() * sizeof(Element));
        return std::move(*loaned).send();
    }

    Result<Sent> copied_at_once(Slice<const Element> elements) const {
        Slot slot;
        std::size_t servers = 0;
        const std::uint8_t* at = nullptr;
        const auto* bytes = reinterpret_cast<const std::uint8_t*>(elements.data());
        const std::uint32_t code = self().change([&](rr_hub_t* hub, const rr_id_t* from) {
            // With length 0 any address does that is not null.
            const std::uint8_t nothing = 0;
            const std::uint8_t* payload = elements.empty() ? &nothing : bytes;
            const std::uint32_t sent = rr_send_copy(hub, from, payload, elements.size() * sizeof(Element), &slot.id, &servers);
            return sent == RR_OK && !std::is_void_v<Sent> ? rr_payload(hub, &slot.id, &at, &slot.bytes) : sent;
        });
        slot.at = const_cast<std::uint8_t*>(at);
        return code == RR_OK ? Sendable::sent(self().core(), slot, servers) : Result<Sent>(static_cast<Error>(code));
    }

    static Result<Uninit<Sendable>> uninit(Result<Sendable>&& loaned) {
        return loaned ? Result<Uninit<Sendable>>(Uninit<Sendable>(std::move(*loaned))) : loaned.error();
    }

    Result<Sendable> loan_of(std::size_t size) const {
        if (size > std::numeric_limits<std::size_t>::max() / sizeof(Element)) {
            return Error::LoanExceedsMaxLoanSize;
        }
        Slot slot;
        std::uint8_t* at = nullptr;
        slot.bytes = size * sizeof(Element);
        const std::uint32_t code =
            self().call([&](rr_hub_t* hub, const rr_id_t* from) { return rr_loan_in_place(hub, from, slot.bytes, &slot.id, &at); });
        if (code != RR_OK) {
            return static_cast<Error>(code);
        }
        slot.at = at;
        return Sendable(self().core(), slot);
    }
};

/// What messages are received by, as `Self`. `Received` is such a message.
///
/// Each receive is refused with `ReceiveExceedsMaxBorrows`, `NumbersExhausted` and `MovedFrom`, and has no message if none is queued, or, of
/// a wait, if none came in time.
template <typename Self, typename Received>
class Receiver {
  public:
    using Answer = Result<std::optional<Received>>;

    /// Receives the next message, if one is queued.
    Answer receive() const {
        return received([this](Slot& slot) {
            return self().take([&](rr_hub_t* hub, const rr_id_t*) { return attempt(hub, slot); });
        });
    }

    /// Waits for the next message. A pending response has none when none can come any more.
    Answer blocking_receive() const { return receive_within(std::nullopt); }

    /// Waits for the next message, at most this long.
    template <typename Rep, typename Period>
    Answer timed_receive(std::chrono::duration<Rep, Period> timeout) const {
        return receive_within(deadline_after(timeout));
    }

    /// Waits for the next message until this time.
    Answer receive_until(std::chrono::steady_clock::time_point deadline) const { return receive_within(deadline); }

  protected:
    Receiver() = default;
    Receiver(Receiver&&) noexcept = default;
    Receiver& operator=(Receiver&&) noexcept = default;
    ~Receiver() = default;

  private:
    const Self& self() const { return *static_cast<const Self*>(this); }

    /// Receives once. Writes the message.
    std::uint32_t attempt(rr_hub_t* hub, Slot& slot) const {
        const std::uint8_t* at = nullptr;
        const std::uint32_t code = rr_receive_in_place(hub, &self().raw_id(), &slot.id, &at, &slot.bytes);
        slot.at = const_cast<std::uint8_t*>(at);
        return code;
    }

    /// Returns what a call receives that returns a code and writes the message.
    template <typename Call>
    Answer received(Call&& call) const {
        Slot slot;
        const std::uint32_t code = call(slot);
        if (code == RR_NOTHING || code == ENDED) {
            return std::optional<Received>();
        }
        if (code != RR_OK) {
            return static_cast<Error>(code);
        }
        return std::optional<Received>(Received(self().core(), slot));
    }

    Answer receive_within(const Deadline& deadline) const {
        static_assert(Self::SERVICE_TYPE == ServiceType::LocalThreadsafe, "in a service of one thread nobody could send meanwhile");
        if (self().is_moved_from()) {
            return Error::MovedFrom;
        }
        return received([&](Slot& slot) {
            return self().core()->wait_for_message(deadline, [&](rr_hub_t* hub) {
                const std::uint32_t code = attempt(hub, slot);
                return code == RR_NOTHING && !Self::may_receive(hub, self().raw_id()) ? ENDED : code;
            });
        });
    }
};

} // namespace rr::detail
#endif
