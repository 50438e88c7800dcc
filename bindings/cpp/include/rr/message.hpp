/// What ports and messages have in common: each is moved, not copied, and releases itself.
#ifndef RR_MESSAGE_HPP
#define RR_MESSAGE_HPP
#include "rr/core.hpp"
#include "rr/slice.hpp"
#include <cstring>
#include <new>
#include <type_traits>

namespace rr {
namespace detail {

/// The code of a call on what was moved from, sent or released.
inline constexpr auto MOVED_FROM = static_cast<std::uint32_t>(Error::MovedFrom);

/// The code of a wait for responses of which none can come any more.
inline constexpr std::uint32_t ENDED = 2000;

inline Result<void> result_of(std::uint32_t code) {
    return code == RR_OK ? Result<void>() : Result<void>(static_cast<Error>(code));
}

/// A message that the library gave: its id, where its payload lies, and how many bytes it has.
struct Slot {
    rr_id_t id = {0, 0, 0};
    void* at = nullptr;
    std::size_t bytes = 0;
};

template <typename Self, typename Sendable>
class Sender;
template <typename Self, typename Received>
class Receiver;

/// A port or a message. Its end releases it, unless it was moved from.
template <ServiceType S>
class Handle {
  public:
    Handle(const Handle&) = delete;
    Handle& operator=(const Handle&) = delete;

    /// Returns its number, which the service gives to nothing else, or 0 if it was moved from.
    std::uint64_t number() const noexcept { return core_ ? id_.number : 0; }

    /// Returns whether it was moved from, sent or released.
    bool is_moved_from() const noexcept { return core_ == nullptr; }

    /// Releases it now. Refused with `MovedFrom`.
    Result<void> release() {
        const std::uint32_t code = change(rr_release);
        core_.reset();
        return result_of(code);
    }

  protected:
    Handle(CoreRef<S> core, const rr_id_t& id) noexcept : core_(std::move(core)), id_(id) {}
    Handle(Handle&& other) noexcept = default;
    ~Handle() { end(); }

    Handle& operator=(Handle&& other) noexcept {
        if (this != &other) {
            end();
            core_ = std::move(other.core_);
            id_ = other.id_;
        }
        return *this;
    }

    const CoreRef<S>& core() const noexcept { return core_; }
    const rr_id_t& raw_id() const noexcept { return id_; }

    /// Gives up what the library has released, and returns its service.
    CoreRef<S> give_up() noexcept { return std::move(core_); }

    /// Makes a call that ends no wait, and returns its code.
    template <typename Call>
    std::uint32_t call(Call&& call) const {
        return core_ ? core_->call([&](rr_hub_t* hub) { return call(hub, &id_); }) : MOVED_FROM;
    }

    /// Makes a call that may make room, and returns its code.
    template <typename Call>
    std::uint32_t take(Call&& call) const {
        return core_ ? core_->take([&](rr_hub_t* hub) { return call(hub, &id_); }) : MOVED_FROM;
    }

    /// Makes a call that may end waits, and returns its code.
    template <typename Call>
    std::uint32_t change(Call&& call) const {
        return core_ ? core_->change([&](rr_hub_t* hub) { return call(hub, &id_); }) : MOVED_FROM;
    }

    /// Makes a call that writes an answer. On what was moved from it ends the program, with this name.
    template <typename T>
    T ask(std::uint32_t (*query)(rr_hub_t*, const rr_id_t*, T*), const char* what) const {
        T answer{};
        const std::uint32_t code = call([&](rr_hub_t* hub, const rr_id_t* id) { return query(hub, id, &answer); });
        if (code != RR_OK) {
            fail(what, rr::name(static_cast<Error>(code)));
        }
        return answer;
    }

    /// Ends the program with this name if it was moved from.
    void must_live(const char* what) const {
        if (!core_) {
            fail(what, rr::name(Error::MovedFrom));
        }
    }

  private:
    template <typename Self, typename Sendable>
    friend class Sender;
    template <typename Self, typename Received>
    friend class Receiver;

    void end() noexcept {
        if (core_) {
            change(rr_release);
        }
    }

    CoreRef<S> core_;
    rr_id_t id_;
};

/// A message. The payload stays where it is as long as the message lives, so that it is read without a call.
template <ServiceType S, typename T>
class Message : public Handle<S> {
  public:
    using Element = typename Payload<T>::Element;

    /// Returns the payload: a reference to the value, or a view of the elements, to be used as long as the message lives. Ends the program
    /// if the message was moved from.
    typename Payload<T>::View payload() const {
        this->must_live("payload");
        return Payload<T>::view(first(), size());
    }
    decltype(auto) operator*() const { return payload(); }
    const std::remove_reference_t<typename Payload<T>::View>* operator->() const {
        static_assert(!Payload<T>::IS_SLICE, "a slice's elements are reached by payload()");
        return &payload();
    }

    /// Returns the user header, which is all 0 if the sender set none. It has at most 16 bytes. Ends the program if the message was moved
    /// from.
    template <typename H>
    H user_header() const {
        static_assert(std::is_trivially_copyable_v<H> && sizeof(H) <= sizeof(rr_user_header_t), "a user header is 16 bytes, copied");
        const auto header = this->template ask<rr_user_header_t>(rr_user_header, "user_header");
        H value;
        std::memcpy(&value, header.bytes, sizeof value);
        return value;
    }

  protected:
    Message(CoreRef<S> core, const Slot& slot) noexcept : Handle<S>(std::move(core), slot.id), at_(slot.at), bytes_(slot.bytes) {}
    Message(Message&& other) noexcept = default;
    Message& operator=(Message&& other) noexcept = default;
    ~Message() = default;

    template <typename Self, typename Sendable>
    friend class Sender;

    Element* first() const noexcept { return static_cast<Element*>(at_); }
    std::size_t size() const noexcept { return bytes_ / sizeof(Element); }
    Slot slot() const noexcept { return {this->raw_id(), at_, bytes_}; }

    template <typename Header>
    Header header_as() const {
        const auto header = this->template ask<rr_header_t>(rr_header, "header");
        return {header.port_id, header.request_id, Payload<T>::IS_SLICE ? size() : 1, header.node_id};
    }

  private:
    void* at_;
    std::size_t bytes_;
};

/// A message that was not sent: its payload and user header may be changed.
template <ServiceType S, typename T>
class Unsent : public Message<S, T> {
  public:
    /// Returns the payload, to be changed as long as the message was not sent. Ends the program if the message was moved from.
    typename Payload<T>::MutableView payload_mut() {
        this->must_live("payload_mut");
        return Payload<T>::view_mut(this->first(), this->size());
    }

    /// Replaces the user header by a value of at most 16 bytes; those after them are 0. Refused with `MovedFrom`.
    template <typename H>
    Result<void> set_user_header(const H& value) {
        static_assert(std::is_trivially_copyable_v<H> && sizeof(H) <= sizeof(rr_user_header_t), "a user header is 16 bytes, copied");
        rr_user_header_t header = {};
        std::memcpy(header.bytes, &value, sizeof value);
        return result_of(this->call([&](rr_hub_t* hub, const rr_id_t* id) { return rr_set_user_header(hub, id, &header); }));
    }

    /// Returns whether a send would be refused by no full queue. Ends the program if the message was moved from.
    bool is_deliverable() const { return this->template ask<bool>(rr_is_deliverable, "is_deliverable"); }

  protected:
    Unsent(CoreRef<S> core, const Slot& slot) noexcept : Message<S, T>(std::move(core), slot) {}

    /// Sends the message, which is released if that is refused. Writes how many servers took it.
    std::uint32_t put(std::size_t& servers) {
        return this->change([&](rr_hub_t* hub, const rr_id_t* id) { return rr_send(hub, id, &servers); });
    }

    /// Waits for room, at most until the deadline. A refusal that no room would end ends the wait.
    void await_room(const Deadline& deadline) {
        static_assert(S == ServiceType::LocalThreadsafe, "in a service of one thread nobody could make room meanwhile");
        if (!this->is_moved_from()) {
            this->core()->wait_for_room(deadline, [&](rr_hub_t* hub) {
                std::uint32_t why = RR_OK;
                rr_send_refusal(hub, &this->raw_id(), &why);
                return why == RR_SEND_UNABLE_TO_DELIVER ? static_cast<std::uint32_t>(RR_NOTHING) : why;
            });
        }
    }
};

/// A message on loan whose payload has to be written before it can be sent. `Sendable` is what it is then.
template <typename Sendable>
class Uninit {
  public:
    using Element = typename Sendable::Element;

    explicit Uninit(Sendable&& message) noexcept : message_(std::move(message)) {}

    /// Returns the payload, whose bytes are 0, or what an earlier message of the port left there. Ends the program if the message was moved
    /// from.
    decltype(auto) payload_mut() { return message_.payload_mut(); }

    /// Writes the value. Returns the message, which can be sent.
    Sendable write_payload(const Element& value) && {
        static_assert(!Sendable::IS_SLICE, "a slice is written by write_from_slice or write_from_fn");
        if (!message_.is_moved_from()) {
            ::new (static_cast<void*>(&message_.payload_mut())) Element(value);
        }
        return std::move(message_);
    }

    /// Copies the elements. Returns the message, which can be sent. Refused with `WrongLength`, where the message stays as it is, and with
    /// `MovedFrom`.
    Result<Sendable> write_from_slice(Slice<const Element> elements) && {
        static_assert(Sendable::IS_SLICE, "a value is written by write_payload");
        if (message_.is_moved_from()) {
            return Error::MovedFrom;
        }
        const Slice<Element> places = message_.payload_mut();
        if (places.size() != elements.size()) {
            return Error::WrongLength;
        }
        if (!elements.empty()) {
            std::memcpy(static_cast<void*>(places.data()), elements.data(), elements.size() * sizeof(Element));
        }
        return std::move(message_);
    }

    /// Makes each element what the function returns for its index. Returns the message, which can be sent.
    template <typename Function>
    Sendable write_from_fn(Function&& function) && {
        static_assert(Sendable::IS_SLICE, "a value is written by write_payload");
        if (!message_.is_moved_from()) {
            const Slice<Element> places = message_.payload_mut();
            for (std::size_t index = 0; index < places.size(); ++index) {
                ::new (static_cast<void*>(&places[index])) Element(function(index));
            }
        }
        return std::move(message_);
    }

    /// Returns the message, which can be sent, as `payload_mut` left its payload.
    Sendable assume_init() && { return std::move(message_); }

    /// What the message has that can be sent.
    std::uint64_t number() const noexcept { return message_.number(); }
    bool is_moved_from() const noexcept { return message_.is_moved_from(); }
    Result<void> release() { return message_.release(); }
    auto header() const { return message_.header(); }
    template <typename H>
    H user_header() const {
        return message_.template user_header<H>();
    }
    template <typename H>
    Result<void> set_user_header(const H& value) {
        return message_.set_user_header(value);
    }

  private:
    Sendable message_;
};

} // namespace detail
} // namespace rr
#endif
