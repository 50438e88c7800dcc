/// Results and errors. No call throws.
#ifndef RR_RESULT_HPP
#define RR_RESULT_HPP
#include "rr.h"
#include <cstdint>
#include <cstdio>
#include <cstdlib>
#include <optional>
#include <utility>

namespace rr {

/// Why a call was refused. The hub is as it was then, but for a send: a message whose send is refused is released.
enum class Error : std::uint32_t {
    /// The service has given all its numbers, 2 to the 62 of them. A new service helps.
    NumbersExhausted = RR_NUMBERS_EXHAUSTED,
    /// The message was loaned with another length than that of the elements to write.
    WrongLength = RR_WRONG_LENGTH,

    /// There is no memory for the client's pool, or it is larger than a size_t counts.
    ClientCreateUnableToCreateDataSegment = RR_CLIENT_CREATE_UNABLE_TO_CREATE_DATA_SEGMENT,
    /// `max_clients` clients are connected. It helps to release one and all its messages.
    ClientCreateExceedsMaxSupportedClients = RR_CLIENT_CREATE_EXCEEDS_MAX_SUPPORTED_CLIENTS,
    /// No number is left.
    ClientCreateUnableToCreatePortTag = RR_CLIENT_CREATE_UNABLE_TO_CREATE_PORT_TAG,
    /// `max_servers` servers are connected. It helps to release one and all its messages.
    ServerCreateExceedsMaxSupportedServers = RR_SERVER_CREATE_EXCEEDS_MAX_SUPPORTED_SERVERS,
    /// There is no memory for the server's pool, or it is larger than a size_t counts.
    ServerCreateUnableToCreateDataSegment = RR_SERVER_CREATE_UNABLE_TO_CREATE_DATA_SEGMENT,
    /// No number is left.
    ServerCreateUnableToCreatePortTag = RR_SERVER_CREATE_UNABLE_TO_CREATE_PORT_TAG,

    /// The port's messages fill its pool, which only `preallocated_requests` or `preallocated_responses` makes possible, or there is no
    /// memory for a slice longer than the slots. It helps to release messages.
    LoanOutOfMemory = RR_LOAN_OUT_OF_MEMORY,
    /// As many messages are on loan as may be. It helps to send or release one.
    LoanExceedsMaxLoans = RR_LOAN_EXCEEDS_MAX_LOANS,
    /// The slice is longer than the slots, which may not grow, or than a size_t counts. A larger `initial_max_slice_len` helps, or another
    /// `AllocationStrategy`.
    LoanExceedsMaxLoanSize = RR_LOAN_EXCEEDS_MAX_LOAN_SIZE,

    /// A queue is full, and the port's strategy is to retry. It helps to receive there first; `timed_send` waits for it.
    SendUnableToDeliver = RR_SEND_UNABLE_TO_DELIVER,
    /// The client has `max_active_requests_per_client` pending responses. It helps to release one.
    SendExceedsMaxActiveRequests = RR_SEND_EXCEEDS_MAX_ACTIVE_REQUESTS,
    /// Every queue with entries is at its borrow limit. It helps to release received messages.
    ReceiveExceedsMaxBorrows = RR_RECEIVE_EXCEEDS_MAX_BORROWS,

    /// A limit that must be at least 1 is 0.
    HubCreateZeroLimit = RR_HUB_CREATE_ZERO_LIMIT,
    /// A worst-case size is more than a size_t counts.
    HubCreateLimitsTooLarge = RR_HUB_CREATE_LIMITS_TOO_LARGE,
    /// There is no memory for the hub.
    HubCreateOutOfMemory = RR_HUB_CREATE_OUT_OF_MEMORY,

    /// The port or message was moved from, sent or released.
    MovedFrom = 1000,
    /// The linked library has another version than this header.
    LibraryVersion,
    /// The node has a service of this name.
    AlreadyExists,
    /// The node has no service of this name.
    DoesNotExist,
    /// The service of this name has other payload types.
    IncompatibleTypes,
};

/// Returns the name of an error: that of the code in rr.h, or of the enumerator if C has none.
inline const char* name(Error error) {
    switch (error) {
    case Error::MovedFrom: return "MovedFrom";
    case Error::LibraryVersion: return "LibraryVersion";
    case Error::AlreadyExists: return "AlreadyExists";
    case Error::DoesNotExist: return "DoesNotExist";
    case Error::IncompatibleTypes: return "IncompatibleTypes";
    default: return rr_code_name(static_cast<std::uint32_t>(error));
    }
}

namespace detail {

/// Ends the program: prints what was called, and the name of the error.
[[noreturn]] inline void fail(const char* what, const char* error) {
    std::fprintf(stderr, "rr: %s: %s\n", what, error);
    std::abort();
}

} // namespace detail

/// A value, or the error with which the call was refused. To read the one that it has not ends the program with the error's name.
template <typename T>
class [[nodiscard]] Result {
  public:
    Result(T value) : value_(std::move(value)) {}
    Result(Error error) : error_(error) {}

    bool has_value() const { return value_.has_value(); }
    explicit operator bool() const { return has_value(); }

    T& value() & { return checked("value"), *value_; }
    const T& value() const& { return checked("value"), *value_; }
    T&& value() && { return checked("value"), std::move(*value_); }
    T& operator*() & { return value(); }
    const T& operator*() const& { return value(); }
    T&& operator*() && { return std::move(*this).value(); }
    T* operator->() { return &value(); }
    const T* operator->() const { return &value(); }

    /// Returns the value, or ends the program with this text and the error's name.
    T expect(const char* what) && { return checked(what), std::move(*value_); }

    Error error() const {
        if (has_value()) {
            detail::fail("error", "the result has a value");
        }
        return error_;
    }

  private:
    void checked(const char* what) const {
        if (!has_value()) {
            detail::fail(what, name(error_));
        }
    }

    std::optional<T> value_;
    Error error_{};
};

/// Nothing, or the error with which the call was refused.
template <>
class [[nodiscard]] Result<void> {
  public:
    Result() = default;
    Result(Error error) : error_(error) {}

    bool has_value() const { return !error_.has_value(); }
    explicit operator bool() const { return has_value(); }

    void value() const { expect("value"); }

    /// Ends the program with this text and the error's name if there is one.
    void expect(const char* what) const {
        if (error_) {
            detail::fail(what, name(*error_));
        }
    }

    Error error() const {
        if (!error_) {
            detail::fail("error", "the result has a value");
        }
        return *error_;
    }

  private:
    std::optional<Error> error_;
};

} // namespace rr
#endif
