/// What the replies of a script say, and messages that are being written.
#ifndef REPLIES_HPP
#define REPLIES_HPP
#include "rr.hpp"
#include <string>
#include <vector>

using rr::Error;

inline const std::string UNKNOWN = "refused Unknown", WRONG_KIND = "refused WrongKind", INCOMPLETE = "refused Incomplete", DONE = "done";

inline std::uint64_t number_in(const std::string& word) {
    return word == "-" ? 0 : std::stoull(word);
}

inline std::string flag(bool value) {
    return value ? "true" : "false";
}

/// Returns what an error is called in a reply.
inline std::string error_name(Error error) {
    switch (error) {
    case Error::ClientCreateUnableToCreateDataSegment:
    case Error::ServerCreateUnableToCreateDataSegment: return "UnableToCreateDataSegment";
    case Error::ClientCreateExceedsMaxSupportedClients: return "ExceedsMaxSupportedClients";
    case Error::ServerCreateExceedsMaxSupportedServers: return "ExceedsMaxSupportedServers";
    case Error::LoanOutOfMemory: return "OutOfMemory";
    case Error::LoanExceedsMaxLoans: return "ExceedsMaxLoans";
    case Error::LoanExceedsMaxLoanSize: return "ExceedsMaxLoanSize";
    case Error::SendUnableToDeliver: return "UnableToDeliver";
    case Error::SendExceedsMaxActiveRequests: return "ExceedsMaxActiveRequests";
    case Error::ReceiveExceedsMaxBorrows: return "ExceedsMaxBorrows";
    case Error::HubCreateZeroLimit: return "ZeroLimit";
    case Error::HubCreateLimitsTooLarge: return "LimitsTooLarge";
    default: return rr::name(error);
    }
}

/// Returns the reply of a refused call, with this before the error's name.
inline std::string refused(Error error, const std::string& cause = "") {
    return "error " + cause + error_name(error);
}

inline std::string done_or(const rr::Result<void>& result) {
    return result ? DONE : refused(result.error());
}

/// A message that is being written, with its bytes so far.
template <typename Uninit>
struct Writing {
    Uninit message;
    std::vector<std::uint8_t> written = {};

    std::size_t asked() { return message.payload_mut().size(); }
    std::uint64_t number() const { return message.number(); }
};

template <typename Uninit>
Writing(Uninit) -> Writing<Uninit>;

/// Chooses a function by the kind of a handle.
template <typename... Functions>
struct Cases : Functions... {
    using Functions::operator()...;
};
template <typename... Functions>
Cases(Functions...) -> Cases<Functions...>;
#endif
