/// Carries out a script of `rr script` by `rr.hpp` (docs/RULES.md, "Lines of an example").
///
/// The service is of slices of bytes, and a user header is a number in the first eight bytes. Each second first line, by its length, makes
/// a service that threads share. Ports and messages are values here, so that a number that names none, or one that has no such call, is
/// refused by this program; so is a message whose bytes were not all pushed. All other replies are what the calls return. Which request an
/// active request belongs to can't be had, so that `active A` is printed without it. The statuses are those of `rr script`.
#include "check.hpp"
#include "replies.hpp"
#include <iostream>
#include <map>
#include <sstream>
#include <variant>

namespace {

using Bytes = rr::Slice<std::uint8_t>;
using Words = std::vector<std::string>;

template <rr::ServiceType S>
class Script {
  public:
    using Client = rr::Client<S, Bytes, Bytes>;
    using Server = rr::Server<S, Bytes, Bytes>;
    using RequestMut = rr::RequestMut<S, Bytes, Bytes>;
    using Pending = rr::PendingResponse<S, Bytes, Bytes>;
    using Active = rr::ActiveRequest<S, Bytes, Bytes>;
    using ResponseMut = rr::ResponseMut<S, Bytes>;
    using Response = rr::Response<S, Bytes>;
    using WritingRequest = Writing<rr::RequestMutUninit<S, Bytes, Bytes>>;
    using WritingResponse = Writing<rr::ResponseMutUninit<S, Bytes>>;
    using Handle = std::variant<Client, Server, WritingRequest, RequestMut, Pending, Active, WritingResponse, ResponseMut, Response>;
    using Service = rr::PortFactoryRequestResponse<S, Bytes, Bytes>;

    Script(const rr::Node<S>& node, Service service) : node_(node), service_(std::move(service)) {}

    /// Creates the service of the first line.
    static rr::Result<Service> create(const rr::Node<S>& node, const Words& words) {
        const std::string& flags = words.at(8);
        const auto has = [&](char it) { return flags.find(it) != std::string::npos; };
        return node.service_builder("script")
            .template request_response<Bytes, Bytes>()
            .max_clients(number_in(words[2]))
            .max_servers(number_in(words[3]))
            .max_loaned_requests(number_in(words[4]))
            .max_active_requests_per_client(number_in(words[5]))
            .max_response_buffer_size(number_in(words[6]))
            .max_borrowed_responses_per_pending_response(number_in(words[7]))
            .client_expired_connection_buffer(number_in(words[9]))
            .server_expired_connection_buffer(number_in(words.at(10)))
            .enable_safe_overflow_for_requests(has('q'))
            .enable_safe_overflow_for_responses(has('p'))
            .enable_fire_and_forget_requests(has('f'))
            .create();
    }

    /// Carries out a line, and returns its reply.
    std::string reply(const Words& words) {
        if (words[0] == "client") {
            auto builder = service_.client_builder();
            return port(with_settings(builder, words).preallocated_requests(number_in(words.at(4))).create());
        }
        if (words[0] == "server") {
            auto builder = service_.server_builder();
            with_settings(builder, words).preallocated_responses(number_in(words.at(4)));
            return port(builder.max_loaned_responses_per_request(number_in(words.at(5))).create());
        }
        const auto at = handles_.find(number_in(words.at(1)));
        return at == handles_.end() ? UNKNOWN : call(words[0], at->first, at->second, words);
    }

  private:
    template <typename Builder>
    static Builder& with_settings(Builder& builder, const Words& words) {
        const auto growth = words.at(3) == "static" ? rr::AllocationStrategy::Static
                            : words[3] == "best"    ? rr::AllocationStrategy::BestFit
                                                    : rr::AllocationStrategy::PowerOfTwo;
        return builder.initial_max_slice_len(number_in(words[2]))
            .allocation_strategy(growth)
            .backpressure_strategy(words[1] == "retry" ? rr::BackpressureStrategy::RetryUntilDelivered
                                                       : rr::BackpressureStrategy::DiscardData);
    }

    /// Keeps what a call made, and returns its name and number.
    template <typename T>
    std::string kept(const std::string& name, T&& made) {
        const std::uint64_t number = made.number();
        handles_.insert_or_assign(number, Handle(std::forward<T>(made)));
        return name + " " + std::to_string(number);
    }

    template <typename T>
    std::string port(rr::Result<T>&& created) {
        return created ? kept("created", std::move(*created)) : refused(created.error());
    }

    std::string call(const std::string& name, std::uint64_t number, Handle& handle, const Words& words) {
        if (name == "loan" || name == "default" || name == "copy") {
            return loan(name, handle, number_in(words.at(2)));
        }
        if (name == "push" || name == "set" || name == "uset") {
            return write(name, handle, words);
        }
        if (name == "init") {
            return complete(handle);
        }
        if (name == "send") {
            return send(number, handle);
        }
        if (name == "recv") {
            return receive(handle);
        }
        if (name == "drop") {
            handles_.erase(number);
            return DONE;
        }
        const std::string asked = ask_port(name, handle);
        return asked.empty() ? ask_message(name, handle) : asked;
    }

    std::string loan(const std::string& name, Handle& handle, std::uint64_t number) {
        return std::visit(Cases{[&](Client& client) { return loan_from(name, client, number); },
                                [&](Active& active) { return loan_from(name, active, number); }, [](auto&) { return WRONG_KIND; }},
                          handle);
    }

    template <typename From>
    std::string loan_from(const std::string& name, From& from, std::uint64_t number) {
        if (name == "copy") {
            return copy(from, static_cast<std::uint8_t>(number));
        }
        if (name == "default") {
            auto loaned = from.loan_slice(number);
            return loaned ? kept("loaned", std::move(*loaned)) : refused(loaned.error());
        }
        auto loaned = from.loan_slice_uninit(number);
        return loaned ? kept("loaned", Writing{std::move(*loaned)}) : refused(loaned.error());
    }

    /// Sends a byte. Each second request goes by one call.
    template <typename From>
    std::string copy(From& from, std::uint8_t byte) {
        constexpr bool IS_REQUEST = std::is_same_v<From, Client>;
        if constexpr (IS_REQUEST) {
            if (byte % 2 == 0) {
                return pending(from.send_slice_copy({&byte, 1}));
            }
        }
        auto loaned = from.loan_slice_uninit(1);
        if (!loaned) {
            return refused(loaned.error(), IS_REQUEST ? "SendError LoanError " : "LoanError ");
        }
        return sent(std::move(*loaned).write_from_slice({&byte, 1}).value());
    }

    std::string pending(rr::Result<Pending>&& sent) {
        if (!sent) {
            const bool is_loans = sent.error() >= Error::LoanOutOfMemory && sent.error() <= Error::LoanExceedsMaxLoanSize;
            const std::string cause = is_loans ? "SendError LoanError " : "SendError ";
            return refused(sent.error(), sent.error() == Error::SendExceedsMaxActiveRequests ? "" : cause);
        }
        const std::string servers = std::to_string(sent->number_of_server_connections());
        return kept("pending", std::move(*sent)) + " " + servers;
    }

    std::string sent(RequestMut&& request) { return pending(std::move(request).send()); }

    std::string sent(ResponseMut&& response) {
        const std::string number = std::to_string(response.number());
        const auto result = std::move(response).send();
        return result ? "sent " + number : refused(result.error());
    }

    std::string send(std::uint64_t number, Handle& handle) {
        const auto take = [&](auto& message) {
            auto taken = std::move(message);
            handles_.erase(number);
            return sent(std::move(taken));
        };
        return std::visit(
            Cases{[&](RequestMut& it) { return take(it); }, [&](ResponseMut& it) { return take(it); }, [](auto&) { return WRONG_KIND; }},
            handle);
    }

    std::string receive(Handle& handle) {
        const auto take = [&](const std::string& name, auto&& received) {
            if (!received) {
                return refused(received.error());
            }
            return *received ? kept(name, std::move(**received)) : std::string("none");
        };
        return std::visit(Cases{[&](Server& it) { return take("active", it.receive()); },
                                [&](Pending& it) { return take("response", it.receive()); }, [](auto&) { return WRONG_KIND; }},
                          handle);
    }

    std::string complete(Handle& handle) {
        const auto take = [&](auto& writing) {
            if (writing.written.size() < writing.asked()) {
                return INCOMPLETE;
            }
            auto written = std::move(writing.written);
            auto message = std::move(writing.message).write_from_slice(written);
            handle = std::move(*message);
            return DONE;
        };
        return std::visit(Cases{[&](WritingRequest& it) { return take(it); }, [&](WritingResponse& it) { return take(it); },
                                [](auto&) { return WRONG_KIND; }},
                          handle);
    }

    /// Changes a message that was not sent.
    static std::string write(const std::string& name, Handle& handle, const Words& words) {
        return std::visit(Cases{[&](WritingRequest& it) { return write_to(name, it.message, it.written, words, it.asked()); },
                                [&](WritingResponse& it) { return write_to(name, it.message, it.written, words, it.asked()); },
                                [&](RequestMut& it) { return rewrite(name, it, it.payload_mut(), words); },
                                [&](ResponseMut& it) { return rewrite(name, it, it.payload_mut(), words); },
                                [](auto&) { return WRONG_KIND; }},
                          handle);
    }

    template <typename Message>
    static std::string write_to(const std::string& name, Message& message, std::vector<std::uint8_t>& written, const Words& words,
                                std::size_t asked) {
        if (name != "push") {
            return rewrite(name, message, written, words);
        }
        const bool has_room = written.size() < asked;
        if (has_room) {
            written.push_back(static_cast<std::uint8_t>(number_in(words.at(2))));
        }
        return flag(has_room);
    }

    template <typename Message>
    static std::string rewrite(const std::string& name, Message& message, Bytes bytes, const Words& words) {
        const std::uint64_t number = number_in(words.at(2));
        if (name == "push") {
            return WRONG_KIND;
        }
        if (name == "uset") {
            return done_or(message.set_user_header(number));
        }
        const bool was_there = number < bytes.size();
        if (was_there) {
            bytes[number] = static_cast<std::uint8_t>(number_in(words.at(3)));
        }
        return flag(was_there);
    }

    /// Answers a question about a port, or returns no text if it is none.
    static std::string ask_port(const std::string& name, Handle& handle) {
        const auto ask = [&](auto& port) -> std::string {
            if (name == "strategy") {
                return port.backpressure_strategy() == rr::BackpressureStrategy::DiscardData ? "discard" : "retry";
            }
            if (name == "maxlen") {
                return "count " + std::to_string(port.initial_max_slice_len());
            }
            return name == "update" ? done_or(port.update_connections()) : WRONG_KIND;
        };
        return std::visit(Cases{[&](Client& it) { return ask(it); },
                                [&](Server& it) { return name == "has" ? flag(it.has_requests()) : ask(it); },
                                [](auto&) { return std::string(); }},
                          handle);
    }

    std::string ask_message(const std::string& name, Handle& handle) const {
        return std::visit(
            Cases{[](Client&) { return WRONG_KIND; }, [](Server&) { return WRONG_KIND; },
                  [&](WritingRequest& it) { return ask_any(name, it.message, it.written); },
                  [&](WritingResponse& it) { return ask_any(name, it.message, it.written); },
                  [&](RequestMut& it) { return name == "ready" ? flag(it.is_deliverable()) : ask_any(name, it, it.payload()); },
                  [&](ResponseMut& it) { return name == "ready" ? flag(it.is_deliverable()) : ask_any(name, it, it.payload()); },
                  [&](Pending& it) { return ask_pending(name, it); }, [&](Active& it) { return ask_active(name, it); },
                  [&](Response& it) {
                      return name == "origin" ? "id " + std::to_string(it.origin()) : ask_any(name, it, it.payload());
                  }},
            handle);
    }

    std::string ask_pending(const std::string& name, Pending& pending) const {
        if (name == "hint") {
            return done_or(pending.set_disconnect_hint());
        }
        if (name == "count") {
            return "count " + std::to_string(pending.number_of_server_connections());
        }
        if (name == "has" || name == "conn") {
            return flag(name == "has" ? pending.has_response() : pending.is_connected());
        }
        return ask_any(name, pending, pending.payload());
    }

    std::string ask_active(const std::string& name, Active& active) const {
        if (name == "origin") {
            return "id " + std::to_string(active.origin());
        }
        if (name == "hinted" || name == "conn") {
            return flag(name == "conn" ? active.is_connected() : active.has_disconnect_hint());
        }
        return ask_any(name, active, active.payload());
    }

    /// Answers a question about any message.
    template <typename Message>
    std::string ask_any(const std::string& name, Message& message, rr::Slice<const std::uint8_t> bytes) const {
        if (name == "user") {
            return "user " + std::to_string(message.template user_header<std::uint64_t>());
        }
        if (name == "head") {
            return header(message.header());
        }
        if (name != "data") {
            return WRONG_KIND;
        }
        std::string reply = "data";
        for (const std::uint8_t byte : bytes) {
            reply += " " + std::to_string(byte);
        }
        return reply;
    }

    std::string header(const rr::RequestHeader& it) const { return header("request-header", it.client_id, it); }
    std::string header(const rr::ResponseHeader& it) const { return header("response-header", it.server_id, it); }

    /// Prints a header. The hub's node is 0 in scripts.
    template <typename Header>
    std::string header(const std::string& name, std::uint64_t port, const Header& it) const {
        HOLDS(it.node_id == node_.id());
        return name + " " + std::to_string(port) + " " + std::to_string(it.request_id) + " " + std::to_string(it.number_of_elements) + " 0";
    }

    rr::Node<S> node_;
    Service service_;
    std::map<std::uint64_t, Handle> handles_ = {};
};

/// Returns the words of the next line, or none at the end.
Words next_line() {
    std::string line, word;
    std::getline(std::cin, line);
    std::istringstream in(line);
    Words words;
    while (in >> word) {
        words.push_back(word);
    }
    return words;
}

template <rr::ServiceType S>
int run(const Words& first) {
    const auto node = rr::NodeBuilder().create<S>();
    auto service = Script<S>::create(node, first);
    if (!service) {
        std::cout << refused(service.error()) << "\n";
        return 4;
    }
    std::cout << DONE << "\n";
    Script<S> script(node, std::move(*service));
    for (Words words = next_line(); !words.empty(); words = next_line()) {
        std::cout << script.reply(words) << "\n";
    }
    return 0;
}

} // namespace

int main() {
    const Words first = next_line();
    std::size_t length = 0;
    for (const std::string& word : first) {
        length += word.size();
    }
    return length % 2 == 0 ? run<rr::ServiceType::Local>(first) : run<rr::ServiceType::LocalThreadsafe>(first);
}
