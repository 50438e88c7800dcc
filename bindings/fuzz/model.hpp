/* What docs/RULES.md says of a hub, with lists alone: the ports, the queues between them and what is held. No slots and no channels. */
#pragma once
#include "rr.h"
#include <algorithm>
#include <array>
#include <deque>
#include <map>
#include <memory>
#include <set>
#include <tuple>
#include <vector>

struct Port;

/* A message, as long as a handle or a queue has it. */
struct Message {
    Port *sender;
    uint64_t number, request_id;
    size_t asked;
    bool is_response;
    std::vector<uint8_t> bytes = {};
    std::array<uint8_t, 16> user_header = {};
    const uint8_t *place = nullptr;
};

struct Port {
    uint64_t number;
    bool is_client, retries, grows;
    size_t len, pool, loans_per_request, most_loans;
    bool has_value = true, is_connected = true;
    size_t handles = 0, loans = 0, pending = 0;
    uint64_t requests_loaned = 0;
    std::deque<Port *> expired = {};
    std::vector<std::weak_ptr<Message>> messages = {};

    size_t live() const {
        return std::count_if(messages.begin(), messages.end(), [](auto &it) { return !it.expired(); });
    }
};

/* A request that was sent. */
struct Request {
    Port *client;
    bool is_alive = true, has_hint = false;
    std::set<Port *> servers = {}; /* those that may still answer */
    size_t taken = 0;
};

using Requests = std::deque<std::pair<std::shared_ptr<Request>, std::shared_ptr<Message>>>;
using Responses = std::deque<std::shared_ptr<Message>>;

struct Handle {
    rr_id_t id;
    uint32_t kind;
    Port *port;
    std::shared_ptr<Message> message = {};
    std::shared_ptr<Request> request = {};
    std::shared_ptr<size_t> loans = {}; /* how many responses its active request has on loan */
};

struct Hub {
    rr_limits_t limits;
    uint64_t next = 0;
    std::vector<std::unique_ptr<Port>> ports = {};
    std::vector<Handle> handles = {};
    std::map<std::pair<Port *, Port *>, Requests> requests = {};    /* from a client to a server */
    std::map<std::pair<Port *, Request *>, Responses> responses = {}; /* from a server to a request */
    /* Whether it is known which dead requests receives dropped. The rules leave it free where several clients sent some. */
    bool is_exact = true;

    size_t worst_case_requests() const {
        return limits.max_loaned_requests + limits.max_active_requests_per_client * (1 + 2 * limits.max_servers);
    }

    size_t most_loans(size_t per_request) const {
        return per_request * limits.max_active_requests_per_client * limits.max_clients;
    }

    size_t worst_case_responses(size_t per_request) const {
        return most_loans(per_request) +
               limits.max_clients * (limits.max_active_requests_per_client * limits.max_response_buffer_size +
                                     worst_case_requests() * limits.max_borrowed_responses_per_pending_response);
    }

    size_t connected(bool is_client) const {
        return std::count_if(ports.begin(), ports.end(), [=](auto &it) { return it->is_connected && it->is_client == is_client; });
    }

    template <typename F> void each_connected(bool is_client, F f) {
        for (auto &port : ports)
            if (port->is_connected && port->is_client == is_client)
                f(port.get());
    }

    bool is_full(const Requests &queue) const { return queue.size() == limits.max_active_requests_per_client; }
    bool is_full(const Responses &queue) const { return queue.size() == limits.max_response_buffer_size; }
    bool is_dead(const Request &request) const { return !request.is_alive && !limits.enable_fire_and_forget_requests; }

    /* The active requests that a server holds of a client. */
    size_t active(Port *client, Port *server) const {
        return std::count_if(handles.begin(), handles.end(), [=](auto &it) {
            return it.kind == RR_KIND_ACTIVE_REQUEST && it.port == server && it.message->sender == client;
        });
    }

    /* The responses of a server that its client holds: those to this request, or to requests that ended, on whose channel it may be. */
    size_t borrowed(Port *server, const Request *request, bool is_of_request) const {
        return std::count_if(handles.begin(), handles.end(), [=](auto &it) {
            return it.kind == RR_KIND_RESPONSE && it.message->sender == server && it.port == request->client &&
                   (is_of_request ? it.request.get() == request : !it.request->is_alive);
        });
    }

    bool has_entries(Port *server) {
        return std::any_of(requests.begin(), requests.end(), [=](auto &it) { return it.first.second == server && !it.second.empty(); });
    }

    bool has_entries(Request *request) {
        return std::any_of(responses.begin(), responses.end(), [=](auto &it) { return it.first.second == request && !it.second.empty(); });
    }

    /* Whether a full queue without overflow is in a message's way. */
    bool is_blocked(const Handle &it) {
        if (it.kind == RR_KIND_RESPONSE_MUT)
            return it.request->is_alive && !limits.enable_safe_overflow_for_responses && is_full(responses[{it.port, it.request.get()}]);
        bool is_blocked = false;
        each_connected(false, [&](Port *server) { is_blocked |= is_full(requests[{it.port, server}]); });
        return is_blocked && !limits.enable_safe_overflow_for_requests;
    }

    uint32_t loan_code(const Handle &from, size_t len) const {
        Port *port = from.port;
        if (len > port->len && !port->grows)
            return RR_LOAN_EXCEEDS_MAX_LOAN_SIZE;
        if ((from.loans && *from.loans == port->loans_per_request) || port->loans == port->most_loans)
            return RR_LOAN_EXCEEDS_MAX_LOANS;
        return port->live() == port->pool ? RR_LOAN_OUT_OF_MEMORY : RR_OK;
    }

    uint32_t send_code(const Handle &it) {
        if (it.kind == RR_KIND_REQUEST_MUT && it.port->pending == limits.max_active_requests_per_client)
            return RR_SEND_EXCEEDS_MAX_ACTIVE_REQUESTS;
        return is_blocked(it) && it.port->retries ? RR_SEND_UNABLE_TO_DELIVER : RR_OK;
    }

    /* Puts a message into a queue. Returns whether the queue took it. */
    template <typename Queue> bool put(Queue &queue, const typename Queue::value_type &entry, bool overflows) {
        if (is_full(queue) && !overflows)
            return false;
        if (is_full(queue))
            queue.pop_front();
        queue.push_back(entry);
        return true;
    }

    void send(Handle &it) {
        it.port->loans--;
        if (it.kind == RR_KIND_RESPONSE_MUT) {
            if (it.request->is_alive)
                put(responses[{it.port, it.request.get()}], it.message, limits.enable_safe_overflow_for_responses);
            --*it.loans;
            return;
        }
        it.request = std::make_shared<Request>(Request{it.port});
        each_connected(false, [&](Port *server) {
            it.request->servers.insert(server);
            it.request->taken += put(requests[{it.port, server}], {it.request, it.message}, limits.enable_safe_overflow_for_requests);
        });
        it.port->pending++;
        it.kind = RR_KIND_PENDING_RESPONSE;
    }

    /* What a handle's end changes, but for its port, which may leave. */
    void end(const Handle &it) {
        switch (it.kind) {
        case RR_KIND_CLIENT:
        case RR_KIND_SERVER:
            it.port->has_value = false;
            return;
        case RR_KIND_PENDING_RESPONSE:
            it.request->is_alive = false;
            it.port->pending--;
            for (auto entry = responses.begin(); entry != responses.end();)
                entry = entry->first.second == it.request.get() ? responses.erase(entry) : std::next(entry);
            break;
        case RR_KIND_ACTIVE_REQUEST:
            it.request->servers.erase(it.port);
            break;
        case RR_KIND_RESPONSE_MUT_UNINIT:
        case RR_KIND_RESPONSE_MUT:
            --*it.loans;
            it.port->loans--;
            break;
        case RR_KIND_REQUEST_MUT_UNINIT:
        case RR_KIND_REQUEST_MUT:
            it.port->loans--;
            break;
        }
        it.port->handles--;
    }

    /* Whether something that one port sent waits for another one. */
    bool waits(Port *from, Port *to) {
        if (from->is_client) {
            auto found = requests.find({from, to});
            return found != requests.end() && !found->second.empty();
        }
        return std::any_of(responses.begin(), responses.end(), [=](auto &it) {
            return it.first.first == from && it.first.second->client == to && !it.second.empty();
        });
    }

    void drop(Port *from, Port *to) {
        requests.erase({from, to});
        for (auto it = responses.begin(); it != responses.end();)
            it = it->first.first == from && it->first.second->client == to ? responses.erase(it) : std::next(it);
    }

    /* Lets unused ports leave, and forgets those that left of which nothing waits. */
    void settle() {
        for (auto &port : ports)
            if (port->is_connected && !port->has_value && port->handles == 0)
                leave(port.get());
        for (auto &port : ports)
            for (size_t at = 0; at < port->expired.size();)
                waits(port->expired[at], port.get()) ? void(at++) : void(port->expired.erase(port->expired.begin() + at));
    }

    void leave(Port *port) {
        port->is_connected = false;
        port->expired.clear();
        for (auto &other : ports)
            drop(other.get(), port);
        for (auto &it : handles)
            if (it.kind == RR_KIND_PENDING_RESPONSE)
                it.request->servers.erase(port);
        size_t most = !port->is_client                        ? limits.client_expired_connection_buffer
                      : limits.enable_fire_and_forget_requests ? limits.server_expired_connection_buffer
                                                               : 0;
        each_connected(!port->is_client, [&](Port *receiver) {
            if (!waits(port, receiver))
                return;
            receiver->expired.push_back(port);
            if (receiver->expired.size() > most) {
                drop(receiver->expired.front(), receiver);
                receiver->expired.pop_front();
            }
        });
    }
};
