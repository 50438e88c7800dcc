/* Makes calls that bytes choose, and compares each with the model: its code, numbers, kinds, payloads, headers and answers. Two hubs are
 * never exchanged, and no pointer is wrong: what rr.h says a caller owes is kept. `tests/fuzz.py` builds it with libFuzzer. */
#include "model.hpp"
#include <cstdio>
#include <cstdlib>
#include <cstring>

#define HOLDS(fact) ((fact) ? void() : fail(__LINE__, #fact))

static void fail(int line, const char *fact) {
    fprintf(stderr, "fuzz.cpp:%d: it does not hold: %s\n", line, fact);
    abort();
}

static const uint64_t NODE = 7;

struct Input {
    const uint8_t *at, *end;

    uint8_t byte() { return at < end ? *at++ : 0; }
    size_t below(size_t most) { return byte() % most; }
    bool flag() { return byte() % 2; }
};

class Run {
    Input in;
    Hub model;
    rr_hub_t hub = {nullptr};
    std::vector<rr_id_t> gone = {};

  public:
    explicit Run(Input input) : in(input), model{} {
        rr_limits_t &it = model.limits;
        it = {1 + in.below(3), 1 + in.below(3), 1 + in.below(2), 1 + in.below(3), 1 + in.below(3), 1 + in.below(2),
              in.below(3),     in.below(3),     in.flag(),       in.flag(),       in.flag()};
        HOLDS(rr_hub_create(&it, NODE, &hub.at) == RR_OK);
    }

    ~Run() { rr_hub_drop(hub); }

    void all() {
        while (in.at < in.end && model.is_exact) {
            size_t call = in.below(16);
            if (call < 2 || model.handles.empty())
                create(call == 0);
            else if (call == 2 && !gone.empty())
                try_gone();
            else
                on_handle(in.below(model.handles.size()), call);
            model.settle();
        }
    }

  private:
    Handle add(rr_id_t id, uint32_t kind, Port *port) {
        HOLDS(id.number == model.next++);
        return {id, kind, port};
    }

    void create(bool is_client) {
        rr_id_t id = {};
        size_t len = in.below(4), slots = in.below(4), loans = in.below(3);
        uint32_t strategy = in.below(3), grows = in.below(4), code;
        if (is_client) {
            rr_client_settings_t settings = {len, slots, strategy, grows};
            code = rr_client_create(&hub, &settings, &id);
        } else {
            rr_server_settings_t settings = {len, slots, loans, strategy, grows};
            code = rr_server_create(&hub, &settings, &id);
        }
        if (strategy > 1 || grows > 2)
            return HOLDS(code == RR_INVALID_SETTING);
        if (model.connected(is_client) == (is_client ? model.limits.max_clients : model.limits.max_servers))
            return HOLDS(code == (is_client ? RR_CLIENT_CREATE_EXCEEDS_MAX_SUPPORTED_CLIENTS : RR_SERVER_CREATE_EXCEEDS_MAX_SUPPORTED_SERVERS));
        HOLDS(code == RR_OK);
        loans = std::max<size_t>(loans, 1);
        size_t worst = is_client ? model.worst_case_requests() : model.worst_case_responses(loans);
        size_t told = 99;
        code = is_client ? rr_worst_case_requests(&model.limits, &told) : rr_worst_case_responses(&model.limits, loans, &told);
        HOLDS(code == RR_OK && told == worst);
        Port port = {id.number, is_client, strategy == RR_BACKPRESSURE_RETRY_UNTIL_DELIVERED, grows != RR_ALLOCATION_STATIC, len,
                     slots == 0 ? worst : std::min(slots, worst), loans, is_client ? model.limits.max_loaned_requests : model.most_loans(loans)};
        model.ports.push_back(std::make_unique<Port>(port));
        model.handles.push_back(add(id, is_client ? RR_KIND_CLIENT : RR_KIND_SERVER, model.ports.back().get()));
    }

    /* A number that was released names nothing, whatever place stands beside it. */
    void try_gone() {
        rr_id_t id = gone[in.below(gone.size())], other = {1, 2, 3};
        uint32_t kind = 99;
        size_t servers = 99;
        id.row += in.below(2);
        HOLDS(rr_kind(&hub, &id, &kind) == RR_UNKNOWN && kind == 99);
        HOLDS(rr_send(&hub, &id, &servers) == RR_UNKNOWN && servers == 99);
        HOLDS(rr_receive(&hub, &id, &other) == RR_UNKNOWN && other.number == 1);
        HOLDS(rr_release(&hub, &id) == RR_UNKNOWN);
    }

    static bool is_uninit(uint32_t kind) { return kind == RR_KIND_REQUEST_MUT_UNINIT || kind == RR_KIND_RESPONSE_MUT_UNINIT; }
    static bool is_sendable(uint32_t kind) { return kind == RR_KIND_REQUEST_MUT || kind == RR_KIND_RESPONSE_MUT; }

    void on_handle(size_t at, size_t call) {
        Handle &it = model.handles[at];
        look(it);
        switch (call) {
        case 3: case 4: return loan(it);
        case 5: case 6: return write(it);
        case 7: return set(it);
        case 8: case 9: return send(at);
        case 10: return send_copy(it);
        case 11: case 12: return receive(it);
        case 13: return hint(it);
        default: return release(at);
        }
    }

    /* Asks all that can be asked. */
    void look(Handle &it) {
        rr_id_t id = it.id;
        if (in.below(8) == 0)
            id.index++;
        uint32_t kind;
        HOLDS(rr_kind(&hub, &id, &kind) == RR_OK && kind == it.kind);
        bool is_port = kind == RR_KIND_CLIENT || kind == RR_KIND_SERVER;
        size_t len = 99;
        uint32_t code = rr_initial_max_slice_len(&hub, &id, &len);
        HOLDS(is_port ? code == RR_OK && len == it.port->len : code == RR_WRONG_KIND && len == 99);
        if (!is_port)
            look_at_message(it, id);
        bool answer = false;
        code = rr_has_entries(&hub, &id, &answer);
        if (kind == RR_KIND_SERVER)
            HOLDS(code == RR_OK && answer == model.has_entries(it.port));
        else if (kind == RR_KIND_PENDING_RESPONSE)
            HOLDS(code == RR_OK && answer == model.has_entries(it.request.get()));
        else
            HOLDS(code == RR_WRONG_KIND);
        code = rr_is_connected(&hub, &id, &answer);
        if (kind == RR_KIND_PENDING_RESPONSE)
            HOLDS(code == RR_OK && answer == !it.request->servers.empty());
        else if (kind == RR_KIND_ACTIVE_REQUEST)
            HOLDS(code == RR_OK && answer == it.request->is_alive);
        else
            HOLDS(code == RR_WRONG_KIND);
        code = rr_is_deliverable(&hub, &id, &answer);
        if (is_sendable(kind))
            HOLDS(code == RR_OK && answer == !model.is_blocked(it));
        else
            HOLDS(code == RR_WRONG_KIND);
        uint32_t why = 99;
        code = rr_send_refusal(&hub, &id, &why);
        HOLDS(is_sendable(kind) ? code == RR_OK && why == model.send_code(it) : code == RR_WRONG_KIND && why == 99);
    }

    void look_at_message(Handle &it, const rr_id_t &id) {
        Message &said = *it.message;
        const uint8_t *place;
        size_t len;
        HOLDS(rr_payload(&hub, &id, &place, &len) == RR_OK && len == said.bytes.size());
        HOLDS(len == 0 || memcmp(place, said.bytes.data(), len) == 0);
        if (len > 0) {
            HOLDS(said.place == nullptr || said.place == place);
            said.place = place;
        }
        rr_header_t header;
        HOLDS(rr_header(&hub, &id, &header) == RR_OK && header.port_id == said.sender->number && header.node_id == NODE);
        HOLDS(header.request_id == said.request_id && header.number_of_elements == said.asked && header.is_response == said.is_response);
        rr_user_header_t user_header;
        HOLDS(rr_user_header(&hub, &id, &user_header) == RR_OK && memcmp(user_header.bytes, said.user_header.data(), 16) == 0);
        size_t servers;
        bool has_hint;
        uint64_t origin;
        if (it.kind == RR_KIND_PENDING_RESPONSE)
            HOLDS(rr_number_of_server_connections(&hub, &id, &servers) == RR_OK && servers == it.request->taken);
        if (it.kind == RR_KIND_ACTIVE_REQUEST)
            HOLDS(rr_has_disconnect_hint(&hub, &id, &has_hint) == RR_OK && has_hint == (it.request->is_alive && it.request->has_hint));
        bool was_received = it.kind == RR_KIND_ACTIVE_REQUEST || it.kind == RR_KIND_RESPONSE;
        uint32_t code = rr_origin(&hub, &id, &origin);
        HOLDS(was_received ? code == RR_OK && origin == said.sender->number : code == RR_WRONG_KIND);
    }

    /* Adds a message on loan to the model. */
    Handle &loaned(size_t from_at, const rr_id_t &id, size_t len) {
        Handle from = model.handles[from_at];
        bool is_response = from.kind == RR_KIND_ACTIVE_REQUEST;
        Handle it = add(id, is_response ? RR_KIND_RESPONSE_MUT_UNINIT : RR_KIND_REQUEST_MUT_UNINIT, from.port);
        uint64_t request_id = is_response ? from.message->request_id : from.port->requests_loaned++;
        it.message = std::make_shared<Message>(Message{from.port, id.number, request_id, len, is_response});
        it.request = from.request;
        it.loans = from.loans;
        if (is_response)
            ++*from.loans;
        from.port->loans++;
        from.port->handles++;
        from.port->messages.push_back(it.message);
        model.handles.push_back(it);
        return model.handles.back();
    }

    void loan(Handle &from) {
        rr_id_t id = {};
        size_t len = in.below(6), at = &from - model.handles.data();
        uint32_t code = rr_loan_slice_uninit(&hub, &from.id, len, &id);
        if (from.kind != RR_KIND_CLIENT && from.kind != RR_KIND_ACTIVE_REQUEST)
            return HOLDS(code == RR_WRONG_KIND);
        HOLDS(code == model.loan_code(from, len));
        if (code == RR_OK)
            loaned(at, id, len);
    }

    void write(Handle &it) {
        size_t way = in.below(5), len = in.below(6);
        uint8_t byte = in.byte(), bytes[5] = {byte, 2, 3, 4, 5}, *place;
        bool had_room = false;
        if (!is_uninit(it.kind)) {
            HOLDS(rr_fill(&hub, &it.id, byte) == RR_WRONG_KIND && rr_push(&hub, &it.id, byte, &had_room) == RR_WRONG_KIND);
            HOLDS(rr_write_from_slice(&hub, &it.id, bytes, len) == RR_WRONG_KIND && rr_assume_init(&hub, &it.id) == RR_WRONG_KIND);
            if (is_sendable(it.kind))
                write_in_place(it, byte);
            else
                HOLDS(rr_payload_mut(&hub, &it.id, &place, &len) == RR_WRONG_KIND);
            return;
        }
        Message &said = *it.message;
        if (way == 0) {
            HOLDS(rr_fill(&hub, &it.id, byte) == RR_OK);
            said.bytes.assign(said.asked, byte);
        } else if (way == 1) {
            if (len != said.asked)
                return HOLDS(rr_write_from_slice(&hub, &it.id, bytes, len) == RR_WRONG_LENGTH);
            HOLDS(rr_write_from_slice(&hub, &it.id, bytes, len) == RR_OK);
            said.bytes.assign(bytes, bytes + len);
        } else if (way == 2) {
            bool is_open = said.bytes.size() < said.asked;
            HOLDS(rr_push(&hub, &it.id, byte, &had_room) == RR_OK && had_room == is_open);
            if (is_open)
                said.bytes.push_back(byte);
            return;
        } else if (way == 3) {
            if (said.bytes.size() < said.asked)
                return HOLDS(rr_assume_init(&hub, &it.id) == RR_INCOMPLETE);
            HOLDS(rr_assume_init(&hub, &it.id) == RR_OK);
        } else {
            write_in_place(it, byte);
        }
        it.kind++;
    }

    void write_in_place(Handle &it, uint8_t byte) {
        uint8_t *place;
        size_t len;
        HOLDS(rr_payload_mut(&hub, &it.id, &place, &len) == RR_OK && len == it.message->asked);
        if (len > 0)
            memset(place, byte, len);
        it.message->bytes.assign(len, byte);
    }

    void set(Handle &it) {
        size_t index = in.below(6);
        uint8_t byte = in.byte();
        bool was_there = false;
        rr_user_header_t header = {{byte, 1}};
        uint32_t code = rr_set(&hub, &it.id, index, byte, &was_there);
        if (!is_uninit(it.kind) && !is_sendable(it.kind))
            return HOLDS(code == RR_WRONG_KIND && rr_set_user_header(&hub, &it.id, &header) == RR_WRONG_KIND);
        HOLDS(code == RR_OK && was_there == (index < it.message->bytes.size()));
        if (was_there)
            it.message->bytes[index] = byte;
        HOLDS(rr_set_user_header(&hub, &it.id, &header) == RR_OK);
        std::copy_n(header.bytes, 16, it.message->user_header.begin());
    }

    void send(size_t at) {
        Handle &it = model.handles[at];
        size_t servers = 99;
        uint32_t code = rr_send(&hub, &it.id, &servers);
        if (!is_sendable(it.kind))
            return HOLDS(code == RR_WRONG_KIND && servers == 99);
        sent(at, code, servers);
    }

    /* Compares a send with the model, and changes that. */
    void sent(size_t at, uint32_t code, size_t servers) {
        Handle &it = model.handles[at];
        HOLDS(code == model.send_code(it));
        if (code != RR_OK)
            return ended(at);
        model.send(it);
        HOLDS(servers == (it.kind == RR_KIND_PENDING_RESPONSE ? it.request->taken : 0));
        if (it.kind == RR_KIND_PENDING_RESPONSE)
            return;
        it.port->handles--;
        forget(at); /* its receiver gets a handle of the same number */
    }

    void send_copy(Handle &from) {
        rr_id_t id = {};
        size_t len = in.below(6), servers = 99, at = &from - model.handles.data();
        uint8_t bytes[5] = {in.byte(), 6, 7, 8, 9};
        uint32_t code = rr_send_copy(&hub, &from.id, bytes, len, &id, &servers);
        if (from.kind != RR_KIND_CLIENT && from.kind != RR_KIND_ACTIVE_REQUEST)
            return HOLDS(code == RR_WRONG_KIND);
        uint32_t loan_code = model.loan_code(from, len);
        if (loan_code != RR_OK)
            return HOLDS(code == loan_code);
        if (code != RR_OK)
            id.number = model.next; /* it took a number, and is released */
        Handle &it = loaned(at, id, len);
        it.message->bytes.assign(bytes, bytes + len);
        it.kind++;
        sent(model.handles.size() - 1, code, servers);
    }

    void receive(Handle &it) {
        rr_id_t id = {};
        uint32_t code = rr_receive(&hub, &it.id, &id);
        if (it.kind == RR_KIND_SERVER)
            return code == RR_OK ? receive_request(it.port, id) : receive_no_request(it.port, code);
        if (it.kind == RR_KIND_PENDING_RESPONSE)
            return code == RR_OK ? receive_response(it, id) : receive_no_response(it, code);
        HOLDS(code == RR_WRONG_KIND);
    }

    /* A request comes from a queue that has room, and those before it were dead. */
    void receive_request(Port *server, const rr_id_t &id) {
        rr_header_t header;
        HOLDS(rr_header(&hub, &id, &header) == RR_OK);
        Requests *from = nullptr;
        for (auto &[ports, queue] : model.requests) {
            if (ports.second != server || model.active(ports.first, server) == model.limits.max_active_requests_per_client)
                continue;
            if (ports.first->number == header.port_id)
                from = &queue;
            else if (!queue.empty())
                model.is_exact &= !model.is_dead(*queue.front().first);
        }
        HOLDS(from != nullptr);
        while (!from->empty() && model.is_dead(*from->front().first))
            from->pop_front();
        HOLDS(!from->empty() && from->front().second->request_id == header.request_id);
        Handle it = add(id, RR_KIND_ACTIVE_REQUEST, server);
        std::tie(it.request, it.message) = from->front();
        it.loans = std::make_shared<size_t>(0);
        from->pop_front();
        server->handles++;
        model.handles.push_back(it);
    }

    /* Nothing is left but in queues without room, of which there is one where the code says so. */
    void receive_no_request(Port *server, uint32_t code) {
        bool is_full = false;
        for (auto &[ports, queue] : model.requests) {
            if (ports.second != server || queue.empty())
                continue;
            if (model.active(ports.first, server) == model.limits.max_active_requests_per_client) {
                is_full = true;
                continue;
            }
            HOLDS(std::all_of(queue.begin(), queue.end(), [&](auto &entry) { return model.is_dead(*entry.first); }));
            queue.clear();
        }
        HOLDS(code == (is_full ? RR_RECEIVE_EXCEEDS_MAX_BORROWS : RR_NOTHING));
    }

    /* A response is the first one of a queue, and answers this request. */
    void receive_response(const Handle &pending, const rr_id_t &id) {
        for (auto &[key, queue] : model.responses) {
            if (key.second != pending.request.get() || queue.empty() || queue.front()->number != id.number)
                continue;
            HOLDS(model.borrowed(key.first, key.second, true) < model.limits.max_borrowed_responses_per_pending_response);
            Handle it = {id, RR_KIND_RESPONSE, pending.port, queue.front(), pending.request};
            queue.pop_front();
            it.port->handles++;
            model.handles.push_back(it);
            return;
        }
        HOLDS(!"a response that was sent to this request");
    }

    void receive_no_response(const Handle &pending, uint32_t code) {
        bool is_empty = true;
        for (auto &[key, queue] : model.responses) {
            if (key.second != pending.request.get() || queue.empty())
                continue;
            size_t held = model.borrowed(key.first, key.second, true) + model.borrowed(key.first, key.second, false);
            HOLDS(held >= model.limits.max_borrowed_responses_per_pending_response);
            is_empty = false;
        }
        HOLDS(code == (is_empty ? RR_NOTHING : RR_RECEIVE_EXCEEDS_MAX_BORROWS));
    }

    void hint(Handle &it) {
        uint32_t code = rr_set_disconnect_hint(&hub, &it.id);
        if (it.kind != RR_KIND_PENDING_RESPONSE)
            return HOLDS(code == RR_WRONG_KIND);
        HOLDS(code == RR_OK);
        it.request->has_hint = true;
    }

    void release(size_t at) {
        HOLDS(rr_release(&hub, &model.handles[at].id) == RR_OK);
        ended(at);
    }

    void ended(size_t at) {
        model.end(model.handles[at]);
        gone.push_back(model.handles[at].id);
        forget(at);
    }

    void forget(size_t at) {
        model.handles[at] = model.handles.back();
        model.handles.pop_back();
    }
};

extern "C" int LLVMFuzzerTestOneInput(const uint8_t *data, size_t size) {
    Run(Input{data, data + size}).all();
    return 0;
}
