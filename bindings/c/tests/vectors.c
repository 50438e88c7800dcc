/* The examples of iceoryx2's documentation of request-response, each with the values that stand there. */
#include "check.h"

/* A hub with iceoryx2's default limits, a client and a server. */
typedef struct {
    rr_hub_t hub;
    rr_id_t client, server;
} service_t;

enum { WORD = sizeof(uint64_t) };

static service_t new_service(size_t len) {
    rr_limits_t limits = rr_limits_default();
    service_t service;
    service.hub = new_hub(&limits);
    service.client = new_client(&service.hub, len);
    service.server = new_server(&service.hub, len);
    return service;
}

/* Loans a message of so many words, and writes `factor` * index + `first` to each in place. */
static rr_id_t loan_words(rr_hub_t *hub, const rr_id_t *from, size_t count, uint64_t factor, uint64_t first) {
    rr_id_t message;
    uint8_t *at;
    size_t len;
    TRY(rr_loan_slice_uninit(hub, from, count * WORD, &message));
    TRY(rr_payload_mut(hub, &message, &at, &len));
    HOLDS(len == count * WORD);
    for (size_t index = 0; index < count; index++) {
        uint64_t word = factor * index + first;
        memcpy(at + index * WORD, &word, WORD);
    }
    return message;
}

static rr_id_t send_words(rr_hub_t *hub, const rr_id_t *from, size_t count, uint64_t factor, uint64_t first) {
    rr_id_t message = loan_words(hub, from, count, factor, first);
    size_t servers;
    TRY(rr_send(hub, &message, &servers));
    return message;
}

/* Whether a message has so many words, each `factor` * index + `first`. */
static bool has_words(rr_hub_t *hub, const rr_id_t *message, size_t count, uint64_t factor, uint64_t first) {
    const uint8_t *at;
    size_t len;
    rr_header_t header;
    TRY(rr_payload(hub, message, &at, &len));
    TRY(rr_header(hub, message, &header));
    bool is_right = len == count * WORD && header.number_of_elements == len;
    for (size_t index = 0; is_right && index < count; index++) {
        uint64_t word;
        memcpy(&word, at + index * WORD, WORD);
        is_right = word == factor * index + first;
    }
    return is_right;
}

/* Sends 123. The server answers 789, or 456 to a request whose payload it copied. */
static void answers(uint64_t answer) {
    service_t it = new_service(WORD);
    rr_id_t pending = send_words(&it.hub, &it.client, 1, 0, 123), active = receive(&it.hub, &it.server), id;
    size_t servers;
    TRY(rr_number_of_server_connections(&it.hub, &pending, &servers));
    HOLDS(servers == 1 && has_words(&it.hub, &active, 1, 0, 123));
    send_words(&it.hub, &active, 1, 0, answer);
    rr_id_t response = receive(&it.hub, &pending);
    HOLDS(has_words(&it.hub, &response, 1, 0, answer));
    GIVES(RR_NOTHING, rr_receive(&it.hub, &pending, &id));
    rr_hub_drop(it.hub);
}

/* A request that nobody waits for is received all the same. */
static void fire_and_forget(void) {
    service_t it = new_service(WORD);
    rr_id_t pending = send_words(&it.hub, &it.client, 1, 0, 123);
    bool is_connected;
    TRY(rr_release(&it.hub, &pending));
    rr_id_t active = receive(&it.hub, &it.server);
    TRY(rr_is_connected(&it.hub, &active, &is_connected));
    HOLDS(!is_connected && has_words(&it.hub, &active, 1, 0, 123));
    rr_hub_drop(it.hub);
}

/* A response says which server it came from, and a request which client. */
static void origins(void) {
    service_t it = new_service(WORD);
    rr_id_t pending = send_words(&it.hub, &it.client, 1, 0, 0), active = receive(&it.hub, &it.server);
    rr_header_t header;
    uint64_t port;
    send_words(&it.hub, &active, 1, 0, 0);
    rr_id_t response = receive(&it.hub, &pending);
    TRY(rr_origin(&it.hub, &response, &port));
    HOLDS(port == it.server.number && has_words(&it.hub, &response, 1, 0, 0));
    TRY(rr_header(&it.hub, &response, &header));
    HOLDS(header.is_response && header.port_id == port && header.request_id == 0 && header.node_id == 7);
    TRY(rr_origin(&it.hub, &active, &port));
    HOLDS(port == it.client.number);
    TRY(rr_header(&it.hub, &active, &header));
    HOLDS(!header.is_response && header.port_id == port && header.request_id == 0 && header.node_id == 7);
    rr_hub_drop(it.hub);
}

/* A payload that can be sent is written again before it is sent. */
static void overwritten(void) {
    service_t it = new_service(WORD);
    rr_id_t request = loan_words(&it.hub, &it.client, 1, 0, 1234);
    uint64_t word = 456;
    uint8_t *at;
    size_t len, servers;
    HOLDS(has_words(&it.hub, &request, 1, 0, 1234));
    TRY(rr_payload_mut(&it.hub, &request, &at, &len));
    memcpy(at, &word, WORD);
    TRY(rr_send(&it.hub, &request, &servers));
    rr_id_t active = receive(&it.hub, &it.server);
    HOLDS(servers == 1 && has_words(&it.hub, &active, 1, 0, 456));
    rr_hub_drop(it.hub);
}

/* Sends a slice of words and answers with another. */
static void slices(size_t asked, uint64_t factor, uint64_t first, size_t answered, uint64_t second_factor, uint64_t second) {
    service_t it = new_service(16 * WORD);
    rr_id_t pending = send_words(&it.hub, &it.client, asked, factor, first), active = receive(&it.hub, &it.server);
    HOLDS(has_words(&it.hub, &active, asked, factor, first));
    send_words(&it.hub, &active, answered, second_factor, second);
    rr_id_t response = receive(&it.hub, &pending);
    HOLDS(has_words(&it.hub, &response, answered, second_factor, second));
    rr_hub_drop(it.hub);
}

/* A client's slots grow from one word to ten. */
static void grows(void) {
    rr_limits_t limits = rr_limits_default();
    rr_hub_t hub = new_hub(&limits);
    rr_client_settings_t settings = rr_client_settings_default(WORD);
    rr_id_t client, server = new_server(&hub, WORD);
    size_t len;
    settings.allocation_strategy = RR_ALLOCATION_POWER_OF_TWO;
    TRY(rr_client_create(&hub, &settings, &client));
    TRY(rr_initial_max_slice_len(&hub, &client, &len));
    rr_id_t pending = send_words(&hub, &client, 10, 2, 1), active = receive(&hub, &server);
    HOLDS(len == WORD && has_words(&hub, &active, 10, 2, 1) && has_words(&hub, &pending, 10, 2, 1));
    rr_hub_drop(hub);
}

/* Bytes are copied from the caller's array, both ways. */
static void copied(void) {
    static const uint8_t ASKED[] = {1, 2, 3}, ANSWERED[] = {1, 2, 3, 4};
    service_t it = new_service(4);
    rr_id_t pending = send_bytes(&it.hub, &it.client, ASKED, sizeof ASKED), active = receive(&it.hub, &it.server);
    HOLDS(has_bytes(&it.hub, &active, ASKED, sizeof ASKED));
    send_bytes(&it.hub, &active, ANSWERED, sizeof ANSWERED);
    rr_id_t response = receive(&it.hub, &pending);
    HOLDS(has_bytes(&it.hub, &response, ANSWERED, sizeof ANSWERED));
    rr_hub_drop(it.hub);
}

int main(void) {
    answers(789);
    answers(456);
    fire_and_forget();
    origins();
    overwritten();
    slices(13, 1, 123, 13, 2, 3);
    slices(10, 2, 1, 10, 3, 4);
    grows();
    copied();
    puts("the examples hold");
    return 0;
}
