/* Makes each code come that can come, and looks at what is left then. Those that the refusal of memory brings are in refuse.c. */
#include "check.h"

/* A hub with a client and a server, whose slots have room for eight bytes. */
typedef struct {
    rr_hub_t hub;
    rr_id_t client, server;
} service_t;

/* What stands where a refused call may not write. */
static const rr_id_t UNTOUCHED = {1234, 5678, 9012};

static service_t new_service(const rr_limits_t *limits) {
    service_t service;
    service.hub = new_hub(limits);
    service.client = new_client(&service.hub, 8);
    service.server = new_server(&service.hub, 8);
    return service;
}

static bool is_untouched(const rr_id_t *id) {
    return id->number == UNTOUCHED.number && id->row == UNTOUCHED.row && id->index == UNTOUCHED.index;
}

/* Whether a request still goes to the server and comes back as a response. */
static bool still_works(service_t *service) {
    rr_hub_t *hub = &service->hub;
    rr_id_t pending = send_bytes(hub, &service->client, "ask", 3);
    rr_id_t active = receive(hub, &service->server);
    send_bytes(hub, &active, "answer", 6);
    rr_id_t response = receive(hub, &pending);
    bool is_right = has_bytes(hub, &active, "ask", 3) && has_bytes(hub, &response, "answer", 6);
    TRY(rr_release(hub, &response));
    TRY(rr_release(hub, &active));
    TRY(rr_release(hub, &pending));
    return is_right;
}

static void unknown(service_t *it) {
    rr_id_t pending = send_bytes(&it->hub, &it->client, "ask", 3), made_up = {999, 3, 4}, id = UNTOUCHED;
    uint32_t why = 77;
    TRY(rr_release(&it->hub, &pending));
    GIVES(RR_UNKNOWN, rr_release(&it->hub, &pending));
    GIVES(RR_UNKNOWN, rr_receive(&it->hub, &pending, &id));
    GIVES(RR_UNKNOWN, rr_loan_slice_uninit(&it->hub, &made_up, 3, &id));
    GIVES(RR_UNKNOWN, rr_send_refusal(&it->hub, &pending, &why));
    HOLDS(is_untouched(&id) && why == 77 && is_gone(&it->hub, &made_up) && still_works(it));
}

static void wrong_kind(service_t *it) {
    rr_id_t request, id = UNTOUCHED;
    size_t servers = 77;
    uint32_t why = 77;
    TRY(rr_loan_slice_uninit(&it->hub, &it->client, 3, &request));
    GIVES(RR_WRONG_KIND, rr_send(&it->hub, &request, &servers));
    GIVES(RR_WRONG_KIND, rr_send_refusal(&it->hub, &request, &why));
    GIVES(RR_WRONG_KIND, rr_receive(&it->hub, &it->client, &id));
    GIVES(RR_WRONG_KIND, rr_loan_slice_uninit(&it->hub, &it->server, 3, &id));
    HOLDS(servers == 77 && why == 77 && is_untouched(&id) && is_kind(&it->hub, &request, RR_KIND_REQUEST_MUT_UNINIT));
    TRY(rr_release(&it->hub, &request));
    HOLDS(still_works(it));
}

static void incomplete(service_t *it) {
    rr_id_t request;
    bool had_room;
    TRY(rr_loan_slice_uninit(&it->hub, &it->client, 2, &request));
    TRY(rr_push(&it->hub, &request, 8, &had_room));
    GIVES(RR_INCOMPLETE, rr_assume_init(&it->hub, &request));
    HOLDS(had_room && is_kind(&it->hub, &request, RR_KIND_REQUEST_MUT_UNINIT) && has_bytes(&it->hub, &request, "\x08", 1));
    TRY(rr_push(&it->hub, &request, 9, &had_room));
    HOLDS(had_room);
    TRY(rr_push(&it->hub, &request, 10, &had_room));
    HOLDS(!had_room);
    TRY(rr_assume_init(&it->hub, &request));
    HOLDS(is_kind(&it->hub, &request, RR_KIND_REQUEST_MUT) && has_bytes(&it->hub, &request, "\x08\x09", 2));
    TRY(rr_release(&it->hub, &request));
}

static void wrong_length(service_t *it) {
    rr_id_t request;
    TRY(rr_loan_slice_uninit(&it->hub, &it->client, 2, &request));
    GIVES(RR_WRONG_LENGTH, rr_write_from_slice(&it->hub, &request, (const uint8_t *)"abc", 3));
    GIVES(RR_WRONG_LENGTH, rr_write_from_slice(&it->hub, &request, (const uint8_t *)"a", 1));
    HOLDS(is_kind(&it->hub, &request, RR_KIND_REQUEST_MUT_UNINIT) && has_bytes(&it->hub, &request, "", 0));
    TRY(rr_write_from_slice(&it->hub, &request, (const uint8_t *)"ab", 2));
    HOLDS(is_kind(&it->hub, &request, RR_KIND_REQUEST_MUT) && has_bytes(&it->hub, &request, "ab", 2));
    TRY(rr_release(&it->hub, &request));
}

static void nothing(service_t *it) {
    rr_id_t id = UNTOUCHED, pending = send_bytes(&it->hub, &it->client, "ask", 3);
    bool has_entries;
    GIVES(RR_NOTHING, rr_receive(&it->hub, &pending, &id));
    TRY(rr_release(&it->hub, &pending));

    // Nobody waits for the request any more. A server that receives drops it, and has nothing else.
    TRY(rr_has_entries(&it->hub, &it->server, &has_entries));
    HOLDS(has_entries);
    GIVES(RR_NOTHING, rr_receive(&it->hub, &it->server, &id));
    TRY(rr_has_entries(&it->hub, &it->server, &has_entries));
    HOLDS(!has_entries && is_untouched(&id) && still_works(it));
}

static void loan_refusals(service_t *it) {
    rr_id_t one, two, id = UNTOUCHED;
    rr_header_t header;
    GIVES(RR_LOAN_EXCEEDS_MAX_LOAN_SIZE, rr_loan_slice_uninit(&it->hub, &it->client, 9, &id));
    TRY(rr_loan_slice_uninit(&it->hub, &it->client, 8, &one));
    TRY(rr_loan_slice_uninit(&it->hub, &it->client, 8, &two));
    GIVES(RR_LOAN_EXCEEDS_MAX_LOANS, rr_loan_slice_uninit(&it->hub, &it->client, 8, &id));
    TRY(rr_header(&it->hub, &two, &header));
    HOLDS(is_untouched(&id) && two.number == one.number + 1 && header.request_id == 1);
    TRY(rr_release(&it->hub, &one));
    TRY(rr_loan_slice_uninit(&it->hub, &it->client, 8, &one));
    HOLDS(one.number == two.number + 1); /* a refused loan takes no number */
    TRY(rr_release(&it->hub, &one));
    TRY(rr_release(&it->hub, &two));
    HOLDS(still_works(it));
}

static void too_many_active(service_t *it) {
    rr_id_t first = send_bytes(&it->hub, &it->client, "1", 1), second = send_bytes(&it->hub, &it->client, "2", 1);
    rr_id_t third = loan_bytes(&it->hub, &it->client, "3", 1);
    size_t servers = 77;
    uint32_t why;
    TRY(rr_send_refusal(&it->hub, &third, &why));
    GIVES(RR_SEND_EXCEEDS_MAX_ACTIVE_REQUESTS, rr_send(&it->hub, &third, &servers));
    HOLDS(why == RR_SEND_EXCEEDS_MAX_ACTIVE_REQUESTS && servers == 77 && is_gone(&it->hub, &third));
    rr_id_t active = receive(&it->hub, &it->server);
    HOLDS(has_bytes(&it->hub, &active, "1", 1) && is_kind(&it->hub, &second, RR_KIND_PENDING_RESPONSE));
    TRY(rr_release(&it->hub, &active));
    TRY(rr_release(&it->hub, &first));
    TRY(rr_release(&it->hub, &second));
    HOLDS(still_works(it));
}

/* A copy is sent by one call. A refused one leaves no message, and writes nothing. */
static void copies(service_t *it) {
    rr_hub_t *hub = &it->hub;
    const uint8_t *ask = (const uint8_t *)"ask", *answer = (const uint8_t *)"answer";
    rr_id_t pending, second, response, id = UNTOUCHED;
    size_t servers = 77;
    GIVES(RR_WRONG_KIND, rr_send_copy(hub, &it->server, ask, 3, &id, &servers));
    GIVES(RR_LOAN_EXCEEDS_MAX_LOAN_SIZE, rr_send_copy(hub, &it->client, (const uint8_t *)"nine long", 9, &id, &servers));
    HOLDS(is_untouched(&id) && servers == 77);
    TRY(rr_send_copy(hub, &it->client, ask, 3, &pending, &servers));
    HOLDS(servers == 1 && is_kind(hub, &pending, RR_KIND_PENDING_RESPONSE) && has_bytes(hub, &pending, "ask", 3));
    TRY(rr_send_copy(hub, &it->client, ask, 3, &second, &servers));
    GIVES(RR_SEND_EXCEEDS_MAX_ACTIVE_REQUESTS, rr_send_copy(hub, &it->client, ask, 3, &id, &servers));
    HOLDS(is_untouched(&id) && servers == 1 && second.number == pending.number + 1);
    rr_id_t active = receive(hub, &it->server);
    TRY(rr_send_copy(hub, &active, answer, 6, &response, &servers));
    HOLDS(servers == 0 && has_bytes(hub, &active, "ask", 3) && is_gone(hub, &response));
    response = receive(hub, &pending);
    HOLDS(has_bytes(hub, &response, "answer", 6));
    const rr_id_t *held[] = {&response, &active, &pending, &second};
    for (size_t at = 0; at < sizeof held / sizeof *held; at++)
        TRY(rr_release(hub, held[at]));
    HOLDS(still_works(it));
}

/* A message that was loaned is written in place, and can be sent then. Others aren't lent for writing, and nothing is written. */
static void in_place(service_t *it) {
    rr_hub_t *hub = &it->hub;
    rr_id_t request, made_up = {999, 3, 4};
    uint8_t untouched, *at = &untouched;
    size_t len = 77, servers;
    GIVES(RR_UNKNOWN, rr_payload_mut(hub, &made_up, &at, &len));
    GIVES(RR_WRONG_KIND, rr_payload_mut(hub, &it->client, &at, &len));
    HOLDS(at == &untouched && len == 77);
    TRY(rr_loan_slice_uninit(hub, &it->client, 3, &request));
    TRY(rr_payload_mut(hub, &request, &at, &len));
    HOLDS(len == 3 && is_kind(hub, &request, RR_KIND_REQUEST_MUT));
    memcpy(at, "ask", 3);
    TRY(rr_payload_mut(hub, &request, &at, &len));
    HOLDS(len == 3 && memcmp(at, "ask", 3) == 0);
    TRY(rr_send(hub, &request, &servers));
    GIVES(RR_WRONG_KIND, rr_payload_mut(hub, &request, &at, &len));
    rr_id_t active = receive(hub, &it->server);
    HOLDS(has_bytes(hub, &active, "ask", 3));
    TRY(rr_release(hub, &active));
    TRY(rr_release(hub, &request));
    HOLDS(still_works(it));
}

/* A message is loaned to be written in place by one call, and so is one received to be read. A refused call writes nothing. */
static void in_place_at_once(service_t *it) {
    rr_hub_t *hub = &it->hub;
    rr_id_t request, second, active, made_up = {999, 3, 4}, id = UNTOUCHED;
    uint8_t untouched, *at = &untouched;
    const uint8_t *read_at = &untouched;
    size_t len = 77, servers;
    uint32_t why = 77;
    GIVES(RR_UNKNOWN, rr_loan_in_place(hub, &made_up, 3, &id, &at));
    GIVES(RR_WRONG_KIND, rr_loan_in_place(hub, &it->server, 3, &id, &at));
    GIVES(RR_LOAN_EXCEEDS_MAX_LOAN_SIZE, rr_loan_in_place(hub, &it->client, 9, &id, &at));
    GIVES(RR_UNKNOWN, rr_receive_in_place(hub, &made_up, &id, &read_at, &len));
    GIVES(RR_WRONG_KIND, rr_receive_in_place(hub, &it->client, &id, &read_at, &len));
    GIVES(RR_NOTHING, rr_receive_in_place(hub, &it->server, &id, &read_at, &len));
    HOLDS(is_untouched(&id) && at == &untouched && read_at == &untouched && len == 77);
    TRY(rr_loan_in_place(hub, &it->client, 3, &request, &at));
    memcpy(at, "ask", 3);
    TRY(rr_loan_in_place(hub, &it->client, 8, &second, &at));
    GIVES(RR_LOAN_EXCEEDS_MAX_LOANS, rr_loan_in_place(hub, &it->client, 3, &id, &at));
    HOLDS(is_untouched(&id) && second.number == request.number + 1 && is_kind(hub, &request, RR_KIND_REQUEST_MUT));
    TRY(rr_send_refusal(hub, &request, &why));
    TRY(rr_send(hub, &request, &servers));
    TRY(rr_receive_in_place(hub, &it->server, &active, &read_at, &len));
    HOLDS(why == RR_OK && len == 3 && memcmp(read_at, "ask", 3) == 0 && has_bytes(hub, &active, "ask", 3));
    const rr_id_t *held[] = {&active, &request, &second};
    for (size_t index = 0; index < sizeof held / sizeof *held; index++)
        TRY(rr_release(hub, held[index]));
    HOLDS(still_works(it));
}

/* Each of the nine kinds is told by its number. */
static void kinds(service_t *it) {
    rr_hub_t *hub = &it->hub;
    rr_id_t message, pending, active;
    size_t servers = 77;
    TRY(rr_loan_slice_uninit(hub, &it->client, 1, &pending));
    HOLDS(is_kind(hub, &it->client, RR_KIND_CLIENT) && is_kind(hub, &it->server, RR_KIND_SERVER));
    HOLDS(is_kind(hub, &pending, RR_KIND_REQUEST_MUT_UNINIT));
    TRY(rr_fill(hub, &pending, 5));
    HOLDS(is_kind(hub, &pending, RR_KIND_REQUEST_MUT));
    TRY(rr_send(hub, &pending, &servers));
    HOLDS(servers == 1 && is_kind(hub, &pending, RR_KIND_PENDING_RESPONSE));
    active = receive(hub, &it->server);
    HOLDS(is_kind(hub, &active, RR_KIND_ACTIVE_REQUEST));
    TRY(rr_loan_slice_uninit(hub, &active, 1, &message));
    HOLDS(is_kind(hub, &message, RR_KIND_RESPONSE_MUT_UNINIT));
    TRY(rr_fill(hub, &message, 6));
    HOLDS(is_kind(hub, &message, RR_KIND_RESPONSE_MUT));
    TRY(rr_send(hub, &message, &servers));
    HOLDS(servers == 0 && is_gone(hub, &message));
    message = receive(hub, &pending);
    HOLDS(is_kind(hub, &message, RR_KIND_RESPONSE) && has_bytes(hub, &message, "\x06", 1));
}

/* A hub with the small limits and both ports is passed to each of these. */
static void (*const WITH_SMALL_LIMITS[])(service_t *) = {unknown, wrong_kind, incomplete, wrong_length, nothing, loan_refusals,
                                                         too_many_active, copies, in_place, in_place_at_once, kinds};

static void out_of_memory(void) {
    rr_limits_t limits = small_limits();
    rr_hub_t hub = new_hub(&limits);
    rr_client_settings_t settings = rr_client_settings_default(8);
    rr_id_t client, pending, again = UNTOUCHED;
    uint8_t *at = NULL;
    settings.preallocated_requests = 1;
    TRY(rr_client_create(&hub, &settings, &client));
    pending = send_bytes(&hub, &client, "ask", 3);
    GIVES(RR_LOAN_OUT_OF_MEMORY, rr_loan_slice_uninit(&hub, &client, 1, &again));
    GIVES(RR_LOAN_OUT_OF_MEMORY, rr_loan_in_place(&hub, &client, 1, &again, &at));
    HOLDS(is_untouched(&again) && at == NULL && has_bytes(&hub, &pending, "ask", 3));
    TRY(rr_release(&hub, &pending));
    TRY(rr_loan_slice_uninit(&hub, &client, 1, &again));
    rr_hub_drop(hub);
}

static void unable_to_deliver(void) {
    rr_limits_t limits = small_limits();
    rr_hub_t hub = new_hub(&limits);
    rr_client_settings_t settings = rr_client_settings_default(8);
    rr_id_t client, server, ids[2], refused;
    size_t servers = 77;
    uint32_t why;
    bool is_deliverable;
    settings.backpressure_strategy = RR_BACKPRESSURE_RETRY_UNTIL_DELIVERED;
    TRY(rr_client_create(&hub, &settings, &client));
    server = new_server(&hub, 8);
    for (int at = 0; at < 2; at++) {
        ids[at] = send_bytes(&hub, &client, at == 0 ? "0" : "1", 1);
        TRY(rr_release(&hub, &ids[at]));
    }
    refused = loan_bytes(&hub, &client, "2", 1);
    TRY(rr_is_deliverable(&hub, &refused, &is_deliverable));
    TRY(rr_send_refusal(&hub, &refused, &why));
    GIVES(RR_SEND_UNABLE_TO_DELIVER, rr_send(&hub, &refused, &servers));
    HOLDS(!is_deliverable && why == RR_SEND_UNABLE_TO_DELIVER && servers == 77 && is_gone(&hub, &refused));

    // The queue is as it was: two requests that nobody waits for, which a receive drops.
    GIVES(RR_NOTHING, rr_receive(&hub, &server, &refused));
    refused = send_bytes(&hub, &client, "2", 1);
    HOLDS(is_kind(&hub, &refused, RR_KIND_PENDING_RESPONSE));
    rr_hub_drop(hub);
}

static void too_many_borrows(void) {
    rr_limits_t limits = small_limits();
    limits.max_borrowed_responses_per_pending_response = 1;
    service_t it = new_service(&limits);
    rr_id_t pending = send_bytes(&it.hub, &it.client, "ask", 3), active = receive(&it.hub, &it.server), second = UNTOUCHED;
    send_bytes(&it.hub, &active, "1", 1);
    send_bytes(&it.hub, &active, "2", 1);
    rr_id_t first = receive(&it.hub, &pending);
    const uint8_t *at = NULL;
    size_t len = 77;
    bool has_entries;
    GIVES(RR_RECEIVE_EXCEEDS_MAX_BORROWS, rr_receive(&it.hub, &pending, &second));
    GIVES(RR_RECEIVE_EXCEEDS_MAX_BORROWS, rr_receive_in_place(&it.hub, &pending, &second, &at, &len));
    TRY(rr_has_entries(&it.hub, &pending, &has_entries));
    HOLDS(has_entries && at == NULL && len == 77 && is_untouched(&second) && has_bytes(&it.hub, &first, "1", 1));
    TRY(rr_release(&it.hub, &first));
    second = receive(&it.hub, &pending);
    HOLDS(has_bytes(&it.hub, &second, "2", 1));
    rr_hub_drop(it.hub);
}

static void client_creation(void) {
    rr_limits_t limits = small_limits();
    rr_hub_t hub = new_hub(&limits);
    rr_client_settings_t settings = rr_client_settings_default(8), wrong = settings;
    rr_id_t id = UNTOUCHED;
    wrong.backpressure_strategy = 2;
    GIVES(RR_INVALID_SETTING, rr_client_create(&hub, &wrong, &id));
    wrong = settings;
    wrong.allocation_strategy = 3;
    GIVES(RR_INVALID_SETTING, rr_client_create(&hub, &wrong, &id));
    wrong = rr_client_settings_default((size_t)1 << 62);
    GIVES(RR_CLIENT_CREATE_UNABLE_TO_CREATE_DATA_SEGMENT, rr_client_create(&hub, &wrong, &id));
    HOLDS(is_untouched(&id));
    TRY(rr_client_create(&hub, &settings, &id));
    HOLDS(id.number == 0); /* a refused creation takes no number */
    id = UNTOUCHED;
    GIVES(RR_CLIENT_CREATE_EXCEEDS_MAX_SUPPORTED_CLIENTS, rr_client_create(&hub, &settings, &id));
    HOLDS(is_untouched(&id) && new_server(&hub, 8).number == 1);
    rr_hub_drop(hub);
}

static void server_creation(void) {
    rr_limits_t limits = small_limits();
    rr_hub_t hub = new_hub(&limits);
    rr_server_settings_t settings = rr_server_settings_default(8), wrong = settings;
    rr_id_t id = UNTOUCHED;
    wrong.backpressure_strategy = 2;
    GIVES(RR_INVALID_SETTING, rr_server_create(&hub, &wrong, &id));
    wrong = settings;
    wrong.allocation_strategy = 3;
    GIVES(RR_INVALID_SETTING, rr_server_create(&hub, &wrong, &id));
    wrong = settings;
    wrong.max_loaned_responses_per_request = SIZE_MAX;
    GIVES(RR_SERVER_CREATE_UNABLE_TO_CREATE_DATA_SEGMENT, rr_server_create(&hub, &wrong, &id));
    HOLDS(is_untouched(&id));
    TRY(rr_server_create(&hub, &settings, &id));
    HOLDS(id.number == 0); /* a refused creation takes no number */
    id = UNTOUCHED;
    GIVES(RR_SERVER_CREATE_EXCEEDS_MAX_SUPPORTED_SERVERS, rr_server_create(&hub, &settings, &id));
    HOLDS(is_untouched(&id) && new_client(&hub, 8).number == 1);
    rr_hub_drop(hub);
}

static void hub_creation(void) {
    rr_limits_t limits = small_limits();
    int somewhere;
    void *at = &somewhere;
    limits.max_clients = 0;
    GIVES(RR_HUB_CREATE_ZERO_LIMIT, rr_hub_create(&limits, 7, &at));
    limits = small_limits();
    limits.max_servers = SIZE_MAX;
    GIVES(RR_HUB_CREATE_LIMITS_TOO_LARGE, rr_hub_create(&limits, 7, &at));
    HOLDS(at == &somewhere);

    /* There is no hub then, and nothing to drop. */
    rr_hub_t none = {NULL};
    rr_hub_drop(none);
}

/* The slots of pools that aren't reduced, with iceoryx2's default limits: of a client its loans, its pending requests, and those that its
 * servers hold or have queued; of a server its loans, and what its clients hold or have queued. */
static void worst_cases(void) {
    rr_limits_t limits = rr_limits_default();
    size_t slots;
    TRY(rr_worst_case_requests(&limits, &slots));
    HOLDS(slots == 2 + 4 + 2 * 2 * 4);
    TRY(rr_worst_case_responses(&limits, 3, &slots));
    HOLDS(slots == 3 * 4 * 8 + 8 * (4 * 2 + 22 * 2));
    TRY(rr_worst_case_responses(&limits, 0, &slots));
    HOLDS(slots == 1 * 4 * 8 + 8 * (4 * 2 + 22 * 2));
    slots = 77;
    GIVES(RR_HUB_CREATE_LIMITS_TOO_LARGE, rr_worst_case_responses(&limits, SIZE_MAX, &slots));
    limits.max_servers = SIZE_MAX;
    GIVES(RR_HUB_CREATE_LIMITS_TOO_LARGE, rr_worst_case_requests(&limits, &slots));
    limits.max_clients = 0;
    GIVES(RR_HUB_CREATE_ZERO_LIMIT, rr_worst_case_requests(&limits, &slots));
    GIVES(RR_HUB_CREATE_ZERO_LIMIT, rr_worst_case_responses(&limits, 1, &slots));
    HOLDS(slots == 77);
}

/* Whether a code comes only if 2^62 numbers were given, or if memory is refused. */
static bool is_out_of_reach(uint32_t code) {
    return code == RR_NUMBERS_EXHAUSTED || code == RR_CLIENT_CREATE_UNABLE_TO_CREATE_PORT_TAG ||
           code == RR_SERVER_CREATE_UNABLE_TO_CREATE_PORT_TAG || code == RR_HUB_CREATE_OUT_OF_MEMORY;
}

int main(void) {
    int came = 0;
    rr_limits_t limits = small_limits();
    for (size_t at = 0; at < sizeof WITH_SMALL_LIMITS / sizeof *WITH_SMALL_LIMITS; at++) {
        service_t service = new_service(&limits);
        WITH_SMALL_LIMITS[at](&service);
        rr_hub_drop(service.hub);
    }
    out_of_memory();
    unable_to_deliver();
    too_many_borrows();
    client_creation();
    server_creation();
    hub_creation();
    worst_cases();
    for (uint32_t code = 0; code < 100; code++) {
        bool has_name = strcmp(rr_code_name(code), "no code of rr") != 0;
        HOLDS(has_come[code] == (has_name && !is_out_of_reach(code)));
        came += has_come[code];
    }
    printf("%d codes came\n", came);
    return 0;
}
