/* A payload lies in one place from its loan to its last handle, which its receiver reads too, whatever else happens meanwhile. */
#include "check.h"

enum { LEN = 100, OTHERS = 6, ALIGNMENT = 16 };

/* Loans a message, writes it in place and sends it. Returns where its payload lies. */
static const uint8_t *send_in_place(rr_hub_t *hub, const rr_id_t *from, uint8_t byte, rr_id_t *message) {
    uint8_t *at;
    size_t servers;
    TRY(rr_loan_in_place(hub, from, LEN, message, &at));
    HOLDS((uintptr_t)at % ALIGNMENT == 0);
    memset(at, byte, LEN);
    TRY(rr_send(hub, message, &servers));
    return at;
}

/* Receives a message, whose payload lies there. */
static rr_id_t receive_in_place(rr_hub_t *hub, const rr_id_t *from, const uint8_t *wanted) {
    rr_id_t received;
    const uint8_t *at;
    size_t len;
    TRY(rr_receive_in_place(hub, from, &received, &at, &len));
    HOLDS(at == wanted && len == LEN);
    return received;
}

/* Whether a message's payload lies there, and is what was written. */
static bool lies_at(rr_hub_t *hub, const rr_id_t *message, const uint8_t *wanted, uint8_t byte) {
    const uint8_t *at;
    size_t len;
    uint8_t bytes[LEN];
    memset(bytes, byte, LEN);
    TRY(rr_payload(hub, message, &at, &len));
    return at == wanted && len == LEN && memcmp(at, bytes, LEN) == 0;
}

/* Creates other clients, lets each send, and releases what they did. */
static void let_others_call(rr_hub_t *hub) {
    for (int turn = 0; turn < OTHERS; turn++) {
        rr_id_t other = new_client(hub, 1000), pending = send_bytes(hub, &other, "other", 5);
        TRY(rr_release(hub, &pending));
        TRY(rr_release(hub, &other));
    }
}

int main(void) {
    rr_limits_t limits = rr_limits_default();
    rr_hub_t hub = new_hub(&limits);
    rr_server_settings_t settings = rr_server_settings_default(1);
    rr_id_t client = new_client(&hub, LEN), server, pending, response;
    settings.allocation_strategy = RR_ALLOCATION_BEST_FIT;
    TRY(rr_server_create(&hub, &settings, &server));
    const uint8_t *asked = send_in_place(&hub, &client, 3, &pending);
    rr_id_t active = receive_in_place(&hub, &server, asked);
    const uint8_t *answered = send_in_place(&hub, &active, 4, &response);
    response = receive_in_place(&hub, &pending, answered);
    HOLDS(asked != answered);
    let_others_call(&hub);
    HOLDS(lies_at(&hub, &pending, asked, 3) && lies_at(&hub, &active, asked, 3) && lies_at(&hub, &response, answered, 4));

    // The request stays for its server, and the response for its client, whoever else has left.
    TRY(rr_release(&hub, &pending));
    TRY(rr_release(&hub, &client));
    HOLDS(lies_at(&hub, &active, asked, 3));
    TRY(rr_release(&hub, &active));
    TRY(rr_release(&hub, &server));
    let_others_call(&hub);
    HOLDS(lies_at(&hub, &response, answered, 4));
    rr_hub_drop(hub);
    puts("payloads lie where they were written");
    return 0;
}
