/* A server answers one request again and again, until the client says that it has enough. */
#include "rr.h"
#include <stdio.h>

/* Returns a call's code from the function that it stands in, unless it is RR_OK. */
#define TRY(call)                                                                                                                      \
    do {                                                                                                                               \
        uint32_t code_of_call = (call);                                                                                                \
        if (code_of_call != RR_OK)                                                                                                     \
            return code_of_call;                                                                                                       \
    } while (0)

enum { ENOUGH = 5 };

/* Sends a byte as a request of a client, or as a response of an active request. */
static uint32_t send_byte(rr_hub_t *hub, const rr_id_t *from, uint8_t byte, rr_id_t *message) {
    size_t servers;
    TRY(rr_loan_slice_uninit(hub, from, 1, message));
    TRY(rr_fill(hub, message, byte));
    return rr_send(hub, message, &servers);
}

/* Answers once more, or releases the request if its client has enough. Writes whether it answered. */
static uint32_t answer(rr_hub_t *hub, const rr_id_t *active, uint8_t turn, bool *is_answered) {
    rr_id_t response;
    bool has_enough;
    TRY(rr_has_disconnect_hint(hub, active, &has_enough));
    *is_answered = !has_enough;
    if (has_enough)
        return rr_release(hub, active);
    return send_byte(hub, active, (uint8_t)(10 * turn), &response);
}

/* Receives a response and prints it. At the last one that is wanted, sets the hint. */
static uint32_t take(rr_hub_t *hub, const rr_id_t *pending, uint8_t turn) {
    rr_id_t response;
    const uint8_t *at;
    size_t len;
    TRY(rr_receive(hub, pending, &response));
    TRY(rr_payload(hub, &response, &at, &len));
    printf("response %d of %zu byte: %d\n", turn, len, at[0]);
    if (turn == ENOUGH)
        TRY(rr_set_disconnect_hint(hub, pending));
    return rr_release(hub, &response);
}

static uint32_t stream(rr_hub_t *hub) {
    rr_client_settings_t client_settings = rr_client_settings_default(1);
    rr_server_settings_t server_settings = rr_server_settings_default(1);
    rr_id_t client, server, pending, active;
    bool is_answered, is_connected;
    TRY(rr_client_create(hub, &client_settings, &client));
    TRY(rr_server_create(hub, &server_settings, &server));
    TRY(send_byte(hub, &client, 0, &pending));
    TRY(rr_receive(hub, &server, &active));
    for (uint8_t turn = 1;; turn++) {
        TRY(answer(hub, &active, turn, &is_answered));
        if (!is_answered)
            break;
        TRY(take(hub, &pending, turn));
    }
    TRY(rr_is_connected(hub, &pending, &is_connected));
    printf("the server %s\n", is_connected ? "goes on" : "has stopped");
    return rr_release(hub, &pending);
}

int main(void) {
    rr_limits_t limits = rr_limits_default();
    rr_hub_t hub;
    uint32_t code = rr_hub_create(&limits, 1, &hub.at);
    if (code == RR_OK) {
        code = stream(&hub);
        rr_hub_drop(hub); /* the ports go with it */
    }
    if (code != RR_OK)
        fprintf(stderr, "%s\n", rr_code_name(code));
    return code == RR_OK ? 0 : 1;
}
