/* A client asks for the double of a number, and a server answers. */
#include "rr.h"
#include <stdio.h>
#include <string.h>

/* Returns a call's code from the function that it stands in, unless it is RR_OK. */
#define TRY(call)                                                                                                                      \
    do {                                                                                                                               \
        uint32_t code_of_call = (call);                                                                                                \
        if (code_of_call != RR_OK)                                                                                                     \
            return code_of_call;                                                                                                       \
    } while (0)

/* Sends a number as a request of a client, or as a response of an active request. */
static uint32_t send_number(rr_hub_t *hub, const rr_id_t *from, uint64_t number, rr_id_t *message) {
    uint8_t bytes[sizeof number];
    size_t servers;
    memcpy(bytes, &number, sizeof number);
    TRY(rr_loan_slice_uninit(hub, from, sizeof bytes, message));
    TRY(rr_write_from_slice(hub, message, bytes, sizeof bytes));
    return rr_send(hub, message, &servers);
}

/* Reads the number in a message that was received. */
static uint32_t read_number(rr_hub_t *hub, const rr_id_t *message, uint64_t *number) {
    const uint8_t *at;
    size_t len;
    TRY(rr_payload(hub, message, &at, &len));
    if (len != sizeof *number)
        return RR_WRONG_LENGTH;
    memcpy(number, at, sizeof *number);
    return RR_OK;
}

/* Receives a request, and answers it with twice its number. */
static uint32_t answer(rr_hub_t *hub, const rr_id_t *server) {
    rr_id_t active, response;
    uint64_t asked;
    TRY(rr_receive(hub, server, &active));
    TRY(read_number(hub, &active, &asked));
    printf("the server received %llu\n", (unsigned long long)asked);
    TRY(send_number(hub, &active, 2 * asked, &response));
    return rr_release(hub, &active);
}

/* Creates a client and a server. The client asks, and receives the answer. */
static uint32_t exchange(rr_hub_t *hub) {
    rr_client_settings_t client_settings = rr_client_settings_default(sizeof(uint64_t));
    rr_server_settings_t server_settings = rr_server_settings_default(sizeof(uint64_t));
    rr_id_t client, server, pending, response;
    uint64_t doubled;
    TRY(rr_client_create(hub, &client_settings, &client));
    TRY(rr_server_create(hub, &server_settings, &server));
    TRY(send_number(hub, &client, 21, &pending));
    TRY(answer(hub, &server));
    TRY(rr_receive(hub, &pending, &response));
    TRY(read_number(hub, &response, &doubled));
    printf("the client received %llu\n", (unsigned long long)doubled);
    TRY(rr_release(hub, &response));
    TRY(rr_release(hub, &pending));
    TRY(rr_release(hub, &client));
    return rr_release(hub, &server);
}

int main(void) {
    rr_limits_t limits = rr_limits_default();
    rr_hub_t hub;
    uint32_t code = rr_hub_create(&limits, 1, &hub.at);
    if (code == RR_OK) {
        code = exchange(&hub);
        rr_hub_drop(hub);
    }
    if (code != RR_OK)
        fprintf(stderr, "%s\n", rr_code_name(code));
    return code == RR_OK ? 0 : 1;
}
