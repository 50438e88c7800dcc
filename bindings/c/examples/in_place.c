/* A client sends a picture and a server answers with its histogram. Both are written and read where they lie. */
#include "rr.h"
#include <stdio.h>

/* Returns a call's code from the function that it stands in, unless it is RR_OK. */
#define TRY(call)                                                                                                                      \
    do {                                                                                                                               \
        uint32_t code_of_call = (call);                                                                                                \
        if (code_of_call != RR_OK)                                                                                                     \
            return code_of_call;                                                                                                       \
    } while (0)

enum { PIXELS = 4096, SHADES = 256 };

/* Loans a message of zeros, and writes where its payload lies. */
static uint32_t loan_zeros(rr_hub_t *hub, const rr_id_t *from, size_t len, rr_id_t *message, uint8_t **at) {
    TRY(rr_loan_slice(hub, from, len, message));
    return rr_payload_mut(hub, message, at, &len);
}

/* Sends a picture in which each shade stands 16 times. */
static uint32_t ask(rr_hub_t *hub, const rr_id_t *client, rr_id_t *pending) {
    uint8_t *pixels;
    size_t servers;
    TRY(loan_zeros(hub, client, PIXELS, pending, &pixels));
    for (size_t at = 0; at < PIXELS; at++)
        pixels[at] = (uint8_t)(at % SHADES);
    return rr_send(hub, pending, &servers);
}

/* Counts the shades of the picture that was received, in the response itself. */
static uint32_t answer(rr_hub_t *hub, const rr_id_t *server) {
    rr_id_t active, response;
    const uint8_t *pixels;
    uint8_t *counts;
    size_t len, servers;
    TRY(rr_receive(hub, server, &active));
    TRY(rr_payload(hub, &active, &pixels, &len));
    TRY(loan_zeros(hub, &active, SHADES, &response, &counts));
    for (size_t at = 0; at < len; at++)
        counts[pixels[at]]++;
    TRY(rr_send(hub, &response, &servers));
    return rr_release(hub, &active);
}

static uint32_t exchange(rr_hub_t *hub) {
    rr_client_settings_t client_settings = rr_client_settings_default(PIXELS);
    rr_server_settings_t server_settings = rr_server_settings_default(SHADES);
    rr_id_t client, server, pending, response;
    const uint8_t *counts;
    size_t len;
    TRY(rr_client_create(hub, &client_settings, &client));
    TRY(rr_server_create(hub, &server_settings, &server));
    TRY(ask(hub, &client, &pending));
    TRY(answer(hub, &server));
    TRY(rr_receive(hub, &pending, &response));
    TRY(rr_payload(hub, &response, &counts, &len));
    printf("%zu shades: %d black pixels, %d white ones\n", len, counts[0], counts[SHADES - 1]);
    TRY(rr_release(hub, &response));
    return rr_release(hub, &pending);
}

int main(void) {
    rr_limits_t limits = rr_limits_default();
    rr_hub_t hub;
    uint32_t code = rr_hub_create(&limits, 1, &hub.at);
    if (code == RR_OK) {
        code = exchange(&hub);
        rr_hub_drop(hub); /* the ports go with it */
    }
    if (code != RR_OK)
        fprintf(stderr, "%s\n", rr_code_name(code));
    return code == RR_OK ? 0 : 1;
}
