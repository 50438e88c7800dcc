/* What the tests share: checks that end the program, and the steps of an exchange. */
#ifndef CHECK_H
#define CHECK_H
#include "rr.h"
#include <stdio.h>
#include <stdlib.h>
#include <string.h>

/* Ends the program unless the fact holds. */
#define HOLDS(fact) ((fact) ? (void)0 : fail(__FILE__, __LINE__, #fact))

/* Ends the program unless the call returns the code. */
#define GIVES(code, call) expect(__FILE__, __LINE__, (code), (call), #call)

/* Ends the program unless the call returns RR_OK. */
#define TRY(call) GIVES(RR_OK, call)

/* Which codes came. */
static bool has_come[100];

static inline void fail(const char *file, int line, const char *fact) {
    fprintf(stderr, "%s:%d: it does not hold: %s\n", file, line, fact);
    exit(1);
}

static inline void expect(const char *file, int line, uint32_t wanted, uint32_t code, const char *call) {
    if (code != wanted) {
        fprintf(stderr, "%s:%d: %s, and not %s: %s\n", file, line, rr_code_name(code), rr_code_name(wanted), call);
        exit(1);
    }
    has_come[code] = true;
}

/* Limits of one client and one server, with two of all else and no flags. */
static inline rr_limits_t small_limits(void) {
    rr_limits_t limits = {1, 1, 2, 2, 2, 2, 1, 1, false, false, false};
    return limits;
}

static inline rr_hub_t new_hub(const rr_limits_t *limits) {
    rr_hub_t hub;
    TRY(rr_hub_create(limits, 7, &hub.at));
    return hub;
}

static inline rr_id_t new_client(rr_hub_t *hub, size_t len) {
    rr_client_settings_t settings = rr_client_settings_default(len);
    rr_id_t client;
    TRY(rr_client_create(hub, &settings, &client));
    return client;
}

static inline rr_id_t new_server(rr_hub_t *hub, size_t len) {
    rr_server_settings_t settings = rr_server_settings_default(len);
    rr_id_t server;
    TRY(rr_server_create(hub, &settings, &server));
    return server;
}

/* Loans a message and writes it. */
static inline rr_id_t loan_bytes(rr_hub_t *hub, const rr_id_t *from, const void *bytes, size_t len) {
    rr_id_t message;
    TRY(rr_loan_slice_uninit(hub, from, len, &message));
    TRY(rr_write_from_slice(hub, &message, (const uint8_t *)bytes, len));
    return message;
}

/* Sends a request or a response with these bytes. */
static inline rr_id_t send_bytes(rr_hub_t *hub, const rr_id_t *from, const void *bytes, size_t len) {
    rr_id_t message = loan_bytes(hub, from, bytes, len);
    size_t servers;
    TRY(rr_send(hub, &message, &servers));
    return message;
}

static inline rr_id_t receive(rr_hub_t *hub, const rr_id_t *from) {
    rr_id_t received;
    TRY(rr_receive(hub, from, &received));
    return received;
}

/* Whether a message has these bytes and no others. */
static inline bool has_bytes(rr_hub_t *hub, const rr_id_t *message, const void *bytes, size_t len) {
    const uint8_t *at;
    size_t found;
    TRY(rr_payload(hub, message, &at, &found));
    return found == len && memcmp(at, bytes, len) == 0;
}

/* Whether the id names something of this kind. */
static inline bool is_kind(rr_hub_t *hub, const rr_id_t *id, uint32_t wanted) {
    uint32_t kind;
    TRY(rr_kind(hub, id, &kind));
    return kind == wanted;
}

/* Whether the id names nothing. */
static inline bool is_gone(rr_hub_t *hub, const rr_id_t *id) {
    uint32_t kind = 77;
    return rr_kind(hub, id, &kind) == RR_UNKNOWN && kind == 77;
}
#endif
