/* Request-response ports in one process, for C: a client loans a request, writes it in place and sends it to all connected servers; a
 * server answers it as often as it likes; the client receives a stream of responses. `rr.hpp` has them for C++.
 *
 * One hub owns all ports of a service. A port, a message and a received message go by an `rr_id_t`. Messages are slices of bytes with a
 * user header of 16 bytes. Where iceoryx2's C API has a call, ours has its name without the type of what it is called on: `rr_send` is
 * `iox2_request_mut_send` and `iox2_response_mut_send`, `rr_release` is every `iox2_*_drop`.
 *
 * Each function returns one of the codes below. A call that returns another code than RR_OK writes nothing through its pointers and
 * leaves the hub as it was, with two exceptions. A message whose send is refused is released. A server's receive drops the requests at
 * the heads of its queues that no client waits for, also where it returns RR_NOTHING or is refused: so `rr_has_entries` may write true
 * before a receive that returns RR_NOTHING, and false after it.
 *
 * An id belongs to the hub that wrote it. Each hub counts its numbers from 0, so the id of another hub may name something here, too. Any
 * numbers may stand in an `rr_id_t`: one that names nothing is refused with RR_UNKNOWN, and one that names what has no such call with
 * RR_WRONG_KIND. What an id of this hub names is found at once as long as it lives. An id that was released, or whose row and index were
 * changed, is looked for among all slots of all ports: microseconds in a small hub, milliseconds in one of a hundred ports.
 *
 * What a caller owes, and nothing checks:
 *   - an `rr_hub_t` is written by `rr_hub_create` and passed by its address. It may be moved, but of two copies one is used alone, not
 *     after `rr_hub_drop`, and not by two calls at one time. Another thread may use it, if a lock, a channel, or a thread's start or
 *     join makes one thread's calls happen before the other's;
 *   - any other pointer is not null and is aligned, and leads to a live value, or to as many bytes as the length beside it says (any
 *     pointer that isn't null, if that is 0). What a call writes through overlaps with nothing else that the call is passed;
 *   - a `bool` is 0 or 1;
 *   - what `rr_payload_mut` and `rr_loan_in_place` lead to is not touched after the message is sent or released. What `rr_payload` and
 *     `rr_receive_in_place` lead to is read alone, and not after the handle is sent or released. Nothing is touched after the hub is
 *     dropped;
 *   - `malloc`, `realloc` and `free` are one allocator's, which aligns a block to 16 bytes: so are payloads. No call is made from a
 *     signal handler, nor in the child of a `fork` of a process with more than one thread.
 *
 * A payload stays where it is as long as a handle of its message lives, whatever else is created, loaned or released meanwhile. The
 * receiver of a message reads the bytes that its sender wrote: none is copied by the hub. With length 0 the address says nothing. */
#ifndef RR_H
#define RR_H
#include <stdbool.h>
#include <stddef.h>
#include <stdint.h>
#ifdef __cplusplus
extern "C" {
#endif

/* The version of this header, 0.2.0: 10000 times the first number, 100 times the second and the third. */
#define RR_VERSION 200

/* What calls return. */
enum {
    RR_OK = 0,
    RR_UNKNOWN = 1,           /* the id names neither a port nor a handle */
    RR_WRONG_KIND = 2,        /* what the id names has no such call */
    RR_NUMBERS_EXHAUSTED = 3, /* the hub has given all its numbers, 2 to the 62 of them */
    RR_INCOMPLETE = 4,        /* less of the payload is written than was asked for */
    RR_WRONG_LENGTH = 5,      /* the message was loaned with another length */
    RR_NOTHING = 6,           /* nothing is queued */
    RR_INVALID_SETTING = 7,   /* a strategy is none of those below; this is tested first */

    RR_CLIENT_CREATE_UNABLE_TO_CREATE_DATA_SEGMENT = 10, /* no memory, or a pool larger than a size_t counts */
    RR_CLIENT_CREATE_EXCEEDS_MAX_SUPPORTED_CLIENTS = 11,
    RR_CLIENT_CREATE_UNABLE_TO_CREATE_PORT_TAG = 13, /* no number is left */
    RR_SERVER_CREATE_EXCEEDS_MAX_SUPPORTED_SERVERS = 20,
    RR_SERVER_CREATE_UNABLE_TO_CREATE_DATA_SEGMENT = 21, /* no memory, or a pool larger than a size_t counts */
    RR_SERVER_CREATE_UNABLE_TO_CREATE_PORT_TAG = 23,     /* no number is left */

    RR_LOAN_OUT_OF_MEMORY = 30, /* the port's messages fill its pool, or no memory for a slice longer than the slots */
    RR_LOAN_EXCEEDS_MAX_LOANS = 31,
    RR_LOAN_EXCEEDS_MAX_LOAN_SIZE = 32, /* longer than the slots, which may not grow */

    RR_SEND_UNABLE_TO_DELIVER = 41, /* a queue is full, and the port's strategy is to retry */
    RR_SEND_EXCEEDS_MAX_ACTIVE_REQUESTS = 42,

    RR_RECEIVE_EXCEEDS_MAX_BORROWS = 50,

    RR_HUB_CREATE_ZERO_LIMIT = 60,       /* a limit that must be at least 1 is 0 */
    RR_HUB_CREATE_LIMITS_TOO_LARGE = 61, /* a worst-case size is more than a size_t counts */
    RR_HUB_CREATE_OUT_OF_MEMORY = 62
};

/* What a port's sends do at a full queue that no safe overflow empties. */
enum {
    RR_BACKPRESSURE_RETRY_UNTIL_DELIVERED = 0, /* the send is refused with RR_SEND_UNABLE_TO_DELIVER */
    RR_BACKPRESSURE_DISCARD_DATA = 1           /* the queue is passed over */
};

/* Whether a port's slots may grow for slices longer than their initial length. */
enum { RR_ALLOCATION_STATIC = 0, RR_ALLOCATION_BEST_FIT = 1, RR_ALLOCATION_POWER_OF_TWO = 2 };

/* What an id names. */
enum {
    RR_KIND_CLIENT = 0,
    RR_KIND_SERVER = 1,
    RR_KIND_REQUEST_MUT_UNINIT = 2,  /* a loaned request that is being written */
    RR_KIND_REQUEST_MUT = 3,         /* a loaned request that can be sent */
    RR_KIND_PENDING_RESPONSE = 4,    /* a request that was sent */
    RR_KIND_ACTIVE_REQUEST = 5,      /* a request that a server received */
    RR_KIND_RESPONSE_MUT_UNINIT = 6, /* a loaned response that is being written */
    RR_KIND_RESPONSE_MUT = 7,        /* a loaned response that can be sent */
    RR_KIND_RESPONSE = 8             /* a response that a client received */
};

/* A hub. `rr_hub_create` writes `at`. */
typedef struct rr_hub_t {
    void *at;
} rr_hub_t;

/* What names a port or a handle: its number, and where the hub looks for it first. */
typedef struct rr_id_t {
    uint64_t number;
    size_t row;
    size_t index;
} rr_id_t;

/* What a hub may hold. `rr_limits_default` has iceoryx2's defaults. */
typedef struct rr_limits_t {
    size_t max_clients;
    size_t max_servers;
    size_t max_loaned_requests;
    size_t max_active_requests_per_client;
    size_t max_response_buffer_size;
    size_t max_borrowed_responses_per_pending_response;
    size_t client_expired_connection_buffer;
    size_t server_expired_connection_buffer;
    bool enable_safe_overflow_for_requests;
    bool enable_safe_overflow_for_responses;
    bool enable_fire_and_forget_requests;
} rr_limits_t;

typedef struct rr_client_settings_t {
    size_t initial_max_slice_len; /* bytes */
    size_t preallocated_requests; /* slots of its pool; 0, or more than that: as many as the limits can ask for */
    uint32_t backpressure_strategy;
    uint32_t allocation_strategy;
} rr_client_settings_t;

typedef struct rr_server_settings_t {
    size_t initial_max_slice_len;  /* bytes */
    size_t preallocated_responses; /* slots of its pool; 0, or more than that: as many as the limits can ask for */
    size_t max_loaned_responses_per_request; /* 0 counts as 1 */
    uint32_t backpressure_strategy;
    uint32_t allocation_strategy;
} rr_server_settings_t;

/* The header of a message. */
typedef struct rr_header_t {
    uint64_t port_id;            /* the client that loaned the request, or the server that loaned the response */
    uint64_t request_id;         /* how many requests that client had loaned before; of a response, that of the request it answers */
    uint64_t number_of_elements; /* bytes that the payload was asked to have */
    uint64_t node_id;            /* what the hub was created with */
    bool is_response;
} rr_header_t;

typedef struct rr_user_header_t {
    uint8_t bytes[16]; /* 0 in a new message */
} rr_user_header_t;

/* Returns the version of the library. A program that is linked with another one than RR_VERSION may go wrong in any call. */
uint32_t rr_version(void);
/* Creates a hub without ports: `rr_hub_t hub; rr_hub_create(&limits, 1, &hub.at)`. If it is refused there is no hub, and nothing to drop.
 * RR_HUB_CREATE_*. */
uint32_t rr_hub_create(const rr_limits_t *limits, uint64_t node_id, void **at);
/* Drops a hub with all that it has, and frees its memory. Does nothing where `at` is null. */
void rr_hub_drop(rr_hub_t hub);
/* Writes how many slots a client's pool has that is not reduced: as many as requests of it can live at one time.
 * RR_HUB_CREATE_ZERO_LIMIT, and RR_HUB_CREATE_LIMITS_TOO_LARGE if they are more than a size_t counts. */
uint32_t rr_worst_case_requests(const rr_limits_t *limits, size_t *slots);
/* Writes the same of the pool of a server that may have so many responses on loan for a request, of which 0 counts as 1.
 * RR_HUB_CREATE_ZERO_LIMIT, RR_HUB_CREATE_LIMITS_TOO_LARGE. */
uint32_t rr_worst_case_responses(const rr_limits_t *limits, size_t max_loaned_responses_per_request, size_t *slots);
/* Writes what the id names, one of RR_KIND_*. RR_UNKNOWN. */
uint32_t rr_kind(rr_hub_t *hub, const rr_id_t *id, uint32_t *kind);

/* Creates a client. RR_INVALID_SETTING, RR_CLIENT_CREATE_*. */
uint32_t rr_client_create(rr_hub_t *hub, const rr_client_settings_t *settings, rr_id_t *client);
/* Creates a server. RR_INVALID_SETTING, RR_SERVER_CREATE_*. */
uint32_t rr_server_create(rr_hub_t *hub, const rr_server_settings_t *settings, rr_id_t *server);
/* Changes nothing: ports are connected from the creation of the later one on. RR_UNKNOWN, RR_WRONG_KIND. */
uint32_t rr_update_connections(rr_hub_t *hub, const rr_id_t *port);
/* Writes what the port's sends do at a full queue, one of RR_BACKPRESSURE_*. RR_UNKNOWN, RR_WRONG_KIND. */
uint32_t rr_backpressure_strategy(rr_hub_t *hub, const rr_id_t *port, uint32_t *strategy);
/* Writes for how many bytes each of the port's slots has room from the start. RR_UNKNOWN, RR_WRONG_KIND. */
uint32_t rr_initial_max_slice_len(rr_hub_t *hub, const rr_id_t *port, size_t *len);

/* Loans a message of so many bytes, to be written: a request of a client, or a response of an active request.
 * RR_UNKNOWN, RR_WRONG_KIND, RR_NUMBERS_EXHAUSTED, RR_LOAN_*. */
uint32_t rr_loan_slice_uninit(rr_hub_t *hub, const rr_id_t *from, size_t len, rr_id_t *message);
/* Makes this byte each of a message's that is being written, and the message one that can be sent. RR_UNKNOWN, RR_WRONG_KIND. */
uint32_t rr_fill(rr_hub_t *hub, const rr_id_t *message, uint8_t byte);
/* Copies these bytes to a message that is being written, which can be sent then. RR_UNKNOWN, RR_WRONG_KIND, RR_WRONG_LENGTH. */
uint32_t rr_write_from_slice(rr_hub_t *hub, const rr_id_t *message, const uint8_t *payload, size_t len);
/* Appends a byte to a message that is being written. Writes whether it had room. RR_UNKNOWN, RR_WRONG_KIND. */
uint32_t rr_push(rr_hub_t *hub, const rr_id_t *message, uint8_t byte, bool *had_room);
/* Makes a message that is being written, and complete, one that can be sent. RR_UNKNOWN, RR_WRONG_KIND, RR_INCOMPLETE. */
uint32_t rr_assume_init(rr_hub_t *hub, const rr_id_t *message);
/* Replaces a byte that was written of a message that was not sent. Writes whether there is one. RR_UNKNOWN, RR_WRONG_KIND. */
uint32_t rr_set(rr_hub_t *hub, const rr_id_t *message, size_t index, uint8_t byte, bool *was_there);
/* Writes where the payload of a message that was not sent lies, to be written in place until the message is sent or released. One that is
 * being written can be sent from then on; its bytes are 0, or what an earlier message of its port left there, until they are written.
 * RR_UNKNOWN, RR_WRONG_KIND. */
uint32_t rr_payload_mut(rr_hub_t *hub, const rr_id_t *message, uint8_t **at, size_t *len);
/* Loans a message of so many bytes that can be sent, and writes where they lie: `rr_loan_slice_uninit` and `rr_payload_mut` in one call,
 * with the codes of the first. RR_UNKNOWN, RR_WRONG_KIND, RR_NUMBERS_EXHAUSTED, RR_LOAN_*. */
uint32_t rr_loan_in_place(rr_hub_t *hub, const rr_id_t *from, size_t len, rr_id_t *message, uint8_t **at);
/* Replaces the user header of a message that was not sent. RR_UNKNOWN, RR_WRONG_KIND. */
uint32_t rr_set_user_header(rr_hub_t *hub, const rr_id_t *message, const rr_user_header_t *header);
/* Writes whether a send of the message would be refused by no full queue. RR_UNKNOWN, RR_WRONG_KIND. */
uint32_t rr_is_deliverable(rr_hub_t *hub, const rr_id_t *message, bool *is_deliverable);
/* Writes RR_OK, or the RR_SEND_* with which `rr_send` of the message would be refused now. Changes nothing. RR_UNKNOWN, RR_WRONG_KIND. */
uint32_t rr_send_refusal(rr_hub_t *hub, const rr_id_t *message, uint32_t *why);
/* Sends a message. A request is a pending response under its id then, and the servers that it was sent to are written; a response is gone,
 * and 0 is written. Refused with RR_SEND_*, the message is released. RR_UNKNOWN, RR_WRONG_KIND, RR_SEND_*. */
uint32_t rr_send(rr_hub_t *hub, const rr_id_t *message, size_t *servers);
/* Loans a message of as many bytes as these, copies them to it and sends it: a request of a client, or a response of an active request.
 * Writes its id, and the servers that a request was sent to; a response is gone, and 0 is written. Refused with RR_SEND_*, the message is
 * released, and has taken a number. RR_UNKNOWN, RR_WRONG_KIND, RR_NUMBERS_EXHAUSTED, RR_LOAN_*, RR_SEND_*. */
uint32_t rr_send_copy(rr_hub_t *hub, const rr_id_t *from, const uint8_t *payload, size_t len, rr_id_t *message, size_t *servers);

/* Receives a request of a server, or a response of a pending response. RR_NOTHING if none is queued; a server has dropped the requests
 * then that no client waits for. RR_UNKNOWN, RR_WRONG_KIND, RR_NUMBERS_EXHAUSTED, RR_RECEIVE_*. */
uint32_t rr_receive(rr_hub_t *hub, const rr_id_t *from, rr_id_t *received);
/* Receives a request or a response, and writes where its payload lies: `rr_receive` and `rr_payload` in one call, with the codes of the
 * first. RR_NOTHING, RR_UNKNOWN, RR_WRONG_KIND, RR_NUMBERS_EXHAUSTED, RR_RECEIVE_*. */
uint32_t rr_receive_in_place(rr_hub_t *hub, const rr_id_t *from, rr_id_t *received, const uint8_t **at, size_t *len);
/* Writes whether anything is queued for a server or a pending response. For a server that may be a request that no client waits for, which
 * a receive drops. RR_UNKNOWN, RR_WRONG_KIND. */
uint32_t rr_has_entries(rr_hub_t *hub, const rr_id_t *from, bool *has_entries);
/* Writes whether a pending response waits for a server, or an active request for its client. RR_UNKNOWN, RR_WRONG_KIND. */
uint32_t rr_is_connected(rr_hub_t *hub, const rr_id_t *handle, bool *is_connected);
/* Writes how many queues took a request as it was sent. RR_UNKNOWN, RR_WRONG_KIND. */
uint32_t rr_number_of_server_connections(rr_hub_t *hub, const rr_id_t *pending, size_t *servers);
/* Tells the servers that the client wants no more responses. RR_UNKNOWN, RR_WRONG_KIND. */
uint32_t rr_set_disconnect_hint(rr_hub_t *hub, const rr_id_t *pending);
/* Writes whether the client of an active request set the disconnect hint. RR_UNKNOWN, RR_WRONG_KIND. */
uint32_t rr_has_disconnect_hint(rr_hub_t *hub, const rr_id_t *active, bool *has_hint);

/* Writes where the payload of a message lies, as far as it was written, to be read until the message is sent or released.
 * RR_UNKNOWN, RR_WRONG_KIND. */
uint32_t rr_payload(rr_hub_t *hub, const rr_id_t *message, const uint8_t **at, size_t *len);
/* Writes a message's header. RR_UNKNOWN, RR_WRONG_KIND. */
uint32_t rr_header(rr_hub_t *hub, const rr_id_t *message, rr_header_t *header);
/* Writes a message's user header. RR_UNKNOWN, RR_WRONG_KIND. */
uint32_t rr_user_header(rr_hub_t *hub, const rr_id_t *message, rr_user_header_t *header);
/* Writes from which port an active request or a response came. RR_UNKNOWN, RR_WRONG_KIND. */
uint32_t rr_origin(rr_hub_t *hub, const rr_id_t *message, uint64_t *port);
/* Releases a port or a handle. RR_UNKNOWN. */
uint32_t rr_release(rr_hub_t *hub, const rr_id_t *id);

/* Loans a message of so many bytes, all 0, which can be sent: `rr_loan_slice_uninit` and `rr_fill`, with the codes of the first. */
static inline uint32_t rr_loan_slice(rr_hub_t *hub, const rr_id_t *from, size_t len, rr_id_t *message) {
    uint32_t code = rr_loan_slice_uninit(hub, from, len, message);
    return code == RR_OK ? rr_fill(hub, message, 0) : code;
}

/* Returns iceoryx2's default limits. */
static inline rr_limits_t rr_limits_default(void) {
    rr_limits_t limits = {8, 2, 2, 4, 2, 2, 128, 128, true, true, true};
    return limits;
}

/* Returns a client's defaults: slots that don't grow, in a pool of the worst-case size; full queues are passed over. */
static inline rr_client_settings_t rr_client_settings_default(size_t initial_max_slice_len) {
    rr_client_settings_t settings = {initial_max_slice_len, 0, RR_BACKPRESSURE_DISCARD_DATA, RR_ALLOCATION_STATIC};
    return settings;
}

/* Returns a server's defaults: as a client's, and one response on loan for a request at one time. */
static inline rr_server_settings_t rr_server_settings_default(size_t initial_max_slice_len) {
    rr_server_settings_t settings = {initial_max_slice_len, 0, 1, RR_BACKPRESSURE_DISCARD_DATA, RR_ALLOCATION_STATIC};
    return settings;
}

/* Returns a code's name. */
static inline const char *rr_code_name(uint32_t code) {
    switch (code) {
    case RR_OK: return "RR_OK";
    case RR_UNKNOWN: return "RR_UNKNOWN";
    case RR_WRONG_KIND: return "RR_WRONG_KIND";
    case RR_NUMBERS_EXHAUSTED: return "RR_NUMBERS_EXHAUSTED";
    case RR_INCOMPLETE: return "RR_INCOMPLETE";
    case RR_WRONG_LENGTH: return "RR_WRONG_LENGTH";
    case RR_NOTHING: return "RR_NOTHING";
    case RR_INVALID_SETTING: return "RR_INVALID_SETTING";
    case RR_CLIENT_CREATE_UNABLE_TO_CREATE_DATA_SEGMENT: return "RR_CLIENT_CREATE_UNABLE_TO_CREATE_DATA_SEGMENT";
    case RR_CLIENT_CREATE_EXCEEDS_MAX_SUPPORTED_CLIENTS: return "RR_CLIENT_CREATE_EXCEEDS_MAX_SUPPORTED_CLIENTS";
    case RR_CLIENT_CREATE_UNABLE_TO_CREATE_PORT_TAG: return "RR_CLIENT_CREATE_UNABLE_TO_CREATE_PORT_TAG";
    case RR_SERVER_CREATE_EXCEEDS_MAX_SUPPORTED_SERVERS: return "RR_SERVER_CREATE_EXCEEDS_MAX_SUPPORTED_SERVERS";
    case RR_SERVER_CREATE_UNABLE_TO_CREATE_DATA_SEGMENT: return "RR_SERVER_CREATE_UNABLE_TO_CREATE_DATA_SEGMENT";
    case RR_SERVER_CREATE_UNABLE_TO_CREATE_PORT_TAG: return "RR_SERVER_CREATE_UNABLE_TO_CREATE_PORT_TAG";
    case RR_LOAN_OUT_OF_MEMORY: return "RR_LOAN_OUT_OF_MEMORY";
    case RR_LOAN_EXCEEDS_MAX_LOANS: return "RR_LOAN_EXCEEDS_MAX_LOANS";
    case RR_LOAN_EXCEEDS_MAX_LOAN_SIZE: return "RR_LOAN_EXCEEDS_MAX_LOAN_SIZE";
    case RR_SEND_UNABLE_TO_DELIVER: return "RR_SEND_UNABLE_TO_DELIVER";
    case RR_SEND_EXCEEDS_MAX_ACTIVE_REQUESTS: return "RR_SEND_EXCEEDS_MAX_ACTIVE_REQUESTS";
    case RR_RECEIVE_EXCEEDS_MAX_BORROWS: return "RR_RECEIVE_EXCEEDS_MAX_BORROWS";
    case RR_HUB_CREATE_ZERO_LIMIT: return "RR_HUB_CREATE_ZERO_LIMIT";
    case RR_HUB_CREATE_LIMITS_TOO_LARGE: return "RR_HUB_CREATE_LIMITS_TOO_LARGE";
    case RR_HUB_CREATE_OUT_OF_MEMORY: return "RR_HUB_CREATE_OUT_OF_MEMORY";
    default: return "no code of rr";
    }
}
#ifdef __cplusplus
}
#endif
#endif
