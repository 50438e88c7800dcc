/* Times round trips. A line is `c BYTES NANOSECONDS TRIPS`, the best of the samples, where payloads are written and read in place, and
 * `c-copy ..` where they are written elsewhere, and sent as copies by one call. Each trip checks that the answer is the question plus one.
 */
#define _POSIX_C_SOURCE 200809L
#include "check.h"
#include <time.h>

enum { SAMPLES = 15, WORD = sizeof(uint64_t), LARGEST = 65536 };

/* Sends a message in which each word is this one, of a client or of an active request, and writes its id. */
typedef void (*sender_t)(rr_hub_t *hub, const rr_id_t *from, size_t len, uint64_t word, rr_id_t *message);

static void write_words(uint64_t *words, size_t len, uint64_t word) {
    for (size_t index = 0; index < len / WORD; index++)
        words[index] = word;
}

static void send_in_place(rr_hub_t *hub, const rr_id_t *from, size_t len, uint64_t word, rr_id_t *message) {
    uint8_t *at;
    size_t found, servers;
    TRY(rr_loan_slice_uninit(hub, from, len, message));
    TRY(rr_payload_mut(hub, message, &at, &found));
    HOLDS(found == len);
    write_words((uint64_t *)(void *)at, len, word);
    TRY(rr_send(hub, message, &servers));
}

static void send_copy(rr_hub_t *hub, const rr_id_t *from, size_t len, uint64_t word, rr_id_t *message) {
    static uint64_t words[LARGEST / WORD];
    size_t servers;
    write_words(words, len, word);
    TRY(rr_send_copy(hub, from, (const uint8_t *)words, len, message, &servers));
}

static uint64_t last_word(rr_hub_t *hub, const rr_id_t *message) {
    const uint8_t *at;
    size_t len;
    uint64_t word;
    TRY(rr_payload(hub, message, &at, &len));
    memcpy(&word, at + len - WORD, WORD);
    return word;
}

/* Asks with a word, answers with the next one, and returns the answer. */
static uint64_t round_trip(rr_hub_t *hub, const rr_id_t *client, const rr_id_t *server, size_t len, uint64_t word, sender_t send) {
    rr_id_t request, active, response;
    send(hub, client, len, word, &request);
    TRY(rr_receive(hub, server, &active));
    send(hub, &active, len, last_word(hub, &active) + 1, &response);
    TRY(rr_release(hub, &active));
    TRY(rr_receive(hub, &request, &response));
    uint64_t answer = last_word(hub, &response);
    TRY(rr_release(hub, &response));
    TRY(rr_release(hub, &request));
    return answer;
}

static double now(void) {
    struct timespec time;
    HOLDS(clock_gettime(CLOCK_MONOTONIC, &time) == 0);
    return (double)time.tv_sec * 1e9 + (double)time.tv_nsec;
}

static void measure(const char *name, size_t len, int trips, sender_t send) {
    rr_limits_t limits = small_limits();
    rr_hub_t hub = new_hub(&limits);
    rr_id_t client = new_client(&hub, len), server = new_server(&hub, len);
    uint64_t word = 0;
    double best = 0;
    for (int sample = 0; sample < SAMPLES; sample++) {
        double start = now();
        for (int trip = 0; trip < trips; trip++)
            word = round_trip(&hub, &client, &server, len, word, send);
        double taken = (now() - start) / trips;
        best = sample == 0 || taken < best ? taken : best;
    }
    HOLDS(word == (uint64_t)SAMPLES * (uint64_t)trips);
    printf("%s %zu %.1f %d\n", name, len, best, trips);
    rr_hub_drop(hub);
}

int main(void) {
    static const struct {
        size_t len;
        int trips;
    } SIZES[] = {{8, 20000}, {4096, 1000}, {LARGEST, 50}};
    for (size_t at = 0; at < sizeof SIZES / sizeof *SIZES; at++) {
        measure("c", SIZES[at].len, SIZES[at].trips, send_in_place);
        measure("c-copy", SIZES[at].len, SIZES[at].trips, send_copy);
    }
    return 0;
}
