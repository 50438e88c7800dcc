/* Two threads share a hub under a lock. A client asks for the double of a number, and then for a stream, which it ends after five
 * responses. A server waits for the requests, and answers. */
#include "rr.h"
#include <pthread.h>
#include <stdio.h>
#include <stdlib.h>
#include <string.h>

enum { ENOUGH = 5 };

/* What the threads share. Each call is made under the lock, and each change wakes who waits. */
static struct {
    pthread_mutex_t lock;
    pthread_cond_t has_changed;
    rr_hub_t hub;
} shared = {PTHREAD_MUTEX_INITIALIZER, PTHREAD_COND_INITIALIZER, {NULL}};

/* Ends the program unless a call returned RR_OK. */
static void must(uint32_t code) {
    if (code != RR_OK) {
        fprintf(stderr, "%s\n", rr_code_name(code));
        exit(1);
    }
}

/* Gives the lock back, and wakes who waits. */
static void unlock(void) {
    pthread_cond_broadcast(&shared.has_changed);
    pthread_mutex_unlock(&shared.lock);
}

static rr_id_t send_number(const rr_id_t *from, uint64_t number) {
    uint8_t bytes[sizeof number];
    rr_id_t message;
    size_t servers;
    memcpy(bytes, &number, sizeof number);
    pthread_mutex_lock(&shared.lock);
    must(rr_send_copy(&shared.hub, from, bytes, sizeof bytes, &message, &servers));
    unlock();
    return message;
}

/* Waits for a message, and reads its number. */
static rr_id_t receive_number(const rr_id_t *from, uint64_t *number) {
    const uint8_t *at;
    size_t len;
    rr_id_t received;
    uint32_t code;
    pthread_mutex_lock(&shared.lock);
    while ((code = rr_receive_in_place(&shared.hub, from, &received, &at, &len)) == RR_NOTHING)
        pthread_cond_wait(&shared.has_changed, &shared.lock);
    must(code);
    unlock();
    memcpy(number, at, sizeof *number);
    return received;
}

static void release(const rr_id_t *id) {
    pthread_mutex_lock(&shared.lock);
    must(rr_release(&shared.hub, id));
    unlock();
}

/* Waits until the client wants no more responses, or has room for another one. Returns whether it has. */
static bool wants_more(const rr_id_t *active) {
    bool has_enough = false, has_room = false;
    rr_id_t response;
    pthread_mutex_lock(&shared.lock);
    must(rr_loan_slice(&shared.hub, active, sizeof(uint64_t), &response));
    for (;;) {
        must(rr_has_disconnect_hint(&shared.hub, active, &has_enough));
        must(rr_is_deliverable(&shared.hub, &response, &has_room));
        if (has_enough || has_room)
            break;
        pthread_cond_wait(&shared.has_changed, &shared.lock);
    }
    must(rr_release(&shared.hub, &response));
    unlock();
    return !has_enough;
}

/* Answers the first request with twice its number, and the second one until its client has enough. */
static void *serve(void *argument) {
    const rr_id_t *server = argument;
    uint64_t number;
    rr_id_t active = receive_number(server, &number);
    send_number(&active, 2 * number);
    release(&active);

    active = receive_number(server, &number);
    for (uint64_t turn = 1; wants_more(&active); turn++)
        send_number(&active, number * turn);
    release(&active);
    return NULL;
}

static void ask(const rr_id_t *client) {
    uint64_t number;
    rr_id_t pending = send_number(client, 21);
    rr_id_t response = receive_number(&pending, &number);
    printf("the double of 21 is %llu\n", (unsigned long long)number);
    release(&response);
    release(&pending);

    pending = send_number(client, 10);
    for (int turn = 0; turn < ENOUGH; turn++) {
        response = receive_number(&pending, &number);
        printf("%llu\n", (unsigned long long)number);
        release(&response);
    }
    pthread_mutex_lock(&shared.lock);
    must(rr_set_disconnect_hint(&shared.hub, &pending));
    unlock();
}

int main(void) {
    rr_limits_t limits = rr_limits_default();
    rr_client_settings_t client_settings = rr_client_settings_default(sizeof(uint64_t));
    rr_server_settings_t server_settings = rr_server_settings_default(sizeof(uint64_t));
    rr_id_t client, server;
    pthread_t serving;
    limits.enable_safe_overflow_for_responses = false; /* no response is dropped */
    server_settings.backpressure_strategy = RR_BACKPRESSURE_RETRY_UNTIL_DELIVERED;
    must(rr_hub_create(&limits, 1, &shared.hub.at));
    must(rr_client_create(&shared.hub, &client_settings, &client));
    must(rr_server_create(&shared.hub, &server_settings, &server));
    if (pthread_create(&serving, NULL, serve, &server) != 0)
        return 1;
    ask(&client);
    pthread_join(serving, NULL);
    puts("the server has stopped");
    rr_hub_drop(shared.hub); /* the ports go with it */
    return 0;
}
