/* Two threads hand one hub to each other under a mutex: a client asks in one, and a server answers in the other. */
#include "check.h"
#include <pthread.h>

enum { TURNS = 10000 };

/* What the threads share. Whoever's turn it is has the hub. */
typedef struct {
    pthread_mutex_t lock;
    pthread_cond_t has_changed;
    bool is_servers_turn;
    rr_hub_t hub;
    rr_id_t client, server;
    uint64_t sum;
} shared_t;

/* Waits for this thread's turn, and takes the lock. */
static void begin_turn(shared_t *shared, bool is_server) {
    HOLDS(pthread_mutex_lock(&shared->lock) == 0);
    while (shared->is_servers_turn != is_server)
        HOLDS(pthread_cond_wait(&shared->has_changed, &shared->lock) == 0);
}

/* Gives the turn and the lock away. */
static void end_turn(shared_t *shared, bool is_server) {
    shared->is_servers_turn = !is_server;
    HOLDS(pthread_cond_signal(&shared->has_changed) == 0);
    HOLDS(pthread_mutex_unlock(&shared->lock) == 0);
}

static uint32_t number_in(rr_hub_t *hub, const rr_id_t *message) {
    const uint8_t *at;
    size_t len;
    uint32_t number;
    TRY(rr_payload(hub, message, &at, &len));
    HOLDS(len == sizeof number);
    memcpy(&number, at, sizeof number);
    return number;
}

static void *serve(void *argument) {
    shared_t *shared = (shared_t *)argument;
    for (uint32_t turn = 0; turn < TURNS; turn++) {
        begin_turn(shared, true);
        rr_id_t active = receive(&shared->hub, &shared->server);
        uint32_t answer = number_in(&shared->hub, &active) + 1;
        send_bytes(&shared->hub, &active, &answer, sizeof answer);
        TRY(rr_release(&shared->hub, &active));
        end_turn(shared, true);
    }
    return NULL;
}

static void *ask(void *argument) {
    shared_t *shared = (shared_t *)argument;
    for (uint32_t turn = 0; turn < TURNS; turn++) {
        begin_turn(shared, false);
        rr_id_t pending = send_bytes(&shared->hub, &shared->client, &turn, sizeof turn);
        end_turn(shared, false);
        begin_turn(shared, false);
        rr_id_t response = receive(&shared->hub, &pending);
        uint32_t answer = number_in(&shared->hub, &response);
        HOLDS(answer == turn + 1);
        shared->sum += answer;
        TRY(rr_release(&shared->hub, &response));
        TRY(rr_release(&shared->hub, &pending));

        // The turn stays here: the next request follows.
        HOLDS(pthread_mutex_unlock(&shared->lock) == 0);
    }
    return NULL;
}

int main(void) {
    static shared_t shared = {PTHREAD_MUTEX_INITIALIZER, PTHREAD_COND_INITIALIZER, false, {NULL}, {0, 0, 0}, {0, 0, 0}, 0};
    rr_limits_t limits = small_limits();
    pthread_t asking, serving;
    shared.hub = new_hub(&limits);
    shared.client = new_client(&shared.hub, sizeof(uint32_t));
    shared.server = new_server(&shared.hub, sizeof(uint32_t));
    HOLDS(pthread_create(&asking, NULL, ask, &shared) == 0);
    HOLDS(pthread_create(&serving, NULL, serve, &shared) == 0);
    HOLDS(pthread_join(asking, NULL) == 0);
    HOLDS(pthread_join(serving, NULL) == 0);
    HOLDS(shared.sum == (uint64_t)TURNS * (TURNS + 1) / 2);
    rr_hub_drop(shared.hub);
    printf("%d turns of two threads\n", TURNS);
    return 0;
}
