/* Refuses memory: in each run the allocator refuses one request, the first in the first run, and so on until a run asks for less. The
 * call that meets the refusal answers its code and has changed nothing: made again it succeeds, and the exchange goes on. */
#include "check.h"
#include <errno.h>

extern void *__libc_malloc(size_t);
extern void *__libc_calloc(size_t, size_t);
extern void *__libc_realloc(void *, size_t);
extern void *__libc_memalign(size_t, size_t);
extern void __libc_free(void *);

/* How many requests came in this run, which one is refused (none: 0), whether it came, and how many blocks live. */
static long requests, refused, live;
static bool was_refused;

/* Counts a request, and returns whether it is the refused one. */
static bool is_refused(void) {
    requests++;
    if (requests != refused)
        return false;
    was_refused = true;
    errno = ENOMEM;
    return true;
}

/* Counts a block that was given. */
static void *given(void *block) {
    live += block != NULL;
    return block;
}

void *malloc(size_t size) {
    return is_refused() ? NULL : given(__libc_malloc(size));
}

void *calloc(size_t count, size_t size) {
    return is_refused() ? NULL : given(__libc_calloc(count, size));
}

void *aligned_alloc(size_t alignment, size_t size) {
    return is_refused() ? NULL : given(__libc_memalign(alignment, size));
}

void *realloc(void *old, size_t size) {
    if (is_refused())
        return NULL;
    void *block = __libc_realloc(old, size);
    live += (old == NULL && block != NULL);
    return block;
}

void free(void *block) {
    live -= block != NULL;
    __libc_free(block);
}

/* What a run has. */
typedef struct {
    rr_limits_t limits;
    rr_client_settings_t client_settings;
    rr_server_settings_t server_settings;
    rr_hub_t hub;
    rr_id_t client, server, request, active, response;
    long refusals;
} run_t;

enum { SMALL = 8, LONG = 100 };

static uint32_t create_hub(run_t *run) {
    return rr_hub_create(&run->limits, 7, &run->hub.at);
}

static uint32_t create_client(run_t *run) {
    return rr_client_create(&run->hub, &run->client_settings, &run->client);
}

static uint32_t create_server(run_t *run) {
    return rr_server_create(&run->hub, &run->server_settings, &run->server);
}

static uint32_t loan_request(run_t *run) {
    return rr_loan_slice_uninit(&run->hub, &run->client, LONG, &run->request);
}

static uint32_t loan_response(run_t *run) {
    return rr_loan_slice_uninit(&run->hub, &run->active, LONG, &run->response);
}

/* Makes a call that may be refused memory, and makes it again if it was. */
static void call(run_t *run, uint32_t (*step)(run_t *), uint32_t refusal) {
    bool before = was_refused;
    long blocks = live;
    uint32_t code = step(run);
    if (was_refused && !before) {
        GIVES(refusal, code);

        // A hub may keep room that the call had got before. Where there is none yet, nobody keeps any.
        HOLDS(live == blocks || step != create_hub);
        run->refusals++;
        code = step(run);
    }
    TRY(code);
}

/* Writes a message in full and sends it. */
static void send_filled(run_t *run, const rr_id_t *message, uint8_t byte) {
    size_t servers;
    TRY(rr_fill(&run->hub, message, byte));
    TRY(rr_send(&run->hub, message, &servers));
}

static bool is_filled(run_t *run, const rr_id_t *message, uint8_t byte) {
    uint8_t wanted[LONG];
    memset(wanted, byte, LONG);
    return has_bytes(&run->hub, message, wanted, LONG);
}

/* Creates a hub and its ports, and makes an exchange of slices that are longer than the slots. Returns how many calls were refused. */
static long exchange(void) {
    run_t run;
    run.limits = small_limits();
    run.client_settings = rr_client_settings_default(SMALL);
    run.server_settings = rr_server_settings_default(SMALL);
    run.client_settings.allocation_strategy = RR_ALLOCATION_POWER_OF_TWO;
    run.server_settings.allocation_strategy = RR_ALLOCATION_BEST_FIT;
    run.refusals = 0;
    call(&run, create_hub, RR_HUB_CREATE_OUT_OF_MEMORY);
    call(&run, create_client, RR_CLIENT_CREATE_UNABLE_TO_CREATE_DATA_SEGMENT);
    call(&run, create_server, RR_SERVER_CREATE_UNABLE_TO_CREATE_DATA_SEGMENT);
    HOLDS(run.client.number == 0 && run.server.number == 1);
    call(&run, loan_request, RR_LOAN_OUT_OF_MEMORY);
    send_filled(&run, &run.request, 3);
    run.active = receive(&run.hub, &run.server);
    HOLDS(is_filled(&run, &run.active, 3));
    call(&run, loan_response, RR_LOAN_OUT_OF_MEMORY);
    send_filled(&run, &run.response, 4);
    run.response = receive(&run.hub, &run.request);
    HOLDS(is_filled(&run, &run.response, 4));
    TRY(rr_release(&run.hub, &run.response));
    TRY(rr_release(&run.hub, &run.active));
    TRY(rr_release(&run.hub, &run.request));
    rr_hub_drop(run.hub);
    return run.refusals;
}

int main(void) {
    long run = 0, refusals = 0, blocks = live;
    do {
        run++;
        requests = 0;
        refused = run;
        was_refused = false;
        long came = exchange();

        // A refusal is met by one of the five calls, and by no other.
        HOLDS(came == (was_refused ? 1 : 0));
        HOLDS(live == blocks);
        refusals += came;
    } while (was_refused);
    refused = 0;
    HOLDS(has_come[RR_HUB_CREATE_OUT_OF_MEMORY] && has_come[RR_CLIENT_CREATE_UNABLE_TO_CREATE_DATA_SEGMENT]);
    HOLDS(has_come[RR_SERVER_CREATE_UNABLE_TO_CREATE_DATA_SEGMENT] && has_come[RR_LOAN_OUT_OF_MEMORY]);
    printf("%ld requests for memory were refused, one in each run\n", refusals);
    return 0;
}
