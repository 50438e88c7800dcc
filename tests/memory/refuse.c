/* Refuses one request for memory: the one whose number, counted from 1, the variable REFUSE holds. Preloaded before the C library.
 * Writes one byte to the descriptor that the variable REFUSED_TO holds when it has refused it. */
#include <errno.h>
#include <stdatomic.h>
#include <stddef.h>
#include <stdlib.h>
#include <unistd.h>

extern void *__libc_malloc(size_t);
extern void *__libc_calloc(size_t, size_t);
extern void *__libc_realloc(void *, size_t);
extern void *__libc_memalign(size_t, size_t);

static atomic_long requests;
static long refused;
static int told_to;

static long number_in(const char *name) {
    const char *word = getenv(name);
    return word ? strtol(word, NULL, 10) : 0;
}

__attribute__((constructor)) static void begin(void) {
    refused = number_in("REFUSE");
    told_to = (int)number_in("REFUSED_TO");
    atomic_store(&requests, 0);
}

/* Counts a request, and returns whether it is the refused one. */
static int is_refused(void) {
    if (atomic_fetch_add(&requests, 1) + 1 != refused)
        return 0;
    if (write(told_to, "x", 1) != 1)
        _exit(99);
    errno = ENOMEM;
    return 1;
}

void *malloc(size_t size) {
    return is_refused() ? NULL : __libc_malloc(size);
}

void *calloc(size_t count, size_t size) {
    return is_refused() ? NULL : __libc_calloc(count, size);
}

void *realloc(void *old, size_t size) {
    return is_refused() ? NULL : __libc_realloc(old, size);
}

void *aligned_alloc(size_t alignment, size_t size) {
    return is_refused() ? NULL : __libc_memalign(alignment, size);
}
