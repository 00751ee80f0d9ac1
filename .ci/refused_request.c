/* Preloaded into a program, it refuses one of its requests for memory: the one whose number, counted from 1, the word
   REFUSED of the environment has. Then it says so on the standard error. */
#include <errno.h>
#include <stdatomic.h>
#include <stdlib.h>
#include <unistd.h>

void *__libc_malloc(size_t size);
void *__libc_realloc(void *block, size_t size);

static atomic_long requests;
static long refused;

__attribute__((constructor)) static void begin(void) {
    const char *number = getenv("REFUSED");
    refused = number ? atol(number) : 0;
    atomic_store(&requests, 0);
}

static int is_refused(void) {
    if (atomic_fetch_add(&requests, 1) + 1 != refused)
        return 0;
    if (write(2, "refused\n", 8) != 8)
        abort();
    errno = ENOMEM;
    return 1;
}

void *malloc(size_t size) {
    return is_refused() ? NULL : __libc_malloc(size);
}

void *realloc(void *block, size_t size) {
    return is_refused() ? NULL : __libc_realloc(block, size);
}
