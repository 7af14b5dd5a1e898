// The functions that compiled Rattle programs need besides those of kit.c: kit.h.

// For `sigaction` in C99.
#define _POSIX_C_SOURCE 200809L

#include "kit.h"

#include <errno.h>
#include <signal.h>
#include <stdlib.h>

static char nothing;

struct tried rattle_realloc(void *block, size_t kept, size_t size, size_t align) {
    (void)kept;
    void *moved = realloc(block, size != 0 ? size : align);
    if (moved == NULL)
        return (struct tried){false, &nothing};
    return (struct tried){true, moved};
}

int rattle_errno(void) {
    return errno;
}

signal_handler *kit_signal(int number, signal_handler *to) {
    const struct sigaction action = {.sa_handler = to};
    struct sigaction before;
    if (sigaction(number, &action, &before) != 0)
        return SIG_ERR;
    return before.sa_handler;
}
