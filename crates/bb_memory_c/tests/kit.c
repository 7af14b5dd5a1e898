// Tests of kit.c and kit_program.c, also if there is no memory.
#define _POSIX_C_SOURCE 200809L

#include <errno.h>
#include <signal.h>
#include <stdbool.h>
#include <stdint.h>
#include <stdio.h>
#include <stdlib.h>
#include <string.h>

// The C library's functions, through which both files call here. They fail if there is no memory,
// and note the size that was requested.
static bool has_memory = true;
static size_t requested;

static void *try_malloc(size_t size) {
    requested = size;
    return has_memory ? malloc(size) : NULL;
}

static void *try_realloc(void *block, size_t size) {
    requested = size;
    return has_memory ? realloc(block, size) : NULL;
}

#define malloc try_malloc
#define realloc try_realloc
#define nothing nothing_of_kit
#include "../kit.c"
#undef nothing
#include "../kit_program.c"

static void expect(bool holds, const char *what, int line) {
    if (!holds) {
        fprintf(stderr, "kit: line %d: not so: %s\n", line, what);
        exit(1);
    }
}

#define EXPECT(holds) expect(holds, #holds, __LINE__)

int main(void) {
    // A block of no bytes gets those of its alignment, since NULL is no block.
    const struct tried none = rattle_alloc(0, 8);
    EXPECT(none.ok && none.place != NULL && requested == 8);
    rattle_dealloc(none.place);

    // A block keeps its bytes when it grows, and when it can't.
    struct tried block = rattle_alloc(5, 1);
    EXPECT(block.ok && requested == 5 && (uintptr_t)block.place % 16 == 0);
    memcpy(block.place, "five", 5);
    block = rattle_realloc(block.place, 5, 5000, 1);
    EXPECT(block.ok && requested == 5000 && strcmp(block.place, "five") == 0);
    has_memory = false;
    const struct tried refused = rattle_realloc(block.place, 5, 10000, 1);
    EXPECT(!refused.ok && refused.place != NULL && strcmp(block.place, "five") == 0);
    const struct tried other = rattle_alloc(1, 1);
    EXPECT(!other.ok && other.place != NULL);
    has_memory = true;
    block = rattle_realloc(block.place, 0, 0, 4);
    EXPECT(block.ok && requested == 4);
    rattle_dealloc(block.place);

    errno = EPIPE;
    EXPECT(rattle_errno() == EPIPE);

    // A signal that is ignored does nothing. No handler can be set for SIGKILL.
    EXPECT(kit_signal(SIGPIPE, SIG_IGN) == SIG_DFL);
    EXPECT(raise(SIGPIPE) == 0);
    EXPECT(kit_signal(SIGPIPE, SIG_DFL) == SIG_IGN);
    EXPECT(kit_signal(SIGKILL, SIG_IGN) == SIG_ERR);
    return 0;
}
