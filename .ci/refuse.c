// Makes requests for memory fail in the program into which it is loaded, in one of two ways.
//
// REFUSE_AT=N makes the Nth request fail. If that request never came and the program succeeded, the
// exit status is 99.
//
// REFUSE_MARKED=1 makes each request between two marks fail. Marks are requests for sizes that no
// other request has. The first mark fails, and so does each request after it. The second mark ends
// that, and fails exactly if a request came between the two. A third mark between them fails
// exactly if nothing, not even a granted mark, was freed since the first one. So a test learns from
// the results of the marks what happened in between. If the program requested the first two and
// succeeded, the exit status is 98.
//
// In both ways, a fourth mark fails exactly if a request that isn't a mark failed before it.
// Without REFUSE_MARKED the other three marks succeed, so a test that requests them can also run
// with ample memory. No mark counts as a request.
#define _GNU_SOURCE
#include <stdlib.h>
#include <sys/syscall.h>
#include <unistd.h>

enum {
    FIRST_MARK = 100003,
    SECOND_MARK = 100019,
    FREED_MARK = 100043,
    REFUSED_MARK = 100049
};

extern void *__libc_malloc(size_t size);
extern void *__libc_calloc(size_t count, size_t size);
extern void *__libc_realloc(void *block, size_t size);
extern void __libc_free(void *block);

// The settings from the environment.
static long refuse_at;
static int marked;

// The state so far.
static long requested;
static int refused;
static int between_marks;
static int met_both;
static long requested_between;
static long freed_between;

static int status_of_success(void) {
    if (refuse_at != 0 && !refused)
        return 99;
    return met_both ? 98 : 0;
}

// A program with threads ends by this call; any other program returns from main.
void _exit(int status) {
    for (;;)
        syscall(SYS_exit_group, status != 0 ? status : status_of_success());
}

static void end(int status, void *unused) {
    (void)unused;
    _exit(status);
}

__attribute__((constructor)) static void begin(void) {
    const char *nth = getenv("REFUSE_AT");
    refuse_at = nth != NULL ? atol(nth) : 0;
    marked = getenv("REFUSE_MARKED") != NULL;
    on_exit(end, NULL);
}

static int is_mark(size_t size) {
    switch (size) {
    case FIRST_MARK:
    case SECOND_MARK:
    case FREED_MARK:
    case REFUSED_MARK: return 1;
    default: return 0;
    }
}

// Returns whether this request is the Nth one, and counts it.
static int refuses_nth(size_t size) {
    if (is_mark(size) || refuse_at == 0)
        return 0;
    if (__atomic_add_fetch(&requested, 1, __ATOMIC_SEQ_CST) != refuse_at)
        return 0;
    refused = 1;
    return 1;
}

// Returns whether this request fails because of the marks, and keeps track of the marks.
static int refuses_between(size_t size) {
    switch (size) {
    case FIRST_MARK:
        requested_between = 0;
        freed_between = 0;
        between_marks = 1;
        return 1;
    case FREED_MARK: return freed_between == 0;
    case SECOND_MARK:
        met_both = met_both || between_marks;
        between_marks = 0;
        return requested_between != 0;
    default: break;
    }
    if (!between_marks)
        return 0;
    __atomic_add_fetch(&requested_between, 1, __ATOMIC_SEQ_CST);
    refused = 1;
    return 1;
}

static int refuses(size_t size) {
    if (size == REFUSED_MARK)
        return refused;
    return marked ? refuses_between(size) : refuses_nth(size);
}

void *malloc(size_t size) {
    return refuses(size) ? NULL : __libc_malloc(size);
}

void *calloc(size_t count, size_t size) {
    return refuses(count * size) ? NULL : __libc_calloc(count, size);
}

void *realloc(void *block, size_t size) {
    return refuses(size) ? NULL : __libc_realloc(block, size);
}

void free(void *block) {
    if (block != NULL && between_marks)
        __atomic_add_fetch(&freed_between, 1, __ATOMIC_SEQ_CST);
    __libc_free(block);
}
