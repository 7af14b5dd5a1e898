// Keeps each thread that a program starts on a processor of its own. The linker has the program
// call this function instead of `pthread_create`. Threads that begin together are started in turn,
// so they are spread over all processors.
#include "pin.h"
#include <pthread.h>
#include <stdatomic.h>
#include <stdlib.h>

int __real_pthread_create(pthread_t *id, const pthread_attr_t *attributes, void *(*work)(void *),
                          void *argument);

static pthread_once_t once = PTHREAD_ONCE_INIT;
static atomic_uint started;

typedef struct {
    void *(*work)(void *);
    void *argument;
    unsigned number;
} start;

static void *pinned(void *argument) {
    const start own = *(start *)argument;
    free(argument);
    keep_on_a_processor(own.number);
    return own.work(own.argument);
}

int __wrap_pthread_create(pthread_t *id, const pthread_attr_t *attributes, void *(*work)(void *),
                          void *argument) {
    start *its = malloc(sizeof *its);
    if (!its)
        abort();
    pthread_once(&once, find_processors);
    *its = (start){work, argument, atomic_fetch_add(&started, 1)};
    return __real_pthread_create(id, attributes, pinned, its);
}
