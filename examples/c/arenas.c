// An arena for each thread: a bump over a chunk of the bump that all threads share. A request to an
// arena makes no step that other threads see. A thread whose arena is full allocates another chunk
// of the shared bump, and begins a new arena in it.
#define _POSIX_C_SOURCE 200809L
#include <pthread.h>
#include <stdint.h>
#include <stdio.h>
#include <stdlib.h>
#include <string.h>

#include "bb_memory.h"

enum {
    THREADS = 4,
    ARENA = 4096,
    ARENAS = 16,
    RECORDS = 1000,
    MOST = 64
};

static uint64_t region[(size_t)THREADS * ARENAS * ARENA / 8];

static void expect(int holds, const char *what) {
    if (!holds) {
        fprintf(stderr, "arenas: not so: %s\n", what);
        exit(1);
    }
}

typedef struct {
    bb_bump_party party;
    bb_bump arena;
    unsigned char *records[RECORDS];
} worker;

static size_t length_of(size_t number) {
    return 1 + number * 31 % MOST;
}

// Begins a new arena over a chunk of the shared bump. The chunks of the old arena stay in use.
static void begin_arena(worker *self) {
    bb_chunk chunk = bb_bump_party_allocate(&self->party, ARENA, 64);
    expect(chunk.code == BB_OK, "the shared bump has room for each arena");
    bb_bump_destroy(&self->arena);
    expect(bb_bump_init(&self->arena, chunk.place, ARENA) == BB_OK,
           "an arena is made over a chunk");
}

static void *allocate(worker *self, size_t size) {
    bb_chunk given = bb_bump_allocate(&self->arena, size, 8);
    if (given.code == BB_OUT_OF_MEMORY) {
        begin_arena(self);
        given = bb_bump_allocate(&self->arena, size, 8);
    }
    expect(given.code == BB_OK, "a fresh arena has room");
    return given.place;
}

static void *work(void *argument) {
    worker *self = (worker *)argument;
    begin_arena(self);
    for (size_t number = 0; number < RECORDS; number++) {
        self->records[number] = (unsigned char *)allocate(self, length_of(number));
        memset(self->records[number], (int)(number % 256), length_of(number));
    }
    for (size_t number = 0; number < RECORDS; number++)
        for (size_t at = 0; at < length_of(number); at++)
            expect(self->records[number][at] == number % 256, "each record is as it was written");
    return NULL;
}

int main(void) {
    static worker workers[THREADS];
    pthread_t threads[THREADS];
    bb_shared_bump shared = BB_EMPTY;
    expect(bb_shared_bump_init(&shared, region, sizeof region, THREADS) == BB_OK,
           "a bump is shared");
    for (size_t number = 0; number < THREADS; number++) {
        expect(bb_shared_bump_join(&shared, &workers[number].party) == BB_OK, "a party joins");
        expect(pthread_create(&threads[number], NULL, work, &workers[number]) == 0,
               "a thread starts");
    }
    for (size_t number = 0; number < THREADS; number++) {
        pthread_join(threads[number], NULL);
        expect(bb_shared_bump_leave(&shared, &workers[number].party) == BB_OK, "a party leaves");
        expect(bb_bump_destroy(&workers[number].arena) == BB_OK, "an arena is freed");
    }
    expect(bb_shared_bump_destroy(&shared) == BB_OK, "the bump is freed");
    printf("arenas: %d threads wrote %d records each\n", THREADS, RECORDS);
    return 0;
}
