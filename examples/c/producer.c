// Sends COUNT messages to any number of consumers through a queue in a file: `producer FILE COUNT`.
// Start producers and consumers in any order, up to the number of parties, and kill any of them
// with `kill -9`: no bucket is lost, and each message that was posted is received. With one
// consumer at a time, the messages of each producer come in order.
#include <stdio.h>
#include <stdlib.h>
#include <unistd.h>

#include "bb_pool_file.h"

// Buckets of 256 bytes at multiples of 64: 1,000 of them, for 16 parties, with a queue that has
// room for 100 messages.
static const bb_pool_file_options OPTIONS = {.bucket_size = 256,
                                             .bucket_align = 64,
                                             .buckets = 1000,
                                             .parties = 16,
                                             .slots = 1,
                                             .depth = 100,
                                             .mode = 0600,
                                             .user_bytes = 0};

// The queue.
static const uint32_t SLOT = 0;

// Frees what dead processes hold if a wait timed out. Returns the code of the reap, or of the wait.
static uint32_t reap_if_timed_out(bb_pool_file *file, uint32_t waited) {
    return waited == BB_FILE_TIMED_OUT ? bb_pool_file_reap(file, BB_REAP_HELD, NULL) : waited;
}

// Allocates a bucket. Waits while other processes hold all of them, some of which may be dead.
static bb_chunk allocate_bucket(bb_pool_file *file, bb_file_party *mine) {
    bb_chunk chunk = bb_file_party_take(mine);
    while (chunk.code == BB_OUT_OF_MEMORY) {
        const uint32_t code = reap_if_timed_out(file, bb_pool_file_wait_bucket(file, 1000));
        if (code != BB_OK) {
            chunk.code = code;
            return chunk;
        }
        chunk = bb_file_party_take(mine);
    }
    return chunk;
}

// Posts the bucket into the queue. Waits while the queue has no room.
static uint32_t post(bb_pool_file *file, bb_file_party *mine, bb_place place, size_t len) {
    uint32_t code = bb_pool_file_post(file, mine, SLOT, place, len);
    while (code == BB_DETACHED_FULL) {
        code = reap_if_timed_out(file, bb_pool_file_wait_empty(file, SLOT, 1000));
        if (code == BB_OK)
            code = bb_pool_file_post(file, mine, SLOT, place, len);
    }
    return code;
}

int main(int argc, char **argv) {
    bb_pool_file *file;
    bb_file_party *mine;
    if (argc != 3) {
        fputs("usage: producer FILE COUNT\n", stderr);
        return 2;
    }
    uint32_t code = bb_pool_file_open(&file, argv[1], &OPTIONS);
    if (code == BB_OK)
        code = bb_pool_file_join(file, &mine);
    for (int number = 0; code == BB_OK && number < atoi(argv[2]); number++) {
        const bb_chunk chunk = allocate_bucket(file, mine);
        code = chunk.code;
        if (code != BB_OK)
            break;
        const int len = snprintf((char *)chunk.place, 256, "%d %d", (int)getpid(), number);
        code = post(file, mine, chunk.place, (size_t)len + 1);
    }
    if (code == BB_OK)
        code = bb_pool_file_close(file);
    if (code == BB_FILE_SYSTEM)
        perror("producer");
    else if (code != BB_OK)
        fprintf(stderr, "producer: %s\n", bb_pool_file_text(code));
    return code != BB_OK;
}
