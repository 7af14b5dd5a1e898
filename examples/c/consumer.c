// Prints the messages of producer.c: `consumer FILE`. Like a producer, a consumer may be killed at
// any time. It is done with a message only after it has printed it: if it is killed before that,
// the message is printed again.
#include <stdio.h>

#include "bb_pool_file.h"

static const bb_pool_file_options OPTIONS = {.bucket_size = 256,
                                             .bucket_align = 64,
                                             .buckets = 1000,
                                             .parties = 16,
                                             .slots = 1,
                                             .depth = 100,
                                             .mode = 0600,
                                             .user_bytes = 0};

// The queue.
static const uint32_t SLOT = 0;

// Receives the oldest message that no other consumer has taken, if there is one.
static uint32_t receive(bb_pool_file *file, bb_file_party *mine) {
    const bb_message message = bb_pool_file_take(file, mine, SLOT);
    if (message.code == BB_DETACHED_EMPTY || message.code == BB_NOT_HELD)
        return BB_OK;
    if (message.code != BB_OK)
        return message.code;
    puts((const char *)message.place);
    fflush(stdout);
    const uint32_t code = bb_file_party_done(mine, message.place);
    return code == BB_OK ? bb_file_party_deallocate(mine, message.place) : code;
}

int main(int argc, char **argv) {
    bb_pool_file *file;
    bb_file_party *mine;
    if (argc != 2) {
        fputs("usage: consumer FILE\n", stderr);
        return 2;
    }
    uint32_t code = bb_pool_file_open(&file, argv[1], &OPTIONS);
    if (code == BB_OK)
        code = bb_pool_file_join(file, &mine);
    // After a reap, a message that a dead consumer had taken can be taken again, before younger ones.
    if (code == BB_OK)
        code = bb_pool_file_reap(file, BB_REAP_HELD, NULL);
    while (code == BB_OK) {
        code = bb_pool_file_wait_full(file, SLOT, 1000);
        if (code == BB_FILE_TIMED_OUT)
            code = bb_pool_file_reap(file, BB_REAP_HELD, NULL);
        if (code == BB_OK)
            code = receive(file, mine);
    }
    if (code == BB_FILE_SYSTEM)
        perror("consumer");
    else
        fprintf(stderr, "consumer: %s\n", bb_pool_file_text(code));
    return 1;
}
