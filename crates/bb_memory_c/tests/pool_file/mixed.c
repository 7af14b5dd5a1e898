// Tests that a program may have files that report to AddressSanitizer and files that don't. This
// file is compiled twice: as it is, and with SILENT, which reports nothing. `mixed FILE` uses a pool
// of its own in each form; the form that reports also has a pool in FILE, which it removes.
#ifdef SILENT
#define BB_NO_SANITIZE
#endif

#include "bb_memory.h"

#include "bb_pool_file.h"

#include <stdio.h>
#include <stdlib.h>
#include <string.h>
#include <sys/wait.h>
#include <unistd.h>

void run_silent(void);

static uint64_t region[BB_BYTES_FOR(64, 8, 4) / 8];

static void expect(bool holds, int line) {
    if (!holds) {
        fprintf(stderr, "mixed: not so: line %d\n", line);
        exit(1);
    }
}

#define EXPECT(holds) expect(holds, __LINE__)

// Each bucket is used, freed and used again.
static void use_pool(void) {
    bb_pool pool = BB_EMPTY;
    EXPECT(bb_pool_init(&pool, 64, 8, region, sizeof region) == BB_OK);
    for (int round = 0; round < 8; round++) {
        char *bucket = bb_pool_get(&pool);
        EXPECT(bucket != NULL);
        memset(bucket, round, 64);
        EXPECT(bb_pool_deallocate(&pool, bucket) == BB_OK);
    }
    bb_pool_destroy(&pool);
}

#ifdef SILENT

void run_silent(void) {
    use_pool();
}

#else

#ifndef BB_MEMORY_SANITIZE_H
#error "this file has to report to a checker"
#endif

// Posts a message from another process.
static void post(const char *path) {
    int status;
    const pid_t child = fork();
    EXPECT(child >= 0);
    if (child == 0) {
        bb_pool_file *file;
        bb_file_party *party;
        EXPECT(bb_pool_file_open(&file, path, NULL) == BB_OK);
        EXPECT(bb_pool_file_join(file, &party) == BB_OK);
        const bb_chunk chunk = bb_file_party_take(party);
        EXPECT(chunk.code == BB_OK);
        memcpy(chunk.place, "hello", 6);
        EXPECT(bb_pool_file_post(file, party, 0, chunk.place, 6) == BB_OK);
        _exit(0);
    }
    EXPECT(waitpid(child, &status, 0) == child && status == 0);
}

// The message is in a bucket that this process has freed.
static void run_file(const char *path) {
    const bb_pool_file_options options = {
        .bucket_size = 64, .bucket_align = 8, .buckets = 4, .parties = 2, .slots = 1, .mode = 0};
    bb_pool_file *file;
    bb_file_party *party;
    void *places[4];
    EXPECT(bb_pool_file_open(&file, path, &options) == BB_OK);
    EXPECT(bb_pool_file_join(file, &party) == BB_OK);
    EXPECT(bb_file_party_take_many(party, places, 4).number == 4);
    for (int at = 0; at < 4; at++) {
        memset(places[at], at, 64);
        EXPECT(bb_file_party_deallocate(party, places[at]) == BB_OK);
    }
    post(path);
    const bb_message message = bb_pool_file_take(file, party, 0);
    EXPECT(message.code == BB_OK && strcmp(message.place, "hello") == 0);
    EXPECT(bb_pool_file_done(file, party, 0) == BB_OK);
    EXPECT(bb_pool_file_close(file) == BB_OK && unlink(path) == 0);
}

int main(int argc, char **argv) {
    EXPECT(argc == 2);
    use_pool();
    run_silent();
    run_file(argv[1]);
    use_pool();
    puts("mixed: files that report to a checker, and files that don't, are in one program");
    return 0;
}

#endif
