// `shown FILE BB_POOL` makes a pool with a living and a dead party, and runs `bb-pool` over it: what
// it prints has to be shown.txt.
#define _GNU_SOURCE
#include <signal.h>
#include <stdio.h>
#include <stdlib.h>
#include <string.h>
#include <sys/wait.h>
#include <unistd.h>

#include "bb_pool_file.h"

// Six parties with four buckets each. Each party's first request finds the first of its own
// buckets.
static const bb_pool_file_options OPTIONS = {.bucket_size = 100,
                                             .bucket_align = 8,
                                             .buckets = 24,
                                             .parties = 6,
                                             .slots = 4,
                                             .depth = 9,
                                             .user_bytes = 40};

static void expect(bool holds, int line) {
    if (!holds) {
        fprintf(stderr, "shown: not so: line %d\n", line);
        _exit(1);
    }
}

#define EXPECT(holds) expect(holds, __LINE__)

static bb_file_party *take_some(bb_pool_file *file, bb_place *places, size_t count) {
    bb_file_party *party = NULL;
    EXPECT(bb_pool_file_join(file, &party) == BB_OK);
    EXPECT(bb_file_party_take_many(party, places, count).number == count);
    return party;
}

static bb_pool_file *open_it(const char *path) {
    bb_pool_file *file = NULL;
    EXPECT(bb_pool_file_open(&file, path, &OPTIONS) == BB_OK);
    return file;
}

static int end_of(pid_t child) {
    int status;
    EXPECT(waitpid(child, &status, 0) == child && WIFEXITED(status));
    return WEXITSTATUS(status);
}

// Runs `bb-pool` with these words before the path.
static int run(const char *command, const char *path, const char *first, const char *second) {
    const pid_t child = fork();
    if (child == 0) {
        if (first == NULL)
            execl(command, "bb-pool", path, (char *)NULL);
        else if (second == NULL)
            execl(command, "bb-pool", first, path, (char *)NULL);
        else
            execl(command, "bb-pool", first, second, path, (char *)NULL);
        _exit(127);
    }
    return end_of(child);
}

// Runs `bb-pool --watch` until it has shown the pool twice.
static void watch(const char *command, const char *path) {
    int output[2];
    int status;
    char line[256];
    int shown = 0;
    EXPECT(pipe(output) == 0);
    const pid_t child = fork();
    if (child == 0) {
        dup2(output[1], STDOUT_FILENO);
        execl(command, "bb-pool", "--watch", path, (char *)NULL);
        _exit(127);
    }
    close(output[1]);
    FILE *lines = fdopen(output[0], "r");
    EXPECT(lines != NULL);
    while (shown < 2) {
        EXPECT(fgets(line, sizeof line, lines) != NULL);
        shown += strncmp(line, "map:", 4) == 0;
    }
    EXPECT(kill(child, SIGTERM) == 0 && waitpid(child, &status, 0) == child);
    EXPECT(WIFSIGNALED(status) && WTERMSIG(status) == SIGTERM);
    fclose(lines);
}

// Posts a message of `len` bytes, and takes it, if it is the oldest one.
static bb_place post_and_take(bb_pool_file *file, bb_file_party *party, bb_place place,
                              size_t len) {
    EXPECT(bb_pool_file_post(file, party, 1, place, len) == BB_OK);
    const bb_message message = bb_pool_file_take(file, party, 1);
    EXPECT(message.code == BB_OK && message.place == place && message.len == len);
    return place;
}

int main(int argc, char **argv) {
    bb_place places[13];
    EXPECT(argc == 3);
    const char *path = argv[1];
    const char *command = argv[2];
    EXPECT(run(command, path, NULL, NULL) == 1);
    bb_pool_file *file = open_it(path);
    watch(command, path);
    bb_file_party *mine = take_some(file, places, 3);
    // So that the last cell of slot 1 has the next message, and the first one the message after that.
    for (int at = 0; at < 8; at++)
        EXPECT(bb_file_party_done(mine, post_and_take(file, mine, places[2], 10)) == BB_OK);
    post_and_take(file, mine, places[2], 50);
    const pid_t child = fork();
    if (child == 0) {
        bb_pool_file *own = open_it(path);
        bb_file_party *party = take_some(own, places, 13);
        EXPECT(bb_pool_file_post(own, party, 1, places[2], 44) == BB_OK);
        EXPECT(bb_pool_file_detach(own, party, places[3]).code == BB_OK);
        for (size_t at = 4; at < 13; at++)
            EXPECT(bb_pool_file_post(own, party, 3, places[at], at - 3) == BB_OK);
        _exit(0);
    }
    EXPECT(end_of(child) == 0);
    EXPECT(run(command, path, NULL, NULL) == 0);
    EXPECT(run(command, path, "--reap", NULL) == 0);
    EXPECT(run(command, path, "--reap", "--left") == 0);
    EXPECT(run(command, path, "--reap", "--detached") == 0);
    EXPECT(run(command, path, "--help", NULL) == 0);
    EXPECT(run(command, path, "--detached", NULL) == 2);
    EXPECT(run(command, path, "--left", NULL) == 2);
    EXPECT(run(command, path, "--other", NULL) == 2);
    EXPECT(run(command, path, path, NULL) == 2);
    EXPECT(bb_pool_file_close(file) == BB_OK);
    EXPECT(truncate(path, 5) == 0);
    EXPECT(run(command, path, NULL, NULL) == 1);
    EXPECT(unlink(path) == 0);
    return 0;
}
