// Has workers reply to requests: `requests FILE`. The workers are processes that take requests from
// one queue, so each request goes to a worker that is free. They post their replies into another
// queue. Two of the workers are killed meanwhile, and each request gets a reply all the same.
//
// A worker is done with a request only after it has posted the reply. If it is killed before that,
// another worker takes the request. If it is killed between the two, there are two replies, and the
// client ignores the second one.
#define _POSIX_C_SOURCE 200809L
#include <signal.h>
#include <stdbool.h>
#include <stdio.h>
#include <stdlib.h>
#include <sys/prctl.h>
#include <sys/wait.h>
#include <unistd.h>

#include "bb_pool_file.h"

enum {
    WORKERS = 5,
    KILLED = 2,
    COUNT = 10000
};

// The two queues.
enum {
    REQUESTS,
    REPLIES
};

static const bb_pool_file_options OPTIONS = {.bucket_size = 64,
                                             .bucket_align = 64,
                                             .buckets = 200,
                                             .parties = WORKERS + 1,
                                             .slots = 2,
                                             .depth = 50,
                                             .mode = 0600,
                                             .user_bytes = 0};

typedef struct {
    uint32_t number;
} request;

typedef struct {
    uint32_t number;
    uint64_t square;
} reply;

// A process that uses the file, with a party.
typedef struct {
    bb_pool_file *file;
    bb_file_party *mine;
} user;

static void expect(bool holds, const char *what) {
    if (!holds) {
        fprintf(stderr, "requests: not so: %s\n", what);
        exit(1);
    }
}

static user open_file(const char *path) {
    user opened;
    expect(bb_pool_file_open(&opened.file, path, &OPTIONS) == BB_OK, "the file is opened");
    expect(bb_pool_file_join(opened.file, &opened.mine) == BB_OK, "a party joins");
    return opened;
}

// Frees what dead processes hold if a wait timed out, since that may be what it waited for.
static void reap_if_timed_out(const user *to, uint32_t waited) {
    if (waited == BB_FILE_TIMED_OUT)
        waited = bb_pool_file_reap(to->file, BB_REAP_HELD, NULL);
    expect(waited == BB_OK, "a wait ends");
}

// Takes the oldest message that nobody has taken. Waits until there is one.
static bb_message receive(const user *from, uint32_t slot) {
    bb_message message = bb_pool_file_take(from->file, from->mine, slot);
    while (message.code == BB_DETACHED_EMPTY || message.code == BB_NOT_HELD) {
        reap_if_timed_out(from, bb_pool_file_wait_full(from->file, slot, 1000));
        message = bb_pool_file_take(from->file, from->mine, slot);
    }
    expect(message.code == BB_OK, "a message is taken");
    return message;
}

// Takes the message out of its slot, and frees its bucket.
static void finish(const user *from, bb_message message) {
    expect(bb_file_party_done(from->mine, message.place) == BB_OK, "a message is done");
    expect(bb_file_party_deallocate(from->mine, message.place) == BB_OK, "its bucket is freed");
}

// Allocates a bucket. Waits until one is free.
static void *allocate(const user *to) {
    bb_chunk chunk = bb_file_party_take(to->mine);
    while (chunk.code == BB_OUT_OF_MEMORY) {
        reap_if_timed_out(to, bb_pool_file_wait_bucket(to->file, 1000));
        chunk = bb_file_party_take(to->mine);
    }
    expect(chunk.code == BB_OK, "a bucket is allocated");
    return chunk.place;
}

// Replies to requests until it is killed, at the latest with the client.
static void work(const char *path) {
    expect(prctl(PR_SET_PDEATHSIG, SIGKILL) == 0, "a worker ends with the client");
    const user own = open_file(path);
    for (;;) {
        const bb_message taken = receive(&own, REQUESTS);
        const uint32_t number = ((const request *)taken.place)->number;
        reply *built = (reply *)allocate(&own);
        built->number = number;
        built->square = (uint64_t)number * number;
        uint32_t code = bb_pool_file_post(own.file, own.mine, REPLIES, built, sizeof *built);
        while (code == BB_DETACHED_FULL) {
            reap_if_timed_out(&own, bb_pool_file_wait_empty(own.file, REPLIES, 1000));
            code = bb_pool_file_post(own.file, own.mine, REPLIES, built, sizeof *built);
        }
        expect(code == BB_OK, "a reply is posted");
        finish(&own, taken);
    }
}

// Posts requests from `next` on, as long as there is room for them. Returns the next one.
static uint32_t ask(const user *own, uint32_t next) {
    while (next < COUNT) {
        request *built = (request *)allocate(own);
        built->number = next;
        const uint32_t code =
            bb_pool_file_post(own->file, own->mine, REQUESTS, built, sizeof *built);
        if (code == BB_DETACHED_FULL) {
            expect(bb_file_party_deallocate(own->mine, built) == BB_OK, "its bucket is freed");
            return next;
        }
        expect(code == BB_OK, "a request is posted");
        next++;
    }
    return next;
}

int main(int argc, char **argv) {
    static bool has_reply[COUNT];
    pid_t workers[WORKERS];
    if (argc != 2) {
        fputs("usage: requests FILE\n", stderr);
        return 2;
    }
    for (int at = 0; at < WORKERS; at++) {
        workers[at] = fork();
        expect(workers[at] >= 0, "a process starts");
        if (workers[at] == 0)
            work(argv[1]);
    }
    const user own = open_file(argv[1]);
    uint32_t next = 0;
    uint32_t replies = 0;
    uint32_t killed = 0;
    while (replies < COUNT) {
        next = ask(&own, next);
        // Each request has its reply, but a worker that isn't done with one keeps its place.
        if (replies == next) {
            reap_if_timed_out(&own, bb_pool_file_wait_empty(own.file, REQUESTS, 1000));
            continue;
        }
        const bb_message taken = receive(&own, REPLIES);
        const reply *got = (const reply *)taken.place;
        expect(got->number < next, "a reply is to a request");
        expect(got->square == (uint64_t)got->number * got->number, "a reply is right");
        if (!has_reply[got->number])
            replies++;
        has_reply[got->number] = true;
        finish(&own, taken);
        if (killed < KILLED && replies > COUNT / (KILLED + 1) * (killed + 1))
            expect(kill(workers[killed++], SIGKILL) == 0, "a worker is killed");
    }
    for (int at = 0; at < WORKERS; at++) {
        int status;
        kill(workers[at], SIGKILL);
        expect(waitpid(workers[at], &status, 0) == workers[at], "a worker ends");
        expect(WIFSIGNALED(status) && WTERMSIG(status) == SIGKILL, "a worker works until then");
    }
    expect(bb_pool_file_close(own.file) == BB_OK && unlink(argv[1]) == 0, "the file is removed");
    puts("requests: each one got a reply, although workers were killed");
    return 0;
}
