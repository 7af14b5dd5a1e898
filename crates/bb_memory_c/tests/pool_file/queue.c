// `queue FOLDER` tests slots that have room for several messages: their order, between processes
// and in one, and the codes of the calls. It makes its files in FOLDER, and leaves none there.
#define _GNU_SOURCE
#include <errno.h>
#include <pthread.h>
#include <signal.h>
#include <stdio.h>
#include <stdlib.h>
#include <string.h>
#include <sys/prctl.h>
#include <sys/wait.h>
#include <time.h>
#include <unistd.h>

#include "bb_pool_file.h"

enum {
    SIZE = 64,
    BUCKETS = 120,
    SLOTS = 3,
    // The numbers that go through a slot from one process to another, and those of each process if
    // there are several.
    NUMBERS = 100000,
    NUMBERS_OF_EACH = 20000,
    // The messages that a receiver has at work at one time.
    AT_WORK = 5,
    // The seconds after which a process ends by itself, since its test has failed.
    LONGEST = 300
};

static char path[256];
static uint32_t count;

static void expect(bool holds, const char *what, int line) {
    if (!holds) {
        fprintf(stderr, "queue: line %d: not so: %s (errno %d)\n", line, what, errno);
        unlink(path);
        _exit(1);
    }
    __atomic_fetch_add(&count, 1, __ATOMIC_RELAXED);
}

#define EXPECT(holds) expect(holds, #holds, __LINE__)

// Ends the test if it lasts too long.
static void give_up(int signal) {
    static const char TEXT[] = "queue: a test hangs\n";
    (void)signal;
    unlink(path);
    const ssize_t written = write(STDERR_FILENO, TEXT, sizeof TEXT - 1);
    _exit(written < 0 ? 2 : 1);
}

// FILES AND PROCESSES

static bb_pool_file_options options_of(uint32_t depth) {
    const bb_pool_file_options options = {.bucket_size = SIZE,
                                          .bucket_align = 8,
                                          .buckets = BUCKETS,
                                          .parties = 8,
                                          .slots = SLOTS,
                                          .depth = depth,
                                          .user_bytes = 128};
    return options;
}

static bb_pool_file *open_it(uint32_t depth) {
    const bb_pool_file_options options = options_of(depth);
    bb_pool_file *file = NULL;
    EXPECT(bb_pool_file_open(&file, path, &options) == BB_OK);
    return file;
}

static bb_file_party *join_it(bb_pool_file *file) {
    bb_file_party *party = NULL;
    EXPECT(bb_pool_file_join(file, &party) == BB_OK);
    return party;
}

static void close_it(bb_pool_file *file) {
    EXPECT(bb_pool_file_close(file) == BB_OK);
}

static void remove_it(bb_pool_file *file) {
    close_it(file);
    EXPECT(unlink(path) == 0);
}

// Forks a child that dies with its parent.
static pid_t child_of(void) {
    const pid_t child = fork();
    EXPECT(child >= 0);
    if (child == 0) {
        EXPECT(prctl(PR_SET_PDEATHSIG, SIGKILL) == 0);
        alarm(LONGEST);
    }
    return child;
}

static void expect_end_of(pid_t child) {
    int status;
    EXPECT(waitpid(child, &status, 0) == child);
    EXPECT(WIFEXITED(status) && WEXITSTATUS(status) == 0);
}

static bb_pool_file_figures info_of(bb_pool_file *file) {
    bb_pool_file_figures figures;
    EXPECT(bb_pool_file_info(file, &figures) == BB_OK);
    return figures;
}

// MESSAGES WITH NUMBERS

static uint64_t number_in(bb_message message) {
    uint64_t number;
    EXPECT(message.code == BB_OK && message.len == sizeof number);
    memcpy(&number, message.place, sizeof number);
    return number;
}

// Allocates a bucket, and writes a number into it.
static bb_place bucket_with(bb_pool_file *file, bb_file_party *party, uint64_t number) {
    bb_chunk chunk = bb_file_party_take(party);
    while (chunk.code == BB_OUT_OF_MEMORY) {
        EXPECT(bb_pool_file_wait_bucket(file, BB_NO_TIMEOUT) == BB_OK);
        chunk = bb_file_party_take(party);
    }
    EXPECT(chunk.code == BB_OK);
    memcpy(chunk.place, &number, sizeof number);
    return chunk.place;
}

// Posts a number. If the slot has no room, the bucket is freed again.
static uint32_t post(bb_pool_file *file, bb_file_party *party, uint32_t slot, uint64_t number) {
    const bb_place place = bucket_with(file, party, number);
    const uint32_t code = bb_pool_file_post(file, party, slot, place, sizeof number);
    if (code != BB_OK)
        EXPECT(bb_file_party_deallocate(party, place) == BB_OK);
    return code;
}

// Posts a number once the slot has room.
static void send(bb_pool_file *file, bb_file_party *party, uint32_t slot, uint64_t number) {
    const bb_place place = bucket_with(file, party, number);
    uint32_t code = bb_pool_file_post(file, party, slot, place, sizeof number);
    while (code == BB_DETACHED_FULL) {
        EXPECT(bb_pool_file_wait_empty(file, slot, BB_NO_TIMEOUT) == BB_OK);
        code = bb_pool_file_post(file, party, slot, place, sizeof number);
    }
    EXPECT(code == BB_OK);
}

// Takes a message once there is one.
static bb_message receive(bb_pool_file *file, bb_file_party *party, uint32_t slot) {
    bb_message message = bb_pool_file_take(file, party, slot);
    while (message.code == BB_DETACHED_EMPTY || message.code == BB_NOT_HELD) {
        EXPECT(bb_pool_file_wait_full(file, slot, BB_NO_TIMEOUT) == BB_OK);
        message = bb_pool_file_take(file, party, slot);
    }
    EXPECT(message.code == BB_OK);
    return message;
}

static void finish(bb_file_party *party, bb_message message) {
    EXPECT(bb_file_party_done(party, message.place) == BB_OK);
    EXPECT(bb_file_party_deallocate(party, message.place) == BB_OK);
}

// Takes the next message, which has to have this number.
static bb_message take(bb_pool_file *file, bb_file_party *party, uint32_t slot, uint64_t number) {
    const bb_message message = bb_pool_file_take(file, party, slot);
    EXPECT(number_in(message) == number);
    return message;
}

// BETWEEN PROCESSES

// Starts a process that sends the numbers from 0 up to `end` to a slot, each with `sign` added.
static pid_t sender(uint32_t depth, uint32_t slot, uint64_t end, uint64_t sign) {
    const pid_t child = child_of();
    if (child == 0) {
        bb_pool_file *file = open_it(depth);
        bb_file_party *party = join_it(file);
        for (uint64_t number = 0; number < end; number++)
            send(file, party, slot, sign + number);
        close_it(file);
        _exit(0);
    }
    return child;
}

// One process sends, and another one receives, with one message at work.
static void one_at_work(uint32_t depth) {
    bb_pool_file *file = open_it(depth);
    bb_file_party *party = join_it(file);
    const pid_t child = sender(depth, 1, NUMBERS, 0);
    for (uint64_t number = 0; number < NUMBERS; number++) {
        const bb_message message = receive(file, party, 1);
        EXPECT(number_in(message) == number);
        finish(party, message);
    }
    expect_end_of(child);
    EXPECT(bb_pool_file_take(file, party, 1).code == BB_DETACHED_EMPTY);
    EXPECT(info_of(file).held == 0 && info_of(file).detached == 0);
    remove_it(file);
}

// The messages that a receiver has taken, and isn't done with.
struct at_work {
    bb_file_party *party;
    uint32_t taken;
    bb_message messages[AT_WORK];
};

// Finishes one of the messages.
static void finish_one(struct at_work *at_work, uint32_t which) {
    finish(at_work->party, at_work->messages[which]);
    at_work->taken--;
    at_work->messages[which] = at_work->messages[at_work->taken];
}

// The receiver has several messages at work, and is done with them in any order. But it doesn't
// wait for a message that has no room until it is done with another one.
static void several_at_work(uint32_t depth) {
    uint32_t seed = 1;
    bb_pool_file *file = open_it(depth);
    struct at_work at_work = {.party = join_it(file), .taken = 0};
    const pid_t child = sender(depth, 2, NUMBERS, 0);
    for (uint64_t number = 0; number < NUMBERS; number++) {
        for (uint32_t at = 0; at < at_work.taken; at++)
            if (number_in(at_work.messages[at]) + depth == number)
                finish_one(&at_work, at);
        const bb_message message = receive(file, at_work.party, 2);
        EXPECT(number_in(message) == number);
        at_work.messages[at_work.taken] = message;
        at_work.taken++;
        seed = seed * 1664525 + 1013904223;
        while (at_work.taken == AT_WORK || (at_work.taken > 0 && (seed >> 16) % 3 == 0)) {
            finish_one(&at_work, (seed >> 20) % at_work.taken);
            seed = seed * 1664525 + 1013904223;
        }
    }
    while (at_work.taken > 0)
        finish_one(&at_work, 0);
    expect_end_of(child);
    EXPECT(bb_pool_file_take(file, at_work.party, 2).code == BB_DETACHED_EMPTY);
    EXPECT(info_of(file).held == 0 && info_of(file).detached == 0);
    remove_it(file);
}

// What two receivers have received so far, in the host's bytes of the file.
struct received {
    uint64_t messages;
    uint64_t sum;
};

static const uint64_t SIGN = (uint64_t)1 << 32;

// Receives until both senders' numbers have come. Those of each sender ascend.
static void receive_from_two(uint32_t depth) {
    bb_pool_file *file = open_it(depth);
    bb_file_party *party = join_it(file);
    struct received *received = bb_pool_file_user(file);
    uint64_t next[2] = {0, 0};
    while (__atomic_load_n(&received->messages, __ATOMIC_SEQ_CST) < 2 * NUMBERS_OF_EACH) {
        // So it ends if the other receiver has taken the last message.
        const uint32_t code = bb_pool_file_wait_full(file, BB_ANY_SLOT, 1);
        EXPECT(code == BB_OK || code == BB_FILE_TIMED_OUT);
        const bb_message message = bb_pool_file_take(file, party, 0);
        if (message.code != BB_OK) {
            EXPECT(message.code == BB_DETACHED_EMPTY || message.code == BB_NOT_HELD);
            continue;
        }
        const uint64_t number = number_in(message);
        const uint64_t from = number / SIGN;
        EXPECT(from < 2 && number % SIGN >= next[from] && number % SIGN < NUMBERS_OF_EACH);
        next[from] = number % SIGN + 1;
        finish(party, message);
        __atomic_fetch_add(&received->sum, number % SIGN, __ATOMIC_SEQ_CST);
        __atomic_fetch_add(&received->messages, 1, __ATOMIC_SEQ_CST);
    }
    close_it(file);
}

static void two_and_two(uint32_t depth) {
    bb_pool_file *file = open_it(depth);
    const pid_t senders[] = {sender(depth, 0, NUMBERS_OF_EACH, 0),
                             sender(depth, 0, NUMBERS_OF_EACH, SIGN)};
    const pid_t child = child_of();
    if (child == 0) {
        receive_from_two(depth);
        _exit(0);
    }
    receive_from_two(depth);
    expect_end_of(child);
    expect_end_of(senders[0]);
    expect_end_of(senders[1]);
    const struct received *received = bb_pool_file_user(file);
    EXPECT(received->messages == 2 * NUMBERS_OF_EACH);
    EXPECT(received->sum == (uint64_t)NUMBERS_OF_EACH * (NUMBERS_OF_EACH - 1));
    EXPECT(info_of(file).messages == 0 && info_of(file).detached == 0);
    remove_it(file);
}

// CODES AND ORDER

static void full_and_empty(void) {
    bb_pool_file *file = open_it(3);
    bb_file_party *party = join_it(file);
    bb_file_party *other = join_it(file);
    EXPECT(bb_pool_file_take(file, party, 0).code == BB_DETACHED_EMPTY);
    EXPECT(bb_pool_file_look(file, 0).code == BB_DETACHED_EMPTY);
    EXPECT(bb_pool_file_take(file, party, SLOTS).code == BB_INVALID_ARGUMENT);
    EXPECT(post(file, party, SLOTS, 1) == BB_INVALID_ARGUMENT);
    EXPECT(bb_pool_file_wait_full(file, 0, 0) == BB_FILE_TIMED_OUT);
    EXPECT(bb_pool_file_wait_empty(file, 0, 0) == BB_OK);
    for (uint64_t number = 0; number < 3; number++)
        EXPECT(post(file, party, 0, number) == BB_OK);
    EXPECT(post(file, party, 0, 3) == BB_DETACHED_FULL);
    EXPECT(post(file, other, 0, 3) == BB_DETACHED_FULL);
    EXPECT(bb_pool_file_wait_full(file, 0, 0) == BB_OK);
    EXPECT(bb_pool_file_wait_empty(file, 0, 0) == BB_FILE_TIMED_OUT);
    EXPECT(bb_pool_file_wait_empty(file, BB_ANY_SLOT, 0) == BB_OK);
    EXPECT(info_of(file).messages == 3 && info_of(file).detached == 3);
    // Another slot has room of its own.
    EXPECT(bb_pool_file_take(file, party, 1).code == BB_DETACHED_EMPTY);
    EXPECT(post(file, party, 1, 7) == BB_OK);
    finish(other, take(file, other, 1, 7));
    bb_message messages[3];
    for (uint64_t number = 0; number < 3; number++)
        messages[number] = take(file, number == 1 ? other : party, 0, number);
    // Each is taken, and still has its room.
    EXPECT(bb_pool_file_take(file, party, 0).code == BB_NOT_HELD);
    EXPECT(bb_pool_file_take(file, other, 0).code == BB_NOT_HELD);
    EXPECT(bb_pool_file_wait_full(file, 0, 0) == BB_FILE_TIMED_OUT);
    EXPECT(post(file, party, 0, 3) == BB_DETACHED_FULL);
    EXPECT(number_in(bb_pool_file_look(file, 0)) == 0);
    EXPECT(info_of(file).messages == 3 && info_of(file).held == 3);
    // Only the party that has a message is done with it, once.
    EXPECT(bb_file_party_done(party, messages[1].place) == BB_NOT_HELD);
    EXPECT(bb_file_party_deallocate(other, messages[1].place) == BB_FILE_NOT_DONE);
    EXPECT(bb_pool_file_post(file, other, 1, messages[1].place, 8) == BB_FILE_NOT_DONE);
    EXPECT(bb_file_party_done(other, messages[1].place) == BB_OK);
    EXPECT(bb_file_party_done(other, messages[1].place) == BB_NOT_HELD);
    EXPECT(info_of(file).messages == 2);
    // It was not the oldest, so there is no room yet.
    EXPECT(post(file, party, 0, 3) == BB_DETACHED_FULL);
    EXPECT(bb_pool_file_wait_empty(file, 0, 0) == BB_FILE_TIMED_OUT);
    finish(party, messages[0]);
    EXPECT(bb_pool_file_wait_empty(file, 0, 0) == BB_OK);
    EXPECT(number_in(bb_pool_file_look(file, 0)) == 2);
    EXPECT(bb_pool_file_post(file, other, 0, messages[1].place, 8) == BB_OK);
    EXPECT(post(file, party, 0, 4) == BB_OK);
    EXPECT(post(file, party, 0, 5) == BB_DETACHED_FULL);
    finish(party, messages[2]);
    EXPECT(post(file, party, 0, 5) == BB_OK);
    finish(party, take(file, party, 0, 1));  // the number that the bucket had before
    finish(party, take(file, party, 0, 4));
    finish(party, take(file, party, 0, 5));
    EXPECT(bb_pool_file_take(file, party, 0).code == BB_DETACHED_EMPTY);
    EXPECT(info_of(file).messages == 0 && info_of(file).held == 0);
    remove_it(file);
}

// Looks and waits find what is in a slot, wherever the slot's turn is. The slot has room for three
// messages, and has one or two.
static void each_turn(void) {
    bb_pool_file *file = open_it(3);
    bb_file_party *party = join_it(file);
    EXPECT(post(file, party, 1, 0) == BB_OK);
    for (uint64_t number = 1; number < 10; number++) {
        EXPECT(number_in(bb_pool_file_look(file, 1)) == number - 1);
        EXPECT(bb_pool_file_wait_empty(file, 1, 0) == BB_OK);
        EXPECT(post(file, party, 1, number) == BB_OK);
        EXPECT(number_in(bb_pool_file_look(file, 1)) == number - 1);
        finish(party, take(file, party, 1, number - 1));
        EXPECT(bb_pool_file_wait_full(file, 1, 0) == BB_OK);
        EXPECT(bb_pool_file_wait_full(file, 0, 0) == BB_FILE_TIMED_OUT);
        EXPECT(bb_pool_file_wait_full(file, 2, 0) == BB_FILE_TIMED_OUT);
        EXPECT(info_of(file).messages == 1);
    }
    remove_it(file);
}

// A place without a message of the party, and calls of parties that have left.
static void other_codes(void) {
    bb_pool_file *file = open_it(2);
    bb_file_party *party = join_it(file);
    const bb_place place = bucket_with(file, party, 1);
    EXPECT(bb_file_party_done(party, place) == BB_NOT_HELD);
    EXPECT(bb_file_party_done(party, NULL) == BB_NOT_HELD);
    EXPECT(bb_file_party_done(party, (char *)place + 1) == BB_NOT_HELD);
    EXPECT(bb_pool_file_post(file, party, 0, (char *)place + 1, 8) == BB_NOT_HELD);
    EXPECT(bb_pool_file_post(file, party, 0, place, SIZE + 1) == BB_SIZE_TOO_LARGE);
    EXPECT(bb_pool_file_post(file, party, 0, place, SIZE) == BB_OK);
    EXPECT(bb_file_party_done(party, place) == BB_NOT_HELD);
    const bb_message message = bb_pool_file_take(file, party, 0);
    EXPECT(message.code == BB_OK && message.place == place && message.len == SIZE);
    // The depth isn't 1, so a slot doesn't say which message is meant.
    EXPECT(bb_pool_file_done(file, party, 0) == BB_INVALID_ARGUMENT);
    EXPECT(bb_pool_file_done(file, party, SLOTS) == BB_INVALID_ARGUMENT);
    finish(party, message);
    EXPECT(bb_pool_file_leave(file, party) == BB_OK);
    EXPECT(bb_file_party_done(party, place) == BB_UNINITIALIZED);
    EXPECT(bb_pool_file_done(file, party, 0) == BB_UNINITIALIZED);
    EXPECT(bb_pool_file_post(file, party, 0, place, 8) == BB_UNINITIALIZED);
    EXPECT(bb_pool_file_take(file, party, 0).code == BB_UNINITIALIZED);
    remove_it(file);
}

// With a depth of 1, a party is done with a message by its slot or by its place.
static void depth_of_one(void) {
    bb_pool_file *file = open_it(0);
    bb_file_party *party = join_it(file);
    EXPECT(info_of(file).options.depth == 1);
    EXPECT(post(file, party, 0, 1) == BB_OK);
    EXPECT(post(file, party, 0, 2) == BB_DETACHED_FULL);
    finish(party, take(file, party, 0, 1));
    EXPECT(post(file, party, 0, 2) == BB_OK);
    const bb_message message = take(file, party, 0, 2);
    EXPECT(bb_pool_file_done(file, party, 0) == BB_OK);
    EXPECT(bb_file_party_done(party, message.place) == BB_NOT_HELD);
    EXPECT(bb_file_party_deallocate(party, message.place) == BB_OK);
    bb_pool_file *other = NULL;
    bb_pool_file_options options = options_of(1);
    EXPECT(bb_pool_file_open(&other, path, &options) == BB_OK);
    close_it(other);
    options = options_of(2);
    EXPECT(bb_pool_file_open(&other, path, &options) == BB_FILE_MISMATCH);
    remove_it(file);
}

// The depth is that of the file if no options say it.
static void depth_of_the_file(void) {
    bb_pool_file *file = open_it(5);
    bb_pool_file *other = NULL;
    const bb_pool_file_options wrong[] = {options_of(0), options_of(1), options_of(4)};
    for (size_t at = 0; at < sizeof wrong / sizeof *wrong; at++)
        EXPECT(bb_pool_file_open(&other, path, &wrong[at]) == BB_FILE_MISMATCH);
    EXPECT(bb_pool_file_open(&other, path, NULL) == BB_OK);
    EXPECT(info_of(other).options.depth == 5 && info_of(other).options.slots == SLOTS);
    bb_file_party *party = join_it(other);
    for (uint64_t number = 0; number < 5; number++)
        EXPECT(post(other, party, 2, number) == BB_OK);
    EXPECT(post(other, party, 2, 5) == BB_DETACHED_FULL);
    // Each bucket is sent to the slot.
    const bb_message oldest = bb_pool_file_look(file, 2);
    EXPECT(number_in(oldest) == 0);
    uint32_t sent = 0;
    for (uint32_t number = 0; number < BUCKETS; number++) {
        bb_holder holder;
        EXPECT(bb_pool_file_holder(file, number, &holder) == BB_OK);
        EXPECT(holder.state == BB_FREE || (holder.state == BB_SENT && holder.party == 2));
        sent += holder.state == BB_SENT;
    }
    EXPECT(sent == 5);
    close_it(other);
    remove_it(file);
}

// A message that comes back is taken again before younger ones: one that was put back, or whose
// receiver left or gave back what it held. Older ones come before it.
static void comes_back(void) {
    bb_pool_file *file = open_it(4);
    bb_file_party *party = join_it(file);
    bb_file_party *other = join_it(file);
    for (uint64_t number = 0; number < 4; number++)
        EXPECT(post(file, party, 0, number) == BB_OK);
    bb_message first = take(file, other, 0, 0);
    bb_message second = take(file, other, 0, 1);
    EXPECT(bb_pool_file_detach(file, other, second.place).number == second.number);
    second = take(file, party, 0, 1);
    bb_message third = take(file, party, 0, 2);
    EXPECT(bb_pool_file_detach(file, party, third.place).code == BB_OK);
    EXPECT(bb_pool_file_detach(file, party, second.place).code == BB_OK);
    EXPECT(bb_pool_file_detach(file, other, first.place).code == BB_OK);
    first = take(file, party, 0, 0);
    second = take(file, party, 0, 1);
    EXPECT(bb_pool_file_give_all_back(file, party) == BB_OK);
    EXPECT(bb_file_party_done(party, first.place) == BB_NOT_HELD);
    for (uint64_t number = 0; number < 3; number++)
        EXPECT(take(file, other, 0, number).code == BB_OK);
    EXPECT(bb_pool_file_leave(file, other) == BB_OK);
    EXPECT(info_of(file).messages == 4 && info_of(file).held == 0);
    for (uint64_t number = 0; number < 4; number++)
        finish(party, take(file, party, 0, number));
    EXPECT(bb_pool_file_take(file, party, 0).code == BB_DETACHED_EMPTY);
    remove_it(file);
}

// The messages of a killed receiver come again, in their order, after a reap.
static void killed_receiver(void) {
    int ready[2];
    char byte;
    bb_pool_file *file = open_it(4);
    bb_file_party *party = join_it(file);
    for (uint64_t number = 0; number < 4; number++)
        EXPECT(post(file, party, 0, number) == BB_OK);
    EXPECT(pipe(ready) == 0);
    const pid_t child = child_of();
    if (child == 0) {
        bb_pool_file *own = open_it(4);
        bb_file_party *mine = join_it(own);
        EXPECT(take(own, mine, 0, 0).code == BB_OK);
        EXPECT(take(own, mine, 0, 1).code == BB_OK);
        EXPECT(write(ready[1], "r", 1) == 1);
        pause();
    }
    EXPECT(read(ready[0], &byte, 1) == 1);
    EXPECT(close(ready[0]) == 0 && close(ready[1]) == 0);
    EXPECT(kill(child, SIGKILL) == 0 && waitpid(child, NULL, 0) == child);
    const bb_message third = take(file, party, 0, 2);
    EXPECT(post(file, party, 0, 4) == BB_DETACHED_FULL);
    uint32_t freed = 1;
    EXPECT(bb_pool_file_reap(file, BB_REAP_HELD, &freed) == BB_OK && freed == 0);
    EXPECT(post(file, party, 0, 4) == BB_DETACHED_FULL);
    finish(party, take(file, party, 0, 0));
    finish(party, take(file, party, 0, 1));
    finish(party, take(file, party, 0, 3));
    finish(party, third);
    remove_it(file);
}

// WAITS

static uint64_t now(void) {
    struct timespec time;
    EXPECT(clock_gettime(CLOCK_MONOTONIC, &time) == 0);
    return (uint64_t)time.tv_sec * 1000000000 + (uint64_t)time.tv_nsec;
}

static void rest(long milliseconds) {
    const struct timespec time = {0, milliseconds * 1000000};
    EXPECT(nanosleep(&time, NULL) == 0);
}

// A thread that sends a number once there is room.
struct sending {
    bb_pool_file *file;
    bb_file_party *party;
    uint64_t number;
};

static void *send_one(void *context) {
    const struct sending *sending = context;
    send(sending->file, sending->party, 0, sending->number);
    return NULL;
}

// Two senders wait, and room for both comes at one time, since a party was done with the younger
// message first. The first sender wakes the second one: otherwise that sleeps for up to a tenth of
// a second.
static void both_are_woken(void) {
    enum {
        ROUNDS = 20
    };

    uint32_t slow = 0;
    bb_pool_file *file = open_it(2);
    bb_file_party *party = join_it(file);
    struct sending sendings[] = {{file, join_it(file), 2}, {file, join_it(file), 3}};
    for (uint32_t round = 0; round < ROUNDS; round++) {
        pthread_t threads[2];
        EXPECT(post(file, party, 0, 0) == BB_OK && post(file, party, 0, 1) == BB_OK);
        const bb_message first = take(file, party, 0, 0);
        const bb_message second = take(file, party, 0, 1);
        for (uint32_t at = 0; at < 2; at++)
            EXPECT(pthread_create(&threads[at], NULL, send_one, &sendings[at]) == 0);
        rest(5);
        finish(party, second);
        rest(1);
        const uint64_t begun = now();
        finish(party, first);
        for (uint32_t at = 0; at < 2; at++)
            EXPECT(pthread_join(threads[at], NULL) == 0);
        slow += now() - begun > 50000000;
        finish(party, receive(file, party, 0));
        finish(party, receive(file, party, 0));
    }
    EXPECT(slow < ROUNDS / 2);
    remove_it(file);
}

// A wait that spins looks only at its own slot, in a file where no spin has been in vain yet.
static void spins_at_one_slot(void) {
    bb_pool_file *file = open_it(3);
    bb_file_party *party = join_it(file);
    for (uint64_t number = 0; number < 3; number++)
        EXPECT(post(file, party, 0, number) == BB_OK);
    EXPECT(bb_pool_file_wait_full(file, 1, 1) == BB_FILE_TIMED_OUT);
    remove_it(file);
}

static void *wait_for_message(void *context) {
    EXPECT(bb_pool_file_wait_full(context, 2, BB_NO_TIMEOUT) == BB_OK);
    return NULL;
}

// A thread that waits for a message is woken when one is put back, by a detach or by a leave.
// Otherwise it sleeps for up to a tenth of a second.
static void put_back_wakes(void) {
    enum {
        ROUNDS = 20
    };

    uint32_t slow = 0;
    bb_pool_file *file = open_it(3);
    bb_file_party *party = join_it(file);
    for (uint32_t round = 0; round < ROUNDS; round++) {
        pthread_t thread;
        bb_file_party *other = join_it(file);
        EXPECT(post(file, party, 2, 1) == BB_OK);
        const bb_message message = take(file, other, 2, 1);
        EXPECT(pthread_create(&thread, NULL, wait_for_message, file) == 0);
        rest(5);
        const uint64_t begun = now();
        const bool leaves = round % 2 == 0;
        if (leaves)
            EXPECT(bb_pool_file_leave(file, other) == BB_OK);
        else
            EXPECT(bb_pool_file_detach(file, other, message.place).code == BB_OK);
        EXPECT(pthread_join(thread, NULL) == 0);
        slow += now() - begun > 50000000;
        if (!leaves)
            EXPECT(bb_pool_file_leave(file, other) == BB_OK);
        finish(party, take(file, party, 2, 1));
    }
    EXPECT(slow < ROUNDS / 4);
    remove_it(file);
}

int main(int argc, char **argv) {
    EXPECT(argc == 2);
    EXPECT(signal(SIGALRM, give_up) != SIG_ERR && signal(SIGTERM, give_up) != SIG_ERR);
    alarm(LONGEST);
    snprintf(path, sizeof path, "%s/queue", argv[1]);
    full_and_empty();
    each_turn();
    other_codes();
    depth_of_one();
    depth_of_the_file();
    comes_back();
    killed_receiver();
    both_are_woken();
    spins_at_one_slot();
    put_back_wakes();
    one_at_work(16);
    several_at_work(16);
    one_at_work(2);
    two_and_two(4);
    two_and_two(1);
    printf("queue: %u expectations hold\n", count);
    return 0;
}
