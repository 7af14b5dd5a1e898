#define _POSIX_C_SOURCE 200809L
#include "check.h"

#include <signal.h>
#include <stdio.h>
#include <stdlib.h>
#include <string.h>
#include <unistd.h>

enum {
    LONGEST = 1000
};

// How a message begins.
struct head {
    uint64_t number;
    uint64_t writer;
};

char check_path[128];
static pid_t maker;
static uint64_t writer;

static size_t len_of(uint64_t number) {
    return sizeof(struct head) + (size_t)(number * 37 % (LONGEST - sizeof(struct head) + 1));
}

static void remove_file(void) {
    if (getpid() == maker)
        unlink(check_path);
}

void check_holds(bool holds, const char *what, const char *file, int line) {
    if (holds)
        return;
    fprintf(stderr, "%s:%d: not so: %s\n", file, line, what);
    remove_file();
    if (getpid() != maker)
        kill(maker, SIGTERM);
    _exit(1);
}

void check_code(uint32_t wanted, uint32_t code, const char *call, const char *file, int line) {
    if (code == wanted)
        return;
    fprintf(stderr, "%s:%d: %s is %s\n", file, line, call, bb_pool_file_name(code));
    check_holds(false, bb_pool_file_name(wanted), file, line);
}

static void stop(int signal) {
    static const char text[] = "a process waits for ever\n";
    if (signal == SIGALRM && write(STDERR_FILENO, text, sizeof text - 1) < 0)
        _exit(2);
    remove_file();
    _exit(1);
}

void check_begin(const char *folder, unsigned seconds) {
    maker = getpid();
    snprintf(check_path, sizeof check_path, "%s/topic-%d", folder, (int)maker);
    unlink(check_path);
    atexit(remove_file);
    const struct sigaction action = {.sa_handler = stop};
    EXPECT(sigaction(SIGALRM, &action, NULL) == 0);
    EXPECT(sigaction(SIGTERM, &action, NULL) == 0);
    EXPECT(sigaction(SIGINT, &action, NULL) == 0);
    alarm(seconds);
}

static unsigned char byte_at(const struct head *head, size_t at) {
    return (unsigned char)(head->number * 131 + head->writer * 17 + at * 7);
}

static void fill(void *bytes, size_t len, uint64_t number) {
    const struct head head = {number, (uint64_t)getpid()};
    unsigned char *to = (unsigned char *)bytes;
    memcpy(to, &head, sizeof head);
    for (size_t at = sizeof head; at < len; at++)
        to[at] = byte_at(&head, at);
}

// Returns whether a message is as `fill` makes it, and notes its writer.
static bool is_filled(const void *bytes, size_t len, uint64_t number) {
    const unsigned char *from = (const unsigned char *)bytes;
    struct head head;
    memcpy(&head, from, sizeof head);
    bool holds = head.number == number;
    for (size_t at = sizeof head; at < len; at++)
        holds = holds && from[at] == byte_at(&head, at);
    writer = head.writer;
    return holds;
}

uint64_t check_writer(void) {
    return writer;
}

uint64_t check_publish(topic *publisher, uint32_t milliseconds) {
    const uint64_t number = topic_next(publisher);
    void *place = topic_loan(publisher);
    EXPECT(place != NULL);
    fill(place, len_of(number), number);
    const uint32_t code = topic_publish(publisher, len_of(number), milliseconds);
    if (code == BB_FILE_TIMED_OUT)
        return 0;
    EXPECT_CODE(BB_OK, code);
    return number;
}

uint64_t check_receive(topic *subscriber, uint32_t milliseconds) {
    topic_message message;
    const uint32_t code = topic_receive(subscriber, &message, milliseconds);
    if (code == BB_FILE_TIMED_OUT)
        return 0;
    EXPECT_CODE(BB_OK, code);
    EXPECT(message.len == len_of(message.number));
    EXPECT(is_filled(message.bytes, message.len, message.number));
    return message.number;
}

void check_nothing_left(void) {
    bb_pool_file *file;
    bb_pool_file_figures figures;
    EXPECT_CODE(BB_OK, bb_pool_file_open(&file, check_path, NULL));
    EXPECT_CODE(BB_OK, bb_pool_file_reap(file, BB_REAP_HELD, NULL));
    EXPECT_CODE(BB_OK, bb_pool_file_info(file, &figures));
    EXPECT(figures.alive == 0);
    EXPECT(figures.held == 0);
    EXPECT(figures.detached == 0);
    EXPECT(figures.messages == 0);
    EXPECT(figures.wrong == 0);
    EXPECT_CODE(BB_OK, bb_pool_file_close(file));
}
