// `fuzz FILE COUNT` runs `bb-pool`, whose `main` is called `run_bb_pool` here, over COUNT files
// that are almost pools. Each comes from a pool in use, in which some bytes, figures or words, or
// the length, are changed. Whatever the file says, the command ends by itself, with status 0 or 1;
// and if it can't open the file, the file keeps its bytes.
//
// The same COUNT runs over the same files. It is compiled with the checkers of addresses and
// undefined behavior.
#define _GNU_SOURCE
#include <fcntl.h>
#include <stdio.h>
#include <stdlib.h>
#include <string.h>
#include <sys/stat.h>
#include <sys/wait.h>
#include <unistd.h>

#include "bb_pool_file.h"

int run_bb_pool(int argc, char **argv);

enum {
    PAGE = 4096,
    LINE = 128,
    // The bytes of the header.
    HEADER = 104,
    // No file has more bytes.
    MOST_BYTES = 1 << 20,
    // The seconds after which a run is killed, since it hangs.
    LONGEST = 60
};

// Where the header has each figure.
enum {
    SIZE_AT = 16,
    ALIGN_AT = 24,
    BUCKETS_AT = 32,
    PARTIES_AT = 36,
    SLOTS_AT = 40,
    USER_AT = 88,
    DEPTH_AT = 96
};

static const char *path;
// The file with the errors of the last run.
static char errors[256];
static uint64_t seed;
static uint32_t input;

static void expect(bool holds, const char *what, int line) {
    if (!holds) {
        fprintf(stderr, "fuzz: line %d: not so: %s (input %u)\n", line, what, input);
        unlink(path);
        exit(1);
    }
}

#define EXPECT(holds) expect(holds, #holds, __LINE__)

// Returns a number below `limit`.
static uint64_t any(uint64_t limit) {
    seed = seed * 6364136223846793005u + 1442695040888963407u;
    return (seed >> 33) % limit;
}

// Returns a number that may be out of place.
static uint64_t odd_number(void) {
    static const uint64_t numbers[] = {
        0,          1,          2,          3,          7,          8,
        16,         63,         64,         127,        128,        255,
        4096,       65535,      65536,      0x7fffffff, 1u << 31,   0xfffffffe,
        0xffffffff, 1ull << 32, 1ull << 60, 1ull << 61, 1ull << 63, UINT64_MAX - 1,
        UINT64_MAX};
    return any(2) == 0 ? any(200) : numbers[any(sizeof numbers / sizeof *numbers)];
}

// Makes a pool that some parties use, and one of them is dead.
static void make_pool(void) {
    const bb_pool_file_options options = {.bucket_size = 1 + any(200),
                                          .bucket_align = (size_t)1 << any(9),
                                          .buckets = (uint32_t)(1 + any(100)),
                                          .parties = (uint32_t)(2 + any(10)),
                                          .slots = (uint32_t)any(10),
                                          .depth = (uint32_t)any(5),
                                          .user_bytes = any(3) * 100};
    bb_pool_file *file;
    bb_file_party *party;
    EXPECT(bb_pool_file_open(&file, path, &options) == BB_OK);
    EXPECT(bb_pool_file_join(file, &party) == BB_OK);
    for (uint64_t left = any(options.buckets) + 1; left > 0; left--) {
        const bb_chunk chunk = bb_file_party_take(party);
        if (chunk.code != BB_OK)
            continue;
        const uint32_t slot = (uint32_t)any(options.slots + 1);
        if (any(3) == 0 && bb_pool_file_post(file, party, slot, chunk.place, any(100)) == BB_OK)
            continue;
        if (any(4) == 0)
            EXPECT(bb_pool_file_detach(file, party, chunk.place).code == BB_OK);
    }
    for (uint64_t left = any(4); left > 0; left--) {
        const uint32_t slot = (uint32_t)any(options.slots + 1);
        const bb_message message = bb_pool_file_take(file, party, slot);
        if (message.code == BB_OK && any(2) == 0)
            EXPECT(bb_file_party_done(party, message.place) == BB_OK);
    }
    _exit(0);  // without leaving
}

static uint64_t get(const unsigned char *bytes, size_t at, size_t size) {
    uint64_t value = 0;
    memcpy(&value, bytes + at, size);
    return value;
}

static void put(unsigned char *bytes, size_t at, size_t size, uint64_t value) {
    memcpy(bytes + at, &value, size);
}

static uint64_t round_up(uint64_t size, uint64_t to) {
    return (size + to - 1) / to * to;
}

// Returns the length of a file with these figures, or 0 if it is too long for this test.
static size_t length_of(const unsigned char *bytes) {
    const uint64_t size = get(bytes, SIZE_AT, 8);
    const uint64_t align = get(bytes, ALIGN_AT, 8);
    const uint64_t buckets = get(bytes, BUCKETS_AT, 4);
    const uint64_t slots = get(bytes, SLOTS_AT, 4);
    const uint64_t user = get(bytes, USER_AT, 8);
    const uint64_t cells = slots * get(bytes, DEPTH_AT, 4);
    const uint64_t most = MOST_BYTES;
    if (size > most || align == 0 || align > most || buckets > most || slots > most || user > most)
        return 0;
    if (cells > most)
        return 0;
    const uint64_t lives = round_up(8 * get(bytes, PARTIES_AT, 4), LINE);
    const uint64_t flags = round_up(8 * buckets, LINE);
    const uint64_t entries = flags;
    const uint64_t words = LINE + flags + lives + entries + LINE * cells;
    uint64_t region_align = align < PAGE ? PAGE : align;
    if (region_align > 65536)
        region_align = 65536;
    const uint64_t before = PAGE + words + LINE + LINE * slots + user;
    const uint64_t region = round_up(size, align) * (buckets - (buckets > 0)) + size;
    const uint64_t length = round_up(before, region_align) + round_up(region, PAGE);
    return length > most ? 0 : (size_t)length;
}

// Changes a pool's file, whose length is `length`. Returns its new length.
static size_t change(unsigned char *bytes, size_t length) {
    static const size_t places[] = {SIZE_AT,  ALIGN_AT, BUCKETS_AT, PARTIES_AT,
                                    SLOTS_AT, USER_AT,  DEPTH_AT};
    for (uint64_t left = 1 + any(6); left > 0; left--) {
        const size_t place = places[any(7)];
        const bool is_long = place == SIZE_AT || place == ALIGN_AT || place == USER_AT;
        switch (any(6)) {
        case 0: put(bytes, place, is_long ? 8 : 4, odd_number()); break;
        case 1: bytes[any(HEADER)] ^= (unsigned char)(1 << any(8)); break;
        case 2: bytes[any(length)] = (unsigned char)any(256); break;
        default:
            // A word of a flag, of a life, of an entry, of a slot, or of an event.
            put(bytes, PAGE + 8 * any((length - PAGE) / 8), 8, odd_number() << any(2) * 32);
        }
    }
    const size_t right = length_of(bytes);
    if (right > 0 && any(4) > 0)
        return right;
    if (any(4) == 0)
        return any(2 * length);
    return length;
}

static void write_file(const unsigned char *bytes, size_t length) {
    const int fd = open(path, O_RDWR | O_CREAT | O_TRUNC, 0600);
    EXPECT(fd >= 0 && ftruncate(fd, (off_t)length) == 0);
    EXPECT(length == 0 || any(20) == 0 || posix_fallocate(fd, 0, (off_t)length) == 0);
    const size_t whole = length < MOST_BYTES ? length : MOST_BYTES;
    EXPECT(pwrite(fd, bytes, whole, 0) == (ssize_t)whole && close(fd) == 0);
}

static size_t read_file(unsigned char *bytes) {
    const int fd = open(path, O_RDONLY);
    const ssize_t length = pread(fd, bytes, MOST_BYTES, 0);
    EXPECT(length >= 0 && close(fd) == 0);
    return (size_t)length;
}

// Returns the status with which a child ends, which runs `bb-pool` or makes a pool.
static int run(int argc, char **argv) {
    int status;
    const pid_t child = fork();
    EXPECT(child >= 0);
    if (child == 0) {
        alarm(LONGEST);
        if (argv == NULL)
            make_pool();
        const int to = open(errors, O_WRONLY | O_CREAT | O_TRUNC, 0600);
        EXPECT(to >= 0 && dup2(to, STDERR_FILENO) >= 0);
        EXPECT(freopen("/dev/null", "w", stdout) != NULL);
        const int ended = run_bb_pool(argc, argv);
        fflush(stdout);
        _exit(ended);
    }
    EXPECT(waitpid(child, &status, 0) == child);
    return WIFEXITED(status) ? WEXITSTATUS(status) : -WTERMSIG(status);
}

// Shows what the last run has written, such as what a checker has found.
static void show_errors(void) {
    char text[4096];
    const int fd = open(errors, O_RDONLY);
    const ssize_t length = read(fd, text, sizeof text);
    fprintf(stderr, "%.*s\n", length > 0 ? (int)length : 0, text);
    unlink(errors);
}

int main(int argc, char **argv) {
    static unsigned char bytes[MOST_BYTES];
    static unsigned char found[MOST_BYTES];
    uint32_t opened = 0;
    path = argv[1];
    snprintf(errors, sizeof errors, "%s.errors", path);
    const uint32_t count = argc == 3 ? (uint32_t)atoi(argv[2]) : 0;
    EXPECT(count > 0);
    for (input = 0; input < count; input++) {
        seed = input;
        unlink(path);
        EXPECT(run(0, NULL) == 0);
        memset(bytes, 0, sizeof bytes);
        size_t length = change(bytes, read_file(bytes));
        if (length > MOST_BYTES)
            length = MOST_BYTES;
        write_file(bytes, length);
        // With no option, with `--reap`, or with `--reap --detached`.
        char *words[] = {"bb-pool", argv[1], NULL, NULL, NULL};
        const int options = (int)any(3);
        words[1 + options] = argv[1];
        if (options > 0)
            words[1] = "--reap";
        if (options > 1)
            words[2] = "--detached";
        const int status = run(2 + options, words);
        if (status != 0 && status != 1)
            show_errors();
        EXPECT(status == 0 || status == 1);
        opened += status == 0;
        if (status == 1)
            EXPECT(read_file(found) == length && memcmp(found, bytes, length) == 0);
    }
    unlink(path);
    unlink(errors);
    printf("fuzz: bb-pool showed %u of %u files, and refused the others\n", opened, count);
    return 0;
}
