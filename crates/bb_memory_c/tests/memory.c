// Tests of memory.c: requests, releases, loans and fills, also those that the library doesn't make
// today.
#include "../memory.c"

#include <stdint.h>
#include <stdio.h>

// The requests that reached the host's functions.
struct host {
    unsigned allocated;
    unsigned released;
    void *last;
};

static char blocks[4][64];

static void *take(void *context, size_t size, size_t align) {
    struct host *host = context;
    if (size > sizeof blocks[0] || align != 16 || host->allocated == 4)
        return NULL;
    return blocks[host->allocated++];
}

static void give_back(void *context, void *block) {
    struct host *host = context;
    host->released++;
    host->last = block;
}

static void expect(bool holds, const char *what, int line) {
    if (!holds) {
        fprintf(stderr, "memory: line %d: not so: %s\n", line, what);
        exit(1);
    }
}

#define EXPECT(holds) expect(holds, #holds, __LINE__)

// Expects that the first `filled` bytes of a block of 64 are 1, and that the others are 0.
static void expect_filled(const char *block, size_t filled, int line) {
    for (size_t at = 0; at < 64; at++)
        expect(block[at] == (at < filled ? 1 : 0), "a byte is as filled", line);
}

int main(void) {
    struct host host = {0, 0, NULL};
    void *large[8];
    char list[64] = "";
    char row[64] = "";

    // Each large block of the C library begins at a multiple of 128. `malloc` puts blocks of this
    // size 144 bytes apart.
    for (int i = 0; i < 8; i++) {
        large[i] = memory_allocate(136);
        EXPECT(large[i] != NULL && (uintptr_t)large[i] % 128 == 0);
    }
    for (int i = 0; i < 8; i++)
        memory_release(large[i]);

    // NULL is released without the host, with its functions and before.
    memory_release(NULL);
    bb_use_memory(take, give_back, &host);
    memory_release(NULL);
    EXPECT(host.released == 0);

    // A block goes from the host to the library and back.
    void *block = memory_allocate(64);
    EXPECT(block == blocks[0] && memory_allocate(65) == NULL);
    memory_release(block);
    EXPECT(host.released == 1 && host.last == blocks[0]);

    // The next two requests get the loan, whose releases free nothing.
    memory_lend(list, row, 64, SIZE_MAX);
    EXPECT(memory_allocate(64) == list);
    EXPECT(memory_allocate(64) == row);
    EXPECT(memory_allocate(64) == blocks[1]);
    memory_release(NULL);
    memory_release(list);
    EXPECT(host.released == 1);
    EXPECT(memory_end_loan());

    // After the loan a release of a block is the host's, and NULL is not.
    memory_release(list);
    EXPECT(host.released == 2 && host.last == list);
    memory_release(row);
    EXPECT(host.released == 3 && host.last == row);
    memory_release(NULL);
    EXPECT(host.released == 3);

    // List and row may be the same block.
    memory_lend(list, list, 64, SIZE_MAX);
    EXPECT(memory_allocate(64) == list && memory_allocate(64) == list);
    memory_release(list);
    EXPECT(memory_end_loan() && host.released == 3);

    // A request for another size fails, and takes the place of one for the loan's.
    memory_lend(list, row, 64, SIZE_MAX);
    EXPECT(memory_allocate(63) == NULL);
    EXPECT(memory_allocate(64) == row);
    EXPECT(memory_end_loan());
    memory_lend(list, row, 64, SIZE_MAX);
    EXPECT(memory_allocate(64) == list);
    EXPECT(memory_allocate(65) == NULL);
    EXPECT(memory_allocate(64) == blocks[2]);
    EXPECT(!memory_end_loan());

    // A loan whose list stays, or whose row is given back, isn't kept.
    memory_lend(list, row, 64, SIZE_MAX);
    EXPECT(memory_allocate(64) == list && memory_allocate(64) == row);
    EXPECT(!memory_end_loan());
    memory_lend(list, row, 64, SIZE_MAX);
    EXPECT(memory_allocate(64) == list && memory_allocate(64) == row);
    memory_release(row);
    memory_release(list);
    EXPECT(!memory_end_loan() && host.released == 3);

    // A row that is taken back isn't the host's. Requests are.
    memory_take_back(row);
    EXPECT(memory_allocate(64) == blocks[3]);
    memory_release(row);
    EXPECT(host.released == 3);
    EXPECT(!memory_end_loan());
    memory_release(row);
    EXPECT(host.released == 4);

    // A fill writes all bytes, but of a lent list only the first period.
    EXPECT(memory_fill(row, 1, 48) == row);
    expect_filled(row, 48, __LINE__);
    memory_lend(list, row, 64, 16);
    EXPECT(memory_fill(list, 1, 8) == list);
    expect_filled(list, 8, __LINE__);
    EXPECT(memory_fill(list, 1, 48) == list);
    expect_filled(list, 16, __LINE__);
    EXPECT(memory_fill(row, 1, 64) == row);
    expect_filled(row, 64, __LINE__);
    memory_end_loan();
    EXPECT(memory_fill(list, 1, 48) == list);
    expect_filled(list, 48, __LINE__);
    memory_take_back(row);
    EXPECT(memory_fill(row, 0, 64) == row);
    expect_filled(row, 0, __LINE__);
    memory_end_loan();
    return 0;
}
