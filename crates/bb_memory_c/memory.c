// The source of the library's own memory. This file is outside the proofs: all that a contract says
// of a request for memory is that it may fail. The Makefile has the library call `memory_*` in
// place of `malloc`, `free` and `memset`.

// For `posix_memalign` in C99.
#define _POSIX_C_SOURCE 200112L

#include <stdlib.h>
#include <string.h>

#include "bb_memory.h"
#include "memory.h"

// The alignment of each block, which `malloc` has on x86-64 and on ARM64.
enum {
    BLOCK_ALIGN = 16
};

// The bytes of two cache lines, which processors fetch together, or of one line on some ARM64
// processors: threads slow each other down if each of them writes to the same pair. So each block
// of at least that size begins at a multiple of it. The blocks of two parties of a shared pool
// share no such pair then.
enum {
    LINE_PAIR = 128
};

static void *allocate_by_malloc(void *context, size_t size, size_t align) {
    void *block = NULL;
    (void)context;
    (void)align;
    if (size < LINE_PAIR)
        return malloc(size);
    return posix_memalign(&block, LINE_PAIR, size) == 0 ? block : NULL;
}

static void release_by_free(void *context, void *block) {
    (void)context;
    free(block);
}

// The functions that the library calls, and what each of them gets as its first parameter.
static struct {
    void *(*allocate)(void *context, size_t size, size_t align);
    void (*release)(void *context, void *block);
    void *context;
} memory = {allocate_by_malloc, release_by_free, NULL};

void bb_use_memory(void *(*allocate)(void *context, size_t size, size_t align),
                   void (*release)(void *context, void *block), void *context) {
    memory.allocate = allocate;
    memory.release = release;
    memory.context = context;
}

static void *allocate_by(size_t size) {
    return memory.allocate(memory.context, size, BLOCK_ALIGN);
}

static void release_by(void *block) {
    memory.release(memory.context, block);
}

// Hidden: the archive and the shared library export only `bb_*`.
void *memory_allocate(size_t size);
void memory_release(void *block);
void *memory_fill(void *block, int byte, size_t size);

// A thread's loan of memory: memory.h.
static __thread struct {
    void *list;
    void *row;
    size_t size;
    size_t period;
    // How many of the two requests are left.
    unsigned left;
    // How many times the library has the list, and the row.
    int lists;
    int rows;
} loan;

void memory_lend(void *list, void *row, size_t size, size_t period) {
    loan.list = list;
    loan.row = row;
    loan.size = size;
    loan.period = period;
    loan.left = 2;
    loan.lists = 0;
    loan.rows = 0;
}

void memory_take_back(void *row) {
    memory_lend(NULL, row, 0, 0);
    loan.left = 0;
}

bool memory_end_loan(void) {
    loan.list = NULL;
    loan.row = NULL;
    loan.left = 0;
    return loan.lists == 0 && loan.rows == 1;
}

void *memory_allocate(size_t size) {
    if (loan.left == 0)
        return allocate_by(size);
    loan.left--;
    if (size != loan.size)
        return NULL;
    if (loan.left == 1) {
        loan.lists++;
        return loan.list;
    }
    loan.rows++;
    return loan.row;
}

// Does nothing for NULL, as `free` does: the host's function never gets it.
void memory_release(void *block) {
    if (block == NULL)
        return;
    if (block == loan.list && loan.lists > 0) {
        loan.lists--;
        return;
    }
    if (block == loan.row) {
        loan.rows--;
        return;
    }
    release_by(block);
}

// Fills `size` bytes of `block`, as `memset` does. If `block` is the list of a loan, its first
// `period` bytes are all the memory that it has.
void *memory_fill(void *block, int byte, size_t size) {
    if (block != NULL && block == loan.list && size > loan.period)
        size = loan.period;
    return memset(block, byte, size);
}
