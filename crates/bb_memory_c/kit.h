// The functions of C that compiled Rattle code calls: those of the kit's libc/src/heap.rt and
// os/src/c.rt. The kit has them only as objects for x86-64. kit.c has those of the library, and
// kit_program.c those that a program such as memrun needs besides. They serve every processor, and
// are outside the proofs, as the kit's objects are.
#ifndef BB_MEMORY_KIT_H
#define BB_MEMORY_KIT_H

#include <stdbool.h>
#include <stddef.h>

// The result of a request: whether there is memory, and its address. If there is none, that is the
// address of a byte that nobody uses.
struct tried {
    bool ok;
    void *place;
};

typedef void signal_handler(int);

// Allocates `size` bytes at a multiple of `align`, which divides the alignment of `malloc`.
struct tried rattle_alloc(size_t size, size_t align);

// Frees a block.
void rattle_dealloc(void *block);

// Makes a block `size` bytes long, of which the first `kept` stay. If that fails, the block stays
// as it was.
struct tried rattle_realloc(void *block, size_t kept, size_t size, size_t align);

// Returns `errno`.
int rattle_errno(void);

// Sets the handler of a signal, and returns the one before, or SIG_ERR. A program calls this to
// ignore SIGPIPE as it starts: the Makefile gives it this function for `__sysv_signal`, which only
// glibc has.
signal_handler *kit_signal(int number, signal_handler *to);

#endif
