// The first code and the first memory of a program. SHIFT is a number of bytes: the code ends that
// far after the start of a cache line, so the object that is linked next begins there. The chunk of
// the heap is twice as much longer, so the addresses of all later ones are further on by that much.
#include <stdlib.h>

#define TEXT_OF(number) #number
#define TEXT(number) TEXT_OF(number)

__asm__(".section .text.shift, \"ax\"\n"
        ".p2align 6\n"
        ".space 64 + " TEXT(SHIFT) ", 0x90\n"
                                   ".text\n");

static void *volatile first_chunk;

__attribute__((constructor)) static void shift_heap(void) {
    first_chunk = malloc(4096 + 2 * SHIFT);
}
