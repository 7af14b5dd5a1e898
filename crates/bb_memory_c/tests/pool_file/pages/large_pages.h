// Calls of the system as a kernel with pages of SIMULATED_PAGE bytes answers them: it refuses what
// isn't a multiple of its page, and rounds lengths up. Compile pool_file_map.c or another source
// with `-include large_pages.h -DSIMULATED_PAGE=65536`. What the C library maps by itself is as it
// was.
#ifndef LARGE_PAGES_H
#define LARGE_PAGES_H

#ifndef _GNU_SOURCE
#define _GNU_SOURCE
#endif
#include <errno.h>
#include <stdbool.h>
#include <stdint.h>
#include <sys/mman.h>
#include <unistd.h>

static inline bool is_simulated_multiple(const void *address) {
    return (uintptr_t)address % SIMULATED_PAGE == 0;
}

static inline size_t simulated_length(size_t size) {
    return (size + SIMULATED_PAGE - 1) / SIMULATED_PAGE * SIMULATED_PAGE;
}

static inline void *simulated_mmap(void *at, size_t size, int protection, int flags, int fd,
                                   off_t offset) {
    const size_t length = simulated_length(size);
    const bool is_fixed = (flags & (MAP_FIXED | MAP_FIXED_NOREPLACE)) != 0;
    if (offset % SIMULATED_PAGE != 0 || (is_fixed && !is_simulated_multiple(at))) {
        errno = EINVAL;
        return MAP_FAILED;
    }
    if (is_fixed) {
        void *mapped = mmap(at, length, protection, flags, fd, offset);
        if (mapped == MAP_FAILED || mapped == at)
            return mapped;
        // A kernel that doesn't know MAP_FIXED_NOREPLACE maps them elsewhere, as below.
        munmap(mapped, length);
        flags &= ~MAP_FIXED_NOREPLACE;
    }
    char *found = mmap(NULL, length + SIMULATED_PAGE, protection, flags, fd, offset);
    if (found == MAP_FAILED)
        return MAP_FAILED;
    char *first = found + (simulated_length((uintptr_t)found) - (uintptr_t)found);
    if (first > found)
        munmap(found, (size_t)(first - found));
    munmap(first + length, (size_t)(found + SIMULATED_PAGE - first));
    return first;
}

static inline int simulated_munmap(void *at, size_t size) {
    if (!is_simulated_multiple(at)) {
        errno = EINVAL;
        return -1;
    }
    return munmap(at, simulated_length(size));
}

static inline int simulated_mprotect(void *at, size_t size, int protection) {
    if (!is_simulated_multiple(at)) {
        errno = EINVAL;
        return -1;
    }
    return mprotect(at, simulated_length(size), protection);
}

static inline int simulated_madvise(void *at, size_t size, int advice) {
    if (!is_simulated_multiple(at)) {
        errno = EINVAL;
        return -1;
    }
    return madvise(at, simulated_length(size), advice);
}

static inline long simulated_sysconf(int name) {
    return name == _SC_PAGESIZE ? SIMULATED_PAGE : sysconf(name);
}

#define mmap simulated_mmap
#define munmap simulated_munmap
#define mprotect simulated_mprotect
#define madvise simulated_madvise
#define sysconf simulated_sysconf

#endif
