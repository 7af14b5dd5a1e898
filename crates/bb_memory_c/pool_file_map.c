// Opens and closes a pool in a file (pool_file.h). Each process has its own mapping of the file,
// the library's table of its words, and a list of all that are open, for forks. This file is
// outside the proofs.
//
// Each process maps all but the header, at any address, and makes a table of its own: the library
// is lent memory of this process for the row of words (memory.h), and then the file is mapped at
// the addresses of that memory.
//
// No mapping replaces another one: if the system failed, nobody could say whether it had unmapped
// the first one, and whether another thread had mapped something there since. So this file unmaps
// what it has, and maps the next at the same addresses only if they are still free.
//
// Where the system's pages are larger than those of the file, the mapping begins at the start of
// the file, so the header is mapped, too.
#define _GNU_SOURCE
#include "pool_file.h"

#include <errno.h>
#include <fcntl.h>
#include <stdlib.h>
#include <string.h>
#include <sys/mman.h>
#include <time.h>
#include <unistd.h>

// A flag that older headers of the C library lack.
#ifndef MAP_FIXED_NOREPLACE
#define MAP_FIXED_NOREPLACE 0x100000
#endif

enum {
    // If the words take more bytes than this, they are at first that many bytes or more, which are
    // mapped again and again, at most MOST_STAND_INS times.
    STAND_IN = 1 << 18,
    MOST_STAND_INS = 64,
    // The library copies a list of zeros into the row of words. If there are many words, the list
    // begins this many bytes after the row: to the same address, the compiled code copies it word
    // by word.
    LIST_AFTER = 128,
    // The file is mapped at another place if another thread has taken the first one, at most this
    // many times.
    MOST_PLACES = 100
};

// MAPPING

// Returns how many bytes of memory the system maps for everything that is mapped.
static size_t mapped_size(const bb_pool_file *file) {
    const size_t size = file->lead + file->words_size + file->events_size + file->region_size;
    return round_up(size, file->page);
}

// Returns whether the words at first are a part that is mapped again and again.
static bool has_many_words(const bb_pool_file *file) {
    return file->words_size > STAND_IN;
}

// Returns how many bytes after the row of words the library's list of zeros begins. If there are
// few words, another page would take longer than a copy word by word.
static size_t list_after(const bb_pool_file *file) {
    return has_many_words(file) ? LIST_AFTER : 0;
}

// Returns how many bytes of memory the system maps if it maps no more than the words, as a row and
// as a list. Events and region may begin in their last page.
static size_t mapped_for_words(const bb_pool_file *file) {
    return round_up(file->lead + file->words_size + list_after(file), file->page);
}

// Unmaps what this process has at the addresses of the file. Returns false if the system fails:
// then nothing has changed.
static bool unmap(bb_pool_file *file) {
    if (file->mapped != NULL && munmap(file->mapped, mapped_size(file)) != 0)
        return false;
    file->mapped = NULL;
    return true;
}

// Unmaps `before` bytes at `start`, and `after` bytes after the next `size` bytes. If the system
// fails, it unmaps these `size` bytes, too, and returns false.
static bool keep_the_middle(char *start, size_t before, size_t size, size_t after) {
    if (after > 0 && munmap(start + before + size, after) != 0) {
        munmap(start, before + size + after);
        return false;
    }
    if (before > 0 && munmap(start, before) != 0) {
        munmap(start, before + size);
        return false;
    }
    return true;
}

// Reserves addresses for words, events and region side by side, at which the file can be mapped.
//
// A mapping begins at a multiple of the system's page, in memory and in the file. So if the
// alignment of the buckets is at most that page, the region is aligned in memory as it is in the
// file. If it is more, the mapping begins as many pages later as the region needs to be aligned.
static bool reserve(bb_pool_file *file) {
    file->page = (size_t)sysconf(_SC_PAGESIZE);
    file->lead = PAGE % file->page;
    const size_t size = mapped_size(file);
    const size_t before = file->lead + file->words_size + file->events_size;
    const size_t align = file->head.bucket_align;
    const size_t more = align > file->page ? align : 0;
    char *reserved =
        mmap(NULL, size + more, PROT_NONE, MAP_PRIVATE | MAP_ANONYMOUS | MAP_NORESERVE, -1, 0);
    if (reserved == MAP_FAILED)
        return false;
    const uintptr_t region = (uintptr_t)reserved + before;
    const size_t skipped = more > 0 ? round_up(region, more) - region : 0;
    if (!keep_the_middle(reserved, skipped, size, more - skipped))
        return false;
    file->mapped = reserved + skipped;
    file->words = file->mapped + file->lead;
    char *events = file->words + file->words_size;
    file->events = (struct events *)(void *)events;
    file->slots = (struct slot_events *)(void *)(events + sizeof(struct events));
    file->user = events + pool_file_bytes_of_events(&file->head);
    file->region = events + file->events_size;
    return true;
}

// Maps `size` bytes of the open file at this place, where this process has mapped nothing, or has
// just unmapped what it had. If another thread has mapped something there since, it fails with
// EEXIST. After a failure nothing there is of this function.
static bool map_at(char *place, size_t size, int protection, int fd, off_t offset) {
    const int flags = MAP_SHARED | MAP_FIXED_NOREPLACE;
    char *pages = mmap(place, size, protection, flags, fd, offset);
    if (pages == place)
        return true;
    // Linux before 4.17 doesn't know the flag, and maps them at another place.
    if (pages != MAP_FAILED) {
        munmap(pages, size);
        errno = EEXIST;
    }
    return false;
}

// Maps the pages of the open file `fd`, which has `part` bytes, at the addresses of the words again
// and again. Returns false if the system fails, or if another thread takes some of these addresses,
// which are free meanwhile. Then the file's addresses are no longer reserved, and `mapped` is NULL,
// unless the system failed before anything was done.
static bool repeat(bb_pool_file *file, int fd, size_t part) {
    const size_t size = mapped_for_words(file);
    if (munmap(file->mapped, size) != 0)
        return false;
    for (size_t at = 0; at < size; at += part) {
        const size_t length = smaller(part, size - at);
        if (map_at(file->mapped + at, length, PROT_READ | PROT_WRITE, fd, 0))
            continue;
        const size_t all = mapped_size(file);
        if (at > 0)
            munmap(file->mapped, at);
        if (all > size)
            munmap(file->mapped + size, all - size);
        file->mapped = NULL;
        return false;
    }
    return true;
}

// Returns how many bytes are mapped over the words again and again.
static size_t size_of_part(const bb_pool_file *file) {
    const size_t part = round_up(mapped_for_words(file) / MOST_STAND_INS + 1, file->page);
    return part < STAND_IN ? STAND_IN : part;
}

// Maps the same `part` bytes over the words again and again: they stay in the cache, and no others
// have to be cleared. Returns false if the system fails.
static bool map_again_and_again(bb_pool_file *file, size_t part) {
    const int fd = memfd_create("bb_pool_file", MFD_CLOEXEC);
    if (fd < 0)
        return false;
    const bool has_part = pool_file_is_allowed(part) && ftruncate(fd, (off_t)part) == 0;
    const bool is_mapped = has_part && repeat(file, fd, part);
    close(fd);
    return is_mapped;
}

// Reserves the file's addresses, and maps memory for the words, for as long as the library makes
// its table, which fills them with zeros. `*period` is how many bytes of this memory are mapped
// again and again, or SIZE_MAX if none are.
static bool map_stand_ins(bb_pool_file *file, size_t *period) {
    if (!reserve(file))
        return false;
    *period = size_of_part(file);
    if (has_many_words(file) && map_again_and_again(file, *period))
        return true;
    *period = SIZE_MAX;
    if (file->mapped == NULL && !reserve(file))
        return false;
    return mprotect(file->mapped, mapped_for_words(file), PROT_READ | PROT_WRITE) == 0;
}

// Makes this process's table of the words, which so far are the stand-ins. The library uses them
// for its list of zeros and for the copy of that list: it writes nothing but zeros to either.
static uint32_t make_table(bb_pool_file *file, size_t period) {
    const struct header *head = &file->head;
    const size_t size = BB_BYTES_FOR(head->bucket_size, head->bucket_align, head->buckets);
    memory_lend(file->words + list_after(file), file->words, file->words_size, period);
    const uint32_t code =
        file_table_init(&file->table, head->bucket_size, head->bucket_align, file->region, size,
                        head->buckets, number_of_cells(head), head->parties);
    const bool is_kept = memory_end_loan();
    if (code != BB_OK)
        return code;
    return is_kept ? BB_OK : BB_FILE_VERSION;
}

// Makes the table, and maps words, events and region at one place: TAKEN if another thread has
// mapped something there. A forked child has nothing of the mapping: its copy would keep the locks.
//
// No call on the words comes before the file is mapped. So all operations of all processes are on
// the words of the file, and these began as zeros.
static uint32_t map_once(bb_pool_file *file) {
    size_t period;
    if (!map_stand_ins(file, &period))
        return BB_FILE_SYSTEM;
    const uint32_t code = make_table(file, period);
    if (code != BB_OK)
        return code;
    const size_t size = mapped_size(file);
    const off_t first = (off_t)(PAGE - file->lead);
    const int protection = file->only_looks ? PROT_READ : PROT_READ | PROT_WRITE;
    char *place = file->mapped;
    if (!unmap(file))
        return BB_FILE_SYSTEM;
    if (!map_at(place, size, protection, file->fd, first))
        return errno == EEXIST ? TAKEN : BB_FILE_SYSTEM;
    file->mapped = place;
    return madvise(place, size, MADV_DONTFORK) == 0 ? BB_OK : BB_FILE_SYSTEM;
}

// Frees the table of this process. The library doesn't touch the words here, which are no longer
// mapped: a call that did would crash, or change what another thread has mapped there since.
static void free_table(bb_pool_file *file) {
    if (file->words == NULL)
        return;
    memory_take_back(file->words);
    file_table_abandon(&file->table);
    memory_end_loan();
    file->words = NULL;
}

// Maps words, events and region, and makes the table.
static uint32_t map_all(bb_pool_file *file) {
    for (int places = 0; places < MOST_PLACES; places++) {
        const uint32_t code = map_once(file);
        if (code != TAKEN)
            return code;
        free_table(file);
    }
    errno = EAGAIN;
    return BB_FILE_SYSTEM;
}

// FORKS

// All that are open, for `in_child`. No fork happens while the list is locked, or one of its files.
static bb_pool_file *all;
static pthread_mutex_t all_mutex = PTHREAD_MUTEX_INITIALIZER;
static pthread_once_t once = PTHREAD_ONCE_INIT;
// Why no fork runs the functions below, or 0 if each fork does.
static int begin_error;
// Whether the system had several processors at the first open.
static bool is_parallel;

static void lock_all(void) {
    pthread_mutex_lock(&all_mutex);
}

static void unlock_all(void) {
    pthread_mutex_unlock(&all_mutex);
}

// Locks the list and its files. So in a child's copy of a pool no call that joins, leaves or reaps
// is half done.
static void before_fork(void) {
    lock_all();
    for (bb_pool_file *file = all; file != NULL; file = file->next)
        pthread_mutex_lock(&file->mutex);
}

static void in_parent(void) {
    for (bb_pool_file *file = all; file != NULL; file = file->next)
        pthread_mutex_unlock(&file->mutex);
    unlock_all();
}

// Empties a forked child's handles, and closes its copies of the descriptors, which would keep the
// locks after the parent's death. The child has no mapping of the file.
static void in_child(void) {
    for (bb_pool_file *file = all; file != NULL; file = file->next) {
        close(file->fd);
        file->is_copy = true;
        memset(file->parties, 0, file->head.parties * sizeof *file->parties);
        file->mapped = NULL;  // what is there by now is the child's own
        pthread_mutex_unlock(&file->mutex);
    }
    all = NULL;
    unlock_all();
}

static void begin(void) {
    is_parallel = sysconf(_SC_NPROCESSORS_ONLN) > 1;
    begin_error = pthread_atfork(before_fork, in_parent, in_child);
}

// OPENING AND CLOSING

// Frees all of a `bb_pool_file` whose parties have left. The locks are released last. If a join or
// a reap has kept one, the words of its number stay as if the process had died here.
//
// Returns false, and why in `errno`, if the system fails to unmap the file or to release the locks.
// What a forked child's copies of parties have in memory stays, since a thread of the parent may
// have been in a call with a party.
static bool drop(bb_pool_file *file) {
    bool is_dropped = unmap(file);
    int error = errno;
    free_table(file);
    // A mapping that is left, or a copy of the descriptor, would keep the locks.
    if (!file->is_copy && pool_file_unlock(file->fd) != 0) {
        if (is_dropped)
            error = errno;
        is_dropped = false;
    }
    if (!file->is_copy)
        close(file->fd);
    free(file->parties);
    free(file->mine);
    free(file);
    errno = error;
    return is_dropped;
}

// Opens the pool in the open file, which the `bb_pool_file` owns. The path is NULL if it has none.
static uint32_t try_file(bb_pool_file *file, const char *path, const bb_pool_file_options *options,
                         mode_t mode) {
    const uint32_t code = pool_file_prepare(file, path, options, mode);
    if (code != BB_OK)
        return code;
    file->parties = calloc(file->head.parties, sizeof *file->parties);
    file->mine = calloc(file->head.parties, sizeof *file->mine);
    if (file->parties == NULL || file->mine == NULL)
        return BB_MALLOC_REFUSED;
    file->is_parallel = is_parallel;
    return map_all(file);
}

// Opens the pool in the open file `fd`, which the `bb_pool_file` owns from then on.
static uint32_t try_open(bb_pool_file **to, int fd, const char *path, int access,
                         const bb_pool_file_options *options, mode_t mode) {
    bb_pool_file *file = calloc(1, sizeof *file);
    if (file == NULL) {
        close(fd);
        return BB_MALLOC_REFUSED;
    }
    file->fd = fd;
    file->only_looks = access == O_RDONLY;
    pthread_mutex_init(&file->mutex, NULL);
    const uint32_t code = try_file(file, path, options, mode);
    if (code != BB_OK) {
        const int error = errno;
        drop(file);
        errno = error;
        return code;
    }
    file->next = all;
    all = file;
    *to = file;
    return BB_OK;
}

// Opens a file by its path, or by its descriptor if the path is NULL. It tries again while another
// process makes the file. It doesn't wait for a lock, which would block every fork meanwhile.
// `access` is O_RDWR, or O_RDONLY with a path.
static uint32_t open_any(bb_pool_file **to, const char *path, int fd, int access,
                         const bb_pool_file_options *options) {
    mode_t mode = options == NULL ? 0 : options->mode;
    if (mode == 0)
        mode = 0600;
    if (!pool_file_are_valid(options))
        return BB_INVALID_ARGUMENT;
    pthread_once(&once, begin);
    if (begin_error != 0) {
        errno = begin_error;
        return BB_FILE_SYSTEM;
    }
    for (;;) {
        uint32_t code = BB_FILE_SYSTEM;
        lock_all();
        const int own = path == NULL ? pool_file_open_again(fd)
                                     : pool_file_open_path(path, access, options, mode);
        if (own >= 0)
            code = try_open(to, own, path, access, options, mode);
        else if (errno == EEXIST)
            code = REPLACED;
        unlock_all();
        if (code != BUSY && code != REPLACED)
            return code;
        if (code == BUSY) {
            const struct timespec rest = {0, 1000000};
            nanosleep(&rest, NULL);
        }
    }
}

uint32_t bb_pool_file_open(bb_pool_file **to, const char *path,
                           const bb_pool_file_options *options) {
    return open_any(to, path, -1, O_RDWR, options);
}

uint32_t bb_pool_file_open_fd(bb_pool_file **to, int fd, const bb_pool_file_options *options) {
    return open_any(to, NULL, fd, O_RDWR, options);
}

uint32_t pool_file_open_to_look(bb_pool_file **to, const char *path) {
    const bb_pool_file_options options = {.buckets = 0, .mode = 0666};
    return open_any(to, path, -1, O_RDONLY, &options);
}

void *bb_pool_file_user(bb_pool_file *file) {
    return file->is_copy || file->head.user_bytes == 0 ? NULL : file->user;
}

uint32_t bb_pool_file_close(bb_pool_file *file) {
    lock_all();
    bb_pool_file **at = &all;
    while (*at != NULL && *at != file)
        at = &(*at)->next;
    if (*at != NULL)
        *at = file->next;
    for (uint32_t number = 0; number < file->head.parties; number++)
        if (file->mine[number])
            bb_pool_file_leave(file, &file->parties[number]);
    const bool is_dropped = drop(file);
    unlock_all();
    return is_dropped ? BB_OK : BB_FILE_SYSTEM;
}
