// The C files of pools in files (bb_pool_file.h) share this header: the layout of a file, what a
// process has of it, and functions that are hidden, as those of memory.h are. `pool_file_format.c`
// makes a file, checks it, and locks its bytes; `pool_file_map.c` opens, maps and closes it; and
// `bb_pool_file.c` has all other calls. All of them are outside the proofs.
//
// A file has a header page, the row of words that memory.h describes, the events, the bytes that
// the host uses, and the pages of the region. The file's pages have 4 KiB on every system.
//
// Each slot is as many cells in a row as it is deep. A cell has room for one message, and the
// messages of a slot use its cells in turn. The calls of memory.h call a cell a slot, and a slot a
// queue.
#ifndef BB_POOL_FILE_HIDDEN_H
#define BB_POOL_FILE_HIDDEN_H

#define BB_NO_SANITIZE  // other processes use the buckets, too
#include "bb_pool_file.h"

#include <pthread.h>
#include <stdbool.h>
#include <stddef.h>
#include <stdint.h>
#include <sys/types.h>

#include "memory.h"

// Sizes in bytes.
enum {
    // A page of the file. The pages of a system may be larger: on ARM64 they have 4, 16 or 64 KiB.
    PAGE = 4096,
    // Processors fetch lines of 64 bytes in pairs, or have lines of 128 bytes.
    LINE = 128
};

// The bytes of the file that are locked: LOCK_MAKE by the process that makes the file, or looks
// whether it is made; LOCK_USED by all that have it open; LOCK_PARTY plus a party's number by the
// process that uses the party.
enum {
    LOCK_MAKE = 0,
    LOCK_USED = 1,
    LOCK_PARTY = 2
};

// Results of an attempt to open a file, besides the codes: the path has another file by now,
// another process is making the file, or another thread has mapped something where the file was to
// be.
enum {
    REPLACED = 1000,
    BUSY = 1001,
    TAKEN = 1002
};

// The beginning of the file.
struct header {
    char magic[8];
    uint32_t format;
    uint32_t state;
    uint64_t bucket_size;
    uint64_t bucket_align;
    uint32_t buckets;
    uint32_t parties;
    uint32_t slots;
    uint32_t mode;
    // The machine's boot identifier when the file was made. After another boot no party is alive.
    char boot[40];
    uint64_t user_bytes;
    // At least 1.
    uint32_t depth;
    // Nothing, so that the header ends at a multiple of 8 bytes.
    uint32_t gap;
};

// A sleeper waits until the value changes. Bit 0 of it says that somebody may be asleep.
struct event {
    uint32_t value;
};

// The events of the file, in the line after the row of words. Those of `filled`, `emptied` and
// `watched` are for whoever waits for any slot: each slot has events of its own.
struct events {
    struct event filled;
    struct event emptied;
    struct event freed;
    // Bit 0 says that somebody watches for a message by a descriptor.
    struct event watched;
    char gap[LINE - 4 * sizeof(struct event)];
};

// The events of a slot, for those who wait for it. They are a line of their own, so that no two
// slots share one.
struct slot_events {
    struct event filled;
    struct event emptied;
    struct event watched;
    char gap[LINE - 3 * sizeof(struct event)];
};

// It begins with the fields of `bb_file_party_head`.
struct bb_file_party {
    // The party of this process's table, or an empty handle if it hasn't joined. It is the first
    // member, since the calls that the library exports for a `bb_file_party` use it as the handle.
    struct file_party party;
    // The value of the event of the file's free buckets, for `bb_file_party_deallocate`.
    const uint32_t *freed;
    // The file, for a party that has joined.
    bb_pool_file *file;
    // Keeps what different parties write on separate cache lines.
    char gap[LINE];
};

struct bb_pool_file {
    int fd;
    struct header head;
    // The bytes of the row of words, of all from there to the region, and of the region.
    size_t words_size;
    size_t events_size;
    size_t region_size;
    // The bytes of the system's page, and of the header that are mapped before the words.
    size_t page;
    size_t lead;
    // Where the mapping of the file begins: the lead, the words, the events and the region. Before
    // the file is mapped, these addresses are reserved for it. NULL if this process has neither.
    char *mapped;
    char *words;
    struct events *events;
    // For each slot, its events.
    struct slot_events *slots;
    // The host's own bytes.
    char *user;
    char *region;
    // The words, as the library uses them.
    struct file_table table;
    bb_file_party *parties;
    // For each party, whether this `bb_pool_file` holds its lock: it has joined as the party, or
    // nobody can join as it anymore.
    bool *mine;
    // Whether threads run at the same time, so that one may wait for another by spinning.
    bool is_parallel;
    // How many of the next waits don't spin, and how many didn't after the last spin, if it was in
    // vain. It is in vain if the other thread waits for the processor that spins.
    uint32_t unspun;
    uint32_t last_unspun;
    // Locked by calls that join, leave or reap, and during a fork.
    pthread_mutex_t mutex;
    bb_pool_file *next;
    // Whether this process may only read the file.
    bool only_looks;
    // Whether this is a forked child's copy.
    bool is_copy;
};

static inline size_t round_up(size_t size, size_t to) {
    return (size + to - 1) / to * to;
}

static inline size_t smaller(size_t one, size_t other) {
    return one < other ? one : other;
}

// Returns how many cells all slots of a file together have, if a file can have this header.
static inline uint32_t number_of_cells(const struct header *head) {
    return head->slots * head->depth;
}

// A path of an open file of this process.
struct fd_path {
    char text[32];
};

#pragma GCC visibility push(hidden)

// Locks the byte of a party, or unlocks it. Returns 0, or -1, with EAGAIN if another open file
// holds the lock. With F_OFD_GETLK it returns 1 if another open file holds it.
int pool_file_lock_party(const bb_pool_file *file, int command, short type, uint32_t party);

// Looks for a lock of another open file on the bytes that are `*first` up to `*end` after `base`.
// If there is one, returns 1, and `*first` and `*end` are what the lock has of them. Otherwise
// returns 0, or -1 if the system fails.
int pool_file_find_lock(int fd, off_t base, uint32_t *first, uint32_t *end);

// Releases all locks of the open file. Returns 0 or -1.
int pool_file_unlock(int fd);

// Returns how many bytes come between the row of words and the host's own bytes.
size_t pool_file_bytes_of_events(const struct header *head);

// Returns whether this process may make a file of that length. If it tried to without being
// allowed, the system would send a signal.
bool pool_file_is_allowed(size_t size);

// Checks whether this process may use the open file, makes it unless it is ready, lays it out, and
// locks it as used. The path is NULL if it has none. Returns BB_OK, a code, REPLACED or BUSY. After
// a failure some bytes of the file may be locked.
uint32_t pool_file_prepare(bb_pool_file *file, const char *path,
                           const bb_pool_file_options *options, mode_t mode);

// Returns whether a pool may have these options. NULL and options without figures are valid.
bool pool_file_are_valid(const bb_pool_file_options *options);

// Opens the file at the path, or makes an empty one. `access` is O_RDWR or O_RDONLY. Returns its
// descriptor, or -1.
int pool_file_open_path(const char *path, int access, const bb_pool_file_options *options,
                        mode_t mode);

// Returns a path of the open file.
struct fd_path pool_file_path_of(int fd);

// Opens the file anew. Two processes that have the same open file have the same locks.
int pool_file_open_again(int fd);

// Opens the pool in the file at `path` as `bb_pool_file_open` does, but only to read it, whoever
// owns the file and may write it. Of the further calls, only `bb_pool_file_info`,
// `bb_pool_file_holder`, `bb_pool_file_life`, `bb_pool_file_is_alive`, `bb_pool_file_look`,
// `pool_file_each_message` and `bb_pool_file_close` are allowed: others write the file, and crash.
// Only `bb-pool` calls this.
uint32_t pool_file_open_to_look(bb_pool_file **file, const char *path);

// Calls `use` for each message in this slot, the oldest first, as `bb_pool_file_look` returns it.
// The file has the slot. Only `bb-pool` calls this.
void pool_file_each_message(bb_pool_file *file, uint32_t slot,
                            void (*use)(void *context, bb_message message), void *context);

#pragma GCC visibility pop

#endif
