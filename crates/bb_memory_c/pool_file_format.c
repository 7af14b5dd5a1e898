// The file of a pool in a file (pool_file.h): its layout, its header and its locks. A process makes
// the file here, or checks whether it may use it. This file is outside the proofs.
#define _GNU_SOURCE
#include "pool_file.h"

#include <errno.h>
#include <fcntl.h>
#include <stdio.h>
#include <stdlib.h>
#include <string.h>
#include <sys/resource.h>
#include <sys/stat.h>
#include <sys/statvfs.h>
#include <sys/vfs.h>
#include <unistd.h>

// Sizes in bytes.
enum {
    // The largest page of a system.
    LARGEST_PAGE = 65536,
    // A new file's pages are requested in parts of this size, since a signal ends a request on
    // tmpfs and undoes it.
    PART = 1 << 21,
    // The space that is left is looked at again after this many bytes.
    STRETCH = 1 << 25,
    // What `st_blocks` counts.
    BLOCK = 512
};

enum {
    FORMAT = 6,
    MOST_PARTIES = 65535,
    TMPFS = 0x01021994
};

// The states of a file.
enum {
    MAKING = 1,
    READY = 2
};

static const char MAGIC[8] = "bbpool\r\n";

// LOCKS

// Locks a byte of the file, or unlocks it. Returns 0, or -1, with EAGAIN if another open file holds
// the lock. With F_OFD_GETLK it returns 1 if another open file holds it.
static int lock(int fd, int command, short type, off_t byte) {
    struct flock flock = {.l_type = type, .l_whence = SEEK_SET, .l_start = byte, .l_len = 1};
    int result;
    do
        result = fcntl(fd, command, &flock);
    while (result != 0 && errno == EINTR);
    if (result != 0 && errno == EACCES)
        errno = EAGAIN;
    if (command == F_OFD_GETLK && result == 0)
        return flock.l_type != F_UNLCK;
    return result;
}

int pool_file_unlock(int fd) {
    struct flock flock = {.l_type = F_UNLCK, .l_whence = SEEK_SET, .l_start = 0, .l_len = 0};
    return fcntl(fd, F_OFD_SETLK, &flock);
}

int pool_file_lock_party(const bb_pool_file *file, int command, short type, uint32_t party) {
    return lock(file->fd, command, type, LOCK_PARTY + (off_t)party);
}

int pool_file_find_lock(int fd, off_t base, uint32_t *first, uint32_t *end) {
    struct flock flock = {.l_type = F_WRLCK,
                          .l_whence = SEEK_SET,
                          .l_start = base + (off_t)*first,
                          .l_len = (off_t)(*end - *first)};
    if (fcntl(fd, F_OFD_GETLK, &flock) != 0)
        return -1;
    if (flock.l_type == F_UNLCK)
        return 0;
    const off_t from = flock.l_start - base;
    const off_t to = from + flock.l_len;
    if (from > (off_t)*first)
        *first = (uint32_t)from;
    if (flock.l_len != 0 && to < (off_t)*end)
        *end = (uint32_t)to;
    return 1;
}

// LAYOUT

// Returns a number of bytes of which the region's place in the file is a multiple. On any system a
// mapping of the file then has the buckets at multiples of their alignment: `reserve` in
// pool_file_map.c says how.
static size_t region_align(const struct header *head) {
    if (head->bucket_align < PAGE)
        return PAGE;
    return smaller(head->bucket_align, LARGEST_PAGE);
}

size_t pool_file_bytes_of_events(const struct header *head) {
    return sizeof(struct events) + (size_t)head->slots * sizeof(struct slot_events);
}

// Lays the file out by its header, and returns its length, or 0 if the figures are impossible.
static size_t lay_out(bb_pool_file *file) {
    const struct header *head = &file->head;
    const size_t region = bb_bytes_for(head->bucket_size, head->bucket_align, head->buckets);
    if (region == 0 || region > SIZE_MAX / 8 || head->bucket_align > SIZE_MAX / 8)
        return 0;
    if (head->depth == 0 || (uint64_t)head->slots * head->depth > UINT32_MAX)
        return 0;
    const bb_number words = file_words(head->buckets, number_of_cells(head), head->parties);
    if (words.code != BB_OK || head->parties == 0 || head->parties > MOST_PARTIES)
        return 0;
    if (head->user_bytes > SIZE_MAX / 8)
        return 0;
    file->words_size = words.number * sizeof(uint64_t);
    const size_t events = PAGE + file->words_size;
    const size_t events_size = pool_file_bytes_of_events(head) + (size_t)head->user_bytes;
    file->events_size = round_up(events + events_size, region_align(head)) - events;
    file->region_size = round_up(region, PAGE);
    return events + file->events_size + file->region_size;
}

// MAKING THE FILE

// Reads a small file of the system. Returns how many bytes it has, 0 if there is no such file, or
// -1 if the system fails.
static ssize_t read_text(const char *path, char *text, size_t size) {
    const int fd = open(path, O_RDONLY | O_CLOEXEC);
    if (fd < 0)
        return errno == ENOENT ? 0 : -1;
    const ssize_t length = read(fd, text, size - 1);
    const int error = length == 0 ? EIO : errno;
    close(fd);
    errno = error;
    if (length <= 0)
        return -1;
    text[length] = 0;
    return length;
}

// Reads the identifier of the machine's last boot, which is empty if there is no /proc. Returns
// false if the system fails.
static bool read_boot(char boot[40]) {
    memset(boot, 0, 40);
    return read_text("/proc/sys/kernel/random/boot_id", boot, 36 + 1) >= 0;
}

// Stores in `*size` how many bytes of memory are still available to programs, or SIZE_MAX if there
// is no /proc, or if it doesn't say. Returns false if the system fails.
static bool read_available_memory(size_t *size) {
    char text[1024] = "";
    *size = SIZE_MAX;
    if (read_text("/proc/meminfo", text, sizeof text) < 0)
        return false;
    const char *found = strstr(text, "MemAvailable:");
    if (found != NULL)
        *size = (size_t)strtoull(found + strlen("MemAvailable:"), NULL, 10) * 1024;
    return true;
}

// Returns whether the file system has room for `size` more bytes. A file in a tmpfs or a memfd also
// uses the machine's memory, which the system would give until it had to kill processes.
static bool has_room(int fd, size_t size) {
    struct statvfs space;
    struct statfs kind;
    size_t available = SIZE_MAX;
    if (fstatvfs(fd, &space) != 0 || fstatfs(fd, &kind) != 0)
        return false;
    if (kind.f_type == TMPFS && !read_available_memory(&available))
        return false;
    bool fits = true;
    if (space.f_blocks != 0 && size / space.f_frsize >= space.f_bavail)
        fits = false;
    if (size >= available)
        fits = false;
    if (!fits)
        errno = ENOSPC;
    return fits;
}

bool pool_file_is_allowed(size_t size) {
    struct rlimit limit;
    if (getrlimit(RLIMIT_FSIZE, &limit) != 0)
        return false;
    if (limit.rlim_cur == RLIM_INFINITY || size <= limit.rlim_cur)
        return true;
    errno = EFBIG;
    return false;
}

// Allocates the pages of the file.
static bool allocate_pages(int fd, size_t size) {
    for (size_t at = 0; at < size; at += PART) {
        if (at % STRETCH == 0 && !has_room(fd, size - at))
            return false;
        const off_t length = (off_t)smaller(size - at, PART);
        do
            errno = posix_fallocate(fd, (off_t)at, length);
        while (errno == EINTR);
        if (errno != 0)
            return false;
    }
    return true;
}

// Returns whether each page of the file is allocated. Otherwise the first use of a page could find
// the file system full (SIGBUS), or take memory that whoever made the file didn't request.
//
// What `posix_fallocate` has allocated is counted by tmpfs, ext4, xfs and btrfs. No file is so
// short that they keep it elsewhere, beside its name for example.
static bool has_pages(const struct stat *stat, size_t size) {
    return (size_t)stat->st_blocks >= size / BLOCK;
}

// Writes the header. If the file system takes only a part of it, it is full.
static bool write_header(const bb_pool_file *file) {
    const ssize_t length = sizeof file->head;
    const ssize_t written = pwrite(file->fd, &file->head, sizeof file->head, 0);
    if (written >= 0 && written < length)
        errno = ENOSPC;
    return written == length;
}

// Writes the whole file. The last write says that it is ready: a file whose maker is killed before
// that is made anew.
static bool write_file(bb_pool_file *file, size_t size) {
    file->head.state = MAKING;
    if (ftruncate(file->fd, 0) != 0 || !write_header(file))
        return false;
    // So the disk has this header, and not zeros in its place, if the machine fails after this.
    if (fdatasync(file->fd) != 0)
        return false;
    if (!has_room(file->fd, size) || ftruncate(file->fd, (off_t)size) != 0)
        return false;
    struct stat stat;
    if (!allocate_pages(file->fd, size) || fstat(file->fd, &stat) != 0)
        return false;
    if (!has_pages(&stat, size)) {
        errno = EOPNOTSUPP;
        return false;
    }
    file->head.state = READY;
    return write_header(file);
}

// Makes the file. If that fails once it has begun, the file is empty.
static uint32_t make(bb_pool_file *file, const char *boot) {
    const size_t size = lay_out(file);
    memcpy(file->head.magic, MAGIC, sizeof MAGIC);
    memcpy(file->head.boot, boot, sizeof file->head.boot);
    file->head.format = FORMAT;
    if (!pool_file_is_allowed(size))
        return BB_FILE_SYSTEM;
    if (write_file(file, size))
        return BB_OK;
    const int why = errno;
    if (ftruncate(file->fd, 0) == 0)
        errno = why;
    return BB_FILE_SYSTEM;
}

// OPENING

static bool says_figures(const bb_pool_file_options *options) {
    return options != NULL && options->buckets > 0;
}

static uint32_t depth_of(const bb_pool_file_options *options) {
    return options->depth == 0 ? 1 : options->depth;
}

static bool has_figures(const struct header *head, const bb_pool_file_options *options) {
    return head->bucket_size == options->bucket_size &&
           head->bucket_align == options->bucket_align && head->buckets == options->buckets &&
           head->parties == options->parties && head->slots == options->slots &&
           head->depth == depth_of(options) && head->user_bytes == options->user_bytes;
}

static void take_figures(struct header *head, const bb_pool_file_options *options) {
    memset(head, 0, sizeof *head);
    head->bucket_size = options->bucket_size;
    head->bucket_align = options->bucket_align;
    head->buckets = options->buckets;
    head->parties = options->parties;
    head->slots = options->slots;
    head->depth = depth_of(options);
    head->mode = options->mode == 0 ? 0600 : options->mode;
    head->user_bytes = options->user_bytes;
}

// Returns BB_OK if the header's first `length` bytes are those of a pool in a file of this format,
// ready or not. A header of another format may have another length.
static uint32_t check_header(const struct header *head, size_t length) {
    if (length < offsetof(struct header, bucket_size))
        return BB_FILE_FOREIGN;
    if (memcmp(head->magic, MAGIC, sizeof MAGIC) != 0)
        return BB_FILE_FOREIGN;
    if (head->format != FORMAT)
        return BB_FILE_VERSION;
    if (head->state == READY && length == sizeof *head)
        return BB_OK;
    return head->state == MAKING ? BB_OK : BB_FILE_FOREIGN;
}

// Reads the header, and makes the file unless it is ready. This process holds LOCK_MAKE. `links` is
// the number of the file's names.
static uint32_t read_or_make(bb_pool_file *file, const bb_pool_file_options *options,
                             nlink_t links) {
    struct header *head = &file->head;
    const ssize_t length = pread(file->fd, head, sizeof *head, 0);
    if (length < 0)
        return BB_FILE_SYSTEM;
    // Somebody may have given this name to another file, which only happens to be empty.
    if (length == 0 && links > 1)
        return BB_FILE_UNSAFE;
    const uint32_t code = length == 0 ? BB_OK : check_header(head, (size_t)length);
    if (code != BB_OK)
        return code;
    char boot[40];
    if (!read_boot(boot))
        return BB_FILE_SYSTEM;
    const bool is_ready = length > 0 && head->state == READY;
    const bool is_old = is_ready && boot[0] != 0 && head->boot[0] != 0 &&
                        memcmp(head->boot, boot, sizeof boot) != 0;
    const bool is_usable = is_ready && !is_old;
    if (!is_usable && !says_figures(options))
        return BB_FILE_STALE;
    // Nobody has the file open if LOCK_USED is available. If it isn't, whoever has it may only read
    // the file, or doesn't know the boot.
    if (!is_usable && lock(file->fd, F_OFD_SETLK, F_WRLCK, LOCK_USED) != 0)
        return errno == EAGAIN ? BB_FILE_STALE : BB_FILE_SYSTEM;
    if (!is_ready)
        take_figures(head, options);
    if (says_figures(options) && !has_figures(head, options))
        return BB_FILE_MISMATCH;
    return is_usable ? BB_OK : make(file, boot);
}

// Reads or makes the file, and locks it as used.
static uint32_t enter(bb_pool_file *file, const bb_pool_file_options *options, nlink_t links) {
    const uint32_t code = read_or_make(file, options, links);
    if (code != BB_OK)
        return code;
    struct stat stat;
    if (lock(file->fd, F_OFD_SETLK, F_RDLCK, LOCK_USED) != 0 || fstat(file->fd, &stat) != 0)
        return BB_FILE_SYSTEM;
    const size_t size = lay_out(file);
    if (size == 0 || (size_t)stat.st_size != size || !has_pages(&stat, size))
        return BB_FILE_DAMAGED;
    return BB_OK;
}

// Returns BB_OK if this process is in the group, BB_FILE_UNSAFE if it isn't, or why that isn't
// known.
static uint32_t check_group(gid_t group) {
    if (group == getegid())
        return BB_OK;
    const int count = getgroups(0, NULL);
    if (count < 0)
        return BB_FILE_SYSTEM;
    if (count == 0)
        return BB_FILE_UNSAFE;
    gid_t *groups = calloc((size_t)count, sizeof *groups);
    if (groups == NULL)
        return BB_MALLOC_REFUSED;
    const int found = getgroups(count, groups);
    uint32_t code = found < 0 ? BB_FILE_SYSTEM : BB_FILE_UNSAFE;
    for (int at = 0; at < found; at++)
        if (groups[at] == group)
            code = BB_OK;
    free(groups);
    return code;
}

// Returns BB_OK if a file that was opened by a path may be trusted: only those whom `mode` lets can
// write it.
//
// A file of another user may be shared only with the group that `mode` lets write. So the group has
// to be one of this process, and the mode of the file has to let it write. An access control list
// could let this process write a file of any group.
static uint32_t check_writers(const struct stat *stat, mode_t mode) {
    const mode_t others = S_IWGRP | S_IWOTH;
    if ((stat->st_mode & ~mode & others) != 0)
        return BB_FILE_UNSAFE;
    if (stat->st_uid == geteuid() || stat->st_uid == 0 || (mode & S_IWOTH) != 0)
        return BB_OK;
    if ((mode & stat->st_mode & S_IWGRP) == 0)
        return BB_FILE_UNSAFE;
    return check_group(stat->st_gid);
}

uint32_t pool_file_prepare(bb_pool_file *file, const char *path,
                           const bb_pool_file_options *options, mode_t mode) {
    struct stat ours;
    struct stat there;
    if (fstat(file->fd, &ours) != 0)
        return BB_FILE_SYSTEM;
    if (!S_ISREG(ours.st_mode))
        return BB_FILE_UNSAFE;
    uint32_t code = path == NULL ? BB_OK : check_writers(&ours, mode);
    if (code != BB_OK)
        return code;
    // A process that may only read the file makes none, and can't lock a byte for itself.
    const short type = file->only_looks ? F_RDLCK : F_WRLCK;
    if (lock(file->fd, F_OFD_SETLK, type, LOCK_MAKE) != 0)
        return errno == EAGAIN ? BUSY : BB_FILE_SYSTEM;
    if (path != NULL && stat(path, &there) != 0)
        return errno == ENOENT ? REPLACED : BB_FILE_SYSTEM;
    if (path != NULL && (there.st_ino != ours.st_ino || there.st_dev != ours.st_dev))
        return REPLACED;
    code = enter(file, options, ours.st_nlink);
    if (code != BB_OK)
        return code;
    if (lock(file->fd, F_OFD_SETLK, F_UNLCK, LOCK_MAKE) != 0)
        return BB_FILE_SYSTEM;
    return BB_OK;
}

bool pool_file_are_valid(const bb_pool_file_options *options) {
    if (!says_figures(options))
        return true;
    bb_pool_file file;
    memset(&file, 0, sizeof file);
    take_figures(&file.head, options);
    return lay_out(&file) != 0;
}

int pool_file_open_path(const char *path, int access, const bb_pool_file_options *options,
                        mode_t mode) {
    const int flags = access | O_CLOEXEC | O_NOFOLLOW | O_NONBLOCK;
    const int fd = open(path, flags);
    if (fd >= 0 || errno != ENOENT || !says_figures(options))
        return fd;
    return open(path, flags | O_CREAT | O_EXCL, mode & 0666);
}

struct fd_path pool_file_path_of(int fd) {
    struct fd_path path;
    snprintf(path.text, sizeof path.text, "/proc/self/fd/%d", fd);
    return path;
}

int pool_file_open_again(int fd) {
    return open(pool_file_path_of(fd).text, O_RDWR | O_CLOEXEC | O_NONBLOCK);
}
