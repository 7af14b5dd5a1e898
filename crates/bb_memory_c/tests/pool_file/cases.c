// Tests what bb_pool_file.h promises, case by case: `cases FOLDER..` runs each case in each folder,
// with files that it removes. No case can fill a file system: the requests for pages go through
// `posix_fallocate` here.
#define _GNU_SOURCE
#include <dlfcn.h>
#include <errno.h>
#include <fcntl.h>
#include <grp.h>
#include <poll.h>
#include <pthread.h>
#include <sched.h>
#include <signal.h>
#include <spawn.h>
#include <stdarg.h>
#include <stdio.h>
#include <stdlib.h>
#include <string.h>
#include <sys/mman.h>
#include <sys/prctl.h>
#include <sys/resource.h>
#include <sys/socket.h>
#include <sys/stat.h>
#include <sys/statvfs.h>
#include <sys/syscall.h>
#include <sys/time.h>
#include <sys/vfs.h>
#include <sys/wait.h>
#include <sys/xattr.h>
#include <time.h>
#include <unistd.h>

#include "bb_pool_file.h"

enum {
    PAGE = 4096,
    // Where the file of OPTIONS has its first words, which begin at multiples of 128: after the
    // header come 16 words, the flags of 20 buckets, the lives of 6 parties, the entries of the
    // buckets, and the slots.
    FIRST_FLAG = PAGE + 128,
    FIRST_LIFE = FIRST_FLAG + 256,
    FIRST_ENTRY = FIRST_LIFE + 128,
    FIRST_SLOT = FIRST_ENTRY + 256,
    // The file's state, and the machine's boot when it was made.
    STATE = 12,
    BOOT = 48,
    // The greatest number of bytes that one `open` here may request.
    MOST_BYTES = 1 << 27,
    // The seconds after which a child ends by itself, since its test has failed.
    LONGEST = 600
};

static const bb_pool_file_options OPTIONS = {
    .bucket_size = 100, .bucket_align = 8, .buckets = 20, .parties = 6, .slots = 4, .mode = 0};
static const size_t STRIDE = 104;
static char path[128];
static uint32_t count;

static void expect(bool holds, const char *what, int line) {
    if (!holds) {
        fprintf(stderr, "cases: line %d: not so: %s (errno %d)\n", line, what, errno);
        _exit(1);
    }
    __atomic_fetch_add(&count, 1, __ATOMIC_SEQ_CST);
}

#define EXPECT(holds) expect(holds, #holds, __LINE__)

// The bytes that were requested of the file system so far, without those that it refused, and after
// how many bytes it has no more.
static size_t requested;
static size_t most = MOST_BYTES;

// How many of the next requests for pages are ended by signals.
static uint32_t interruptions;

// False if the file system only says that it allocates pages.
static bool allocates = true;

int fstatfs(int fd, struct statfs *to) {
    const int result = (int)syscall(SYS_fstatfs, fd, to);
    if (!allocates)
        to->f_type = 0;  // of a file that is not in memory
    return result;
}

int fstatvfs(int fd, struct statvfs *to) {
    struct statfs space;
    const int result = fstatfs(fd, &space);
    memset(to, 0, sizeof *to);
    to->f_frsize = (unsigned long)space.f_bsize;
    to->f_blocks = allocates ? space.f_blocks : 0;
    to->f_bavail = space.f_bavail;
    return result;
}

int posix_fallocate(int fd, off_t at, off_t length) {
    if (!allocates)
        return 0;
    if (interruptions > 0) {
        interruptions--;
        return EINTR;
    }
    requested += (size_t)length;
    if (requested > most)
        return ENOSPC;
    if (fallocate(fd, 0, at, length) == 0)
        return 0;
    requested -= (size_t)length;
    return errno;
}

// Which call of `pwrite` fails, counted from 1, or 0 for none: with this error, or if that is 0, by
// writing only the first half.
static uint32_t failing_pwrite;
static int writing_error;

ssize_t pwrite(int fd, const void *bytes, size_t size, off_t at) {
    if (failing_pwrite > 0 && --failing_pwrite == 0) {
        errno = writing_error;
        if (writing_error != 0)
            return -1;
        size /= 2;
    }
    return syscall(SYS_pwrite64, fd, bytes, size, at);
}

// How many files were written to the disk, and the error if that fails, or 0. It has to come when a
// file has its header, and no more.
static uint32_t synced;
static int syncing_error;

int fdatasync(int fd) {
    char header[PAGE] = "";
    const ssize_t length = pread(fd, header, sizeof header, 0);
    EXPECT(length > 16 && length < PAGE && memcmp(header, "bbpool\r\n", 8) == 0);
    EXPECT(header[8] == 6 && memcmp(header + 9, "\0\0\0\1", 4) == 0);
    synced++;
    errno = syncing_error;
    return syncing_error == 0 ? 0 : -1;
}

// The error with which functions that every fork has to run are refused, or 0.
static int atfork_error;

#ifndef WRAPS_ATFORK
int __register_atfork(void (*prepare)(void), void (*parent)(void), void (*child)(void), void *dso);

int __register_atfork(void (*prepare)(void), void (*parent)(void), void (*child)(void), void *dso) {
    int (*registered)(void (*)(void), void (*)(void), void (*)(void), void *);
    if (atfork_error != 0)
        return atfork_error;
    void *found = dlsym(RTLD_NEXT, "__register_atfork");
    memcpy(&registered, &found, sizeof found);
    return registered(prepare, parent, child, dso);
}
#else
// For musl, and for a static program, this is linked with `-Wl,--wrap=pthread_atfork`.
int __real_pthread_atfork(void (*prepare)(void), void (*parent)(void), void (*child)(void));
int __wrap_pthread_atfork(void (*prepare)(void), void (*parent)(void), void (*child)(void));

int __wrap_pthread_atfork(void (*prepare)(void), void (*parent)(void), void (*child)(void)) {
    if (atfork_error != 0)
        return atfork_error;
    return __real_pthread_atfork(prepare, parent, child);
}
#endif

// Which call of `mmap` that maps where nothing is mapped finds another thread's mapping there,
// counted from 1, or 0 for none, and whether each later one does, too. The other thread's mapping
// has one page of the system, in the midst of the place. `others_count` counts them.
static uint32_t intruded_mmap;
static bool intrudes_on;
static unsigned char *others[200];
static uint32_t others_count;

// False if the system doesn't know the flag MAP_FIXED_NOREPLACE, as before Linux 4.17.
static bool knows_the_flag = true;

// Which files in memory the system refuses to make, for the error, or 0.
static int memfd_error;

// Returns the bytes of the system's page, which may be larger than one of the file.
static size_t system_page(void) {
    return (size_t)sysconf(_SC_PAGESIZE);
}

// A pointer is as long as the result of a call of the system.
static void *system_mmap(void *at, size_t size, int protection, int flags, int fd, off_t offset) {
    return (void *)syscall(SYS_mmap, at, size, protection, flags, fd, offset);
}

// Another thread maps a page in the midst of these addresses, where nothing is mapped.
static void intrude(char *at, size_t size) {
    const size_t page = system_page();
    char *midst = at + size / page / 2 * page;
    const int private = MAP_PRIVATE | MAP_ANONYMOUS | MAP_FIXED_NOREPLACE;
    EXPECT(others_count < sizeof others / sizeof *others);
    others[others_count] = system_mmap(midst, page, PROT_READ | PROT_WRITE, private, -1, 0);
    EXPECT(others[others_count] == (unsigned char *)midst);
    memset(midst, 'x', page);
    EXPECT(mprotect(midst, page, PROT_NONE) == 0);
    others_count++;
}

void *mmap(void *at, size_t size, int protection, int flags, int fd, off_t offset) {
    if ((flags & (MAP_FIXED | MAP_FIXED_NOREPLACE)) == 0)
        return system_mmap(at, size, protection, flags, fd, offset);
    if (intruded_mmap > 0 && --intruded_mmap == 0) {
        intrude(at, size);
        intruded_mmap = intrudes_on;
    }
    if (!knows_the_flag)
        flags &= ~MAP_FIXED_NOREPLACE;
    return system_mmap(at, size, protection, flags, fd, offset);
}

int memfd_create(const char *name, unsigned flags) {
    errno = memfd_error;
    return memfd_error == 0 ? (int)syscall(SYS_memfd_create, name, flags) : -1;
}

// The pages that the system reports for a file: as it is, none, or all.
static enum {
    AS_IT_IS,
    NO_PAGES,
    ALL_PAGES
} said_pages;

int fstat(int fd, struct stat *to) {
    const int result = (int)syscall(SYS_fstat, fd, to);
    if (said_pages != AS_IT_IS)
        to->st_blocks = said_pages == NO_PAGES ? 0 : to->st_size / 512;
    return result;
}

// How often the calls have freed locks.
static uint32_t unlocks;

// How often the calls have asked for the locks of others, and what is called before and after the
// next time.
static uint32_t looks_at_locks;
static void (*before_look)(void);
static void (*after_look)(void);

static void call_once(void (**what)(void)) {
    void (*const calls)(void) = *what;
    *what = NULL;
    if (calls != NULL)
        calls();
}

int fcntl(int fd, int command, ...) {
    va_list arguments;
    va_start(arguments, command);
    void *argument = va_arg(arguments, void *);
    va_end(arguments);
    if (command == F_OFD_SETLK)
        unlocks += ((struct flock *)argument)->l_type == F_UNLCK;
    if (command != F_OFD_GETLK)
        return (int)syscall(SYS_fcntl, fd, command, argument);
    looks_at_locks++;
    call_once(&before_look);
    const int result = (int)syscall(SYS_fcntl, fd, command, argument);
    const int error = errno;
    call_once(&after_look);
    errno = error;
    return result;
}

static bb_pool_file *open_it(void) {
    bb_pool_file *file = NULL;
    requested = 0;
    EXPECT(bb_pool_file_open(&file, path, &OPTIONS) == BB_OK);
    return file;
}

static void close_it(bb_pool_file *file) {
    EXPECT(bb_pool_file_close(file) == BB_OK);
}

static void remove_it(void) {
    EXPECT(unlink(path) == 0);
}

static bb_file_party *join_it(bb_pool_file *file) {
    bb_file_party *party = NULL;
    EXPECT(bb_pool_file_join(file, &party) == BB_OK);
    return party;
}

static bb_place take_one(bb_file_party *party) {
    const bb_chunk chunk = bb_file_party_take(party);
    EXPECT(chunk.code == BB_OK);
    return chunk.place;
}

static size_t number_of(bb_file_party *party) {
    return bb_file_party_number(party).number;
}

static bb_pool_file_figures info_of(bb_pool_file *file) {
    bb_pool_file_figures figures;
    EXPECT(bb_pool_file_info(file, &figures) == BB_OK);
    return figures;
}

static uint32_t reap(bb_pool_file *file, uint32_t what) {
    uint32_t given = 0;
    EXPECT(bb_pool_file_reap(file, what, &given) == BB_OK);
    return given;
}

static uint64_t life_of(bb_pool_file *file, uint32_t party) {
    const bb_number life = bb_pool_file_life(file, party);
    EXPECT(life.code == BB_OK);
    return life.number;
}

// Returns whether the process with this life of the party is alive.
static bool is_alive(bb_pool_file *file, uint32_t party, uint64_t life) {
    const bb_number alive = bb_pool_file_is_alive(file, party, life);
    EXPECT(alive.code == BB_OK);
    return alive.number == 1;
}

// Returns the code of an open, and closes the file again.
static uint32_t code_of(const char *name, const bb_pool_file_options *options) {
    bb_pool_file *file = NULL;
    requested = 0;
    const uint32_t code = bb_pool_file_open(&file, name, options);
    const int error = errno;
    if (code == BB_OK)
        close_it(file);
    errno = error;
    return code;
}

static bool fails_with(int error, const char *name, const bb_pool_file_options *options) {
    return code_of(name, options) == BB_FILE_SYSTEM && errno == error;
}

// Forks a child that doesn't outlive this process.
static pid_t child_of(void) {
    const pid_t child = fork();
    EXPECT(child >= 0);
    if (child == 0) {
        prctl(PR_SET_PDEATHSIG, SIGKILL);
        alarm(LONGEST);
    }
    return child;
}

static void end(pid_t child) {
    int status;
    EXPECT(waitpid(child, &status, 0) == child);
    EXPECT(WIFEXITED(status) && WEXITSTATUS(status) == 0);
}

static void end_killed(pid_t child) {
    EXPECT(kill(child, SIGKILL) == 0);
    EXPECT(waitpid(child, NULL, 0) == child);
}

static void write_file(const char *name, const void *bytes, size_t size, off_t at) {
    const int fd = open(name, O_RDWR | O_CREAT, 0600);
    EXPECT(fd >= 0);
    EXPECT(pwrite(fd, bytes, size, at) == (ssize_t)size);
    EXPECT(close(fd) == 0);
}

static void tell(int fd) {
    EXPECT(write(fd, "r", 1) == 1);
}

static void hear(int fd) {
    char byte;
    EXPECT(read(fd, &byte, 1) == 1);
}

// Starts a child that opens the file anew, joins, takes that many buckets, and sleeps.
static pid_t holder(uint32_t buckets) {
    int ready[2];
    EXPECT(pipe(ready) == 0);
    const pid_t child = child_of();
    if (child == 0) {
        bb_file_party *party = join_it(open_it());
        for (uint32_t at = 0; at < buckets; at++)
            take_one(party);
        tell(ready[1]);
        pause();
    }
    hear(ready[0]);
    close(ready[0]);
    close(ready[1]);
    return child;
}

static void others_options(void) {
    bb_pool_file_options other = OPTIONS;
    other.bucket_size = 101;
    EXPECT(code_of(path, &other) == BB_FILE_MISMATCH);
    other = OPTIONS;
    other.bucket_align = 16;
    EXPECT(code_of(path, &other) == BB_FILE_MISMATCH);
    other = OPTIONS;
    other.buckets = 21;
    EXPECT(code_of(path, &other) == BB_FILE_MISMATCH);
    other = OPTIONS;
    other.parties = 7;
    EXPECT(code_of(path, &other) == BB_FILE_MISMATCH);
    other = OPTIONS;
    other.slots = 5;
    EXPECT(code_of(path, &other) == BB_FILE_MISMATCH);
    other = OPTIONS;
    other.user_bytes = 1;
    EXPECT(code_of(path, &other) == BB_FILE_MISMATCH);
}

static void impossible_options(void) {
    const bb_pool_file_options impossible[] = {
        {0, 8, 20, 6, 4, 1, 0, 0},
        {100, 12, 20, 6, 4, 1, 0, 0},
        {100, 0, 20, 6, 4, 1, 0, 0},
        {100, 8, 20, 0, 4, 1, 0, 0},
        {100, 8, 20, 65536, 4, 1, 0, 0},
        {100, 8, UINT32_MAX, 6, 4, 1, 0, 0},
        {SIZE_MAX / 2, 8, 20, 6, 4, 1, 0, 0},
        {(size_t)1 << 50, 8, 1u << 31, 6, 4, 1, 0, 0},
        {8, (size_t)1 << 62, 1, 6, 4, 1, 0, 0},
        {100, 8, 20, 6, 4, 1, 0, SIZE_MAX},
        {100, 8, 20, 6, 4, 1, 0, SIZE_MAX / 8 + 1},
        {100, 8, 20, 6, UINT32_MAX, 0, 0, 0},
        {100, 8, 20, 65535, UINT32_MAX, 1, 0, 0},
        // Slots times depth is 2^32 - 1, 2^32, 2^32 + 4 and 2^64 - 2^33 + 1.
        {100, 8, 20, 6, 5, 858993459, 0, 0},
        {100, 8, 20, 6, 1u << 31, 2, 0, 0},
        {100, 8, 20, 6, 4, (1u << 30) + 1, 0, 0},
        {100, 8, 20, 6, UINT32_MAX, UINT32_MAX, 0, 0},
    };
    for (size_t at = 0; at < sizeof impossible / sizeof *impossible; at++) {
        EXPECT(code_of(path, &impossible[at]) == BB_INVALID_ARGUMENT);
        EXPECT(access(path, F_OK) != 0);
    }
}

// A file that isn't a pool's keeps its bytes.
static void foreign_file(const char *bytes, size_t size, uint32_t code) {
    char found[2 * PAGE] = "";
    struct stat stat_of;
    write_file(path, bytes, size, 0);
    EXPECT(code_of(path, &OPTIONS) == code);
    EXPECT(code_of(path, NULL) == code);
    const int fd = open(path, O_RDONLY);
    EXPECT(fd >= 0 && fstat(fd, &stat_of) == 0 && (size_t)stat_of.st_size == size);
    EXPECT(read(fd, found, sizeof found) == (ssize_t)size);
    EXPECT(memcmp(found, bytes, size) == 0);
    EXPECT(close(fd) == 0);
    remove_it();
}

static void wrong_files(void) {
    const bb_pool_file_options none = {.buckets = 0};
    char bytes[2 * PAGE] = "";
    struct stat stat_of;
    EXPECT(fails_with(ENOENT, path, NULL) && fails_with(ENOENT, path, &none));
    EXPECT(access(path, F_OK) != 0);
    bb_pool_file *file = open_it();
    EXPECT(code_of(path, NULL) == BB_OK && code_of(path, &none) == BB_OK);
    EXPECT(code_of(path, &OPTIONS) == BB_OK);
    others_options();
    EXPECT(stat(path, &stat_of) == 0 && (stat_of.st_mode & 0777) == 0600);
    EXPECT(info_of(file).options.mode == 0600);
    close_it(file);
    EXPECT(truncate(path, stat_of.st_size - 1) == 0);
    EXPECT(code_of(path, &OPTIONS) == BB_FILE_DAMAGED);
    EXPECT(truncate(path, stat_of.st_size + PAGE) == 0);
    EXPECT(code_of(path, NULL) == BB_FILE_DAMAGED);
    EXPECT(truncate(path, 200) == 0 && code_of(path, &OPTIONS) == BB_FILE_DAMAGED);
    EXPECT(truncate(path, 50) == 0 && code_of(path, &OPTIONS) == BB_FILE_FOREIGN);
    EXPECT(truncate(path, 0) == 0 && code_of(path, NULL) == BB_FILE_STALE);
    EXPECT(code_of(path, &OPTIONS) == BB_OK);
    remove_it();
    foreign_file("BBPOOL", 6, BB_FILE_FOREIGN);
    foreign_file(bytes, sizeof bytes, BB_FILE_FOREIGN);
    memcpy(bytes, "bbpool\n\n", 8);
    foreign_file(bytes, sizeof bytes, BB_FILE_FOREIGN);
    for (char older = 1; older < 6; older++) {  // the formats before this one
        memcpy(bytes, "bbpool\r\n", 8);
        bytes[8] = older;
        foreign_file(bytes, sizeof bytes, BB_FILE_VERSION);
        // The maker was killed: the file has the header of that format, and no more.
        bytes[STATE] = 1;
        foreign_file(bytes, 88, BB_FILE_VERSION);
        foreign_file(bytes, 16, BB_FILE_VERSION);
        foreign_file(bytes, 15, BB_FILE_FOREIGN);
        bytes[STATE] = 0;
    }
    memcpy(bytes, "bbpool\r\n\6\0\0\0\3", 13);  // state 3
    foreign_file(bytes, sizeof bytes, BB_FILE_FOREIGN);
    memcpy(bytes, "bbpool\r\n\6\0\0\0\2", 13);  // ready, with no buckets
    write_file(path, bytes, sizeof bytes, 0);
    EXPECT(code_of(path, NULL) == BB_FILE_DAMAGED && code_of(path, &OPTIONS) == BB_FILE_MISMATCH);
    remove_it();
    // A file whose maker was killed is made again, if options say what to make. The file system may
    // have taken only a part of the header.
    EXPECT(code_of(path, &OPTIONS) == BB_OK);
    write_file(path, "\1", 1, STATE);
    EXPECT(code_of(path, NULL) == BB_FILE_STALE && code_of(path, &OPTIONS) == BB_OK);
    EXPECT(code_of(path, NULL) == BB_OK);
    write_file(path, "\1", 1, STATE);
    EXPECT(truncate(path, 16) == 0 && code_of(path, NULL) == BB_FILE_STALE);
    EXPECT(code_of(path, &OPTIONS) == BB_OK && code_of(path, NULL) == BB_OK);
    write_file(path, "\7", 1, 8);  // a later format
    EXPECT(code_of(path, NULL) == BB_FILE_VERSION && code_of(path, &OPTIONS) == BB_FILE_VERSION);
    remove_it();
    impossible_options();
    EXPECT(mkdir(path, 0700) == 0 && fails_with(EISDIR, path, &OPTIONS) && rmdir(path) == 0);
    EXPECT(mkfifo(path, 0600) == 0 && code_of(path, &OPTIONS) == BB_FILE_UNSAFE);
    remove_it();
    EXPECT(symlink("/etc/hostname", path) == 0 && fails_with(ELOOP, path, &OPTIONS));
    remove_it();
    EXPECT(fails_with(ENOENT, "/nowhere/pool", &OPTIONS));
    EXPECT(fails_with(ENOENT, "/nowhere/pool", NULL));
}

// A file for which there is no room: if that is known beforehand, nothing is requested; otherwise
// what was requested is given back.
static void full(void) {
    bb_pool_file_options large = OPTIONS;
    struct stat stat_of;
    large.bucket_size = (size_t)1 << 46;
    EXPECT(fails_with(ENOSPC, path, &large) && requested == 0);
    EXPECT(stat(path, &stat_of) == 0 && stat_of.st_size == 0 && stat_of.st_blocks == 0);
    remove_it();
    large.slots = UINT32_MAX - 1;  // as many as there can be
    EXPECT(fails_with(ENOSPC, path, &large) && requested == 0);
    large.slots = OPTIONS.slots;
    remove_it();
    const int fd = memfd_create("pool", MFD_CLOEXEC);
    bb_pool_file *file = NULL;
    EXPECT(fd >= 0 && bb_pool_file_open_fd(&file, fd, &large) == BB_FILE_SYSTEM);
    EXPECT(errno == ENOSPC && requested == 0);
    EXPECT(fstat(fd, &stat_of) == 0 && stat_of.st_size == 0 && close(fd) == 0);
    large.bucket_size = (size_t)1 << 20;
    most = 9 << 20;
    EXPECT(fails_with(ENOSPC, path, &large) && requested > most);
    most = MOST_BYTES;
    EXPECT(stat(path, &stat_of) == 0 && stat_of.st_size == 0 && stat_of.st_blocks == 0);
    for (uint32_t call = 1; call <= 2; call++) {
        const int errors[] = {ENOSPC, 0};
        for (int at = 0; at < 2; at++) {
            writing_error = errors[at];
            failing_pwrite = call;
            EXPECT(fails_with(ENOSPC, path, &OPTIONS) && failing_pwrite == 0);
            EXPECT(stat(path, &stat_of) == 0 && stat_of.st_size == 0 && stat_of.st_blocks == 0);
        }
    }
    const pid_t child = child_of();
    if (child == 0) {
        const struct rlimit limit = {1 << 20, 1 << 20};
        EXPECT(setrlimit(RLIMIT_FSIZE, &limit) == 0);
        EXPECT(fails_with(EFBIG, path, &large));
        _exit(0);
    }
    end(child);
    remove_it();
}

// A file without some of its pages is refused, by a path and as a file in memory: whoever opens it
// would have to allocate them.
static void sparse(void) {
    struct stat stat_of;
    bb_pool_file *file;
    EXPECT(code_of(path, &OPTIONS) == BB_OK && stat(path, &stat_of) == 0);
    const int fd = open(path, O_RDWR | O_CLOEXEC);
    const int page = (int)system_page();
    if (fd >= 0 && fallocate(fd, FALLOC_FL_PUNCH_HOLE | FALLOC_FL_KEEP_SIZE, page, page) == 0) {
        EXPECT(code_of(path, NULL) == BB_FILE_DAMAGED);
        EXPECT(code_of(path, &OPTIONS) == BB_FILE_DAMAGED);
        EXPECT(fallocate(fd, 0, 0, stat_of.st_size) == 0 && code_of(path, NULL) == BB_OK);
    }
    char header[PAGE];
    EXPECT(fd >= 0 && pread(fd, header, PAGE, 0) == PAGE && close(fd) == 0);
    const int peers = memfd_create("pool", MFD_CLOEXEC);
    EXPECT(peers >= 0 && write(peers, header, PAGE) == PAGE);
    EXPECT(ftruncate(peers, stat_of.st_size) == 0);
    EXPECT(bb_pool_file_open_fd(&file, peers, NULL) == BB_FILE_DAMAGED);
    EXPECT(fallocate(peers, 0, 0, stat_of.st_size) == 0);
    EXPECT(bb_pool_file_open_fd(&file, peers, NULL) == BB_OK);
    close_it(file);
    EXPECT(close(peers) == 0);
    remove_it();
    // A file system that allocates no pages, though it says that it has.
    said_pages = NO_PAGES;
    EXPECT(fails_with(EOPNOTSUPP, path, &OPTIONS));
    said_pages = AS_IT_IS;
    EXPECT(stat(path, &stat_of) == 0 && stat_of.st_size == 0);
    remove_it();
}

// An empty file with two names isn't made into a pool. One with one name is.
static void linked(void) {
    char other[sizeof path + 8];
    struct stat stat_of;
    snprintf(other, sizeof other, "%s.other", path);
    write_file(other, "", 0, 0);
    EXPECT(link(other, path) == 0);
    EXPECT(code_of(path, &OPTIONS) == BB_FILE_UNSAFE && code_of(path, NULL) == BB_FILE_UNSAFE);
    EXPECT(stat(other, &stat_of) == 0 && stat_of.st_size == 0 && unlink(other) == 0);
    EXPECT(code_of(path, &OPTIONS) == BB_OK && link(path, other) == 0);
    EXPECT(code_of(path, &OPTIONS) == BB_OK && unlink(other) == 0);  // it is a pool already
    remove_it();
}

static void become_nobody(void) {
    EXPECT(setgid(65534) == 0 && setuid(65534) == 0);
}

// Returns the code that a child gets which opens the file as this user, with this group as its own,
// and another one as a further group.
static uint32_t code_as(uid_t user, gid_t group, gid_t further, mode_t mode) {
    bb_pool_file_options options = OPTIONS;
    int status;
    options.mode = mode;
    const pid_t child = child_of();
    if (child == 0) {
        umask(0);
        EXPECT(setgroups(1, &further) == 0 && setgid(group) == 0 && setuid(user) == 0);
        _exit((int)code_of(path, &options));
    }
    EXPECT(waitpid(child, &status, 0) == child && WIFEXITED(status));
    return (uint32_t)WEXITSTATUS(status);
}

// Gives a user read and write permission for the file by an access control list, in which the
// file's own group has none: the file's mode then shows 0660. Returns false if the file system has
// no such lists.
static bool lets_by_list(uint32_t user) {
    const struct {
        uint32_t version;

        struct {
            uint16_t tag;
            uint16_t permissions;
            uint32_t id;
        } entries[5];
    } list = {2,
              {{1, 6, UINT32_MAX},
               {2, 6, user},
               {4, 0, UINT32_MAX},
               {16, 6, UINT32_MAX},
               {32, 0, UINT32_MAX}}};

    return setxattr(path, "system.posix_acl_access", &list, sizeof list, 0) == 0;
}

// A file is trusted with a mode that lets only a group write: if another user made it, it has to be
// of a group of this process, and let that group write.
static void trusted_groups(void) {
    if (geteuid() != 0) {
        puts("cases: files of other users need root, skipped");
        return;
    }

    enum {
        FRIEND = 1001,
        OTHER = 1002,
        OURS = 2000,
        THEIRS = 2001
    };

    char folder[sizeof path];
    struct stat stat_of;
    memcpy(folder, path, sizeof folder);
    *strrchr(folder, '/') = 0;
    EXPECT(stat(folder, &stat_of) == 0 && chmod(folder, 01777) == 0);
    // A friend of the group makes the file: those of the group open it, by either of their groups.
    EXPECT(code_as(FRIEND, OURS, THEIRS, 0660) == BB_OK);
    EXPECT(code_as(OTHER, OURS, THEIRS, 0660) == BB_OK);
    EXPECT(code_as(OTHER, THEIRS, OURS, 0660) == BB_OK);
    EXPECT(code_as(FRIEND, THEIRS, THEIRS, 0660) == BB_OK);  // it is his own
    EXPECT(code_as(OTHER, OURS, THEIRS, 0600) == BB_FILE_UNSAFE);
    // Root is in no group here: it could open any file of anybody.
    EXPECT(code_as(0, 0, 0, 0660) == BB_FILE_UNSAFE && code_as(0, 0, OURS, 0660) == BB_OK);
    EXPECT(code_as(0, 0, 0, 0666) == BB_OK);
    // The group doesn't write the file.
    EXPECT(chmod(path, 0600) == 0 && code_as(0, OURS, OURS, 0660) == BB_FILE_UNSAFE);
    // Another group writes it, and a list lets this user do so.
    EXPECT(chown(path, FRIEND, THEIRS) == 0);
    if (lets_by_list(OTHER)) {
        EXPECT(stat(path, &stat_of) == 0 && (stat_of.st_mode & 0777) == 0660);
        EXPECT(code_as(OTHER, OURS, OURS, 0660) == BB_FILE_UNSAFE);
        EXPECT(code_as(OTHER, OURS, OURS, 0666) == BB_OK);
    } else {
        puts("cases: the file system has no access control lists, skipped");
    }
    // Root's file is trusted, whatever its group.
    EXPECT(chown(path, 0, THEIRS) == 0 && chmod(path, 0660) == 0);
    EXPECT(code_as(0, OURS, OURS, 0660) == BB_OK);
    remove_it();
    EXPECT(chmod(folder, 0755) == 0);
}

// Files that others may write, and files of others: those need root, and a child that is another
// user.
static void permissions(void) {
    bb_pool_file_options shared = OPTIONS;
    shared.mode = 0666;
    umask(0);
    EXPECT(code_of(path, &OPTIONS) == BB_OK && chmod(path, 0622) == 0);
    EXPECT(code_of(path, &OPTIONS) == BB_FILE_UNSAFE && code_of(path, &shared) == BB_OK);
    EXPECT(chmod(path, 0600) == 0);
    if (geteuid() != 0) {
        remove_it();
        umask(022);
        return;
    }
    pid_t child = child_of();
    if (child == 0) {
        become_nobody();
        EXPECT(fails_with(EACCES, path, &OPTIONS));
        _exit(0);
    }
    end(child);
    EXPECT(chmod(path, 0644) == 0);
    child = child_of();
    if (child == 0) {
        become_nobody();
        EXPECT(fails_with(EACCES, path, &OPTIONS));  // it may only read
        _exit(0);
    }
    end(child);
    remove_it();
    EXPECT(code_of(path, &shared) == BB_OK && chown(path, 12345, 12345) == 0);
    EXPECT(code_of(path, &shared) == BB_OK && chmod(path, 0600) == 0);
    EXPECT(code_of(path, &OPTIONS) == BB_FILE_UNSAFE && chmod(path, 0666) == 0);
    child = child_of();
    if (child == 0) {
        become_nobody();
        EXPECT(code_of(path, &OPTIONS) == BB_FILE_UNSAFE && code_of(path, &shared) == BB_OK);
        _exit(0);
    }
    end(child);
    remove_it();
    umask(022);
}

static int lock_byte(int fd, short type, off_t byte) {
    struct flock flock = {.l_type = type, .l_whence = SEEK_SET, .l_start = byte, .l_len = 1};
    return fcntl(fd, F_OFD_SETLK, &flock);
}

// While a process waits for the maker's lock, the file goes and another one has its path: the
// process opens that one.
static void replaced(void) {
    close_it(open_it());
    const int fd = open(path, O_RDWR | O_CLOEXEC);
    EXPECT(fd >= 0 && lock_byte(fd, F_WRLCK, 0) == 0);
    const pid_t child = child_of();
    if (child == 0) {
        close(fd);  // this copy would keep the lock
        bb_pool_file *own = open_it();
        for (int tries = 0; info_of(own).held == 0; tries++) {
            EXPECT(tries < 5000);
            usleep(1000);
        }
        _exit(0);
    }
    usleep(100000);
    remove_it();
    bb_pool_file *file = open_it();
    take_one(join_it(file));
    EXPECT(close(fd) == 0);
    end(child);
    close_it(file);
    remove_it();
}

// How many signals are still to come.
static volatile sig_atomic_t signals_left;

static void on_signal(int unused) {
    (void)unused;
    const struct itimerval never = {{0, 0}, {0, 0}};
    signals_left--;
    if (signals_left == 0)
        setitimer(ITIMER_PROF, &never, NULL);
}

// Signals end a request for pages on tmpfs; the file is made all the same. They end after a while:
// a slow machine may need more time for a request than there is between two of them.
static void signals(void) {
    const bb_pool_file_options large = {
        .bucket_size = 4096, .bucket_align = 64, .buckets = 4000, .parties = 2, .slots = 1};
    const struct itimerval often = {{0, 2000}, {0, 2000}};
    const struct itimerval never = {{0, 0}, {0, 0}};
    const struct sigaction action = {.sa_handler = on_signal};
    signals_left = 200;
    EXPECT(sigaction(SIGPROF, &action, NULL) == 0);
    EXPECT(setitimer(ITIMER_PROF, &often, NULL) == 0);
    EXPECT(code_of(path, &large) == BB_OK);
    EXPECT(setitimer(ITIMER_PROF, &never, NULL) == 0);
    remove_it();
    interruptions = 3;
    EXPECT(code_of(path, &OPTIONS) == BB_OK && interruptions == 0);
    remove_it();
}

// Makes the file one of another boot, or of this one again.
static void change_boot(void) {
    char letter;
    const int fd = open(path, O_RDONLY | O_CLOEXEC);
    EXPECT(fd >= 0 && pread(fd, &letter, 1, BOOT) == 1 && close(fd) == 0);
    letter ^= 1;
    write_file(path, &letter, 1, BOOT);
}

// A file from before the machine's start is made anew, but not without options. Nor is it made anew
// while somebody has a lock on it, as whoever may read it can: but nobody uses it either. So that
// this works after a power failure, too, the header is on the disk before the file has its length.
static void stale(void) {
    const uint32_t synced_before = synced;
    syncing_error = EIO;
    EXPECT(fails_with(EIO, path, &OPTIONS) && synced == synced_before + 1);
    syncing_error = 0;
    bb_pool_file *file = open_it();
    EXPECT(synced == synced_before + 2);
    take_one(join_it(file));
    change_boot();
    EXPECT(code_of(path, NULL) == BB_FILE_STALE && code_of(path, &OPTIONS) == BB_FILE_STALE);
    EXPECT(info_of(file).held == 1);
    change_boot();
    const pid_t child = holder(3);
    close_it(file);
    end_killed(child);
    change_boot();
    const int reader = open(path, O_RDONLY | O_CLOEXEC);
    EXPECT(reader >= 0 && lock_byte(reader, F_RDLCK, 1) == 0);
    EXPECT(code_of(path, NULL) == BB_FILE_STALE && code_of(path, &OPTIONS) == BB_FILE_STALE);
    EXPECT(close(reader) == 0 && code_of(path, NULL) == BB_FILE_STALE);
    file = open_it();
    EXPECT(info_of(file).held == 0);  // it was made anew: nobody reaped
    close_it(file);
    // An unfinished file that somebody has locked.
    write_file(path, "\1", 1, STATE);
    const int other = open(path, O_RDONLY | O_CLOEXEC);
    EXPECT(other >= 0 && lock_byte(other, F_RDLCK, 1) == 0);
    EXPECT(code_of(path, &OPTIONS) == BB_FILE_STALE);
    EXPECT(close(other) == 0 && code_of(path, &OPTIONS) == BB_OK);
    remove_it();
}

// If the machine's boot can't be looked up, no file is opened or made. But a machine without /proc
// has no boot: its files are never from before the last one.
static void unknown_boots(void) {
    close_it(open_it());
    pid_t child = child_of();
    if (child == 0) {
        const int next = dup(0);
        const struct rlimit few = {(rlim_t)next + 1, (rlim_t)next + 1};
        EXPECT(next > 0 && close(next) == 0 && setrlimit(RLIMIT_NOFILE, &few) == 0);
        EXPECT(fails_with(EMFILE, path, NULL) && fails_with(EMFILE, path, &OPTIONS));
        EXPECT(unlink(path) == 0 && fails_with(EMFILE, path, &OPTIONS));
        _exit(0);
    }
    end(child);
    remove_it();
    child = child_of();
    if (child == 0) {
        char folder[sizeof path];
        char boot = 'x';
        memcpy(folder, path, sizeof folder);
        *strrchr(folder, '/') = 0;
        if (chroot(folder) != 0)
            _exit(2);
        const char *name = path + strlen(folder);
        EXPECT(code_of(name, &OPTIONS) == BB_OK);
        const int fd = open(name, O_RDWR | O_CLOEXEC);
        EXPECT(fd >= 0 && pread(fd, &boot, 1, BOOT) == 1 && boot == 0);
        EXPECT(pwrite(fd, "x", 1, BOOT) == 1 && code_of(name, NULL) == BB_OK);
        _exit(0);
    }
    int status;
    EXPECT(waitpid(child, &status, 0) == child && WIFEXITED(status));
    if (WEXITSTATUS(status) == 2) {
        puts("cases: no other root is allowed, skipped");
        return;
    }
    // Here the machine's boot is known, and it isn't this one.
    EXPECT(WEXITSTATUS(status) == 0 && code_of(path, NULL) == BB_FILE_STALE);
    remove_it();
}

// Opens a file with three buckets of this alignment twice. Each bucket is aligned, and what the
// first owner writes into it is at the same place of the second one's region.
static void aligned(size_t align, uint32_t slots) {
    const bb_pool_file_options options = {.bucket_size = 3 * align - 1,
                                          .bucket_align = align,
                                          .buckets = 3,
                                          .parties = 2,
                                          .slots = slots};
    bb_pool_file *one;
    bb_pool_file *two;
    requested = 0;
    EXPECT(bb_pool_file_open(&one, path, &options) == BB_OK);
    EXPECT(bb_pool_file_open(&two, path, NULL) == BB_OK);
    bb_file_party *party = join_it(one);
    EXPECT(info_of(one).start != info_of(two).start);
    EXPECT((uintptr_t)info_of(two).start % align == 0);
    for (int at = 0; at < 3; at++) {
        bb_place place = take_one(party);
        EXPECT((uintptr_t)place % align == 0);
        memset(place, at + 1, options.bucket_size);
        EXPECT(bb_pool_file_look(two, slots - 1).code == BB_DETACHED_EMPTY);
    }
    const char *start = info_of(two).start;
    for (size_t at = 0; at < 3; at++) {
        const char *bucket = start + at * BB_STRIDE(3 * align - 1, align);
        EXPECT(bucket[0] == (char)at + 1 && bucket[options.bucket_size - 1] == (char)at + 1);
    }
    EXPECT(bb_file_party_take(party).code == BB_OUT_OF_MEMORY);
    EXPECT(info_of(two).held == 3 && info_of(two).alive == 1);
    close_it(one);
    EXPECT(info_of(two).held == 0);
    close_it(two);
    remove_it();
}

// Various numbers of buckets and parties, and alignments below and above each system's page. These
// numbers of slots take one, two, three and four pages of the file.
static void layouts(void) {
    for (uint32_t buckets = 1; buckets < 80; buckets += buckets < 20 ? 1 : 7) {
        for (uint32_t parties = 1; parties < 80; parties += 13) {
            const bb_pool_file_options options = {.bucket_size = 8,
                                                  .bucket_align = 8,
                                                  .buckets = buckets,
                                                  .parties = parties,
                                                  .slots = buckets % 3};
            EXPECT(code_of(path, &options) == BB_OK);
            remove_it();
        }
    }
    for (size_t align = 1; align <= (size_t)1 << 22; align *= 2) {
        aligned(align, 1);
        for (uint32_t slots = 16; slots < 64 && align <= 1 << 16; slots += 16)
            aligned(align, slots);
    }
}

// Returns the length of a new file.
static off_t length_of(const bb_pool_file_options *options) {
    struct stat stat_of;
    EXPECT(code_of(path, options) == BB_OK && stat(path, &stat_of) == 0);
    remove_it();
    return stat_of.st_size;
}

// The row of words has 16 words, 2000 flags, 16 words for a life, 2000 entries, and 16 words for
// each slot. After it come 128 bytes of events, and 128 more for each slot. So these take 32384
// bytes, and 256 more for each slot. The rest of the file is a page for the header, and 4 for the
// buckets.
static void lengths(void) {
    bb_pool_file_options options = {
        .bucket_size = 8, .bucket_align = 8, .buckets = 2000, .parties = 1, .slots = 0};
    EXPECT(length_of(&options) == (1 + 8 + 4) * PAGE);
    options.slots = 1;
    EXPECT(length_of(&options) == (1 + 8 + 4) * PAGE);
    options.slots = 2;
    EXPECT(length_of(&options) == (1 + 9 + 4) * PAGE);
}

static size_t memory_requests;
static size_t memory_size;
static size_t to_refuse;
static size_t blocks;

static void *allocate(void *context, size_t size, size_t align) {
    EXPECT(context == &blocks && align == 16);
    memory_requests++;
    memory_size += size;
    if (memory_requests == to_refuse)
        return NULL;
    blocks++;
    return malloc(size);
}

static void release(void *context, void *block) {
    EXPECT(context == &blocks && block != NULL);
    blocks--;
    free(block);
}

static void *allocate_plainly(void *context, size_t size, size_t align) {
    (void)context;
    (void)align;
    return malloc(size);
}

static void release_plainly(void *context, void *block) {
    (void)context;
    free(block);
}

// The library's requests for memory fail one after the other. A call that fails leaks no block, and
// the next one succeeds.
static void refused_memory(void) {
    bb_pool_file *file = NULL;
    bb_file_party *party = NULL;
    uint32_t code = BB_MALLOC_REFUSED;
    bb_use_memory(allocate, release, &blocks);
    for (to_refuse = 1; code != BB_OK; to_refuse++) {
        memory_requests = 0;
        code = bb_pool_file_open(&file, path, &OPTIONS);
        EXPECT(code == BB_OK || (code == BB_MALLOC_REFUSED && blocks == 0));
    }
    EXPECT(to_refuse > 2);
    const size_t opened = blocks;
    code = BB_MALLOC_REFUSED;
    for (to_refuse = 1; code != BB_OK; to_refuse++) {
        memory_requests = 0;
        code = bb_pool_file_join(file, &party);
        EXPECT(code == BB_OK || (code == BB_MALLOC_REFUSED && blocks == opened));
    }
    EXPECT(to_refuse > 2 && number_of(party) == 0);
    to_refuse = 0;
    // A reap requests none.
    const pid_t dying = holder(2);
    end_killed(dying);
    memory_requests = 0;
    EXPECT(reap(file, BB_REAP_HELD) == 2 && memory_requests == 0);
    // A join that fails keeps no lock, and frees what the dead party held, or nothing.
    const pid_t second = holder(2);
    end_killed(second);
    code = BB_MALLOC_REFUSED;
    for (to_refuse = 1; code != BB_OK; to_refuse++) {
        memory_requests = 0;
        code = bb_pool_file_join(file, &party);
        EXPECT(code == BB_OK || (code == BB_MALLOC_REFUSED && info_of(file).alive == 1));
        EXPECT(info_of(file).held == 0 || (code != BB_OK && info_of(file).lost == 2));
    }
    to_refuse = 0;
    EXPECT(number_of(party) == 1 && info_of(file).alive == 2);
    close_it(file);
    EXPECT(blocks == 0);
    bb_use_memory(allocate_plainly, release_plainly, NULL);
    remove_it();
}

// Joins a new file with these options while each of the join's requests for memory fails in turn. A
// join that fails leaks no block and keeps no lock. Returns how many requests the join made that
// succeeded.
static size_t requests_of_join(const bb_pool_file_options *options) {
    bb_pool_file *file;
    bb_file_party *party = NULL;
    uint32_t code = BB_MALLOC_REFUSED;
    EXPECT(bb_pool_file_open(&file, path, options) == BB_OK);
    const size_t opened = blocks;
    for (to_refuse = 1; code != BB_OK; to_refuse++) {
        memory_requests = 0;
        code = bb_pool_file_join(file, &party);
        EXPECT(code == BB_OK || (code == BB_MALLOC_REFUSED && blocks == opened));
        EXPECT(info_of(file).alive == (code == BB_OK ? 1u : 0u));
    }
    to_refuse = 0;
    const size_t requests = memory_requests;
    const bb_place place = take_one(party);
    EXPECT(bb_pool_file_post(file, party, 3, place, 5) == BB_OK);
    EXPECT(bb_pool_file_take(file, party, 3).place == place);
    close_it(file);
    EXPECT(blocks == 0);
    remove_it();
    return requests;
}

// If a slot has room for more than one message, a join makes one more request: for where the party
// goes on at each slot.
static void refused_ends(void) {
    bb_pool_file_options deep = OPTIONS;
    deep.depth = 3;
    bb_use_memory(allocate, release, &blocks);
    const size_t requests = requests_of_join(&OPTIONS);
    EXPECT(requests_of_join(&deep) == requests + 1);
    bb_use_memory(allocate_plainly, release_plainly, NULL);
}

// Returns how many pages of addresses this process has.
static size_t mapped_pages(void) {
    char text[64] = "";
    const int fd = open("/proc/self/statm", O_RDONLY | O_CLOEXEC);
    EXPECT(fd >= 0 && read(fd, text, sizeof text - 1) > 0 && close(fd) == 0);
    return (size_t)strtoull(text, NULL, 10);
}

// Unmaps what another thread has mapped, which is as it was, and returns how many pages that were.
static uint32_t unmap_others(void) {
    const uint32_t unmapped = others_count;
    const size_t page = system_page();
    for (; others_count > 0; others_count--) {
        unsigned char *other = others[others_count - 1];
        EXPECT(mprotect(other, page, PROT_READ | PROT_WRITE) == 0);
        for (size_t at = 0; at < page; at++)
            if (other[at] != 'x')
                EXPECT(false);
        EXPECT(munmap(other, page) == 0);
    }
    return unmapped;
}

// Opens a file, uses it, and closes it. Returns how many pages another thread has mapped meanwhile.
// All other addresses are given back.
static uint32_t opened_beside_others(const bb_pool_file_options *options) {
    const size_t before = mapped_pages();
    bb_pool_file *file;
    requested = 0;
    EXPECT(bb_pool_file_open(&file, path, options) == BB_OK);
    take_one(join_it(file));
    EXPECT(info_of(file).held == 1 && info_of(file).wrong == 0);
    close_it(file);
    remove_it();
    const uint32_t mapped = unmap_others();
    EXPECT(mapped_pages() == before);
    return mapped;
}

// Another thread maps something where the file or its stand-ins were to be mapped. It stays that
// thread's, and the open goes on elsewhere. If that happens again and again, the open fails, and
// frees all that it had.
static void addresses(void) {
    const bb_pool_file_options many_buckets = {
        .bucket_size = 1, .bucket_align = 1, .buckets = 50000, .parties = 3, .slots = 0};
    bb_pool_file *file;
    bb_use_memory(allocate, release, &blocks);
    EXPECT(opened_beside_others(&OPTIONS) == 0 && opened_beside_others(&many_buckets) == 0);
    // A process that may write no long files opens one all the same.
    EXPECT(code_of(path, &many_buckets) == BB_OK);
    const pid_t child = child_of();
    if (child == 0) {
        const struct rlimit limit = {PAGE, PAGE};
        EXPECT(setrlimit(RLIMIT_FSIZE, &limit) == 0 && code_of(path, &many_buckets) == BB_OK);
        _exit(0);
    }
    end(child);
    remove_it();
    for (int at = 0; at < 2; at++) {
        knows_the_flag = at == 0;
        intruded_mmap = 1;
        EXPECT(opened_beside_others(&OPTIONS) == 1);
        // The words have four stand-ins here, and the file comes after them.
        for (uint32_t call = 1; call <= 5; call++) {
            intruded_mmap = call;
            EXPECT(opened_beside_others(&many_buckets) == 1);
        }
        EXPECT(blocks == 0);
        close_it(open_it());
        const size_t before = mapped_pages();
        intruded_mmap = 1;
        intrudes_on = true;
        EXPECT(bb_pool_file_open(&file, path, NULL) == BB_FILE_SYSTEM && errno == EAGAIN);
        intruded_mmap = 0;
        intrudes_on = false;
        // Each of these places has two pages, and `malloc` may keep some of its own.
        EXPECT(unmap_others() == 100 && mapped_pages() < before + 100 && blocks == 0);
        remove_it();
    }
    knows_the_flag = true;
    bb_use_memory(allocate_plainly, release_plainly, NULL);
}

static size_t page_faults(void) {
    struct rusage usage;
    EXPECT(getrusage(RUSAGE_SELF, &usage) == 0);
    return (size_t)usage.ru_minflt;
}

// Many buckets: opening a file again changes no flag, and requests as much memory as if there were
// few. It has fewer page faults than half of the flags' pages, if the system makes a file in
// memory, and if its pages are so small that it maps many of them at once. The words of 16352 and
// of 16608 buckets fill their last page.
static void many(bool again) {
    const uint32_t numbers[] = {1000, 16352, 16353, 16608, 100000, 2200000};
    size_t few = 0;
    memfd_error = again ? 0 : EMFILE;
    bb_use_memory(allocate, release, &blocks);
    for (int at = 0; at < 6; at++) {
        const bb_pool_file_options options = {
            .bucket_size = 1, .bucket_align = 1, .buckets = numbers[at], .parties = 3, .slots = 2};
        bb_pool_file *one;
        bb_pool_file *two;
        requested = 0;
        EXPECT(bb_pool_file_open(&one, path, &options) == BB_OK);
        bb_file_party *party = join_it(one);
        bb_place first = take_one(party);
        take_one(party);
        memory_size = 0;
        const size_t faults = page_faults();
        EXPECT(bb_pool_file_open(&two, path, &options) == BB_OK);
        if (at == 5 && again && system_page() == PAGE)
            EXPECT(page_faults() - faults < numbers[at] * sizeof(uint64_t) / PAGE / 2);
        if (at == 0)
            few = memory_size;
        EXPECT(memory_size == few);
        bb_holder last;
        EXPECT(info_of(two).held == 2 && info_of(two).wrong == 0);
        EXPECT(bb_pool_file_holder(two, numbers[at] - 1, &last) == BB_OK && last.state == BB_FREE);
        EXPECT(bb_file_party_deallocate(party, first) == BB_OK && info_of(two).held == 1);
        take_one(join_it(two));
        EXPECT(info_of(one).held == 2 && info_of(one).wrong == 0);
        close_it(one);
        EXPECT(info_of(two).held == 1);
        close_it(two);
        remove_it();
    }
    EXPECT(blocks == 0);
    bb_use_memory(allocate_plainly, release_plainly, NULL);
    memfd_error = 0;
}

// Two opens by one process behave like those of two processes.
static void parties(void) {
    bb_pool_file *one = open_it();
    bb_pool_file *two = open_it();
    bb_file_party *joined[6];
    bb_file_party *more;
    for (int at = 0; at < 6; at++)
        joined[at] = join_it(at % 2 == 1 ? one : two);
    for (int at = 0; at < 6; at++)
        for (int other = 0; other < at; other++)
            EXPECT(number_of(joined[at]) != number_of(joined[other]));
    EXPECT(bb_pool_file_join(one, &more) == BB_NO_PARTY);
    EXPECT(info_of(one).alive == 6 && info_of(two).alive == 6);
    const bb_place place = take_one(joined[1]);
    EXPECT(bb_file_party_deallocate(joined[3], place) == BB_NOT_HELD);
    EXPECT(bb_pool_file_leave(two, joined[1]) == BB_UNINITIALIZED);
    const uint64_t life = life_of(two, 1);
    EXPECT(is_alive(two, 1, life) && is_alive(one, 1, life));
    EXPECT(!is_alive(two, 1, life + 1) && !is_alive(two, 1, life - 1) && !is_alive(two, 1, 0));
    EXPECT(bb_pool_file_leave(one, joined[1]) == BB_OK);
    EXPECT(bb_pool_file_leave(one, joined[1]) == BB_UNINITIALIZED);
    EXPECT(info_of(two).held == 0 && info_of(two).alive == 5);
    EXPECT(!is_alive(two, 1, life) && !is_alive(two, 1, life_of(two, 1)));
    EXPECT(is_alive(two, 0, life_of(two, 0)));
    EXPECT(bb_pool_file_is_alive(two, 6, life).code == BB_NO_PARTY);
    EXPECT(bb_pool_file_life(two, 6).code == BB_NO_PARTY);
    EXPECT(bb_pool_file_post(one, joined[1], 0, place, 1) == BB_UNINITIALIZED);
    joined[1] = join_it(two);
    EXPECT(number_of(joined[1]) == 1 && life_of(two, 1) > life);
    EXPECT(!is_alive(two, 1, life) && is_alive(one, 1, life_of(one, 1)));
    close_it(one);
    EXPECT(info_of(two).alive == 4);
    close_it(two);
    remove_it();
    one = open_it();
    remove_it();
    two = open_it();  // another file
    take_one(join_it(one));
    EXPECT(info_of(two).held == 0 && info_of(two).alive == 0);
    close_it(one);
    close_it(two);
    remove_it();
}

// Figures of a file of many parties count exactly those that have joined, whoever looks, and ask
// once for the locks of a stretch of parties of which none has.
static void many_parties(void) {
    enum {
        PARTIES = 200,
        OPENED = 3
    };

    const bb_pool_file_options options = {
        .bucket_size = 8, .bucket_align = 8, .buckets = 4, .parties = PARTIES};
    bb_pool_file *files[OPENED];
    bb_file_party *joined[PARTIES];
    for (int at = 0; at < OPENED; at++)
        EXPECT(bb_pool_file_open(&files[at], path, &options) == BB_OK);
    looks_at_locks = 0;
    EXPECT(info_of(files[0]).alive == 0 && looks_at_locks == 1);
    for (int at = 0; at < PARTIES; at++)
        joined[at] = join_it(files[at * at % OPENED]);
    for (int at = 0; at < OPENED; at++)
        EXPECT(info_of(files[at]).alive == PARTIES);
    // These leave: 150 to 199, and every fifth of the others.
    for (int at = 0; at < PARTIES; at++)
        if (at >= 150 || at % 5 == 0)
            EXPECT(bb_pool_file_leave(files[at * at % OPENED], joined[at]) == BB_OK);
    for (int at = 0; at < OPENED; at++)
        EXPECT(info_of(files[at]).alive == 120);
    // Party 0 joins again, elsewhere: the system reports its lock in another order.
    bb_file_party *const again = join_it(files[1]);
    EXPECT(number_of(again) == 0);
    for (int at = 0; at < OPENED; at++)
        EXPECT(info_of(files[at]).alive == 121);
    for (int at = 0; at < OPENED; at++)
        close_it(files[at]);
    remove_it();
}

static bb_pool_file *others_file;
static bb_file_party *others_party;

static void join_and_take(void) {
    others_party = join_it(others_file);
    take_one(others_party);
}

static void leave(void) {
    EXPECT(bb_pool_file_leave(others_file, others_party) == BB_OK);
}

// A party that joins or leaves between the looks at flags and at locks is not dead.
static void moving_parties(void) {
    bb_pool_file *file = open_it();
    others_file = open_it();
    after_look = join_and_take;
    EXPECT(info_of(file).lost == 0 && after_look == NULL);
    EXPECT(info_of(file).held == 1 && info_of(file).alive == 1);
    before_look = leave;
    EXPECT(info_of(file).lost == 0 && before_look == NULL);
    EXPECT(info_of(file).held == 0 && info_of(file).alive == 0);
    close_it(file);
    close_it(others_file);
    remove_it();
}

// A party gives back what it caches when it leaves, and when its process has died.
static void cached(void) {
    bb_pool_file *file = open_it();
    bb_file_party *party = join_it(file);
    EXPECT(bb_file_party_cache(party, 8) == BB_OK);
    const bb_place place = take_one(party);
    EXPECT(bb_file_party_deallocate(party, place) == BB_OK);
    EXPECT(info_of(file).held == 1);
    EXPECT(bb_pool_file_detach(file, party, place).code == BB_NOT_HELD);
    EXPECT(bb_pool_file_post(file, party, 0, place, 1) == BB_NOT_HELD);
    EXPECT(bb_pool_file_leave(file, party) == BB_OK && info_of(file).held == 0);
    close_it(file);
    remove_it();
}

// Forks a child that joins with the first free number, detaches a bucket by number, and either
// leaves or dies.
static void detach_in_child(bool leaves) {
    const pid_t child = child_of();
    if (child == 0) {
        bb_pool_file *own = open_it();
        bb_file_party *party = join_it(own);
        EXPECT(bb_pool_file_detach(own, party, take_one(party)).code == BB_OK);
        if (leaves)
            EXPECT(bb_pool_file_leave(own, party) == BB_OK);
        _exit(0);
    }
    end(child);
}

// A reap frees what it says of what dead parties have detached, and of what parties have detached
// that left. It doesn't change which is which.
static void reaps_detached(void) {
    bb_pool_file *file = open_it();
    detach_in_child(false);
    EXPECT(reap(file, BB_REAP_HELD) == 0 && reap(file, BB_REAP_LEFT) == 0);
    EXPECT(reap(file, BB_REAP_DEAD) == 1 && info_of(file).detached == 0);
    detach_in_child(true);
    EXPECT(reap(file, BB_REAP_HELD) == 0 && reap(file, BB_REAP_DEAD) == 0);
    EXPECT(reap(file, BB_REAP_DEAD) == 0 && info_of(file).detached == 1);
    EXPECT(reap(file, BB_REAP_LEFT) == 1 && info_of(file).detached == 0);
    // Number 0 is used by a living party, with a bucket that an earlier one had detached.
    detach_in_child(true);
    bb_file_party *party = join_it(file);
    EXPECT(number_of(party) == 0 && reap(file, BB_REAP_DEAD | BB_REAP_LEFT) == 0);
    detach_in_child(false);  // with number 1
    EXPECT(info_of(file).detached == 2 && reap(file, BB_REAP_DEAD) == 1);
    EXPECT(bb_pool_file_leave(file, party) == BB_OK);
    EXPECT(reap(file, BB_REAP_DEAD) == 0 && reap(file, BB_REAP_DEAD | BB_REAP_LEFT) == 1);
    EXPECT(info_of(file).detached == 0);
    // A later party with the number has died, so that it counts as dead.
    detach_in_child(true);
    detach_in_child(false);
    EXPECT(info_of(file).detached == 2 && reap(file, BB_REAP_LEFT) == 0);
    EXPECT(reap(file, BB_REAP_DEAD) == 2 && info_of(file).detached == 0);
    close_it(file);
    remove_it();
}

// A party has another life each time that a process joins, and no process is taken for another one
// with the same number, nor a reap for a dead process.
static void lives(void) {
    bb_pool_file *file = open_it();
    int ready[2];
    uint64_t last = 0;
    for (int round = 0; round < 3; round++) {
        EXPECT(pipe(ready) == 0);
        const pid_t child = child_of();
        if (child == 0) {
            bb_pool_file *own = open_it();
            take_one(join_it(own));
            tell(ready[1]);
            pause();
        }
        hear(ready[0]);
        const uint64_t life = life_of(file, 0);
        EXPECT(life > last && is_alive(file, 0, life) && !is_alive(file, 0, last));
        end_killed(child);
        EXPECT(!is_alive(file, 0, life) && life_of(file, 0) == life);
        if (round == 1) {
            EXPECT(reap(file, BB_REAP_HELD) == 1);
            EXPECT(life_of(file, 0) > life && !is_alive(file, 0, life));
        }
        last = life_of(file, 0);
        close(ready[0]);
        close(ready[1]);
    }
    bb_file_party *party = join_it(file);
    const uint64_t life = life_of(file, 0);
    EXPECT(number_of(party) == 0 && life > last && !is_alive(file, 0, last));
    EXPECT(reap(file, BB_REAP_DEAD | BB_REAP_LEFT) == 0 && life_of(file, 0) == life);
    EXPECT(bb_pool_file_give_all_back(file, party) == BB_OK && life_of(file, 0) == life);
    bb_pool_file *other = open_it();
    EXPECT(number_of(join_it(other)) == 1 && life_of(file, 0) == life);
    close_it(other);
    EXPECT(is_alive(file, 0, life) && bb_pool_file_leave(file, party) == BB_OK);
    EXPECT(!is_alive(file, 0, life) && life_of(file, 0) > life);
    close_it(file);
    remove_it();
}

// A party that gives all back stays joined, and a message that it had taken can be taken again,
// with its bytes.
static void gives_all_back(void) {
    bb_pool_file *file = open_it();
    bb_pool_file *other = open_it();
    bb_file_party *sender = join_it(file);
    bb_file_party *party = join_it(file);
    const bb_place hello = take_one(sender);
    memcpy(hello, "hello", 6);
    EXPECT(bb_pool_file_post(file, sender, 0, hello, 6) == BB_OK);
    EXPECT(bb_file_party_cache(party, 4) == BB_OK);
    take_one(party);
    EXPECT(bb_file_party_deallocate(party, take_one(party)) == BB_OK);
    EXPECT(bb_pool_file_take(file, party, 0).code == BB_OK);
    const bb_number sent = bb_pool_file_detach(file, party, take_one(party));
    EXPECT(bb_pool_file_give_all_back(other, party) == BB_UNINITIALIZED);
    EXPECT(info_of(file).held >= 2);
    EXPECT(bb_pool_file_give_all_back(file, party) == BB_OK);
    EXPECT(info_of(file).held == 0 && info_of(file).detached == 2 && info_of(file).alive == 2);
    // Whoever takes all other buckets doesn't get the message's.
    for (int at = 0; at < 18; at++)
        memcpy(take_one(sender), "private", 8);
    EXPECT(bb_file_party_take(sender).code == BB_OUT_OF_MEMORY);
    const bb_message again = bb_pool_file_take(file, party, 0);
    EXPECT(again.code == BB_OK && again.len == 6 && strcmp(again.place, "hello") == 0);
    EXPECT(bb_pool_file_give_all_back(file, sender) == BB_OK && info_of(file).held == 1);
    EXPECT(bb_pool_file_done(file, party, 0) == BB_OK);
    EXPECT(bb_pool_file_give_all_back(file, party) == BB_OK && info_of(file).held == 0);
    EXPECT(bb_pool_file_attach(file, party, (uint32_t)sent.number).code == BB_OK);
    EXPECT(bb_pool_file_leave(file, party) == BB_OK);
    EXPECT(bb_pool_file_give_all_back(file, party) == BB_UNINITIALIZED);
    close_it(other);
    close_it(file);
    remove_it();
}

static void slots(void) {
    bb_pool_file *one = open_it();
    bb_pool_file *two = open_it();
    bb_file_party *sender = join_it(one);
    bb_file_party *a = join_it(two);
    bb_file_party *b = join_it(two);
    const bb_place bucket = take_one(sender);
    bb_holder flag;
    memcpy(bucket, "hello", 6);
    EXPECT(bb_pool_file_take(two, a, 0).code == BB_DETACHED_EMPTY);
    EXPECT(bb_pool_file_look(two, 0).code == BB_DETACHED_EMPTY);
    EXPECT(bb_pool_file_take(two, a, 4).code == BB_INVALID_ARGUMENT);
    EXPECT(bb_pool_file_look(two, 4).code == BB_INVALID_ARGUMENT);
    EXPECT(bb_pool_file_post(one, sender, 4, bucket, 6) == BB_INVALID_ARGUMENT);
    EXPECT(bb_pool_file_post(one, sender, 0, bucket, 101) == BB_SIZE_TOO_LARGE);
    EXPECT(bb_pool_file_post(one, sender, 0, (char *)bucket + 1, 6) == BB_NOT_HELD);
    EXPECT(bb_pool_file_post(one, sender, 0, bucket, 6) == BB_OK);
    EXPECT(bb_pool_file_post(one, sender, 1, bucket, 6) == BB_NOT_HELD);
    EXPECT(bb_file_party_deallocate(sender, bucket) == BB_NOT_HELD);
    const bb_place second = take_one(sender);
    EXPECT(bb_pool_file_post(one, sender, 0, second, 6) == BB_DETACHED_FULL);
    EXPECT(bb_file_party_deallocate(sender, second) == BB_OK);
    EXPECT(bb_pool_file_done(two, a, 0) == BB_NOT_HELD);
    EXPECT(bb_pool_file_done(two, a, 4) == BB_INVALID_ARGUMENT);
    const bb_message seen = bb_pool_file_look(two, 0);
    EXPECT(seen.code == BB_OK && seen.len == 6);
    EXPECT(bb_pool_file_holder(two, seen.number, &flag) == BB_OK);
    EXPECT(flag.state == BB_SENT && flag.party == 0 && info_of(two).wrong == 0);
    EXPECT(bb_pool_file_holder(two, 20, &flag) == BB_NOT_A_BUCKET);
    const bb_message got = bb_pool_file_take(two, a, 0);
    EXPECT(got.code == BB_OK && got.len == 6 && strcmp(got.place, "hello") == 0);
    EXPECT(got.place != bucket && got.number == seen.number && got.place == seen.place);
    EXPECT(bb_pool_file_holder(one, got.number, &flag) == BB_OK);
    EXPECT(flag.state == BB_HELD && flag.party == number_of(a));
    EXPECT(bb_pool_file_take(two, b, 0).code == BB_NOT_HELD);
    EXPECT(bb_pool_file_done(two, b, 0) == BB_NOT_HELD);
    EXPECT(bb_pool_file_detach(two, a, got.place).number == got.number);  // it is put back
    EXPECT(bb_pool_file_holder(two, got.number, &flag) == BB_OK);
    EXPECT(flag.state == BB_SENT && flag.party == 0);
    const bb_message again = bb_pool_file_take(two, b, 0);
    EXPECT(again.code == BB_OK && again.len == 6 && again.number == got.number);
    EXPECT(bb_pool_file_leave(two, b) == BB_OK);  // this puts it back, too
    EXPECT(info_of(one).detached == 1 && info_of(one).messages == 1);
    EXPECT(bb_pool_file_take(one, sender, 0).len == 6);
    EXPECT(bb_pool_file_done(one, sender, 0) == BB_OK);
    EXPECT(bb_pool_file_done(one, sender, 0) == BB_NOT_HELD);
    EXPECT(bb_pool_file_post(one, sender, 0, bucket, 0) == BB_OK);
    EXPECT(bb_pool_file_holder(two, seen.number, &flag) == BB_OK);
    EXPECT(flag.state == BB_SENT && flag.party == 0);
    const bb_message empty = bb_pool_file_take(one, sender, 0);
    EXPECT(empty.code == BB_OK && empty.len == 0 && empty.place == bucket);
    EXPECT(bb_pool_file_done(one, sender, 0) == BB_OK);
    EXPECT(bb_pool_file_post(one, sender, 3, bucket, 100) == BB_OK);
    EXPECT(bb_pool_file_holder(two, seen.number, &flag) == BB_OK);
    EXPECT(flag.state == BB_SENT && flag.party == 3 && info_of(two).wrong == 0);
    EXPECT(bb_pool_file_take(one, sender, 0).code == BB_DETACHED_EMPTY);
    EXPECT(bb_pool_file_look(one, 3).len == 100 && bb_pool_file_take(one, sender, 3).len == 100);
    EXPECT(bb_pool_file_done(one, sender, 3) == BB_OK);
    EXPECT(bb_file_party_deallocate(sender, bucket) == BB_OK);
    const bb_pool_file_figures figures = info_of(two);
    EXPECT(figures.held == 0 && figures.detached == 0 && figures.messages == 0);
    close_it(one);
    close_it(two);
    remove_it();
}

// A call with a party of another `bb_pool_file` does nothing, even if both have the same file open.
static void others_parties(void) {
    bb_pool_file *file = open_it();
    bb_pool_file *other = open_it();
    bb_file_party *party = join_it(file);
    const bb_place place = take_one(party);
    EXPECT(bb_pool_file_post(other, party, 0, place, 1) == BB_UNINITIALIZED);
    EXPECT(bb_pool_file_detach(other, party, place).code == BB_UNINITIALIZED);
    EXPECT(bb_pool_file_leave(other, party) == BB_UNINITIALIZED);
    EXPECT(bb_pool_file_give_all_back(other, party) == BB_UNINITIALIZED);
    EXPECT(bb_pool_file_post(file, party, 0, place, 1) == BB_OK);
    EXPECT(bb_pool_file_take(other, party, 0).code == BB_UNINITIALIZED);
    EXPECT(bb_pool_file_take(file, party, 0).code == BB_OK);
    EXPECT(bb_pool_file_done(other, party, 0) == BB_UNINITIALIZED);
    EXPECT(bb_pool_file_done(file, party, 0) == BB_OK);
    const bb_number detached = bb_pool_file_detach(file, party, place);
    EXPECT(detached.code == BB_OK);
    EXPECT(bb_pool_file_attach(other, party, (uint32_t)detached.number).code == BB_UNINITIALIZED);
    EXPECT(bb_pool_file_attach(file, party, (uint32_t)detached.number).place == place);
    close_it(other);
    close_it(file);
    remove_it();
}

// Returns how many buckets the party holds and doesn't cache.
static size_t held_by(bb_file_party *party) {
    bb_shared_pool_figures figures;
    EXPECT(bb_file_party_info(party, &figures) == BB_OK && figures.number_of_buckets == 20);
    return figures.held_buckets;
}

static bool holds(bb_file_party *party, bb_place place) {
    const bb_number held = bb_file_party_holds(party, place);
    EXPECT(held.code == BB_OK);
    return held.number == 1;
}

// Gives back the bucket at this place, and returns whether that returned this code and number.
static bool gives_back(bb_file_party *party, bb_place place, uint32_t code, size_t number) {
    const bb_number freed = bb_file_party_give_back(party, place);
    return freed.code == code && freed.number == number;
}

// The calls for the buckets of a party, which do what those of bb_memory.h do.
static void buckets_of_a_party(void) {
    bb_pool_file *file = open_it();
    bb_file_party *party = join_it(file);
    bb_shared_pool_figures figures;
    bb_place places[25];
    EXPECT(bb_file_party_number(party).number == 0 && held_by(party) == 0);
    const bb_chunk chunk = bb_file_party_allocate(party, 100, 8);
    EXPECT(chunk.code == BB_OK && holds(party, chunk.place) && held_by(party) == 1);
    EXPECT(bb_file_party_allocate(party, 101, 8).code == BB_SIZE_TOO_LARGE);
    EXPECT(bb_file_party_allocate(party, 8, 16).code == BB_ALIGNMENT_FAILURE);
    EXPECT(bb_file_party_allocate(party, 8, 3).code == BB_INVALID_LAYOUT);
    EXPECT(!holds(party, (char *)chunk.place + 1));
    EXPECT(bb_file_party_deallocate(party, (char *)chunk.place + 1) == BB_NOT_HELD);
    void *const got = bb_file_party_get(party);
    EXPECT(got != NULL && got != chunk.place && holds(party, got));
    EXPECT(bb_file_party_take_many(party, places, 25).number == 18 && held_by(party) == 20);
    EXPECT(bb_file_party_take(party).code == BB_OUT_OF_MEMORY && bb_file_party_get(party) == NULL);
    EXPECT(bb_file_party_info(party, &figures) == BB_OK);
    EXPECT(figures.bucket_size == 100 && figures.number_of_buckets == 20);
    for (uint32_t number = 0; number < 20; number++) {
        const bb_chunk at = bb_file_party_place_at(party, number);
        EXPECT(at.code == BB_OK && at.place == (char *)info_of(file).start + number * STRIDE);
        EXPECT(bb_file_party_number_at(party, at.place).number == number);
    }
    EXPECT(bb_file_party_place_at(party, 20).code == BB_NOT_A_BUCKET);
    EXPECT(bb_file_party_number_at(party, (char *)got + 1).code == BB_NOT_A_BUCKET);
    EXPECT(bb_file_party_deallocate_many(party, NULL, 0).code == BB_OK);
    const bb_place first = places[0];
    places[2] = first;  // a second free
    EXPECT(bb_file_party_deallocate_many(party, places, 18).number == 2 && held_by(party) == 18);
    EXPECT(bb_file_party_deallocate(party, first) == BB_NOT_HELD);
    EXPECT(gives_back(party, first, BB_NOT_HELD, 0));
    const bb_place last = take_one(party);
    EXPECT(gives_back(party, last, BB_OK, 1) && held_by(party) == 18);
    EXPECT(bb_file_party_wake(party) == BB_OK);
    EXPECT(bb_file_party_cache(party, 4) == BB_OK);
    EXPECT(gives_back(party, take_one(party), BB_OK, 0) && info_of(file).held == 19);
    EXPECT(bb_file_party_flush(party) == BB_OK && info_of(file).held == 18);
    EXPECT(bb_file_party_deallocate(party, got) == BB_OK && !holds(party, got));
    EXPECT(info_of(file).held == 18 && held_by(party) == 17);
    EXPECT(bb_file_party_flush(party) == BB_OK && info_of(file).held == 17);
    EXPECT(bb_pool_file_leave(file, party) == BB_OK && info_of(file).held == 0);
    EXPECT(bb_file_party_allocate(party, 1, 1).code == BB_UNINITIALIZED);
    EXPECT(bb_file_party_take(party).code == BB_UNINITIALIZED);
    EXPECT(bb_file_party_take_many(party, places, 1).code == BB_UNINITIALIZED);
    EXPECT(bb_file_party_get(party) == NULL);
    EXPECT(bb_file_party_deallocate(party, got) == BB_UNINITIALIZED);
    EXPECT(gives_back(party, got, BB_UNINITIALIZED, 0));
    EXPECT(bb_file_party_wake(party) == BB_UNINITIALIZED);
    EXPECT(bb_file_party_deallocate_many(party, places, 1).code == BB_UNINITIALIZED);
    EXPECT(bb_file_party_cache(party, 1) == BB_UNINITIALIZED);
    EXPECT(bb_file_party_flush(party) == BB_UNINITIALIZED);
    EXPECT(bb_file_party_info(party, &figures) == BB_UNINITIALIZED);
    EXPECT(bb_file_party_holds(party, got).code == BB_UNINITIALIZED);
    EXPECT(bb_file_party_number(party).code == BB_UNINITIALIZED);
    EXPECT(bb_file_party_number_at(party, got).code == BB_UNINITIALIZED);
    EXPECT(bb_file_party_place_at(party, 0).code == BB_UNINITIALIZED);
    close_it(file);
    remove_it();
}

// A bucket that is still in a slot can be neither freed nor posted. A refused call changes nothing:
// the party holds the bucket, and the message is in its slot as before.
static void undone(uint32_t most_cached) {
    bb_pool_file *file = open_it();
    bb_file_party *sender = join_it(file);
    bb_file_party *party = join_it(file);
    bb_holder flag;
    EXPECT(bb_file_party_cache(party, most_cached) == BB_OK);
    const bb_place hello = take_one(sender);
    memcpy(hello, "hello", 6);
    EXPECT(bb_pool_file_post(file, sender, 0, hello, 6) == BB_OK);
    const bb_message message = bb_pool_file_take(file, party, 0);
    EXPECT(message.code == BB_OK && message.place == hello);
    const bb_place before = take_one(party);
    const bb_place after = take_one(party);
    const bb_place places[] = {before, message.place, after};
    EXPECT(held_by(party) == 3);
    EXPECT(bb_file_party_deallocate(party, message.place) == BB_FILE_NOT_DONE);
    EXPECT(gives_back(party, message.place, BB_FILE_NOT_DONE, 0));
    EXPECT(bb_pool_file_post(file, party, 1, message.place, 5) == BB_FILE_NOT_DONE);
    EXPECT(bb_pool_file_post(file, party, 0, message.place, 5) == BB_FILE_NOT_DONE);
    EXPECT(bb_file_party_deallocate_many(party, places + 1, 2).number == 0);
    EXPECT(held_by(party) == 3);
    const bb_number freed = bb_file_party_deallocate_many(party, places, 3);
    EXPECT(freed.code == BB_OK && freed.number == 1 && held_by(party) == 2);
    EXPECT(!holds(party, before) && holds(party, message.place) && holds(party, after));
    EXPECT(bb_pool_file_holder(file, message.number, &flag) == BB_OK);
    EXPECT(flag.state == BB_HELD && flag.party == number_of(party));
    EXPECT(info_of(file).messages == 1 && bb_pool_file_look(file, 1).code == BB_DETACHED_EMPTY);
    EXPECT(bb_pool_file_look(file, 0).len == 6 && strcmp(message.place, "hello") == 0);
    EXPECT(bb_pool_file_take(file, sender, 0).code == BB_NOT_HELD);
    // A bucket in no slot is freed and posted all the same, and so is this one once it is done.
    EXPECT(bb_pool_file_post(file, party, 1, after, 7) == BB_OK && held_by(party) == 1);
    EXPECT(bb_file_party_deallocate(sender, take_one(sender)) == BB_OK);
    EXPECT(bb_pool_file_done(file, party, 0) == BB_OK && held_by(party) == 1);
    EXPECT(bb_pool_file_post(file, party, 0, message.place, 5) == BB_OK && held_by(party) == 0);
    EXPECT(bb_file_party_deallocate(party, message.place) == BB_NOT_HELD);
    EXPECT(bb_pool_file_take(file, party, 0).len == 5);
    EXPECT(bb_pool_file_done(file, party, 0) == BB_OK);
    EXPECT(bb_file_party_deallocate(party, message.place) == BB_OK && held_by(party) == 0);
    EXPECT(bb_pool_file_take(file, party, 1).len == 7);
    EXPECT(bb_file_party_deallocate_many(party, &after, 1).number == 0);
    EXPECT(bb_pool_file_done(file, party, 1) == BB_OK);
    EXPECT(bb_file_party_deallocate_many(party, &after, 1).number == 1);
    close_it(file);
    remove_it();
}

// A party that caches buckets takes messages, puts them back, and sends them on. It counts as in
// use exactly what it holds and doesn't cache.
static void caches_and_takes(void) {
    bb_pool_file *file = open_it();
    bb_file_party *sender = join_it(file);
    bb_file_party *party = join_it(file);
    EXPECT(bb_file_party_cache(sender, 3) == BB_OK && bb_file_party_cache(party, 3) == BB_OK);
    const bb_place place = take_one(sender);
    EXPECT(bb_pool_file_post(file, sender, 0, place, 1) == BB_OK);
    EXPECT(!holds(sender, place) && held_by(sender) == 0);
    EXPECT(bb_file_party_deallocate(sender, place) == BB_NOT_HELD);
    EXPECT(bb_pool_file_post(file, sender, 1, place, 1) == BB_NOT_HELD);
    EXPECT(bb_pool_file_take(file, party, 0).code == BB_OK && held_by(party) == 1);
    EXPECT(bb_pool_file_detach(file, party, place).code == BB_OK);
    EXPECT(!holds(party, place) && held_by(party) == 0);
    EXPECT(bb_file_party_deallocate(party, place) == BB_NOT_HELD);
    EXPECT(bb_pool_file_detach(file, party, place).code == BB_NOT_HELD);
    EXPECT(bb_pool_file_take(file, sender, 0).code == BB_OK && held_by(sender) == 1);
    EXPECT(bb_pool_file_done(file, sender, 0) == BB_OK);
    EXPECT(bb_pool_file_post(file, sender, 2, place, 1) == BB_OK && held_by(sender) == 0);
    EXPECT(bb_pool_file_take(file, party, 2).code == BB_OK && holds(party, place));
    EXPECT(bb_pool_file_give_all_back(file, party) == BB_OK);
    EXPECT(!holds(party, place) && held_by(party) == 0 && info_of(file).held == 0);
    EXPECT(bb_pool_file_take(file, party, 2).code == BB_OK);
    EXPECT(bb_pool_file_done(file, party, 2) == BB_OK);
    EXPECT(bb_file_party_deallocate(party, place) == BB_OK);  // it is cached
    EXPECT(!holds(party, place) && held_by(party) == 0 && info_of(file).held == 1);
    EXPECT(take_one(party) == place && held_by(party) == 1);
    EXPECT(bb_pool_file_detach(file, party, place).code == BB_OK && held_by(party) == 0);
    close_it(file);
    remove_it();
}

// The only bucket of a file is freed before its message is done: it can't come to another slot, and
// no slot is full for good.
static void freed_too_early(void) {
    const bb_pool_file_options options = {
        .bucket_size = 64, .bucket_align = 8, .buckets = 1, .parties = 2, .slots = 2};
    bb_pool_file *file;
    requested = 0;
    EXPECT(bb_pool_file_open(&file, path, &options) == BB_OK);
    bb_file_party *sender = join_it(file);
    bb_file_party *receiver = join_it(file);
    EXPECT(bb_pool_file_post(file, sender, 0, take_one(sender), 14) == BB_OK);
    bb_message message = bb_pool_file_take(file, receiver, 0);
    EXPECT(message.code == BB_OK);
    EXPECT(bb_file_party_deallocate(receiver, message.place) == BB_FILE_NOT_DONE);
    EXPECT(bb_file_party_get(sender) == NULL);
    EXPECT(bb_pool_file_done(file, receiver, 0) == BB_OK);
    EXPECT(bb_file_party_deallocate(receiver, message.place) == BB_OK);
    EXPECT(bb_pool_file_post(file, sender, 1, take_one(sender), 15) == BB_OK);
    EXPECT(bb_pool_file_take(file, receiver, 0).code == BB_DETACHED_EMPTY);
    message = bb_pool_file_take(file, receiver, 1);
    EXPECT(message.code == BB_OK && message.len == 15);
    EXPECT(bb_pool_file_done(file, receiver, 1) == BB_OK);
    EXPECT(bb_pool_file_post(file, receiver, 1, message.place, 1) == BB_OK);
    close_it(file);
    remove_it();
}

// A party forwards a message to the next slot, before it is done with the first one and after that.
static void forwards(void) {
    bb_pool_file *file = open_it();
    bb_file_party *sender = join_it(file);
    bb_file_party *party = join_it(file);
    EXPECT(bb_pool_file_post(file, sender, 0, take_one(sender), 4) == BB_OK);
    const bb_message message = bb_pool_file_take(file, party, 0);
    EXPECT(bb_pool_file_post(file, party, 1, message.place, message.len) == BB_FILE_NOT_DONE);
    EXPECT(bb_pool_file_done(file, party, 0) == BB_OK);
    EXPECT(bb_pool_file_post(file, party, 1, message.place, message.len) == BB_OK);
    EXPECT(bb_pool_file_take(file, sender, 0).code == BB_DETACHED_EMPTY);
    const bb_message next = bb_pool_file_take(file, sender, 1);
    EXPECT(next.code == BB_OK && next.number == message.number && next.len == 4);
    EXPECT(bb_pool_file_done(file, sender, 1) == BB_OK);
    EXPECT(bb_file_party_deallocate(sender, next.place) == BB_OK);
    EXPECT(bb_pool_file_post(file, sender, 1, take_one(sender), 1) == BB_OK);
    close_it(file);
    remove_it();
}

// As long as a party is done with all that it took, its frees look at no entry: here their pages
// can't be read.
static void looks_at_no_entry(void) {
    const bb_pool_file_options options = {.bucket_size = 1,
                                          .bucket_align = 1,
                                          .buckets = 100000,
                                          .parties = 1,
                                          .slots = 1,
                                          .user_bytes = 1};
    const uintptr_t page = system_page();
    bb_pool_file *file;
    requested = 0;
    EXPECT(bb_pool_file_open(&file, path, &options) == BB_OK);
    bb_file_party *party = join_it(file);
    // The bytes of the host come after the entries, the slot, and the events of the file and of the
    // slot. The pages in between are whole.
    char *const first = (char *)bb_pool_file_user(file) - 3 * 128 - 100000 * sizeof(uint64_t);
    char *const from = first + (page - (uintptr_t)first % page) % page;
    const size_t size = 90000 * sizeof(uint64_t) / page * page;
    bb_place *places = calloc(100000, sizeof *places);
    EXPECT(places != NULL);
    EXPECT(bb_file_party_take_many(party, places, 100000).number == 100000);
    const bb_place message = bb_file_party_place_at(party, 0).place;
    for (uint32_t round = 0; round < 4; round++) {
        const bb_place one = bb_file_party_place_at(party, 40000 + round).place;
        const bb_place other = bb_file_party_place_at(party, 50000 + round).place;
        EXPECT(bb_pool_file_post(file, party, 0, message, 1) == BB_OK);
        EXPECT(bb_pool_file_take(file, party, 0).code == BB_OK);
        EXPECT(bb_file_party_deallocate(party, message) == BB_FILE_NOT_DONE);
        if (round == 0)
            EXPECT(bb_pool_file_done(file, party, 0) == BB_OK);
        else if (round == 1)
            EXPECT(bb_pool_file_detach(file, party, message).code == BB_OK);
        else if (round == 2)
            EXPECT(bb_pool_file_give_all_back(file, party) == BB_OK);
        else
            EXPECT(bb_pool_file_leave(file, party) == BB_OK && join_it(file) == party);
        if (round > 1)
            EXPECT(bb_file_party_take_many(party, places, 100000).number == 99999);
        EXPECT(mprotect(from, size, PROT_NONE) == 0);
        EXPECT(bb_file_party_deallocate(party, one) == BB_OK);
        EXPECT(bb_file_party_deallocate_many(party, &other, 1).number == 1);
        EXPECT(mprotect(from, size, PROT_READ | PROT_WRITE) == 0);
        if (round > 0) {
            EXPECT(bb_pool_file_take(file, party, 0).code == BB_OK);
            EXPECT(bb_pool_file_done(file, party, 0) == BB_OK);
        }
    }
    free(places);
    close_it(file);
    remove_it();
}

// Reads or writes a word of the file of OPTIONS.
static uint64_t word_at(int fd, off_t at) {
    uint64_t word;
    EXPECT(pread(fd, &word, sizeof word, at) == sizeof word);
    return word;
}

static void set_word(int fd, off_t at, uint64_t word) {
    EXPECT(pwrite(fd, &word, sizeof word, at) == sizeof word);
}

static off_t flag_at(uint32_t bucket) {
    return FIRST_FLAG + 8 * (off_t)bucket;
}

static off_t slot_at(uint32_t slot) {
    return FIRST_SLOT + 128 * (off_t)slot;
}

static off_t entry_at(uint32_t bucket) {
    return FIRST_ENTRY + 8 * (off_t)bucket;
}

// Returns the word of the flag of a bucket that is sent to this slot at this lap.
static uint64_t sent_to(uint32_t slot, uint32_t lap) {
    return ((uint64_t)lap << 34) + 4 * (uint64_t)slot + 3;
}

// Starts a child that takes a bucket and dies. Returns the bucket's number.
static uint32_t held_by_the_dead(bb_pool_file *file) {
    bb_holder flag = {BB_FREE, 0};
    uint32_t number = 0;
    end_killed(holder(1));
    for (uint32_t at = 0; at < 20; at++)
        if (bb_pool_file_holder(file, at, &flag) == BB_OK && flag.state == BB_HELD)
            number = at;
    return number;
}

// A process that is killed in a post, before the slot has the bucket, or in a `done`, after the
// slot is empty, leaves a bucket whose entry names a slot that hasn't got it. A reap frees the
// bucket, and clears the entry. If the slot has the bucket, the reap sends it there.
static void half_done(void) {
    bb_pool_file *file = open_it();
    bb_holder flag;
    const int fd = open(path, O_RDWR | O_CLOEXEC);
    EXPECT(fd >= 0);
    // The slot is empty.
    uint32_t number = held_by_the_dead(file);
    set_word(fd, entry_at(number), (uint64_t)7 << 32 | 2);
    EXPECT(reap(file, BB_REAP_HELD) == 1 && word_at(fd, entry_at(number)) == 0);
    EXPECT(info_of(file).held == 0 && info_of(file).detached == 0);
    // The slot has the bucket, at lap 5.
    number = held_by_the_dead(file);
    set_word(fd, entry_at(number), (uint64_t)7 << 32 | 2);
    set_word(fd, slot_at(1), (uint64_t)5 << 32 | (number + 1));
    EXPECT(bb_pool_file_wait_full(file, 1, 0) == BB_FILE_TIMED_OUT);
    EXPECT(reap(file, BB_REAP_HELD) == 0 && bb_pool_file_look(file, 1).len == 7);
    EXPECT(bb_pool_file_holder(file, number, &flag) == BB_OK);
    EXPECT(flag.state == BB_SENT && flag.party == 1);
    EXPECT(word_at(fd, flag_at(number)) == sent_to(1, 5));
    EXPECT(bb_pool_file_wait_full(file, 1, 0) == BB_OK);
    // The slot has another message.
    const uint32_t other = held_by_the_dead(file);
    set_word(fd, entry_at(other), (uint64_t)9 << 32 | 2);
    EXPECT(reap(file, BB_REAP_HELD) == 1 && word_at(fd, entry_at(other)) == 0);
    EXPECT(info_of(file).held == 0 && info_of(file).detached == 1);
    bb_file_party *party = join_it(file);
    const bb_message message = bb_pool_file_take(file, party, 1);
    EXPECT(message.code == BB_OK && message.number == number && message.len == 7);
    EXPECT(bb_pool_file_done(file, party, 1) == BB_OK && word_at(fd, entry_at(number)) == 0);
    EXPECT(word_at(fd, slot_at(1)) == (uint64_t)6 << 32);
    EXPECT(bb_pool_file_post(file, party, 1, message.place, 2) == BB_OK);
    EXPECT(word_at(fd, slot_at(1)) == ((uint64_t)6 << 32 | (number + 1)));
    EXPECT(word_at(fd, entry_at(number)) == ((uint64_t)2 << 32 | 2));
    // A refused post leaves no entry.
    const bb_place place = take_one(party);
    const uint32_t refused = (uint32_t)bb_file_party_number_at(party, place).number;
    EXPECT(bb_pool_file_post(file, party, 1, place, 2) == BB_DETACHED_FULL);
    EXPECT(word_at(fd, entry_at(refused)) == 0 && holds(party, place));
    close_it(file);
    close(fd);
    remove_it();
}

// A take that has read the slot's word some time ago takes nothing: neither the bucket's message in
// another slot, nor a later one of the same slot.
static void stale_takes(void) {
    bb_pool_file *file = open_it();
    bb_file_party *party = join_it(file);
    const int fd = open(path, O_RDWR | O_CLOEXEC);
    EXPECT(fd >= 0 && bb_pool_file_post(file, party, 0, take_one(party), 5) == BB_OK);
    const uint64_t old = word_at(fd, slot_at(0));
    const bb_message message = bb_pool_file_take(file, party, 0);
    EXPECT(message.len == 5 && bb_pool_file_done(file, party, 0) == BB_OK);
    const uint64_t empty = word_at(fd, slot_at(0));
    EXPECT(bb_pool_file_post(file, party, 1, message.place, 6) == BB_OK);
    set_word(fd, slot_at(0), old);
    EXPECT(bb_pool_file_take(file, party, 0).code == BB_NOT_HELD);
    EXPECT(bb_pool_file_wait_full(file, 0, 0) == BB_FILE_TIMED_OUT);
    set_word(fd, slot_at(0), empty);
    EXPECT(bb_pool_file_take(file, party, 1).len == 6);
    EXPECT(bb_pool_file_done(file, party, 1) == BB_OK);
    EXPECT(bb_pool_file_post(file, party, 0, message.place, 7) == BB_OK);
    const uint64_t new = word_at(fd, slot_at(0));
    EXPECT(new != old);
    set_word(fd, slot_at(0), old);
    EXPECT(bb_pool_file_take(file, party, 0).code == BB_NOT_HELD);
    EXPECT(bb_pool_file_wait_full(file, 0, 0) == BB_FILE_TIMED_OUT);
    set_word(fd, slot_at(0), new);
    EXPECT(bb_pool_file_take(file, party, 0).len == 7);
    // The bucket is detached by its number, after it was in the slot.
    EXPECT(bb_pool_file_done(file, party, 0) == BB_OK);
    EXPECT(bb_pool_file_detach(file, party, message.place).code == BB_OK);
    set_word(fd, slot_at(0), new);
    EXPECT(bb_pool_file_take(file, party, 0).code == BB_NOT_HELD);
    EXPECT(bb_pool_file_wait_full(file, 0, 0) == BB_FILE_TIMED_OUT);
    set_word(fd, slot_at(0), empty);
    EXPECT(bb_pool_file_attach(file, party, message.number).code == BB_OK);
    close_it(file);
    close(fd);
    remove_it();
}

// After the last lap of a slot, 2^30 - 1, comes lap 0. With a later one, which is a wrong value, no
// message can be posted.
static void laps(void) {
    const uint32_t last = ((uint32_t)1 << 30) - 1;
    bb_pool_file *file = open_it();
    bb_file_party *party = join_it(file);
    const int fd = open(path, O_RDWR | O_CLOEXEC);
    EXPECT(fd >= 0);
    bb_place place = take_one(party);
    const uint32_t number = (uint32_t)bb_file_party_number_at(party, place).number;
    const uint32_t first[] = {last, 0};
    const uint32_t next[] = {0, 1};
    for (int at = 0; at < 2; at++) {
        set_word(fd, slot_at(3), (uint64_t)first[at] << 32);
        EXPECT(bb_pool_file_look(file, 3).code == BB_DETACHED_EMPTY);
        EXPECT(bb_pool_file_wait_empty(file, 3, 0) == BB_OK && info_of(file).messages == 0);
        EXPECT(bb_pool_file_post(file, party, 3, place, 8) == BB_OK);
        EXPECT(word_at(fd, flag_at(number)) == sent_to(3, first[at]));
        EXPECT(info_of(file).wrong == 0 && bb_pool_file_look(file, 3).len == 8);
        EXPECT(bb_pool_file_take(file, party, 3).len == 8);
        EXPECT(bb_pool_file_detach(file, party, place).number == number);
        EXPECT(bb_pool_file_take(file, party, 3).len == 8);
        EXPECT(bb_pool_file_done(file, party, 3) == BB_OK);
        EXPECT(word_at(fd, slot_at(3)) == (uint64_t)next[at] << 32);
    }
    set_word(fd, slot_at(3), (uint64_t)(last + 1) << 32);
    EXPECT(bb_pool_file_post(file, party, 3, place, 8) == BB_DETACHED_FULL && holds(party, place));
    close_it(file);
    close(fd);
    remove_it();
}

// Nobody joins as a number whose life can't become greater, or reaps it: whoever has tried to keeps
// the number's lock. A process joins as another number, and the buckets of this one stay held.
static void last_lives(void) {
    bb_pool_file *file = open_it();
    bb_pool_file *other = open_it();
    const int fd = open(path, O_RDWR | O_CLOEXEC);
    EXPECT(fd >= 0);
    end_killed(holder(2));
    EXPECT(info_of(file).lost == 2);
    set_word(fd, FIRST_LIFE, UINT64_MAX - 2);
    EXPECT(number_of(join_it(file)) == 1);
    EXPECT(info_of(file).held == 2 && info_of(file).alive == 2 && info_of(other).alive == 2);
    EXPECT(number_of(join_it(file)) == 2 && number_of(join_it(other)) == 3);
    EXPECT(reap(file, BB_REAP_DEAD) == 0 && reap(other, BB_REAP_DEAD) == 0);
    close_it(file);
    EXPECT(info_of(other).lost == 2 && info_of(other).alive == 1);
    EXPECT(reap(other, BB_REAP_DEAD) == 0 && life_of(other, 0) == UINT64_MAX - 2);
    EXPECT(info_of(other).held == 2 && info_of(other).alive == 2);
    EXPECT(number_of(join_it(other)) == 1);
    close_it(other);
    // This is the last life that becomes greater, up to the greatest that no process has.
    set_word(fd, FIRST_LIFE, UINT64_MAX - 4);
    file = open_it();
    bb_file_party *party = join_it(file);
    EXPECT(number_of(party) == 0 && life_of(file, 0) == UINT64_MAX - 2);
    EXPECT(info_of(file).held == 0 && bb_pool_file_leave(file, party) == BB_OK);
    EXPECT(life_of(file, 0) == UINT64_MAX - 1 && number_of(join_it(file)) == 1);
    close_it(file);
    close(fd);
    remove_it();
}

// What flags say: a flag with a wrong value is counted, and leads to no access outside.
static void flags(void) {
    const uint32_t last = ((uint32_t)1 << 30) - 1;
    const uint64_t large = (uint64_t)1 << 34;
    // Held and detached by party 5, and sent to slot 3. Then what no call writes: a number that is
    // no party's or no slot's, or too large, and words that say none of these.
    const uint64_t words[] = {21,         22, sent_to(3, last), 25, 26, sent_to(4, 0), large + 21,
                              large + 22, 4,  UINT64_MAX - 3};
    const uint32_t states[] = {BB_HELD, BB_DETACHED, BB_SENT, BB_HELD, BB_DETACHED,
                               BB_SENT, BB_SENT,     BB_SENT, BB_SENT, BB_SENT};
    const uint32_t by[] = {5, 5, 3, 6, 6, 4, UINT32_MAX, UINT32_MAX, UINT32_MAX, UINT32_MAX};
    bb_pool_file *file = open_it();
    const int fd = open(path, O_RDWR | O_CLOEXEC);
    bb_holder flag;
    EXPECT(fd >= 0);
    for (uint32_t at = 0; at < 10; at++) {
        set_word(fd, flag_at(at), words[at]);
        EXPECT(bb_pool_file_holder(file, at, &flag) == BB_OK);
        EXPECT(flag.state == states[at] && flag.party == by[at]);
        const bb_pool_file_figures figures = info_of(file);
        EXPECT(figures.held == 1 && figures.lost == 1);
        EXPECT(figures.detached == (at < 2 ? at : 2) && figures.wrong == (at < 3 ? 0 : at - 2));
    }
    // A reap frees what party 5 held, and what it had detached, and nothing else.
    EXPECT(reap(file, BB_REAP_DEAD | BB_REAP_LEFT) == 2);
    EXPECT(info_of(file).detached == 1 && info_of(file).wrong == 7);
    close_it(file);
    close(fd);
    remove_it();
}

// Entries with wrong values lead to no access outside, and a message that can't be is not received.
static void wrong_entries(void) {
    const uint32_t slots_of_others[] = {1, 4, UINT32_MAX - 1};
    bb_pool_file *file = open_it();
    bb_file_party *party = join_it(file);
    const int fd = open(path, O_RDWR | O_CLOEXEC);
    EXPECT(fd >= 0 && bb_pool_file_post(file, party, 0, take_one(party), 5) == BB_OK);
    const uint32_t number = bb_pool_file_look(file, 0).number;
    const uint64_t right = word_at(fd, entry_at(number));
    EXPECT(right == ((uint64_t)5 << 32 | 1));
    // The length is greater than a bucket's, or the entry names no slot, or another one.
    const uint64_t wrong[] = {(uint64_t)101 << 32 | 1, 0, (uint64_t)5 << 32 | 2,
                              (uint64_t)5 << 32 | 5};
    for (int at = 0; at < 4; at++) {
        set_word(fd, entry_at(number), wrong[at]);
        EXPECT(bb_pool_file_look(file, 0).code == BB_NOT_A_BUCKET);
        EXPECT(bb_pool_file_take(file, party, 0).code == BB_NOT_A_BUCKET && held_by(party) == 0);
        EXPECT(word_at(fd, flag_at(number)) == sent_to(0, 0));  // it is sent as before
    }
    set_word(fd, entry_at(number), right);
    EXPECT(bb_pool_file_take(file, party, 0).len == 5);
    EXPECT(bb_pool_file_done(file, party, 0) == BB_OK);
    for (uint32_t at = 0; at < 3; at++) {
        const bb_place place = take_one(party);
        const uint32_t its = (uint32_t)bb_file_party_number_at(party, place).number;
        EXPECT(bb_pool_file_post(file, party, 2, place, 5) == BB_OK);
        EXPECT(bb_pool_file_take(file, party, 2).code == BB_OK);
        const uint64_t entry = word_at(fd, entry_at(its));
        set_word(fd, entry_at(its), (uint64_t)5 << 32 | (slots_of_others[at] + 1));
        EXPECT(bb_pool_file_detach(file, party, place).code == BB_NOT_A_BUCKET);
        EXPECT(holds(party, place) && held_by(party) == 2);
        set_word(fd, entry_at(its), entry);
        EXPECT(bb_pool_file_give_all_back(file, party) == BB_OK);
        EXPECT(bb_pool_file_take(file, party, 2).len == 5);
        EXPECT(bb_pool_file_done(file, party, 2) == BB_OK);
        EXPECT(bb_file_party_deallocate(party, place) == BB_OK);
        take_one(party);
    }
    close_it(file);
    close(fd);
    remove_it();
}

static void by_number(void) {
    bb_pool_file *one = open_it();
    bb_pool_file *two = open_it();
    bb_file_party *sender = join_it(one);
    bb_file_party *a = join_it(two);
    bb_place bucket = take_one(sender);
    bb_number detached = bb_pool_file_detach(one, sender, bucket);
    uint32_t number = (uint32_t)detached.number;
    EXPECT(detached.code == BB_OK);
    EXPECT(bb_pool_file_detach(one, sender, bucket).code == BB_NOT_HELD);
    EXPECT(bb_pool_file_attach(two, a, 20).code == BB_NOT_A_BUCKET);
    EXPECT(bb_pool_file_attach(two, a, number).code == BB_OK);
    EXPECT(bb_pool_file_attach(two, a, number).code == BB_NOT_HELD);
    close_it(two);
    EXPECT(info_of(one).held == 0);
    // A bucket that a living party has detached stays so.
    bucket = take_one(sender);
    EXPECT(bb_pool_file_detach(one, sender, bucket).code == BB_OK);
    two = open_it();
    EXPECT(reap(two, BB_REAP_DEAD | BB_REAP_LEFT) == 0 && info_of(two).detached == 1);
    close_it(one);
    // A bucket that a party has detached which left since is freed only by BB_REAP_LEFT.
    EXPECT(reap(two, BB_REAP_HELD) == 0 && reap(two, BB_REAP_DEAD) == 0);
    EXPECT(info_of(two).detached == 1);
    EXPECT(reap(two, BB_REAP_LEFT) == 1 && info_of(two).detached == 0);
    EXPECT(bb_pool_file_reap(two, 4, NULL) == BB_INVALID_ARGUMENT);
    EXPECT(bb_pool_file_reap(two, UINT32_MAX, NULL) == BB_INVALID_ARGUMENT);
    // A number attaches no bucket that is in a slot: neither before a party has taken it, nor after
    // that, nor when it was put back.
    bb_file_party *const other = join_it(two);
    bucket = take_one(other);
    number = (uint32_t)bb_file_party_number_at(other, bucket).number;
    EXPECT(bb_pool_file_post(two, other, 3, bucket, 9) == BB_OK);
    EXPECT(bb_pool_file_attach(two, other, number).code == BB_NOT_HELD);
    EXPECT(bb_pool_file_take(two, other, 3).len == 9);
    EXPECT(bb_pool_file_attach(two, other, number).code == BB_NOT_HELD);
    EXPECT(bb_pool_file_detach(two, other, bucket).number == number);
    EXPECT(bb_pool_file_attach(two, other, number).code == BB_NOT_HELD);
    EXPECT(bb_pool_file_take(two, other, 3).len == 9);
    EXPECT(bb_pool_file_done(two, other, 3) == BB_OK);
    EXPECT(bb_pool_file_detach(two, other, bucket).number == number);
    EXPECT(bb_pool_file_attach(two, other, number).code == BB_OK);
    EXPECT(bb_pool_file_leave(two, other) == BB_OK && info_of(two).held == 0);
    // A dead party's message in a slot stays, though it was put back by `detach`.
    const pid_t child = child_of();
    if (child == 0) {
        bb_pool_file *own = open_it();
        bb_file_party *party = join_it(own);
        EXPECT(bb_pool_file_post(own, party, 2, take_one(party), 7) == BB_OK);
        const bb_message got = bb_pool_file_take(own, party, 2);
        EXPECT(bb_pool_file_detach(own, party, got.place).code == BB_OK);
        _exit(0);
    }
    end(child);
    EXPECT(reap(two, BB_REAP_DEAD) == 0 && info_of(two).messages == 1);
    EXPECT(bb_pool_file_take(two, join_it(two), 2).len == 7);
    close_it(two);
    remove_it();
}

// Of 4 processes that attach the same number at the same time, exactly one wins, each time.
static void one_wins(void) {
    enum {
        CHILDREN = 3,
        ROUNDS = 500
    };

    uint32_t *shared = mmap(NULL, PAGE, PROT_READ | PROT_WRITE, MAP_SHARED | MAP_ANONYMOUS, -1, 0);
    uint32_t *round = &shared[0];
    uint32_t *number = &shared[16];
    uint32_t *wins = &shared[32];
    uint32_t *tried = &shared[48];
    bb_pool_file *file = open_it();
    bb_file_party *party = join_it(file);
    pid_t children[CHILDREN];
    for (int at = 0; at < CHILDREN; at++) {
        children[at] = child_of();
        if (children[at] != 0)
            continue;
        bb_pool_file *own = open_it();
        bb_file_party *mine = join_it(own);
        for (uint32_t now = 1; now <= ROUNDS; now++) {
            while (__atomic_load_n(round, __ATOMIC_SEQ_CST) < now)
                sched_yield();
            const bb_chunk got = bb_pool_file_attach(own, mine, *number);
            if (got.code == BB_OK)
                __atomic_fetch_add(wins, 1, __ATOMIC_SEQ_CST);
            __atomic_fetch_add(tried, 1, __ATOMIC_SEQ_CST);
            while (__atomic_load_n(tried, __ATOMIC_SEQ_CST) < CHILDREN * now)
                sched_yield();
            if (got.code == BB_OK && bb_file_party_deallocate(mine, got.place) != BB_OK)
                _exit(1);
        }
        _exit(0);
    }
    for (uint32_t now = 1; now <= ROUNDS; now++) {
        *number = (uint32_t)bb_pool_file_detach(file, party, take_one(party)).number;
        __atomic_store_n(round, now, __ATOMIC_SEQ_CST);
        while (__atomic_load_n(tried, __ATOMIC_SEQ_CST) < CHILDREN * now)
            sched_yield();
        EXPECT(*wins == now);
    }
    for (int at = 0; at < CHILDREN; at++)
        end(children[at]);
    EXPECT(reap(file, BB_REAP_HELD) == 0 && info_of(file).held == 0);
    close_it(file);
    munmap(shared, PAGE);
    remove_it();
}

static uint64_t milliseconds(void) {
    struct timespec time;
    clock_gettime(CLOCK_MONOTONIC, &time);
    return (uint64_t)time.tv_sec * 1000 + (uint64_t)time.tv_nsec / 1000000;
}

// Runs a wait in a child, and returns the child once it sleeps in the system.
static pid_t sleeper(uint32_t (*wait)(bb_pool_file *, uint32_t, uint32_t), uint32_t slot) {
    int ready[2];
    EXPECT(pipe(ready) == 0);
    const pid_t child = child_of();
    if (child == 0) {
        bb_pool_file *own = open_it();
        tell(ready[1]);
        EXPECT(wait(own, slot, BB_NO_TIMEOUT) == BB_OK);
        _exit(0);
    }
    hear(ready[0]);
    close(ready[0]);
    close(ready[1]);
    usleep(20000);
    EXPECT(waitpid(child, NULL, WNOHANG) == 0);
    return child;
}

static uint32_t wait_bucket(bb_pool_file *file, uint32_t unused, uint32_t timeout) {
    (void)unused;
    return bb_pool_file_wait_bucket(file, timeout);
}

static void waits(void) {
    bb_pool_file *file = open_it();
    bb_file_party *party = join_it(file);
    uint64_t begun = milliseconds();
    EXPECT(bb_pool_file_wait_full(file, 1, 150) == BB_FILE_TIMED_OUT);
    EXPECT(milliseconds() - begun >= 150);
    EXPECT(bb_pool_file_wait_full(file, BB_ANY_SLOT, 0) == BB_FILE_TIMED_OUT);
    EXPECT(bb_pool_file_wait_full(file, 4, 0) == BB_INVALID_ARGUMENT);
    EXPECT(bb_pool_file_wait_empty(file, 4, 0) == BB_INVALID_ARGUMENT);
    EXPECT(bb_pool_file_wait_empty(file, 3, 0) == BB_OK);
    EXPECT(bb_pool_file_wait_empty(file, BB_ANY_SLOT, 0) == BB_OK);
    EXPECT(bb_pool_file_wait_bucket(file, 0) == BB_OK);
    // Each event ends the wait for it.
    pid_t child = sleeper(bb_pool_file_wait_full, 1);
    pid_t second = sleeper(bb_pool_file_wait_full, BB_ANY_SLOT);
    EXPECT(bb_pool_file_post(file, party, 1, take_one(party), 8) == BB_OK);
    end(child);
    end(second);
    EXPECT(bb_pool_file_wait_full(file, 1, 0) == BB_OK);
    EXPECT(bb_pool_file_wait_empty(file, 1, 0) == BB_FILE_TIMED_OUT);
    child = sleeper(bb_pool_file_wait_empty, 1);
    bb_message message = bb_pool_file_take(file, party, 1);
    EXPECT(bb_pool_file_wait_full(file, 1, 0) == BB_FILE_TIMED_OUT);  // it is taken
    EXPECT(bb_pool_file_detach(file, party, message.place).code == BB_OK);
    EXPECT(bb_pool_file_wait_full(file, 1, 0) == BB_OK);  // it was put back
    message = bb_pool_file_take(file, party, 1);
    EXPECT(bb_pool_file_done(file, party, 1) == BB_OK);
    end(child);
    for (int at = 0; at < 19; at++)
        take_one(party);
    EXPECT(bb_pool_file_wait_bucket(file, 10) == BB_FILE_TIMED_OUT);
    child = sleeper(wait_bucket, 0);
    second = sleeper(wait_bucket, 0);
    EXPECT(bb_file_party_deallocate(party, message.place) == BB_OK);
    end(child);
    end(second);
    // A free that wakes nobody is noticed, and so is a reap.
    const bb_place last = take_one(party);
    EXPECT(bb_file_party_cache(party, 1) == BB_OK);
    EXPECT(bb_file_party_deallocate(party, last) == BB_OK);
    child = sleeper(wait_bucket, 0);
    EXPECT(bb_file_party_flush(party) == BB_OK);
    end(child);
    EXPECT(bb_file_party_cache(party, 0) == BB_OK);
    const pid_t dying = holder(1);
    child = sleeper(wait_bucket, 0);
    end_killed(dying);
    EXPECT(reap(file, BB_REAP_HELD) == 1);
    end(child);
    close_it(file);
    file = open_it();
    remove_it();
    close_it(file);
}

// Any slot is full if one is, and empty if one is, whichever it is. So is it with buckets.
static void any_of_them(void) {
    bb_pool_file *file = open_it();
    bb_file_party *party = join_it(file);
    bb_place places[20];
    for (uint32_t at = 0; at < 4; at++) {
        EXPECT(bb_pool_file_wait_full(file, BB_ANY_SLOT, 0) == BB_FILE_TIMED_OUT);
        const bb_place place = take_one(party);
        EXPECT(bb_pool_file_post(file, party, at, place, 1) == BB_OK);
        EXPECT(bb_pool_file_wait_full(file, BB_ANY_SLOT, 0) == BB_OK);
        EXPECT(bb_pool_file_wait_empty(file, BB_ANY_SLOT, 0) == BB_OK);
        EXPECT(bb_pool_file_take(file, party, at).place == place);
        EXPECT(bb_pool_file_done(file, party, at) == BB_OK);
        EXPECT(bb_file_party_deallocate(party, place) == BB_OK);
    }
    for (uint32_t slot = 0; slot < 4; slot++)
        EXPECT(bb_pool_file_post(file, party, slot, take_one(party), 1) == BB_OK);
    for (uint32_t at = 0; at < 4; at++) {
        EXPECT(bb_pool_file_wait_empty(file, BB_ANY_SLOT, 0) == BB_FILE_TIMED_OUT);
        const bb_place place = bb_pool_file_take(file, party, at).place;
        EXPECT(bb_pool_file_done(file, party, at) == BB_OK);
        EXPECT(bb_pool_file_wait_empty(file, BB_ANY_SLOT, 0) == BB_OK);
        EXPECT(bb_pool_file_post(file, party, at, place, 1) == BB_OK);
    }
    EXPECT(bb_file_party_take_many(party, places, 20).number == 16);
    for (int at = 0; at < 16; at++) {
        EXPECT(bb_pool_file_wait_bucket(file, 0) == BB_FILE_TIMED_OUT);
        EXPECT(bb_file_party_deallocate(party, places[at]) == BB_OK);
        EXPECT(bb_pool_file_wait_bucket(file, 0) == BB_OK);
        EXPECT(take_one(party) == places[at]);
    }
    close_it(file);
    remove_it();
}

// A file without slots has no slot to wait for, not even any.
static void waits_for_no_slot(void) {
    bb_pool_file_options none = OPTIONS;
    bb_pool_file *file;
    int fd = -1;
    none.slots = 0;
    requested = 0;
    EXPECT(bb_pool_file_open(&file, path, &none) == BB_OK && info_of(file).messages == 0);
    EXPECT(bb_pool_file_wait_full(file, BB_ANY_SLOT, 0) == BB_INVALID_ARGUMENT);
    EXPECT(bb_pool_file_wait_empty(file, BB_ANY_SLOT, 0) == BB_INVALID_ARGUMENT);
    EXPECT(bb_pool_file_watch(file, &fd) == BB_OK);
    EXPECT(bb_pool_file_arm(file, fd, BB_ANY_SLOT) == BB_INVALID_ARGUMENT && close(fd) == 0);
    EXPECT(bb_pool_file_look(file, 0).code == BB_INVALID_ARGUMENT);
    close_it(file);
    remove_it();
}

// Runs a wait. Returns 1 if it lasts as long as one that nobody wakes, which sleeps for a tenth of
// a second.
static uint32_t is_late(uint32_t (*wait)(bb_pool_file *, uint32_t, uint32_t), bb_pool_file *file) {
    const uint64_t begun = milliseconds();
    EXPECT(wait(file, 0, BB_NO_TIMEOUT) == BB_OK);
    return milliseconds() - begun >= 100;
}

// One bucket goes to another process and back, and each side waits for the other: for a message,
// for an empty slot, and for a free bucket. If a wake was lost, almost each wait for it would be
// late. A loaded machine may make a few of them late.
static void ping(void) {
    enum {
        ROUNDS = 60,
        MOST_LATE = 23
    };

    bb_pool_file *file = open_it();
    bb_file_party *party = join_it(file);
    for (int at = 0; at < 19; at++)
        take_one(party);
    const pid_t child = child_of();
    if (child == 0) {
        bb_pool_file *own = open_it();
        bb_file_party *mine = join_it(own);
        uint32_t late = 0;
        for (int round = 0; round < ROUNDS; round++) {
            late += is_late(bb_pool_file_wait_full, own);
            const bb_message message = bb_pool_file_take(own, mine, 0);
            usleep(1000);  // so long that the sender sleeps
            EXPECT(message.code == BB_OK && bb_pool_file_done(own, mine, 0) == BB_OK);
            usleep(1000);
            EXPECT(bb_file_party_deallocate(mine, message.place) == BB_OK);
        }
        EXPECT(late <= MOST_LATE);
        _exit(0);
    }
    uint32_t late_for_slot = 0;
    uint32_t late_for_bucket = 0;
    for (int round = 0; round < ROUNDS; round++) {
        EXPECT(bb_pool_file_post(file, party, 0, take_one(party), 5) == BB_OK);
        late_for_slot += is_late(bb_pool_file_wait_empty, file);
        late_for_bucket += is_late(wait_bucket, file);
        EXPECT(late_for_slot <= MOST_LATE && late_for_bucket <= MOST_LATE);
        usleep(1000);
    }
    end(child);
    close_it(file);
    remove_it();
}

// An act that has to wake a process that waits: it is prepared before the process sleeps.
struct waking {
    uint32_t (*wait)(bb_pool_file *, uint32_t, uint32_t);
    uint32_t slot;
    void (*prepare)(bb_pool_file *, bb_file_party *);
    void (*act)(bb_pool_file *, bb_file_party *);
};

// The messages and parties of a `prepare`, for the `act` after it.
static bb_message prepared;
static bb_file_party *leaving;

static void free_message(bb_pool_file *file, bb_file_party *party, uint32_t slot) {
    const bb_message message = bb_pool_file_take(file, party, slot);
    if (message.code != BB_OK)
        return;
    EXPECT(bb_pool_file_done(file, party, slot) == BB_OK);
    EXPECT(bb_file_party_deallocate(party, message.place) == BB_OK);
}

static void post_into(bb_pool_file *file, bb_file_party *party, uint32_t slot) {
    EXPECT(bb_pool_file_post(file, party, slot, take_one(party), 8) == BB_OK);
}

// The slots are empty but for slot 1, whose message is taken.
static void take_again(bb_pool_file *file, bb_file_party *party) {
    for (uint32_t slot = 0; slot < 4; slot++)
        free_message(file, party, slot);
    post_into(file, party, 1);
    prepared = bb_pool_file_take(file, party, 1);
    EXPECT(prepared.code == BB_OK);
}

static void put_back(bb_pool_file *file, bb_file_party *party) {
    EXPECT(bb_pool_file_detach(file, party, prepared.place).code == BB_OK);
}

// All slots are full, and slot 1's message is taken.
static void fill_all(bb_pool_file *file, bb_file_party *party) {
    take_again(file, party);
    for (uint32_t slot = 0; slot < 4; slot++)
        if (slot != 1)
            post_into(file, party, slot);
}

static void be_done(bb_pool_file *file, bb_file_party *party) {
    EXPECT(bb_pool_file_done(file, party, 1) == BB_OK);
    EXPECT(bb_file_party_deallocate(party, prepared.place) == BB_OK);
}

// Another party has taken slot 1's message, and holds all other buckets.
static void take_by_another(bb_pool_file *file, bb_file_party *party) {
    if (leaving == NULL)
        leaving = join_it(file);
    free_message(file, party, 1);
    post_into(file, party, 1);
    EXPECT(bb_pool_file_take(file, leaving, 1).code == BB_OK);
    for (int at = 0; at < 19; at++)
        take_one(leaving);
}

static void leave_both(bb_pool_file *file, bb_file_party *party) {
    (void)party;
    EXPECT(bb_pool_file_leave(file, leaving) == BB_OK);
    leaving = NULL;
}

static void give_both_back(bb_pool_file *file, bb_file_party *party) {
    (void)party;
    EXPECT(bb_pool_file_give_all_back(file, leaving) == BB_OK);
}

// The same by a process that is dead by now. Nobody has joined as its party since.
static void take_by_the_dead(bb_pool_file *file, bb_file_party *party) {
    if (leaving != NULL)
        leave_both(file, party);
    free_message(file, party, 1);
    post_into(file, party, 1);
    const pid_t child = child_of();
    if (child == 0) {
        bb_pool_file *own = open_it();
        bb_file_party *mine = join_it(own);
        EXPECT(bb_pool_file_take(own, mine, 1).code == BB_OK);
        for (int at = 0; at < 19; at++)
            take_one(mine);
        _exit(0);
    }
    end(child);
}

static void reap_all(bb_pool_file *file, bb_file_party *party) {
    (void)party;
    EXPECT(reap(file, BB_REAP_HELD) == 19);
}

static void join_as_the_dead(bb_pool_file *file, bb_file_party *party) {
    leaving = join_it(file);
    EXPECT(number_of(leaving) == number_of(party) + 1);
}

// The party holds all buckets, and then frees them by one call.
static bb_place all_places[20];

static void take_all(bb_pool_file *file, bb_file_party *party) {
    (void)file;
    EXPECT(bb_file_party_take_many(party, all_places, 20).number == 20);
}

static void free_all(bb_pool_file *file, bb_file_party *party) {
    (void)file;
    EXPECT(bb_file_party_deallocate_many(party, all_places, 20).number == 20);
}

// A process that sleeps is woken at once. If a wake was lost, almost each wait would be late. A
// loaded machine may make a few of them late.
static void wakes(const struct waking *waking) {
    enum {
        ROUNDS = 12,
        MOST_LATE = 5
    };

    int asks[2];
    int replies[2];
    EXPECT(pipe(asks) == 0 && pipe(replies) == 0);
    leaving = NULL;
    bb_pool_file *file = open_it();
    bb_file_party *party = join_it(file);
    const pid_t child = child_of();
    if (child == 0) {
        bb_pool_file *own = open_it();
        for (int round = 0; round < ROUNDS; round++) {
            hear(asks[0]);
            tell(replies[1]);
            const uint64_t begun = milliseconds();
            EXPECT(waking->wait(own, waking->slot, BB_NO_TIMEOUT) == BB_OK);
            const char late = milliseconds() - begun >= 100;
            EXPECT(write(replies[1], &late, 1) == 1);
        }
        _exit(0);
    }
    int late_ones = 0;
    for (int round = 0; round < ROUNDS; round++) {
        char late;
        waking->prepare(file, party);
        tell(asks[1]);
        hear(replies[0]);
        usleep(3000);
        waking->act(file, party);
        EXPECT(read(replies[0], &late, 1) == 1);
        late_ones += late;
    }
    EXPECT(late_ones <= MOST_LATE);
    end(child);
    for (int at = 0; at < 2; at++) {
        close(asks[at]);
        close(replies[at]);
    }
    close_it(file);
    remove_it();
}

static void woken(void) {
    const struct waking all_of_them[] = {
        {bb_pool_file_wait_full, 1, take_again, put_back},
        {bb_pool_file_wait_full, BB_ANY_SLOT, take_again, put_back},
        {bb_pool_file_wait_empty, 1, fill_all, be_done},
        {bb_pool_file_wait_empty, BB_ANY_SLOT, fill_all, be_done},
        {bb_pool_file_wait_full, 1, take_by_another, leave_both},
        {bb_pool_file_wait_full, BB_ANY_SLOT, take_by_another, leave_both},
        {wait_bucket, 0, take_by_another, leave_both},
        {bb_pool_file_wait_full, 1, take_by_another, give_both_back},
        {wait_bucket, 0, take_by_another, give_both_back},
        {bb_pool_file_wait_full, 1, take_by_the_dead, reap_all},
        {wait_bucket, 0, take_by_the_dead, reap_all},
        {bb_pool_file_wait_full, 1, take_by_the_dead, join_as_the_dead},
        {wait_bucket, 0, take_by_the_dead, join_as_the_dead},
        {wait_bucket, 0, take_all, free_all},
    };
    for (size_t at = 0; at < sizeof all_of_them / sizeof *all_of_them; at++)
        wakes(&all_of_them[at]);
}

// Two messages wake two that wait for any slot: the first wake keeps what the second one needs.
static void two_woken(void) {
    enum {
        ROUNDS = 12,
        MOST_LATE = 5
    };

    int asks[2];
    int replies[2];
    pid_t children[2];
    EXPECT(pipe(asks) == 0 && pipe(replies) == 0);
    bb_pool_file *file = open_it();
    bb_file_party *party = join_it(file);
    for (int at = 0; at < 2; at++) {
        children[at] = child_of();
        if (children[at] != 0)
            continue;
        bb_pool_file *own = open_it();
        bb_file_party *mine = join_it(own);
        for (int round = 0; round < ROUNDS; round++) {
            bb_message message = {BB_DETACHED_EMPTY, 0, NULL, 0};
            hear(asks[0]);
            tell(replies[1]);
            const uint64_t begun = milliseconds();
            while (message.code != BB_OK) {
                EXPECT(bb_pool_file_wait_full(own, BB_ANY_SLOT, BB_NO_TIMEOUT) == BB_OK);
                for (uint32_t slot = 0; slot < 2 && message.code != BB_OK; slot++) {
                    message = bb_pool_file_take(own, mine, slot);
                    if (message.code == BB_OK)
                        EXPECT(bb_pool_file_done(own, mine, slot) == BB_OK);
                }
            }
            const char late = milliseconds() - begun >= 100;
            EXPECT(bb_file_party_deallocate(mine, message.place) == BB_OK);
            EXPECT(write(replies[1], &late, 1) == 1);
            hear(asks[0]);
        }
        _exit(0);
    }
    int late_ones = 0;
    for (int round = 0; round < ROUNDS; round++) {
        char late[2];
        for (int at = 0; at < 2; at++)
            tell(asks[1]);
        for (int at = 0; at < 2; at++)
            hear(replies[0]);
        usleep(3000);
        for (uint32_t slot = 0; slot < 2; slot++)
            post_into(file, party, slot);
        for (int at = 0; at < 2; at++)
            EXPECT(read(replies[0], &late[at], 1) == 1);
        late_ones += late[0] || late[1];
        for (int at = 0; at < 2; at++)
            tell(asks[1]);
    }
    EXPECT(late_ones <= MOST_LATE);
    for (int at = 0; at < 2; at++) {
        end(children[at]);
        close(asks[at]);
        close(replies[at]);
    }
    close_it(file);
    remove_it();
}

// One that is woken is killed, and another one that waits takes no longer than the header says.
static void killed_when_woken(void) {
    uint64_t least = UINT64_MAX;
    for (int tries = 0; tries < 3; tries++) {
        bb_pool_file *file = open_it();
        bb_file_party *party = join_it(file);
        const pid_t first = sleeper(bb_pool_file_wait_full, 1);
        const pid_t second = sleeper(bb_pool_file_wait_full, 1);
        const uint64_t begun = milliseconds();
        post_into(file, party, 1);
        end_killed(first);
        end(second);
        const uint64_t lasted = milliseconds() - begun;
        if (lasted < least)
            least = lasted;
        close_it(file);
        remove_it();
    }
    EXPECT(least < 300);
}

// Returns how often a process has given up its processor, as it does to sleep.
static uint64_t sleeps_of(pid_t process) {
    char name[32];
    char text[4096] = "";
    snprintf(name, sizeof name, "/proc/%d/status", (int)process);
    const int fd = open(name, O_RDONLY | O_CLOEXEC);
    EXPECT(fd >= 0 && read(fd, text, sizeof text - 1) > 0 && close(fd) == 0);
    const char *found = strstr(text, "\nvoluntary_ctxt_switches:");
    EXPECT(found != NULL);
    return strtoull(strchr(found, ':') + 1, NULL, 10);
}

// Those who wait for other slots sleep on, apart from a look each tenth of a second.
static void unconcerned(void) {
    enum {
        ROUNDS = 100
    };

    bb_pool_file *file = open_it();
    bb_file_party *party = join_it(file);
    post_into(file, party, 2);
    const pid_t for_message = sleeper(bb_pool_file_wait_full, 1);
    const pid_t for_room = sleeper(bb_pool_file_wait_empty, 2);
    const uint64_t begun = milliseconds();
    const uint64_t before = sleeps_of(for_message) + sleeps_of(for_room);
    for (int round = 0; round < ROUNDS; round++) {
        post_into(file, party, 0);
        usleep(1000);
        free_message(file, party, 0);
        usleep(1000);
    }
    const uint64_t slept = sleeps_of(for_message) + sleeps_of(for_room) - before;
    EXPECT(slept <= ROUNDS / 4 + 2 * (milliseconds() - begun) / 100);
    post_into(file, party, 1);
    free_message(file, party, 2);
    end(for_message);
    end(for_room);
    close_it(file);
    remove_it();
}

// Work of a process until it is killed, which waits for this slot or for any.
static void receive_each(bb_pool_file *file, bb_file_party *party, uint32_t slot) {
    EXPECT(bb_pool_file_wait_full(file, slot, BB_NO_TIMEOUT) == BB_OK);
    for (uint32_t at = 0; at < 4; at++)
        free_message(file, party, at);
}

static void send_each(bb_pool_file *file, bb_file_party *party, uint32_t slot) {
    EXPECT(bb_pool_file_wait_empty(file, slot, BB_NO_TIMEOUT) == BB_OK);
    const bb_place place = take_one(party);
    uint32_t code = BB_DETACHED_FULL;
    for (uint32_t at = 0; at < 4 && code == BB_DETACHED_FULL; at++)
        if (slot == BB_ANY_SLOT || slot == at)
            code = bb_pool_file_post(file, party, at, place, 8);
    if (code == BB_DETACHED_FULL)
        EXPECT(bb_file_party_deallocate(party, place) == BB_OK);
}

static void allocate_each(bb_pool_file *file, bb_file_party *party, uint32_t slot) {
    EXPECT(bb_pool_file_wait_bucket(file, BB_NO_TIMEOUT) == BB_OK);
    const bb_chunk chunk = bb_file_party_take(party);
    if (chunk.code == BB_OK)
        EXPECT(bb_pool_file_post(file, party, slot, chunk.place, 8) == BB_OK);
}

// Waits, without being woken, until the slot is full or empty.
static void see_slot(bb_pool_file *file, uint32_t slot, uint32_t code) {
    while (bb_pool_file_look(file, slot).code != code)
        usleep(1000);
}

// Wakes one of them, in the round with this number.
static void post_in_round(bb_pool_file *file, bb_file_party *party, uint32_t round) {
    see_slot(file, round % 4, BB_DETACHED_EMPTY);
    post_into(file, party, round % 4);
}

static void post_into_first(bb_pool_file *file, bb_file_party *party, uint32_t round) {
    post_in_round(file, party, 4 * round);
}

static void free_in_round(bb_pool_file *file, bb_file_party *party, uint32_t round) {
    if (round > 0)
        see_slot(file, round % 4, BB_OK);
    free_message(file, party, round % 4);
}

static void free_first(bb_pool_file *file, bb_file_party *party, uint32_t round) {
    if (round > 0)
        see_slot(file, 0, BB_OK);
    free_message(file, party, 0);
}

// Before the first round, the party takes all buckets. Then one of them goes to and fro.
static void free_bucket(bb_pool_file *file, bb_file_party *party, uint32_t round) {
    if (round == 0) {
        for (int at = 0; at < 19; at++)
            take_one(party);
        EXPECT(bb_file_party_deallocate(party, take_one(party)) == BB_OK);
    }
    free_first(file, party, round);
}

// Of four processes that wait for the same, each message, empty slot or bucket wakes one.
static void one_of_four(void (*work)(bb_pool_file *, bb_file_party *, uint32_t), uint32_t slot,
                        void (*act)(bb_pool_file *, bb_file_party *, uint32_t)) {
    enum {
        ROUNDS = 60,
        WORKERS = 4
    };

    pid_t children[WORKERS];
    int ready[2];
    EXPECT(pipe(ready) == 0);
    bb_pool_file *file = open_it();
    bb_file_party *party = join_it(file);
    act(file, party, 0);
    for (int at = 0; at < WORKERS; at++) {
        children[at] = child_of();
        if (children[at] != 0)
            continue;
        bb_pool_file *own = open_it();
        bb_file_party *mine = join_it(own);
        tell(ready[1]);
        for (;;)
            work(own, mine, slot);
    }
    uint64_t slept = 0;
    for (int at = 0; at < WORKERS; at++)
        hear(ready[0]);
    usleep(20000);
    const uint64_t begun = milliseconds();
    for (int at = 0; at < WORKERS; at++)
        slept -= sleeps_of(children[at]);
    for (uint32_t round = 1; round <= ROUNDS; round++) {
        act(file, party, round);
        usleep(2000);
    }
    for (int at = 0; at < WORKERS; at++)
        slept += sleeps_of(children[at]);
    EXPECT(slept >= ROUNDS / 2);
    EXPECT(slept <= 2 * ROUNDS + WORKERS * (milliseconds() - begun) / 100);
    for (int at = 0; at < WORKERS; at++)
        end_killed(children[at]);
    close(ready[0]);
    close(ready[1]);
    close_it(file);
    remove_it();
}

static void crowds(void) {
    one_of_four(receive_each, BB_ANY_SLOT, post_in_round);
    one_of_four(receive_each, 0, post_into_first);
    one_of_four(send_each, BB_ANY_SLOT, free_in_round);
    one_of_four(send_each, 0, free_first);
    one_of_four(allocate_each, 0, free_bucket);
}

// A wait of no time looks once, and never spins for some microseconds.
static void looks_once(void) {
    uint64_t least = UINT64_MAX;
    for (int tries = 0; tries < 50; tries++) {
        struct timespec begun;
        struct timespec ended;
        bb_pool_file *file = open_it();
        EXPECT(bb_pool_file_wait_empty(file, 0, 0) == BB_OK);  // the page is there from here on
        clock_gettime(CLOCK_MONOTONIC, &begun);
        EXPECT(bb_pool_file_wait_full(file, 0, 0) == BB_FILE_TIMED_OUT);
        clock_gettime(CLOCK_MONOTONIC, &ended);
        const int64_t seconds = ended.tv_sec - begun.tv_sec;
        const uint64_t lasted = (uint64_t)(seconds * 1000000000 + ended.tv_nsec - begun.tv_nsec);
        if (lasted < least)
            least = lasted;
        close_it(file);
        remove_it();
    }
    EXPECT(least < 2500);
}

static int watch_it(bb_pool_file *file) {
    int fd = -1;
    EXPECT(bb_pool_file_watch(file, &fd) == BB_OK && fd >= 0);
    return fd;
}

static void arm(bb_pool_file *file, int fd, uint32_t slot) {
    EXPECT(bb_pool_file_arm(file, fd, slot) == BB_OK);
}

// Returns whether the descriptor is readable within that many milliseconds.
static bool is_readable(int fd, int timeout) {
    struct pollfd watched = {.fd = fd, .events = POLLIN};
    EXPECT(poll(&watched, 1, timeout) >= 0);
    return (watched.revents & POLLIN) != 0;
}

// The codes of watches, and what makes a descriptor readable.
static void watched(void) {
    bb_pool_file *file = open_it();
    bb_file_party *party = join_it(file);
    const int fd = watch_it(file);
    const int other = watch_it(file);
    EXPECT((fcntl(fd, F_GETFD) & FD_CLOEXEC) != 0 && other != fd);
    EXPECT(bb_pool_file_arm(file, fd, 4) == BB_INVALID_ARGUMENT);
    EXPECT(bb_pool_file_arm(file, -1, 0) == BB_FILE_SYSTEM && errno == EBADF);
    // The descriptor is readable for the armed slot, and not for others, until it is armed again.
    post_into(file, party, 0);
    EXPECT(!is_readable(fd, 0));
    arm(file, fd, 1);
    free_message(file, party, 0);
    post_into(file, party, 0);
    EXPECT(!is_readable(fd, 0));
    post_into(file, party, 1);
    EXPECT(is_readable(fd, 0) && is_readable(fd, 0) && is_readable(other, 0));
    arm(file, fd, 2);
    free_message(file, party, 1);
    post_into(file, party, 1);
    EXPECT(!is_readable(fd, 0));
    arm(file, fd, 1);
    EXPECT(!is_readable(fd, 0));
    // A message that is put back is one of the slot.
    bb_message message = bb_pool_file_take(file, party, 1);
    EXPECT(bb_pool_file_detach(file, party, message.place).code == BB_OK);
    EXPECT(is_readable(fd, 0));
    // Two slots, and any slot.
    arm(file, fd, 2);
    arm(file, fd, 3);
    EXPECT(!is_readable(fd, 0));
    post_into(file, party, 2);
    EXPECT(is_readable(fd, 0));
    arm(file, fd, BB_ANY_SLOT);
    free_message(file, party, 2);
    EXPECT(!is_readable(fd, 0));
    post_into(file, party, 2);
    EXPECT(is_readable(fd, 0));
    // Both that watch a slot hear of the message.
    arm(file, fd, 3);
    arm(file, other, 3);
    post_into(file, party, 3);
    EXPECT(is_readable(fd, 0) && is_readable(other, 0));
    // A message of a dead party, which a reap sends again.
    for (uint32_t slot = 0; slot < 4; slot++)
        free_message(file, party, slot);
    take_by_the_dead(file, party);
    arm(file, fd, 1);
    reap_all(file, party);
    EXPECT(is_readable(fd, 0));
    // A descriptor outlives the `bb_pool_file`.
    close_it(file);
    EXPECT(close(fd) == 0 && close(other) == 0);
    remove_it();
}

// The user has no more of these descriptors, and a refused call stores nothing.
static void watched_too_often(void) {
    bb_pool_file *file = open_it();
    int fd = -7;
    const pid_t child = child_of();
    if (child == 0) {
        file = open_it();
        const struct rlimit none = {0, 0};
        EXPECT(setrlimit(RLIMIT_NOFILE, &none) == 0);
        EXPECT(bb_pool_file_watch(file, &fd) == BB_FILE_SYSTEM && errno == EMFILE && fd == -7);
        _exit(0);
    }
    end(child);
    close_it(file);
    remove_it();
}

// Two event loops take all messages. Each looks only when its descriptor is readable: if a message
// didn't make it so, the loop would wait for nothing.
static void event_loop(void) {
    enum {
        MESSAGES = 2000,
        LOOPS = 2
    };

    bb_pool_file *file = open_it();
    bb_file_party *party = join_it(file);
    pid_t children[LOOPS];
    for (uint32_t at = 0; at < LOOPS; at++) {
        children[at] = child_of();
        if (children[at] != 0)
            continue;
        bb_pool_file *own = open_it();
        bb_file_party *mine = join_it(own);
        const int fd = watch_it(own);
        for (uint32_t taken = 0; taken < MESSAGES;) {
            arm(own, fd, 2 * at);
            arm(own, fd, 2 * at + 1);
            const uint32_t before = taken;
            for (uint32_t slot = 2 * at; slot < 2 * at + 2; slot++) {
                const bb_message message = bb_pool_file_take(own, mine, slot);
                if (message.code != BB_OK)
                    continue;
                taken++;
                EXPECT(bb_pool_file_done(own, mine, slot) == BB_OK);
                EXPECT(bb_file_party_deallocate(mine, message.place) == BB_OK);
            }
            if (taken == before)
                EXPECT(is_readable(fd, 20000));
        }
        _exit(0);
    }
    for (uint32_t at = 0; at < LOOPS * MESSAGES; at++) {
        EXPECT(bb_pool_file_wait_empty(file, at % 4, BB_NO_TIMEOUT) == BB_OK);
        post_into(file, party, at % 4);
        if (at % 100 == 0)
            usleep(1000);  // both loops sleep meanwhile
    }
    for (int at = 0; at < LOOPS; at++)
        end(children[at]);
    close_it(file);
    remove_it();
}

// A memfd, which has no path, is watched, too.
static void watched_memfd(void) {
    const int pool = memfd_create("pool", MFD_CLOEXEC);
    bb_pool_file *file = NULL;
    requested = 0;
    EXPECT(pool >= 0 && bb_pool_file_open_fd(&file, pool, &OPTIONS) == BB_OK);
    const int fd = watch_it(file);
    arm(file, fd, 0);
    EXPECT(!is_readable(fd, 0));
    post_into(file, join_it(file), 0);
    EXPECT(is_readable(fd, 0));
    close_it(file);
    EXPECT(close(fd) == 0 && close(pool) == 0);
}

static bb_pool_file *shared_file;
static uint32_t reaped;

static void *reap_in_thread(void *unused) {
    for (int at = 0; at < 50; at++)
        __atomic_fetch_add(&reaped, reap(shared_file, BB_REAP_HELD), __ATOMIC_SEQ_CST);
    return unused;
}

static void *work_in_thread(void *unused) {
    bb_file_party *party = join_it(shared_file);
    for (int at = 0; at < 5000; at++) {
        const bb_chunk got = bb_file_party_take(party);
        if (got.code == BB_OK) {
            uint64_t *word = got.place;
            *word = (uintptr_t)&got;
            EXPECT(*word == (uintptr_t)&got);
            EXPECT(bb_file_party_deallocate(party, got.place) == BB_OK);
        }
        if (at % 1000 == 999) {
            EXPECT(bb_pool_file_leave(shared_file, party) == BB_OK);
            party = join_it(shared_file);
        }
    }
    EXPECT(bb_pool_file_leave(shared_file, party) == BB_OK);
    return unused;
}

// Reapers in one process and in several, while threads work.
static void reapers(void) {
    bb_pool_file *file = open_it();
    shared_file = file;
    for (int round = 0; round < 5; round++) {
        pid_t dead[2];
        pid_t children[2];
        pthread_t threads[4];
        for (int at = 0; at < 2; at++)
            dead[at] = holder(4);
        for (int at = 0; at < 2; at++)
            end_killed(dead[at]);
        reaped = 0;
        for (int at = 0; at < 2; at++) {
            children[at] = child_of();
            if (children[at] == 0) {
                bb_pool_file *own = open_it();
                for (int time = 0; time < 50; time++)
                    reap(own, BB_REAP_HELD);
                _exit(0);
            }
        }
        for (int at = 0; at < 4; at++) {
            void *(*work)(void *) = at < 2 ? reap_in_thread : work_in_thread;
            EXPECT(pthread_create(&threads[at], NULL, work, NULL) == 0);
        }
        for (int at = 0; at < 4; at++)
            pthread_join(threads[at], NULL);
        for (int at = 0; at < 2; at++)
            end(children[at]);
        EXPECT(info_of(file).held == 0 && reaped <= 8);
    }
    close_it(file);
    remove_it();
}

static void reaps(void) {
    bb_pool_file *file = open_it();
    bb_file_party *party = join_it(file);
    // The life of this party is another one than those of the others.
    EXPECT(bb_pool_file_leave(file, party) == BB_OK && join_it(file) == party);
    const bb_place mine = take_one(party);
    const pid_t living = holder(2);
    const pid_t dying = holder(3);
    EXPECT(reap(file, BB_REAP_DEAD) == 0);
    EXPECT(info_of(file).held == 6 && info_of(file).lost == 0 && info_of(file).alive == 3);
    end_killed(dying);
    EXPECT(info_of(file).lost == 3 && info_of(file).alive == 2);
    EXPECT(reap(file, BB_REAP_HELD) == 3 && info_of(file).held == 3);
    EXPECT(bb_pool_file_reap(file, BB_REAP_HELD, NULL) == BB_OK);
    kill(living, SIGSTOP);  // a stopped process is alive
    EXPECT(reap(file, BB_REAP_DEAD) == 0 && info_of(file).held == 3);
    end_killed(living);
    bb_file_party *next = join_it(file);  // it has the dead one's number, with nothing left
    EXPECT(number_of(next) == 1 && info_of(file).held == 1);
    EXPECT(holds(party, mine));
    close_it(file);
    remove_it();
    reapers();
}

// The system refuses to run functions at each fork: no file is opened. This comes before all else
// that opens one.
static void unhandled_forks(void) {
    const pid_t child = child_of();
    if (child == 0) {
        bb_pool_file *file;
        const int fd = memfd_create("pool", MFD_CLOEXEC);
        atfork_error = ENOMEM;
        for (int tries = 0; tries < 2; tries++)
            EXPECT(bb_pool_file_open_fd(&file, fd, &OPTIONS) == BB_FILE_SYSTEM && errno == ENOMEM);
        _exit(0);
    }
    end(child);
}

// A forked child frees what it has of the file. If no party has joined, that is all.
static void freed_in_child(void) {
    bb_use_memory(allocate, release, &blocks);
    bb_pool_file *file = open_it();
    const pid_t child = child_of();
    if (child == 0) {
        EXPECT(blocks > 0);
        close_it(file);
        EXPECT(blocks == 0);
        _exit(0);
    }
    end(child);
    close_it(file);
    bb_use_memory(allocate_plainly, release_plainly, NULL);
    remove_it();
}

// How many requests for memory a call has begun, and how many of these have ended.
static uint32_t begun_requests;
static uint32_t ended_requests;

static void *allocate_slowly(void *context, size_t size, size_t align) {
    (void)context;
    (void)align;
    __atomic_fetch_add(&begun_requests, 1, __ATOMIC_SEQ_CST);
    usleep(50000);
    __atomic_fetch_add(&ended_requests, 1, __ATOMIC_SEQ_CST);
    return malloc(size);
}

static void *join_in_thread(void *file) {
    join_it(file);
    return NULL;
}

static bb_pool_file *opened;

static void *open_in_thread(void *unused) {
    (void)unused;
    requested = 0;
    EXPECT(bb_pool_file_open(&opened, path, &OPTIONS) == BB_OK);
    return NULL;
}

// A fork waits until no thread is in the midst of an open. So a child has a copy of the whole
// `bb_pool_file`.
static void forked_beside_an_open(void) {
    pthread_t thread;
    opened = NULL;
    begun_requests = 0;
    ended_requests = 0;
    bb_use_memory(allocate_slowly, release_plainly, NULL);
    EXPECT(pthread_create(&thread, NULL, open_in_thread, NULL) == 0);
    while (__atomic_load_n(&begun_requests, __ATOMIC_SEQ_CST) == 0)
        sched_yield();
    const pid_t child = child_of();
    if (child == 0) {
        EXPECT(begun_requests == ended_requests && opened != NULL);
        EXPECT(bb_pool_file_wait_bucket(opened, 0) == BB_UNINITIALIZED);
        close_it(opened);
        _exit(0);
    }
    end(child);
    EXPECT(pthread_join(thread, NULL) == 0);
    bb_use_memory(allocate_plainly, release_plainly, NULL);
    close_it(opened);
    remove_it();
}

// A fork waits until no thread is in the midst of a join.
static void forked_beside_a_join(void) {
    bb_pool_file *file = open_it();
    pthread_t thread;
    begun_requests = 0;
    ended_requests = 0;
    bb_use_memory(allocate_slowly, release_plainly, NULL);
    EXPECT(pthread_create(&thread, NULL, join_in_thread, file) == 0);
    while (__atomic_load_n(&begun_requests, __ATOMIC_SEQ_CST) == 0)
        sched_yield();
    const pid_t child = child_of();
    if (child == 0) {
        EXPECT(begun_requests == ended_requests);
        close_it(file);
        _exit(0);
    }
    end(child);
    EXPECT(pthread_join(thread, NULL) == 0);
    bb_use_memory(allocate_plainly, release_plainly, NULL);
    close_it(file);
    remove_it();
}

static void on_alarm(int unused) {
    static const char text[] = "cases: a call waits for a lock that is never freed\n";
    (void)unused;
    if (write(STDERR_FILENO, text, sizeof text - 1) > 0)
        _exit(1);
    _exit(2);
}

// After an open and after a fork, nothing of the files in this process is locked: the next calls
// don't wait.
static void unlocked(void) {
    const struct sigaction action = {.sa_handler = on_alarm};
    struct sigaction before;
    bb_pool_file *files[2];
    const int fd = memfd_create("pool", MFD_CLOEXEC);
    EXPECT(fd >= 0 && sigaction(SIGALRM, &action, &before) == 0);
    const unsigned left = alarm(20);
    for (int at = 0; at < 2; at++)
        EXPECT(bb_pool_file_open_fd(&files[at], fd, &OPTIONS) == BB_OK);
    const pid_t child = child_of();
    if (child == 0)
        _exit(0);
    end(child);
    for (int at = 0; at < 2; at++) {
        join_it(files[at]);
        EXPECT(reap(files[at], BB_REAP_HELD) == 0);
        close_it(files[at]);
    }
    alarm(left);
    EXPECT(sigaction(SIGALRM, &before, NULL) == 0 && close(fd) == 0);
}

// A close makes the parties leave that have joined, and frees their locks. Then it frees all locks
// of its own open file. It changes nothing of a party that joined in another one with a number that
// was free again: because the party here had left, or because a join had failed.
static void closed_beside_others(void) {
    bb_pool_file *file = open_it();
    bb_pool_file *other = open_it();
    bb_file_party *party = join_it(file);
    bb_file_party *refused = NULL;
    take_one(join_it(file));
    EXPECT(bb_pool_file_leave(file, party) == BB_OK);
    EXPECT(number_of(join_it(other)) == 0);
    bb_use_memory(allocate, release, &blocks);
    memory_requests = 0;
    to_refuse = 1;
    EXPECT(bb_pool_file_join(file, &refused) == BB_MALLOC_REFUSED);
    to_refuse = 0;
    bb_use_memory(allocate_plainly, release_plainly, NULL);
    EXPECT(refused == NULL);
    party = join_it(other);
    const bb_place place = take_one(party);
    const uint64_t life = life_of(other, 2);
    EXPECT(number_of(party) == 2 && info_of(file).alive == 3 && info_of(file).held == 2);
    unlocks = 0;
    close_it(file);
    EXPECT(unlocks == 2);
    bb_pool_file *third = open_it();
    EXPECT(is_alive(third, 0, life_of(third, 0)) && is_alive(third, 2, life));
    EXPECT(reap(third, BB_REAP_DEAD | BB_REAP_LEFT) == 0 && life_of(third, 2) == life);
    EXPECT(info_of(third).alive == 2 && info_of(third).held == 1 && holds(party, place));
    close_it(third);
    close_it(other);
    remove_it();
}

// A forked child closes its copy. By then the descriptor is that of another open file, whose locks
// stay.
static void closed_in_child(void) {
    bb_pool_file *file = open_it();
    take_one(join_it(file));
    const pid_t child = child_of();
    if (child == 0) {
        bb_pool_file *own = open_it();
        take_one(join_it(own));
        const uint64_t life = life_of(own, 1);
        unlocks = 0;
        close_it(file);
        EXPECT(unlocks == 0);
        bb_pool_file *third = open_it();
        EXPECT(is_alive(third, 1, life) && reap(third, BB_REAP_DEAD | BB_REAP_LEFT) == 0);
        EXPECT(info_of(third).alive == 2 && info_of(third).lost == 0 && info_of(third).held == 2);
        close_it(third);
        close_it(own);
        _exit(0);
    }
    end(child);
    EXPECT(info_of(file).held == 1 && info_of(file).alive == 1);
    close_it(file);
    remove_it();
}

// A forked child has nothing of the file, and may close what it has not.
static void forked(void) {
    bb_pool_file *file = open_it();
    bb_file_party *party = join_it(file);
    const bb_place place = take_one(party);
    EXPECT(bb_pool_file_post(file, party, 0, take_one(party), 1) == BB_OK);
    const bb_place taken = bb_pool_file_take(file, party, 0).place;
    // The pages of words, events and region.
    const size_t page = system_page();
    char *first = (char *)info_of(file).start - PAGE;
    first -= (uintptr_t)first % page;
    const size_t size = (2 * PAGE + page - 1) / page * page;
    unsigned char pages[4];
    EXPECT(mincore(first, size, pages) == 0);
    const pid_t child = child_of();
    if (child == 0) {
        for (size_t at = 0; at < size; at += page)
            EXPECT(mincore(first + at, page, pages) != 0 && errno == ENOMEM);
        // A mapping that the child makes there stays its own when it closes the file.
        EXPECT(system_mmap(first, page, PROT_READ | PROT_WRITE,
                           MAP_PRIVATE | MAP_ANONYMOUS | MAP_FIXED_NOREPLACE, -1, 0) == first);
        bb_pool_file_figures figures;
        bb_file_party *more;
        bb_holder flag;
        EXPECT(bb_file_party_take(party).code == BB_UNINITIALIZED);
        EXPECT(bb_file_party_deallocate(party, place) == BB_UNINITIALIZED);
        EXPECT(bb_file_party_deallocate(party, taken) == BB_UNINITIALIZED);
        EXPECT(gives_back(party, taken, BB_UNINITIALIZED, 0));
        EXPECT(bb_file_party_wake(party) == BB_UNINITIALIZED);
        EXPECT(bb_file_party_deallocate_many(party, &taken, 1).code == BB_UNINITIALIZED);
        EXPECT(bb_pool_file_info(file, &figures) == BB_UNINITIALIZED);
        EXPECT(bb_pool_file_join(file, &more) == BB_UNINITIALIZED);
        EXPECT(bb_pool_file_leave(file, party) == BB_UNINITIALIZED);
        EXPECT(bb_pool_file_post(file, party, 0, place, 1) == BB_UNINITIALIZED);
        EXPECT(bb_pool_file_take(file, party, 0).code == BB_UNINITIALIZED);
        EXPECT(bb_pool_file_done(file, party, 0) == BB_UNINITIALIZED);
        EXPECT(bb_pool_file_detach(file, party, place).code == BB_UNINITIALIZED);
        EXPECT(bb_pool_file_attach(file, party, 0).code == BB_UNINITIALIZED);
        EXPECT(bb_pool_file_look(file, 0).code == BB_UNINITIALIZED);
        EXPECT(bb_pool_file_holder(file, 0, &flag) == BB_UNINITIALIZED);
        EXPECT(bb_pool_file_is_alive(file, 0, 1).code == BB_UNINITIALIZED);
        EXPECT(bb_pool_file_life(file, 0).code == BB_UNINITIALIZED);
        EXPECT(bb_pool_file_reap(file, BB_REAP_DEAD, NULL) == BB_UNINITIALIZED);
        EXPECT(bb_pool_file_wait_full(file, 0, 0) == BB_UNINITIALIZED);
        EXPECT(bb_pool_file_wait_empty(file, 0, 0) == BB_UNINITIALIZED);
        EXPECT(bb_pool_file_wait_bucket(file, 0) == BB_UNINITIALIZED);
        EXPECT(bb_pool_file_user(file) == NULL);
        int fd = -7;
        EXPECT(bb_pool_file_watch(file, &fd) == BB_UNINITIALIZED && fd == -7);
        EXPECT(bb_pool_file_arm(file, -1, 0) == BB_UNINITIALIZED);
        close_it(file);
        *first = 'x';
        bb_pool_file *own = open_it();
        EXPECT(info_of(own).held == 2 && number_of(join_it(own)) == 1);
        _exit(0);
    }
    end(child);
    EXPECT(holds(party, place) && info_of(file).held == 2);
    close_it(file);
    remove_it();
}

enum {
    BY_FORK,
    BY_SPAWN,
    BY_VFORK,
    BY_CLONE,
    WAYS
};

// Starts a process that sleeps, in one of several ways, and returns it. The process ends by itself
// if this test fails.
static pid_t start_by(int way) {
    char *argv[] = {"sleep", "120", NULL};
    char *none[] = {NULL};
    pid_t started = -1;
    switch (way) {
    case BY_FORK:
        started = fork();
        if (started == 0) {
            alarm(120);
            pause();
        }
        break;
    case BY_SPAWN: EXPECT(posix_spawn(&started, "/bin/sleep", NULL, NULL, argv, none) == 0); break;
    case BY_VFORK:
        started = vfork();
        if (started == 0) {
            execve("/bin/sleep", argv, none);
            _exit(1);
        }
        break;
    default:
        started = (pid_t)syscall(SYS_clone, SIGCHLD, 0, 0, 0, 0);
        if (started == 0) {
            alarm(120);
            pause();
        }
    }
    return started;
}

// A party is killed while a process that it started sleeps on: its locks are dropped. After a raw
// clone, which runs no handler of `pthread_atfork`, they stay as long as the clone.
static void orphans(void) {
    bb_pool_file *file = open_it();
    for (int way = 0; way < WAYS; way++) {
        int ready[2];
        pid_t started = 0;
        EXPECT(pipe(ready) == 0);
        const pid_t child = child_of();
        if (child == 0) {
            take_one(join_it(open_it()));
            started = start_by(way);
            EXPECT(write(ready[1], &started, sizeof started) == sizeof started);
            pause();
        }
        EXPECT(read(ready[0], &started, sizeof started) == sizeof started);
        EXPECT(info_of(file).held == 1);
        end_killed(child);
        uint32_t freed = reap(file, BB_REAP_HELD);
        // The started process may not have come to its handler yet, or to the end of its exec.
        for (int tries = 0; way != BY_CLONE && freed == 0; tries++) {
            EXPECT(tries < 5000);
            usleep(1000);
            freed = reap(file, BB_REAP_HELD);
        }
        EXPECT(freed == (way == BY_CLONE ? 0 : 1));
        EXPECT(kill(started, SIGKILL) == 0);
        for (int tries = 0; info_of(file).held > 0 && tries < 2000; tries++) {
            usleep(1000);
            reap(file, BB_REAP_HELD);
        }
        EXPECT(info_of(file).held == 0);
        close(ready[0]);
        close(ready[1]);
    }
    close_it(file);
    remove_it();
}

// A process that becomes another program has left.
static void executed(void) {
    bb_pool_file *file = open_it();
    const pid_t child = child_of();
    if (child == 0) {
        take_one(join_it(open_it()));
        execl("/bin/sleep", "sleep", "120", (char *)NULL);
    }
    for (int tries = 0; reap(file, BB_REAP_HELD) == 0; tries++) {
        EXPECT(tries < 5000);
        usleep(1000);
    }
    EXPECT(kill(child, 0) == 0 && info_of(file).held == 0);
    end_killed(child);
    close_it(file);
    remove_it();
}

// The mapping keeps the open file, and so the locks, if a process closes descriptors that it
// doesn't know. And whoever may read the file can keep a dead party from being reaped.
static void closed(void) {
    bb_pool_file *file = open_it();
    int ready[2];
    EXPECT(pipe(ready) == 0 && dup2(ready[1], 100) == 100);
    const pid_t child = child_of();
    if (child == 0) {
        bb_pool_file *own = open_it();
        bb_file_party *party = join_it(own);
        take_one(party);
        EXPECT(syscall(SYS_close_range, 3, 99, 0) == 0);
        EXPECT(bb_file_party_deallocate(party, take_one(party)) == BB_OK);
        bb_pool_file_figures figures;
        EXPECT(is_alive(own, 0, life_of(own, 0)));  // it is this process's own
        EXPECT(bb_pool_file_is_alive(own, 1, 1).code == BB_FILE_SYSTEM && errno == EBADF);
        EXPECT(bb_pool_file_info(own, &figures) == BB_FILE_SYSTEM && errno == EBADF);
        tell(100);
        pause();
    }
    EXPECT(close(ready[1]) == 0 && close(100) == 0);  // the read ends if the child does
    hear(ready[0]);
    EXPECT(info_of(file).held == 1 && info_of(file).lost == 0 && reap(file, BB_REAP_DEAD) == 0);
    end_killed(child);
    const int reader = open(path, O_RDONLY | O_CLOEXEC);
    EXPECT(reader >= 0 && info_of(file).lost == 1);
    EXPECT(lock_byte(reader, F_RDLCK, 2) == 0 && reap(file, BB_REAP_DEAD) == 0);
    EXPECT(close(reader) == 0 && reap(file, BB_REAP_DEAD) == 1 && info_of(file).held == 0);
    close(ready[0]);
    close_it(file);
    remove_it();
}

// A process in a namespace of its own, in which its number is 1.
static void namespaces(void) {
    bb_pool_file *file = open_it();
    take_one(join_it(file));
    int ready[2];
    char byte;
    EXPECT(pipe(ready) == 0);
    const pid_t child = child_of();
    if (child == 0) {
        if (unshare(CLONE_NEWPID) != 0)
            _exit(0);
        const pid_t inner = child_of();
        if (inner == 0) {
            EXPECT(getpid() == 1);
            bb_pool_file *own = open_it();
            bb_file_party *mine = join_it(own);
            EXPECT(number_of(mine) == 1 && reap(own, BB_REAP_DEAD) == 0);
            take_one(mine);
            EXPECT(info_of(own).alive == 2);
            tell(ready[1]);
            pause();
        }
        pause();
    }
    close(ready[1]);
    if (read(ready[0], &byte, 1) != 1) {
        puts("cases: no process namespace is allowed, skipped");
        end(child);
    } else {
        EXPECT(info_of(file).alive == 2 && info_of(file).held == 2 &&
               reap(file, BB_REAP_DEAD) == 0);
        end_killed(child);  // the inner process ends with it
        for (int tries = 0; info_of(file).lost == 0; tries++) {
            EXPECT(tries < 5000);
            usleep(1000);
        }
        EXPECT(reap(file, BB_REAP_HELD) == 1 && info_of(file).held == 1);
    }
    close(ready[0]);
    close_it(file);
    remove_it();
}

// A memfd goes to another process by a socket. Both have one open file, but locks of their own.
static void passed(void) {
    int pair[2];
    const int fd = memfd_create("pool", MFD_ALLOW_SEALING | MFD_CLOEXEC);
    bb_pool_file *file = NULL;
    EXPECT(fd >= 0 && socketpair(AF_UNIX, SOCK_STREAM, 0, pair) == 0);
    requested = 0;
    EXPECT(bb_pool_file_open_fd(&file, fd, &OPTIONS) == BB_OK);
    EXPECT(fcntl(fd, F_ADD_SEALS, F_SEAL_SHRINK | F_SEAL_GROW | F_SEAL_SEAL) == 0);
    bb_file_party *party = join_it(file);
    char byte = 'x';

    union {
        struct cmsghdr aligned;
        char bytes[CMSG_SPACE(sizeof(int))];
    } room = {.bytes = {0}};
    struct iovec bytes = {&byte, 1};
    struct msghdr message = {.msg_iov = &bytes,
                             .msg_iovlen = 1,
                             .msg_control = room.bytes,
                             .msg_controllen = sizeof room.bytes};
    const pid_t child = child_of();
    if (child == 0) {
        int got;
        bb_pool_file *own;
        close(fd);
        EXPECT(recvmsg(pair[1], &message, 0) == 1 && CMSG_FIRSTHDR(&message) != NULL);
        memcpy(&got, CMSG_DATA(CMSG_FIRSTHDR(&message)), sizeof got);
        EXPECT(bb_pool_file_open_fd(&own, got, NULL) == BB_OK && info_of(own).alive == 1);
        bb_file_party *mine = join_it(own);
        EXPECT(number_of(mine) == 1);
        take_one(mine);
        tell(pair[1]);
        pause();
    }
    struct cmsghdr *part = CMSG_FIRSTHDR(&message);
    part->cmsg_level = SOL_SOCKET;
    part->cmsg_type = SCM_RIGHTS;
    part->cmsg_len = CMSG_LEN(sizeof fd);
    memcpy(CMSG_DATA(part), &fd, sizeof fd);
    EXPECT(sendmsg(pair[0], &message, 0) == 1 && close(pair[1]) == 0);
    hear(pair[0]);
    EXPECT(info_of(file).alive == 2 && info_of(file).held == 1 && number_of(party) == 0);
    end_killed(child);
    EXPECT(info_of(file).alive == 1 && reap(file, BB_REAP_HELD) == 1 && ftruncate(fd, 0) != 0);
    close_it(file);
    close(fd);
    close(pair[0]);
}

static bool is_bucket(const bb_pool_file_figures *figures, bb_place place) {
    const size_t offset = (size_t)((char *)place - (char *)figures->start);
    return offset <= 19 * STRIDE && offset % STRIDE == 0;
}

// Garbage in words and events leads to wrong answers, but to no access outside, and to no crash.
static void garbage(void) {
    bb_pool_file *file = open_it();
    bb_file_party *party = join_it(file);
    const int fd = open(path, O_RDWR | O_CLOEXEC);
    unsigned char bytes[PAGE];
    uint32_t seed = 1;
    EXPECT(fd >= 0);
    for (int round = 0; round < 1000; round++) {
        for (size_t at = 0; at < sizeof bytes; at++) {
            seed = seed * 1664525u + 1013904223u;
            bytes[at] = 0;
            if (round % 2 == 1 || at % 8 == 4)
                bytes[at] = (unsigned char)(seed >> 24);
            if (at % 8 == 0)
                bytes[at] = (unsigned char)(seed >> 28);
        }
        EXPECT(pwrite(fd, bytes, sizeof bytes, PAGE) == (ssize_t)sizeof bytes);
        const bb_pool_file_figures figures = info_of(file);
        EXPECT(figures.wrong <= 20);
        for (uint32_t slot = 0; slot < 4; slot++) {
            const bb_chunk got = bb_file_party_take(party);
            const bb_message message = bb_pool_file_take(file, party, slot);
            const bb_message seen = bb_pool_file_look(file, slot);
            EXPECT(got.code != BB_OK || is_bucket(&figures, got.place));
            EXPECT(message.code != BB_OK || is_bucket(&figures, message.place));
            EXPECT(seen.code != BB_OK || is_bucket(&figures, seen.place));
            const bb_chunk attached = bb_pool_file_attach(file, party, bytes[slot]);
            EXPECT(attached.code != BB_OK || is_bucket(&figures, attached.place));
            bb_pool_file_done(file, party, slot);
            if (got.code == BB_OK) {
                const uint32_t code = bb_pool_file_post(file, party, slot, got.place, 5);
                EXPECT(code == BB_OK || code == BB_DETACHED_FULL || code == BB_NOT_HELD ||
                       code == BB_FILE_NOT_DONE);
                bb_file_party_deallocate(party, got.place);
            }
            if (message.code == BB_OK) {
                EXPECT(message.len <= 100 && (seen.code != BB_OK || seen.len <= 100));
                EXPECT(bb_pool_file_detach(file, party, message.place).code < BB_FILE_NOT_DONE);
                bb_file_party_deallocate_many(party, &message.place, 1);
            }
            EXPECT(bb_pool_file_wait_empty(file, slot, 0) <= BB_FILE_TIMED_OUT);
            EXPECT(bb_pool_file_wait_full(file, slot, 0) <= BB_FILE_TIMED_OUT);
        }
        reap(file, (uint32_t)round % 4);
        EXPECT(bb_pool_file_leave(file, party) == BB_OK);
        party = join_it(file);
    }
    // A slot with no bucket's number, which a wait takes for full.
    const uint64_t beyond = (uint64_t)5 << 32 | 21;
    EXPECT(pwrite(fd, &beyond, sizeof beyond, FIRST_SLOT) == sizeof beyond);
    EXPECT(bb_pool_file_take(file, party, 0).code == BB_NOT_A_BUCKET);
    EXPECT(bb_pool_file_wait_full(file, 0, 0) == BB_OK);
    close_it(file);
    close(fd);
    remove_it();
}

static size_t sum_of(const unsigned char *bytes, size_t size) {
    size_t sum = 0;
    for (size_t at = 0; at < size; at++)
        sum += bytes[at];
    return sum;
}

// The bytes of the host: zeros at first, at a multiple of 128, the same in each process, and kept
// while no process has the file. No call changes them, and they overlap nothing.
static void user_bytes(void) {
    const size_t sizes[] = {1, 127, 128, 129, 5000};
    bb_pool_file *file = open_it();
    EXPECT(bb_pool_file_user(file) == NULL && info_of(file).options.user_bytes == 0);
    close_it(file);
    remove_it();
    for (int at = 0; at < 5; at++) {
        const size_t size = sizes[at];
        bb_pool_file_options options = OPTIONS;
        bb_pool_file *other;
        options.user_bytes = size;
        requested = 0;
        EXPECT(bb_pool_file_open(&file, path, &options) == BB_OK);
        EXPECT(bb_pool_file_open(&other, path, NULL) == BB_OK);
        EXPECT(info_of(other).options.user_bytes == size);
        unsigned char *bytes = bb_pool_file_user(file);
        unsigned char *same = bb_pool_file_user(other);
        EXPECT(bytes != NULL && (uintptr_t)bytes % 128 == 0 && (uintptr_t)same % 128 == 0);
        EXPECT(bytes != same && sum_of(bytes, size) == 0);
        memset(bytes, 0xff, size);
        EXPECT(sum_of(same, size) == size * 0xff);
        EXPECT(info_of(file).wrong == 0 && info_of(file).messages == 0);
        // Each slot, each bucket and the life of each party is used, and the first and the last
        // entries.
        bb_file_party *joined[6];
        for (int party = 0; party < 6; party++)
            joined[party] = join_it(file);
        bb_place place = NULL;
        uint32_t slot = 0;
        for (int bucket = 0; bucket < 20; bucket++) {
            bb_file_party *party = joined[bucket % 6];
            place = take_one(party);
            memset(place, 0, 100);
            const size_t number = bb_file_party_number_at(party, place).number;
            if (number < 2 || number >= 18) {
                EXPECT(bb_pool_file_post(file, party, slot, place, 100) == BB_OK);
                slot++;
            }
        }
        EXPECT(sum_of(same, size) == size * 0xff && info_of(other).messages == 4);
        memset(same, 0xee, size);
        EXPECT(sum_of(place, 100) == 0 && info_of(file).wrong == 0);
        const pid_t child = child_of();
        if (child == 0) {
            EXPECT(bb_pool_file_user(file) == NULL);
            EXPECT(bb_pool_file_open(&other, path, &options) == BB_OK);
            EXPECT(sum_of(bb_pool_file_user(other), size) == size * 0xee);
            memset(bb_pool_file_user(other), 0xdd, size);
            _exit(0);
        }
        end(child);
        EXPECT(sum_of(bytes, size) == size * 0xdd);
        close_it(file);
        close_it(other);
        EXPECT(bb_pool_file_open(&file, path, NULL) == BB_OK);
        EXPECT(sum_of(bb_pool_file_user(file), size) == size * 0xdd);
        close_it(file);
        options.user_bytes = size + 1;
        EXPECT(code_of(path, &options) == BB_FILE_MISMATCH);
        EXPECT(code_of(path, &OPTIONS) == BB_FILE_MISMATCH);
        // The file is made again, and has zeros again.
        options.user_bytes = size;
        change_boot();
        EXPECT(bb_pool_file_open(&file, path, &options) == BB_OK);
        EXPECT(sum_of(bb_pool_file_user(file), size) == 0);
        close_it(file);
        remove_it();
    }
}

// In a bucket of 8 GiB, a message has less than 4 GiB. The file has no pages here.
static void long_messages(void) {
    const bb_pool_file_options large = {
        .bucket_size = (size_t)1 << 33, .bucket_align = 8, .buckets = 1, .parties = 2, .slots = 1};
    const size_t most_len = UINT32_MAX;
    bb_pool_file *file;
    said_pages = ALL_PAGES;
    allocates = false;
    const uint32_t code = bb_pool_file_open(&file, path, &large);
    said_pages = AS_IT_IS;
    allocates = true;
    EXPECT(code == BB_OK);
    bb_file_party *party = join_it(file);
    bb_place place = take_one(party);
    EXPECT(bb_pool_file_post(file, party, 0, place, most_len + 1) == BB_SIZE_TOO_LARGE);
    EXPECT(bb_pool_file_post(file, party, 0, place, (size_t)1 << 33) == BB_SIZE_TOO_LARGE);
    EXPECT(bb_pool_file_post(file, party, 0, place, SIZE_MAX) == BB_SIZE_TOO_LARGE);
    EXPECT(bb_pool_file_post(file, party, 0, place, most_len) == BB_OK);
    EXPECT(bb_pool_file_take(file, party, 0).len == most_len);
    close_it(file);
    remove_it();
}

static void texts(void) {
    for (uint32_t code = BB_FILE_SYSTEM; code <= BB_FILE_LAST_CODE; code++)
        EXPECT(strcmp(bb_pool_file_text(code), bb_text(code)) != 0);
    EXPECT(strcmp(bb_pool_file_text(BB_NOT_HELD), bb_text(BB_NOT_HELD)) == 0);
    EXPECT(strcmp(bb_pool_file_name(BB_FILE_STALE), "BB_FILE_STALE") == 0);
    EXPECT(strcmp(bb_pool_file_name(BB_NOT_HELD), "BB_NOT_HELD") == 0);
    EXPECT(strcmp(bb_pool_file_text(BB_FILE_LAST_CODE + 1), bb_text(UINT32_MAX)) == 0);
}

int main(int argc, char **argv) {
    alarm(LONGEST);  // a case that fails may wait for what doesn't come
    texts();
    unhandled_forks();
    unlocked();
    passed();
    watched_memfd();
    for (int at = 1; at < argc; at++) {
        snprintf(path, sizeof path, "%s/bb-cases-%d", argv[at], (int)getpid());
        wrong_files();
        full();
        permissions();
        trusted_groups();
        sparse();
        linked();
        replaced();
        signals();
        stale();
        unknown_boots();
        layouts();
        lengths();
        refused_memory();
        refused_ends();
        many(true);
        many(false);
        addresses();
        parties();
        many_parties();
        moving_parties();
        cached();
        reaps_detached();
        lives();
        gives_all_back();
        slots();
        others_parties();
        buckets_of_a_party();
        undone(0);
        undone(8);
        caches_and_takes();
        freed_too_early();
        forwards();
        looks_at_no_entry();
        half_done();
        stale_takes();
        laps();
        last_lives();
        flags();
        wrong_entries();
        by_number();
        one_wins();
        any_of_them();
        waits();
        waits_for_no_slot();
        ping();
        woken();
        two_woken();
        killed_when_woken();
        unconcerned();
        crowds();
        looks_once();
        watched();
        watched_too_often();
        event_loop();
        reaps();
        forked();
        closed_beside_others();
        closed_in_child();
        freed_in_child();
        forked_beside_an_open();
        forked_beside_a_join();
        orphans();
        executed();
        closed();
        namespaces();
        garbage();
        user_bytes();
        long_messages();
    }
    printf("cases: %u expectations hold\n", count);
    return 0;
}
