// Writes a trace of processes that share a pool in a file. It has one process at a time go on by
// single instructions. After each instruction it looks at each flag, entry, slot, life and lock in
// the file, and writes a line for each change. The program `file_replay` reads the trace, and has
// the proved machine take the same steps.
//
//     trace random FOLDER SEED CALLS CACHED DEPTH
//         Processes make calls that are chosen at random, each party caches up to CACHED buckets,
//         and turns have random lengths. So calls interrupt each other anywhere, and some processes
//         are killed anywhere.
//     trace duels FOLDER STRIDE DEPTH
//         A post is stopped after each instruction, and another process takes the message, or posts
//         to the slot. A process is killed after each instruction from the first change in a post
//         or a `done` on, and reaped. A take of a message, and a reap with detached buckets, are
//         stopped after each STRIDE-th instruction, and another process takes the bucket and sends
//         it elsewhere.
//
// The file's slots have this depth. The machine calls each cell of a slot a slot, and so do the
// lines: a line that a call begins with names the cell that the call changes, or the first cell of
// the slot if it changes none. A post that finds its cell filled clears the bucket's entry, and
// tries the next cell: in the trace each try is a post.
//
// The lines, in which P is a process, K a party's number, B a bucket, S a slot and L a length:
//
//     file PROCESSES PARTIES BUCKETS SLOTS    the first line; at most this many processes
//     open P, join P, show P, close P, reap P, recover P, leave P K, give_all_back P K, flush P K,
//     allocate P K, deallocate P K B, detach P K B, attach P K B, post P K S B L, take P K S,
//     done P K S
//                         a call begins; `recover` is a reap with detached buckets, `show` any call
//                         that only looks, and `close` has each party of P leave
//     flag P B FROM TO    P's instruction changed the word of a flag
//     entry P B FROM TO   or that of an entry
//     slot P S FROM TO    or that of a slot
//     life P K FROM TO    or the life of a number
//     lock P K, unlock P K    or the lock of a number
//     ok P, ok P B, ok P B L, refused P    the call returned; with the bucket that an allocation
//                         got, or with the bucket and the length of a message
//     kill P              P is killed; what follows is what the kernel did
//     gone P              P has ended
//
// Standard error gets a line for each call: its name, how many calls were made, and how many
// instructions of them were stepped.
#define _GNU_SOURCE
#include <fcntl.h>
#include <sched.h>
#include <signal.h>
#include <spawn.h>
#include <stdio.h>
#include <stdlib.h>
#include <string.h>
#include <sys/mman.h>
#include <sys/personality.h>
#include <sys/prctl.h>
#include <sys/ptrace.h>
#include <sys/wait.h>
#include <unistd.h>

#include "bb_pool_file.h"

// The pool, and where its words are in the file: after a page for the header come 16 words, then
// the flags, the lives, the entries and the slots. Each of these parts begins at a multiple of 16
// words.
enum {
    PARTIES = 4,
    SLOTS = 3,
    // The greatest depth of a slot.
    DEEPEST = 3,
    BUCKETS = 8,
    SIZE = 64,
    PAGE = 4096,
    FIRST_FLAG = 16,
    FIRST_LIFE = 32,
    FIRST_ENTRY = 48,
    FIRST_SLOT = 64,
    WORDS_IN_SLOT = 16,
    // The byte of the file whose lock is that of number 0.
    FIRST_LOCK = 2,
    // The lowest two bits of the flag of a bucket that is sent to a slot.
    SENT = 3
};

enum {
    // Processes that live at one time, over all, and over all in a random trace.
    LIVING = 3,
    PROCESSES = 1024,
    PROCESSES_AT_RANDOM = 64,
    // The most numbers that one process has joined with.
    JOINED = 2,
    // The most instructions of a turn.
    LONGEST_TURN = 4096
};

static bb_pool_file_options options = {.bucket_size = SIZE,
                                       .bucket_align = 64,
                                       .buckets = BUCKETS,
                                       .parties = PARTIES,
                                       .slots = SLOTS,
                                       .depth = 1,
                                       .mode = 0};

enum call {
    OPEN,
    JOIN,
    SHOW,
    CLOSE,
    REAP,
    RECOVER,
    LEAVE,
    GIVE_ALL_BACK,
    FLUSH,
    ALLOCATE,
    DEALLOCATE,
    DETACH,
    ATTACH,
    POST,
    TAKE,
    DONE,
    CALLS
};

static const char *const NAMES[CALLS] = {
    "open",  "join",     "show",       "close",  "reap",   "recover", "leave", "give_all_back",
    "flush", "allocate", "deallocate", "detach", "attach", "post",    "take",  "done",
};

// A call of a process, in memory that the process shares with this program.
struct shared {
    // The call that the process chose, and its arguments.
    enum call call;
    uint32_t party;
    uint32_t slot;
    uint32_t bucket;
    uint32_t len;
    // The detached buckets that a reap frees.
    uint32_t what;
    // The result of the call.
    uint32_t code;
    uint32_t got;
    size_t got_len;
    // Children of the process that do nothing, which have to keep no lock.
    pid_t idle[2];
};

static struct shared *shared;
static char path[128];
static int inherited;

static void expect(bool holds, const char *what, int line) {
    if (holds)
        return;
    fprintf(stderr, "trace: line %d: not so: %s\n", line, what);
    _exit(2);
}

#define EXPECT(holds) expect(holds, #holds, __LINE__)

static uint32_t next(uint32_t *seed) {
    *seed = *seed * 1664525u + 1013904223u;
    return *seed >> 12;
}

// PROCESSES

// A bucket as its party sees it: one that it got and has not returned may be in a slot.
enum hand {
    NOTHING,
    OUT,
    MESSAGE
};

static bb_pool_file *file;
static bb_pool_file *second;
static bb_file_party *handles[PARTIES];
static enum hand hands[PARTIES][BUCKETS];
static uint32_t slots_of[BUCKETS];
static uint32_t cached;
static uint32_t seed;
static uint32_t me;
static struct shared *mine;

static bb_place place_at(uint32_t party, uint32_t bucket) {
    return bb_file_party_place_at(handles[party], bucket).place;
}

static uint32_t count_joined(void) {
    uint32_t count = 0;
    for (uint32_t party = 0; party < PARTIES; party++)
        count += handles[party] != NULL;
    return count;
}

// Returns a bucket that the party has in this way, or BUCKETS.
static uint32_t find(uint32_t party, enum hand hand) {
    const uint32_t first = next(&seed);
    for (uint32_t at = 0; at < BUCKETS; at++)
        if (hands[party][(first + at) % BUCKETS] == hand)
            return (first + at) % BUCKETS;
    return BUCKETS;
}

// Returns a bucket that is detached, from this one on, or this one if there is none. One that is
// sent to a slot counts only sometimes, since it can't be attached.
static uint32_t find_detached(uint32_t bucket) {
    const bool any = next(&seed) % 4 == 0;
    bb_holder holder;
    for (uint32_t at = bucket; at < bucket + BUCKETS; at++)
        if (bb_pool_file_holder(file, at % BUCKETS, &holder) == BB_OK &&
            (holder.state == BB_DETACHED || (any && holder.state == BB_SENT)))
            return at % BUCKETS;
    return bucket;
}

// Chooses the next call of a process that has joined, as its party `mine->party`.
static void choose_call(void) {
    const uint32_t what = next(&seed) % 128;
    const uint32_t out = find(mine->party, OUT);
    const uint32_t message = find(mine->party, MESSAGE);
    mine->slot = next(&seed) % SLOTS;
    mine->bucket = next(&seed) % BUCKETS;
    mine->len = 1 + next(&seed) % SIZE;
    mine->call = ALLOCATE;
    if (what < 20) {
        mine->call = POST;
    } else if (what < 28) {
        mine->call = DEALLOCATE;
    } else if (what < 38) {
        mine->call = DETACH;
    } else if (what < 48) {
        mine->call = ATTACH;
    } else if (what < 68) {
        mine->call = TAKE;
    } else if (what < 84) {
        mine->call = DONE;
    } else if (what < 88) {
        mine->call = REAP;
    } else if (what < 96) {
        mine->call = RECOVER;
    } else if (what < 99) {
        mine->call = LEAVE;
    } else if (what < 100) {
        mine->call = CLOSE;
    } else if (what < 104) {
        mine->call = SHOW;
    } else if (what < 107 && count_joined() < JOINED) {
        mine->call = JOIN;
    } else if (what < 110 && cached > 0) {
        mine->call = FLUSH;
    } else if (what < 113) {
        mine->call = GIVE_ALL_BACK;
    }
    // Some calls are refused: those with a bucket that the party doesn't have, or that is still in
    // a slot.
    const bool is_bad = next(&seed) % 16 == 0;
    if (mine->call == DEALLOCATE || mine->call == POST) {
        if (message < BUCKETS && is_bad)
            mine->bucket = message;
        else if (out < BUCKETS && !is_bad)
            mine->bucket = out;
        else if (hands[mine->party][mine->bucket] == OUT)
            mine->call = ALLOCATE;
    }
    if (mine->call == ATTACH && !is_bad)
        mine->bucket = find_detached(mine->bucket);
    if (mine->call == DETACH && !is_bad)
        mine->bucket = message < BUCKETS && next(&seed) % 2 == 0 ? message : out % BUCKETS;
    if (mine->call == DONE && message < BUCKETS && !is_bad) {
        mine->slot = slots_of[message];
        mine->bucket = message;
    }
}

static void choose(void) {
    const uint32_t what = next(&seed) % 16;
    uint32_t party = next(&seed) % PARTIES;
    while (count_joined() > 0 && handles[party] == NULL)
        party = (party + 1) % PARTIES;
    mine->party = party;
    mine->what = 1 + next(&seed) % 3;
    if (file == NULL)
        mine->call = OPEN;
    else if (count_joined() > 0)
        choose_call();
    else if (what < 10)
        mine->call = JOIN;
    else if (what < 13)
        mine->call = REAP;
    else if (what < 15)
        mine->call = RECOVER;
    else
        mine->call = CLOSE;
}

static uint32_t open_pool(bb_pool_file **to) {
    if (me % 2 == 0)
        return bb_pool_file_open(to, path, &options);
    return bb_pool_file_open_fd(to, inherited, &options);
}

// Looks at the figures, or opens the file a second time, or closes that. No word changes.
static uint32_t show(void) {
    bb_pool_file_figures figures;
    if (next(&seed) % 2 == 0)
        return bb_pool_file_info(file, &figures);
    if (second == NULL)
        return open_pool(&second);
    const uint32_t code = bb_pool_file_close(second);
    second = NULL;
    return code;
}

static void operate(void) {
    bb_file_party *party = mine->party < PARTIES ? handles[mine->party] : NULL;
    bb_file_party *joined = NULL;
    bb_chunk chunk = {BB_OK, NULL};
    bb_message message = {BB_OK, 0, NULL, 0};
    mine->got = 0;
    mine->got_len = 0;
    switch (mine->call) {
    case OPEN: mine->code = open_pool(&file); break;
    case JOIN:
        mine->code = bb_pool_file_join(file, &joined);
        if (mine->code != BB_OK)
            break;
        mine->got = (uint32_t)bb_file_party_number(joined).number;
        handles[mine->got] = joined;
        memset(hands[mine->got], 0, sizeof hands[mine->got]);
        break;
    case SHOW: mine->code = show(); break;
    case CLOSE: mine->code = bb_pool_file_close(file); break;
    case REAP: mine->code = bb_pool_file_reap(file, BB_REAP_HELD, NULL); break;
    case RECOVER: mine->code = bb_pool_file_reap(file, mine->what, NULL); break;
    case LEAVE: mine->code = bb_pool_file_leave(file, party); break;
    case GIVE_ALL_BACK: mine->code = bb_pool_file_give_all_back(file, party); break;
    case FLUSH:
        mine->code = bb_file_party_flush(party);
        if (mine->len % 2 == 0)
            mine->code = bb_file_party_cache(party, cached);
        break;
    case ALLOCATE:
        chunk = bb_file_party_take(party);
        mine->code = chunk.code;
        break;
    case DEALLOCATE:
        mine->code = bb_file_party_deallocate(party, place_at(mine->party, mine->bucket));
        break;
    case DETACH:
        mine->code = bb_pool_file_detach(file, party, place_at(mine->party, mine->bucket)).code;
        break;
    case ATTACH: mine->code = bb_pool_file_attach(file, party, mine->bucket).code; break;
    case POST:
        mine->code = bb_pool_file_post(file, party, mine->slot, place_at(mine->party, mine->bucket),
                                       mine->len);
        break;
    case TAKE:
        message = bb_pool_file_take(file, party, mine->slot);
        mine->code = message.code;
        mine->got = message.number;
        mine->got_len = message.len;
        break;
    default:
        if (options.depth == 1)
            mine->code = bb_pool_file_done(file, party, mine->slot);
        else
            mine->code = bb_file_party_done(party, place_at(mine->party, mine->bucket));
    }
    if (mine->call == ALLOCATE && mine->code == BB_OK)
        mine->got = (uint32_t)bb_file_party_number_at(party, chunk.place).number;
}

// Notes what a call that succeeded has done to the party's buckets.
static void note_hands(void) {
    enum hand *hand = hands[mine->party % PARTIES];
    if (mine->code != BB_OK)
        return;
    switch (mine->call) {
    case CLOSE:
        file = NULL;
        memset(handles, 0, sizeof handles);
        break;
    case LEAVE: handles[mine->party] = NULL; break;
    case GIVE_ALL_BACK: memset(hand, 0, BUCKETS * sizeof *hand); break;
    case ALLOCATE: hand[mine->got] = OUT; break;
    case DEALLOCATE:
    case DETACH:
    case POST: hand[mine->bucket] = NOTHING; break;
    case ATTACH: hand[mine->bucket] = OUT; break;
    case TAKE:
        hand[mine->got] = MESSAGE;
        slots_of[mine->got] = mine->slot;
        break;
    case DONE:
        for (uint32_t bucket = 0; bucket < BUCKETS; bucket++)
            if (hand[bucket] == MESSAGE && slots_of[bucket] == mine->slot && options.depth == 1)
                hand[bucket] = OUT;
        if (options.depth > 1)
            hand[mine->bucket] = OUT;
        break;
    default: break;
    }
}

// Says through a pipe that this process has begun, and does nothing.
static void idle(int ready) {
    alarm(600);
    // Whoever reads what this program writes doesn't wait for this process.
    close(STDOUT_FILENO);
    close(STDERR_FILENO);
    EXPECT(write(ready, "", 1) == 1);
    for (;;)
        pause();
}

// Starts two children that do nothing, one by `fork` and one by `posix_spawn`. They live on when
// this process is killed, and have to keep none of its locks.
static void start_idle(void) {
    extern char **environ;
    char ready[16];
    char *argv[] = {"trace", "idle", ready, NULL};
    char byte;
    int pipes[2];
    EXPECT(pipe(pipes) == 0);
    snprintf(ready, sizeof ready, "%d", pipes[1]);
    const pid_t forked = fork();
    if (forked == 0)
        idle(pipes[1]);
    mine->idle[0] = forked;
    EXPECT(posix_spawn(&mine->idle[1], "/proc/self/exe", NULL, NULL, argv, environ) == 0);
    for (int child = 0; child < 2; child++)
        EXPECT(read(pipes[0], &byte, 1) == 1);
    close(pipes[0]);
    close(pipes[1]);
}

// Makes calls forever. It stops before each call with SIGUSR2, and after each with SIGUSR1.
static void work(uint32_t process, uint32_t first_seed) {
    prctl(PR_SET_PDEATHSIG, SIGKILL);
    alarm(600);
    me = process;
    mine = &shared[process];
    seed = first_seed + 7919 * process;
    ptrace(PTRACE_TRACEME, 0, NULL, NULL);
    for (;;) {
        choose();
        raise(SIGUSR2);
        operate();
        raise(SIGUSR1);
        if (mine->call == JOIN && mine->code == BB_OK) {
            if (cached > 0)
                EXPECT(bb_file_party_cache(handles[mine->got], cached) == BB_OK);
            if (process % 4 < 2 && mine->idle[0] == 0)
                start_idle();
        }
        note_hands();
    }
}

// EVENTS

enum kind {
    BEGINS,
    FLAG,
    ENTRY,
    SLOT,
    LIFE,
    LOCK,
    RETURNS,
    KILL,
    GONE
};

// A line of the trace.
struct event {
    enum kind kind;
    uint32_t process;
    uint32_t at;
    uint64_t from;
    uint64_t to;
    struct shared call;
};

static struct event *events;
static size_t count;
static size_t room;

static struct event *add(enum kind kind, uint32_t process) {
    if (count == room) {
        room = 2 * room + 1024;
        events = realloc(events, room * sizeof *events);
        EXPECT(events != NULL);
    }
    struct event *event = &events[count];
    memset(event, 0, sizeof *event);
    event->kind = kind;
    event->process = process;
    count++;
    return event;
}

static void write_call(uint32_t process, const struct shared *call) {
    printf("%s %u", NAMES[call->call], process);
    switch (call->call) {
    case LEAVE:
    case GIVE_ALL_BACK:
    case FLUSH:
    case ALLOCATE: printf(" %u\n", call->party); break;
    case DEALLOCATE:
    case DETACH:
    case ATTACH: printf(" %u %u\n", call->party, call->bucket); break;
    case POST: printf(" %u %u %u %u\n", call->party, call->slot, call->bucket, call->len); break;
    case TAKE:
    case DONE: printf(" %u %u\n", call->party, call->slot); break;
    default: printf("\n");
    }
}

static void write_return(uint32_t process, const struct shared *call) {
    if (call->code != BB_OK)
        printf("refused %u\n", process);
    else if (call->call == TAKE)
        printf("ok %u %u %zu\n", process, call->got, call->got_len);
    else if (call->call == ALLOCATE)
        printf("ok %u %u\n", process, call->got);
    else
        printf("ok %u\n", process);
}

static void write_change(const char *name, const struct event *event) {
    printf("%s %u %u %llu %llu\n", name, event->process, event->at, (unsigned long long)event->from,
           (unsigned long long)event->to);
}

static void write_event(size_t at) {
    const struct event *event = &events[at];
    switch (event->kind) {
    case BEGINS: write_call(event->process, &event->call); break;
    case FLAG: write_change("flag", event); break;
    case ENTRY: write_change("entry", event); break;
    case SLOT: write_change("slot", event); break;
    case LIFE: write_change("life", event); break;
    case LOCK:
        printf("%s %u %u\n", event->to != 0 ? "lock" : "unlock", event->process, event->at);
        break;
    case RETURNS: write_return(event->process, &event->call); break;
    case KILL: printf("kill %u\n", event->process); break;
    default: printf("gone %u\n", event->process);
    }
}

// TRACING

// The words and locks of the file as they were at last.
static const uint64_t *words;
static int watching;
static uint64_t flags[BUCKETS];
static uint64_t entries[BUCKETS];
static uint64_t slots[SLOTS * DEEPEST];
static uint64_t lives[PARTIES];
static bool locks[PARTIES];

struct process {
    pid_t pid;
    uint32_t number;
    // In a duel, the number of its party.
    uint32_t party;
    bool is_in_call;
    // The number of turns before which it doesn't go on.
    uint32_t rests_until;
};

static struct process living[LIVING];
static uint32_t started;
static uint64_t stepped[CALLS];
static uint64_t made[CALLS];
static uint32_t turns;

// The event with which the last call of each process began, and whether that is a post that has
// changed an entry.
static size_t begun[PROCESSES];
static bool tried[PROCESSES];

// Returns the cell that an entry names, or a greater number if it names none.
static uint32_t cell_in(uint64_t entry) {
    return (uint32_t)entry - 1;
}

// Adds the event that a call begins, with the first cell of its slot. A `done` is of the cell that
// has the message; if there is none, the call changes nothing.
static void begin(uint32_t process) {
    begun[process] = count;
    tried[process] = false;
    struct shared *call = &add(BEGINS, process)->call;
    *call = shared[process];
    call->slot *= options.depth;
    if (call->call != DONE || options.depth == 1)
        return;
    const uint32_t cell = cell_in(entries[call->bucket]);
    if (cell < SLOTS * options.depth && (uint32_t)slots[cell] == call->bucket + 1)
        call->slot = cell;
    else
        call->call = SHOW;
}

// Notes that the last call of the process changes this cell, if it is one of the call's slot.
static void note_cell(uint32_t process, uint32_t cell) {
    if (cell / options.depth == shared[process].slot)
        events[begun[process]].call.slot = cell;
}

// Notes which cell a post or a take changes, before its change of a word. If the post has tried
// another cell before, it begins anew.
static void note_change(enum kind kind, uint32_t process, uint64_t from, uint64_t to) {
    const struct shared *call = &shared[process];
    if (call->call == TAKE && kind == FLAG && from % 4 == SENT)
        note_cell(process, (uint32_t)(from >> 2));
    if (call->call != POST || kind != ENTRY || to == 0)
        return;
    if (tried[process]) {
        struct event *event = add(RETURNS, process);
        event->call = *call;
        event->call.code = BB_DETACHED_FULL;
        begin(process);
    }
    tried[process] = true;
    note_cell(process, cell_in(to));
}

static bool is_locked(uint32_t party) {
    struct flock flock = {
        .l_type = F_WRLCK, .l_whence = SEEK_SET, .l_start = FIRST_LOCK + party, .l_len = 1};
    EXPECT(fcntl(watching, F_OFD_GETLK, &flock) == 0);
    return flock.l_type != F_UNLCK;
}

static void change(enum kind kind, uint32_t process, uint32_t at, uint64_t from, uint64_t to) {
    note_change(kind, process, from, to);
    struct event *event = add(kind, process);
    event->at = at;
    event->from = from;
    event->to = to;
}

// Adds an event for each word and lock that has changed: for flags, entries, slots, locks and lives
// in this order.
static void compare(uint32_t process) {
    for (uint32_t bucket = 0; bucket < BUCKETS; bucket++) {
        const uint64_t word = __atomic_load_n(&words[FIRST_FLAG + bucket], __ATOMIC_SEQ_CST);
        if (word != flags[bucket])
            change(FLAG, process, bucket, flags[bucket], word);
        flags[bucket] = word;
    }
    for (uint32_t bucket = 0; bucket < BUCKETS; bucket++) {
        const uint64_t word = __atomic_load_n(&words[FIRST_ENTRY + bucket], __ATOMIC_SEQ_CST);
        if (word != entries[bucket])
            change(ENTRY, process, bucket, entries[bucket], word);
        entries[bucket] = word;
    }
    for (uint32_t slot = 0; slot < SLOTS * options.depth; slot++) {
        const uint64_t word =
            __atomic_load_n(&words[FIRST_SLOT + WORDS_IN_SLOT * slot], __ATOMIC_SEQ_CST);
        if (word != slots[slot])
            change(SLOT, process, slot, slots[slot], word);
        slots[slot] = word;
    }
    for (uint32_t party = 0; party < PARTIES; party++) {
        const bool is_taken = is_locked(party);
        if (is_taken != locks[party])
            change(LOCK, process, party, locks[party], is_taken);
        locks[party] = is_taken;
    }
    for (uint32_t party = 0; party < PARTIES; party++) {
        const uint64_t word = __atomic_load_n(&words[FIRST_LIFE + party], __ATOMIC_SEQ_CST);
        if (word != lives[party])
            change(LIFE, process, party, lives[party], word);
        lives[party] = word;
    }
}

static int wait_for(pid_t pid) {
    int status;
    EXPECT(waitpid(pid, &status, 0) == pid && WIFSTOPPED(status));
    return WSTOPSIG(status);
}

// Has a process go on to the beginning of its next call.
static void go_to_call(struct process *of) {
    ptrace(PTRACE_CONT, of->pid, NULL, NULL);
    EXPECT(wait_for(of->pid) == SIGUSR2);
    of->is_in_call = false;
}

static void start(struct process *of, uint32_t first_seed) {
    of->number = started;
    started++;
    fflush(stdout);
    of->pid = fork();
    EXPECT(of->pid >= 0);
    if (of->pid == 0)
        work(of->number, first_seed);
    EXPECT(wait_for(of->pid) == SIGUSR2);
    of->is_in_call = false;
    of->rests_until = 0;
}

static void end(struct process *of) {
    struct shared *call = &shared[of->number];
    add(RETURNS, of->number)->call = *call;
    made[call->call]++;
    go_to_call(of);
}

// A turn of a process: the most instructions that it takes, and the most after a change.
struct turn {
    uint32_t most;
    uint32_t after_change;
};

// Has a process go on, at most to the end of its call.
static void go(struct process *of, struct turn turn) {
    const struct shared *call = &shared[of->number];
    if (!of->is_in_call) {
        of->is_in_call = true;
        begin(of->number);
    }
    uint32_t left = turn.most;
    while (left > 0) {
        const size_t before = count;
        ptrace(PTRACE_SINGLESTEP, of->pid, NULL, NULL);
        const int signal = wait_for(of->pid);
        if (signal == SIGUSR1) {
            end(of);
            return;
        }
        EXPECT(signal == SIGTRAP);
        stepped[call->call]++;
        compare(of->number);
        left--;
        if (count > before && left > turn.after_change)
            left = turn.after_change;
    }
}

// Kills a process where it is.
static void end_killed(struct process *of) {
    const struct shared *call = &shared[of->number];
    int status;
    add(KILL, of->number);
    EXPECT(kill(of->pid, SIGKILL) == 0);
    EXPECT(waitpid(of->pid, &status, 0) == of->pid && WIFSIGNALED(status));
    compare(of->number);
    add(GONE, of->number);
    for (uint32_t at = 0; at < 2; at++)
        if (call->idle[at] != 0)
            kill(call->idle[at], SIGKILL);
    of->pid = 0;
}

// Returns a turn: a few instructions, part of a call, up to a change and a little more, or most of
// a call.
static struct turn choose_turn(uint32_t *random) {
    struct turn turn = {LONGEST_TURN, LONGEST_TURN};
    switch (next(random) % 6) {
    case 0: turn.most = 1 + next(random) % 24; break;
    case 1: turn.most = 1 + next(random) % 256; break;
    case 2: turn.most = 1 + next(random) % 1536; break;
    case 3: turn.after_change = next(random) % 32; break;
    default: break;
    }
    return turn;
}

static void run_random(uint32_t random, uint32_t calls) {
    const uint32_t first_seed = random;
    uint64_t ended = 0;
    for (uint32_t at = 0; at < LIVING; at++)
        start(&living[at], first_seed);
    while (ended < calls) {
        struct process *of = &living[next(&random) % LIVING];
        turns++;
        if (of->pid == 0 || of->rests_until > turns)
            continue;
        go(of, choose_turn(&random));
        if (of->is_in_call && next(&random) % 4 == 0)
            of->rests_until = turns + next(&random) % 64;
        if (started < PROCESSES_AT_RANDOM && next(&random) % 48 == 0) {
            end_killed(of);
            start(of, first_seed);
        }
        ended = 0;
        for (int call = 0; call < CALLS; call++)
            ended += made[call];
    }
    for (uint32_t at = 0; at < LIVING; at++)
        end_killed(&living[at]);
}

// DUELS

// Sets the next call of a process.
static void order(const struct process *of, enum call call, uint32_t slot, uint32_t bucket) {
    struct shared *next_call = &shared[of->number];
    next_call->call = call;
    next_call->party = of->party;
    next_call->slot = slot;
    next_call->bucket = bucket;
    next_call->len = 1 + bucket;
    next_call->what = BB_REAP_DEAD;
}

// Has a process make a call to its end. Returns whether it succeeded.
static bool make(struct process *of, enum call call, uint32_t slot, uint32_t bucket) {
    const struct turn whole = {UINT32_MAX, UINT32_MAX};
    order(of, call, slot, bucket);
    go(of, whole);
    return shared[of->number].code == BB_OK;
}

// Has a process make a call without stepping it: a join, whose lock comes before its life, or a
// call that changes one word at most.
static void make_unstepped(struct process *of, enum call call, uint32_t bucket) {
    order(of, call, 0, bucket);
    begin(of->number);
    ptrace(PTRACE_CONT, of->pid, NULL, NULL);
    EXPECT(wait_for(of->pid) == SIGUSR1);
    compare(of->number);
    end(of);
}

// Starts a process that has joined.
static void start_joined(struct process *of) {
    start(of, 1);
    make_unstepped(of, OPEN, 0);
    make_unstepped(of, JOIN, 0);
    of->party = shared[of->number].got;
}

static uint32_t allocate(struct process *of) {
    make_unstepped(of, ALLOCATE, 0);
    return shared[of->number].got;
}

// Has a process send a bucket that it holds, by slot 1 or by number.
static void send(struct process *of, uint32_t bucket, bool by_slot) {
    if (by_slot)
        make(of, POST, 1, bucket);
    else
        make(of, DETACH, 0, bucket);
}

// Has a process receive that bucket, if it is still there, and give it back.
static void receive(struct process *of, uint32_t bucket, bool by_slot) {
    if (by_slot && !(make(of, TAKE, 1, 0) && make(of, DONE, 1, bucket)))
        return;
    if (!by_slot && !make(of, ATTACH, 0, bucket))
        return;
    make(of, DEALLOCATE, 0, bucket);
}

// Has the first process take a message. After that many instructions the second one takes it, too,
// and sends its bucket elsewhere. Returns whether the first one's call had ended before.
static bool duel_take(uint32_t most, bool by_slot) {
    struct process *one = &living[0];
    struct process *other = &living[1];
    const struct turn part = {most, most};
    const struct turn whole = {UINT32_MAX, UINT32_MAX};
    const uint32_t bucket = allocate(other);
    make(other, POST, 0, bucket);
    order(one, TAKE, 0, 0);
    go(one, part);
    const bool ended = !one->is_in_call;
    if (make(other, TAKE, 0, 0) && make(other, DONE, 0, bucket))
        send(other, bucket, by_slot);
    if (one->is_in_call)
        go(one, whole);
    if (shared[one->number].code == BB_OK && make(one, DONE, 0, bucket))
        make(one, DEALLOCATE, 0, bucket);
    else
        receive(other, bucket, by_slot);
    return ended;
}

// Has the first process reap a dead party, with a bucket that it had detached. That many
// instructions after the party is locked, the second one attaches the bucket, and sends it. Returns
// whether the bucket was reaped before.
static bool duel_reap(uint32_t most, bool by_slot) {
    struct process *one = &living[0];
    struct process *other = &living[1];
    const struct turn part = {LONGEST_TURN, most};
    const struct turn whole = {UINT32_MAX, UINT32_MAX};
    start_joined(&living[2]);
    const uint32_t bucket = allocate(&living[2]);
    make_unstepped(&living[2], DETACH, bucket);
    end_killed(&living[2]);
    order(one, RECOVER, 0, 0);
    go(one, part);
    const bool attached = make(other, ATTACH, 0, bucket);
    if (attached)
        send(other, bucket, by_slot);
    if (one->is_in_call)
        go(one, whole);
    if (attached)
        receive(other, bucket, by_slot);
    return !attached;
}

// Has a process take a message from slot 0. Returns its bucket, or BUCKETS if there is none.
static uint32_t take(struct process *of) {
    return make(of, TAKE, 0, 0) ? shared[of->number].got : BUCKETS;
}

// Has the first process post a message. After that many instructions the second one takes it, or
// posts another one to its slot. Returns whether the first one's call had ended before.
static bool duel_post(uint32_t most) {
    struct process *one = &living[0];
    struct process *other = &living[1];
    const struct turn part = {most, most};
    const struct turn whole = {UINT32_MAX, UINT32_MAX};
    const uint32_t bucket = allocate(one);
    const uint32_t others = allocate(other);
    order(one, POST, 0, bucket);
    go(one, part);
    const bool ended = !one->is_in_call;
    uint32_t got = take(other);
    const bool posted = got == BUCKETS && make(other, POST, 0, others);
    if (one->is_in_call)
        go(one, whole);
    if (shared[one->number].code != BB_OK)
        make_unstepped(one, DEALLOCATE, bucket);
    if (!posted)
        make_unstepped(other, DEALLOCATE, others);
    if (got == BUCKETS)
        got = take(other);
    while (got < BUCKETS) {
        make(other, DONE, 0, got);
        make_unstepped(other, DEALLOCATE, got);
        got = options.depth > 1 ? take(other) : BUCKETS;
    }
    return ended;
}

// Kills a process that many instructions after the first change in its post, or in its `done`. The
// first process reaps it, and the second one takes the message, if the slot has it. Returns whether
// the call had ended before.
static bool duel_settle(enum call call, uint32_t most) {
    struct process *one = &living[0];
    struct process *other = &living[1];
    struct process *killed = &living[2];
    const struct turn part = {LONGEST_TURN, most};
    start_joined(killed);
    const uint32_t bucket = allocate(killed);
    if (call == DONE) {
        make(killed, POST, 0, bucket);
        make(killed, TAKE, 0, 0);
    }
    order(killed, call, 0, bucket);
    go(killed, part);
    const bool ended = !killed->is_in_call;
    end_killed(killed);
    make(one, REAP, 0, 0);
    if (make(other, TAKE, 0, 0) && make(other, DONE, 0, bucket))
        make_unstepped(other, DEALLOCATE, bucket);
    return ended;
}

static void run_duels(uint32_t stride) {
    start_joined(&living[0]);
    start_joined(&living[1]);
    for (uint32_t most = 0; !duel_settle(POST, most) && most < LONGEST_TURN; most++)
        ;
    for (uint32_t most = 0; !duel_settle(DONE, most) && most < LONGEST_TURN; most++)
        ;
    for (uint32_t most = 1; !duel_post(most) && most < LONGEST_TURN; most++)
        ;
    for (int by_slot = 0; by_slot < 2; by_slot++) {
        bool has_ended = false;
        for (uint32_t most = 1; !has_ended && most < LONGEST_TURN; most += stride)
            has_ended = duel_take(most, by_slot == 1);
        has_ended = false;
        for (uint32_t most = 1; !has_ended && most < LONGEST_TURN; most += stride)
            has_ended = duel_reap(most, by_slot == 1);
    }
    end_killed(&living[0]);
    end_killed(&living[1]);
}

static void *map(size_t size, int fd, off_t at) {
    const int how = fd < 0 ? MAP_SHARED | MAP_ANONYMOUS : MAP_SHARED;
    void *mapped = mmap(NULL, size, PROT_READ | PROT_WRITE, how, fd, at);
    EXPECT(mapped != MAP_FAILED);
    return mapped;
}

// Starts this program again without random addresses, so that a seed has the same trace each time.
static void keep_addresses(char **argv) {
    const int now = personality(0xffffffff);
    if (now < 0 || (now & ADDR_NO_RANDOMIZE) != 0)
        return;
    if (personality((unsigned long)now | ADDR_NO_RANDOMIZE) >= 0)
        execv("/proc/self/exe", argv);
}

// Runs this program and its processes on one processor, of which the seed chooses one. To step a
// process that runs on another one takes much longer.
static void keep_processor(uint32_t number) {
    cpu_set_t allowed;
    EXPECT(sched_getaffinity(0, sizeof allowed, &allowed) == 0);
    uint32_t left = number % (uint32_t)CPU_COUNT(&allowed);
    for (size_t at = 0; at < CPU_SETSIZE; at++) {
        if (!CPU_ISSET(at, &allowed))
            continue;
        if (left == 0) {
            cpu_set_t one;
            CPU_ZERO(&one);
            CPU_SET(at, &one);
            EXPECT(sched_setaffinity(0, sizeof one, &one) == 0);
            return;
        }
        left--;
    }
}

int main(int argc, char **argv) {
    bb_pool_file *made_file;
    if (argc == 3 && strcmp(argv[1], "idle") == 0)
        idle(atoi(argv[2]));
    const bool is_random = argc == 7 && strcmp(argv[1], "random") == 0;
    const bool has_duels = argc == 5 && strcmp(argv[1], "duels") == 0;
    if (!is_random && !has_duels) {
        fprintf(stderr, "usage: trace random FOLDER SEED CALLS CACHED DEPTH\n"
                        "       trace duels FOLDER STRIDE DEPTH\n");
        return 2;
    }
    options.depth = (uint32_t)atoi(argv[argc - 1]);
    EXPECT(options.depth <= DEEPEST);
    keep_addresses(argv);
    keep_processor((uint32_t)atoi(argv[3]));
    snprintf(path, sizeof path, "%s/bb-trace-%d", argv[2], (int)getpid());
    EXPECT(bb_pool_file_open(&made_file, path, &options) == BB_OK);
    EXPECT(bb_pool_file_close(made_file) == BB_OK);
    watching = open(path, O_RDWR | O_CLOEXEC);
    inherited = open(path, O_RDWR | O_CLOEXEC);
    EXPECT(watching >= 0 && inherited >= 0);
    // The words, after as much of the header as a mapping begins with.
    const size_t lead = PAGE % (size_t)sysconf(_SC_PAGESIZE);
    char *first = map(lead + PAGE, watching, (off_t)(PAGE - lead));
    words = (void *)(first + lead);
    shared = map(PROCESSES * sizeof *shared, -1, 0);
    if (is_random) {
        cached = (uint32_t)atoi(argv[5]);
        run_random((uint32_t)atoi(argv[3]), (uint32_t)atoi(argv[4]));
    } else {
        run_duels((uint32_t)atoi(argv[3]));
    }
    unlink(path);
    printf("file %d %d %d %u\n", PROCESSES, PARTIES, BUCKETS, SLOTS * options.depth);
    for (size_t at = 0; at < count; at++)
        write_event(at);
    for (int call = 0; call < CALLS; call++)
        fprintf(stderr, "%s %llu %llu\n", NAMES[call], (unsigned long long)made[call],
                (unsigned long long)stepped[call]);
    return 0;
}
