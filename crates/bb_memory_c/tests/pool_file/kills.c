// Kills processes that share a pool in a file, each at an address of its own, and checks that no
// byte is wrong, no bucket is lost, no message is missing, and that messages come in order. Only
// the processes clean up, when they join and reap.
//
//     kills run FOLDER KILLS CACHED THREADS DEPTH
//         Workers are killed at random moments. Each has that many threads, 1 or 2, with a party
//         each.
//     kills make FOLDER KILLS
//         Makers of the file are killed at random moments.
//     kills step FOLDER STRIDE DEPTH
//         A process is killed after each instruction of each call, or after each STRIDE-th of the
//         long calls.
//     kills pause FOLDER STRIDE DEPTH
//         A process is stopped there, another party interferes, and the call goes on.
//
// The slots have this depth. For `pause` it is 1, or at least 3.
#define _GNU_SOURCE
#include <fcntl.h>
#include <pthread.h>
#include <sched.h>
#include <signal.h>
#include <spawn.h>
#include <stdio.h>
#include <stdlib.h>
#include <string.h>
#include <sys/mman.h>
#include <sys/prctl.h>
#include <sys/ptrace.h>
#include <sys/wait.h>
#include <time.h>
#include <unistd.h>

#include "bb_pool_file.h"

enum {
    WORKERS = 4,
    WORDS = 8,
    SIZE = WORDS * 8,
    BUCKETS = 64,
    // The slots that are numbered as the workers have one receiver each: the first thread of that
    // worker. From ONCE on, a receiver is done with a message before it works on it.
    SLOTS = 8,
    ONCE = 6,
    // Places where one process leaves the number of a detached bucket for another.
    HANDS = 4,
    BURST = 6,
    // The most messages that a receiver has taken and isn't done with.
    MOST_UNDONE = 3,
    // What a look that finds no message notes: this, plus its code.
    NO_LENGTH = 1000,
    // The most threads that live, over all, and the most messages that each posts.
    LIVES = 131072,
    SEQUENCES = 1024,
    COUNTS_FD = 200
};

static bb_pool_file_options options = {.bucket_size = SIZE,
                                       .bucket_align = 64,
                                       .buckets = BUCKETS,
                                       .parties = 16,
                                       .slots = SLOTS,
                                       .depth = 1,
                                       .mode = 0};

// The messages of a thread: how many it has begun to post, and how many it has posted.
struct sent {
    uint32_t begun;
    uint32_t posted;
};

// A message: when its post began and ended, as the clock counts, or 0 if it hasn't ended. A late
// one may come after younger ones: it was put back, or its receiver or its sender was killed.
struct message {
    uint32_t begun;
    uint32_t ended;
    uint8_t slot;
    uint8_t is_late;
    uint8_t seen;
};

// What is known of the order of a slot's messages. Of those that were taken, `latest` is the
// greatest moment at which the post of one began. `unknown` is how many messages may be late that
// aren't noted as late, since a receiver was killed while it took one. If the slot has one
// receiver, `put_back` is the message that it has put back, which comes before younger ones.
struct order {
    uint32_t latest;
    uint32_t unknown;
    uint64_t put_back;
};

// The counts of the driver and of the workers, in a memfd.
struct counts {
    uint64_t wrong;
    uint64_t takings;
    uint64_t messages;
    uint64_t again;
    uint64_t numbers;
    uint64_t reaped;
    uint64_t waited;
    uint64_t reopened;
    uint64_t ends;
    // How many messages came after one that was posted later.
    uint64_t passed;
    uint64_t ordered;
    // How many receivers were killed that may have been done with a message before they worked on
    // it.
    uint64_t unworked;
    // Odd while the driver kills a worker and notes what that had.
    uint64_t kills;
    // Counts the beginnings and the ends of posts.
    uint32_t clock;
    struct order orders[SLOTS];
    // What each thread of a worker takes or isn't done with: 0, or the slot plus 1, or the message.
    uint64_t undone[2 * WORKERS][MOST_UNDONE];
    // The channel of messages by number: each the identification times 256, plus the number plus 1.
    uint64_t hands[HANDS];
    // Where each worker has the region.
    uint64_t starts[LIVES];
    struct sent sent[LIVES];
    struct message posts[LIVES][SEQUENCES];
};

static struct counts *counts;
static char path[128];

static void expect(bool holds, const char *what, int line) {
    if (holds)
        return;
    fprintf(stderr, "kills: line %d: not so: %s\n", line, what);
    if (counts != NULL)
        __atomic_fetch_add(&counts->wrong, 1, __ATOMIC_SEQ_CST);
    _exit(1);
}

#define EXPECT(holds) expect(holds, #holds, __LINE__)
#define ADD(field, by) __atomic_fetch_add(&counts->field, by, __ATOMIC_SEQ_CST)
#define LOAD(word) __atomic_load_n(word, __ATOMIC_SEQ_CST)
#define STORE(word, value) __atomic_store_n(word, value, __ATOMIC_SEQ_CST)

static uint32_t next(uint32_t *seed) {
    *seed = *seed * 1664525u + 1013904223u;
    return *seed >> 12;
}

static size_t len_of(uint64_t id) {
    return 8 + id % (SIZE - 8);
}

static void fill(bb_place place, uint64_t id) {
    uint64_t *words = place;
    for (uint64_t at = 0; at < WORDS; at++)
        words[at] = id * (2 * at + 1);
}

static uint64_t id_in(bb_place place) {
    return *(uint64_t *)place;
}

static bool is_filled(bb_place place, uint64_t id) {
    const uint64_t *words = place;
    for (uint64_t at = 0; at < WORDS; at++)
        if (words[at] != id * (2 * at + 1))
            return false;
    return true;
}

static void check(bb_place place, uint64_t id) {
    if (!is_filled(place, id))
        ADD(wrong, 1);
}

// WORKERS

static bb_pool_file *file;
static uint32_t cached;
static uint32_t threads;
static uint32_t position;
static _Thread_local bb_file_party *mine;
static _Thread_local uint32_t life;
static _Thread_local uint32_t seed;
static _Thread_local uint32_t sequence;
static _Thread_local uint64_t ids;

static void join(void) {
    EXPECT(bb_pool_file_join(file, &mine) == BB_OK);
    EXPECT(cached == 0 || bb_file_party_cache(mine, cached) == BB_OK);
}

static void enter(void) {
    EXPECT(bb_pool_file_open(&file, path, next(&seed) % 2 == 0 ? NULL : &options) == BB_OK);
    join();
}

// Lets some time pass with a bucket in hand, at times so long that other processes run.
static void idle(void) {
    for (volatile uint32_t left = next(&seed) % 64; left > 0; left--)
        continue;
    if (next(&seed) % 64 == 0)
        usleep(next(&seed) % 256);
}

static void give_back(bb_place place, uint64_t id) {
    idle();
    check(place, id);
    EXPECT(bb_file_party_deallocate(mine, place) == BB_OK);
}

// Takes a bucket and fills it, or returns NULL if none is free.
static bb_place take_one(uint64_t id) {
    const bb_chunk got = bb_file_party_take(mine);
    if (got.code == BB_OUT_OF_MEMORY)
        return NULL;
    EXPECT(got.code == BB_OK);
    ADD(takings, 1);
    fill(got.place, id);
    return got.place;
}

static void take_some(void) {
    const uint32_t most = next(&seed) % 3 == 0 ? BURST : 1;
    const uint64_t first = (uint64_t)life << 32 | ids;
    bb_place taken[BURST];
    uint32_t count = 0;
    while (count < most) {
        taken[count] = take_one(first + count);
        if (taken[count] == NULL)
            break;
        count++;
    }
    for (uint32_t at = 0; at < count; at++)
        give_back(taken[at], first + at);
    ids += count;
}

static bool exchange(uint64_t *word, uint64_t from, uint64_t to) {
    return __atomic_compare_exchange_n(word, &from, to, false, __ATOMIC_SEQ_CST, __ATOMIC_SEQ_CST);
}

static bool exchange_32(uint32_t *word, uint32_t from, uint32_t to) {
    return __atomic_compare_exchange_n(word, &from, to, false, __ATOMIC_SEQ_CST, __ATOMIC_SEQ_CST);
}

// The identification of a message has the sender's life, the slot and the number of the message.
static uint64_t message_id(uint32_t slot) {
    return (uint64_t)life << 32 | 1ull << 31 | slot << 16 | sequence;
}

static uint32_t slot_in(uint64_t id) {
    return (uint32_t)(id >> 16) % SLOTS;
}

static struct message *message_of(uint64_t id) {
    return &counts->posts[(id >> 32) % LIVES][id % SEQUENCES];
}

static void post(void) {
    if (sequence == SEQUENCES)
        return;
    const uint32_t slot = next(&seed) % SLOTS;
    const uint64_t id = message_id(slot);
    bb_place place = take_one(id);
    if (place == NULL)
        return;
    struct message *message = message_of(id);
    message->slot = (uint8_t)slot;
    STORE(&message->begun, ADD(clock, 1) + 1);
    STORE(&counts->sent[life].begun, sequence + 1);
    const uint32_t code = bb_pool_file_post(file, mine, slot, place, len_of(id));
    if (code == BB_DETACHED_FULL) {
        give_back(place, id);
        return;
    }
    EXPECT(code == BB_OK);
    STORE(&message->ended, ADD(clock, 1) + 1);
    sequence++;
    STORE(&counts->sent[life].posted, sequence);
}

// RECEIVERS

// Returns where this thread notes a message that it takes, or isn't done with.
static uint64_t *undone_at(uint32_t at) {
    return &counts->undone[2 * position + life % 2][at];
}

// Waits until the driver has noted what those had whom it has killed so far.
static void await_notes(void) {
    while (LOAD(&counts->kills) % 2 != 0)
        usleep(20);
}

// Returns whether a receiver of the slot was killed while it took a message, which may be this one.
static bool may_be_unknown(struct order *order) {
    for (;;) {
        const uint32_t unknown = LOAD(&order->unknown);
        if (unknown == 0)
            return false;
        if (exchange_32(&order->unknown, unknown, unknown - 1))
            return true;
    }
}

// Returns whether the post of the message had ended before that moment.
static bool had_ended(const struct message *message, uint32_t moment) {
    const uint32_t ended = LOAD(&message->ended);
    return ended != 0 && ended < moment;
}

// Checks that a message that was taken isn't late, unless that is noted: its post hadn't ended
// before the post of another one began that was taken before this take began, when `latest` was
// noted. If the receiver of the slot has put back another message, the post of that one hadn't
// ended before this one began.
static void check_order(uint64_t id, uint32_t latest) {
    struct order *order = &counts->orders[slot_in(id)];
    const struct message *message = message_of(id);
    const uint64_t back = order->put_back;
    const bool is_after = back != 0 && back != id && had_ended(message_of(back), message->begun);
    if (had_ended(message, latest) || is_after) {
        await_notes();
        if (LOAD(&message->is_late) == 0 && !may_be_unknown(order))
            ADD(passed, 1);
    }
    if (back == id)
        STORE(&order->put_back, 0);
    uint32_t greatest = LOAD(&order->latest);
    while (greatest < message->begun && !exchange_32(&order->latest, greatest, message->begun))
        greatest = LOAD(&order->latest);
    ADD(ordered, 1);
}

// Takes a message, and notes it as this thread's undone message number `at`.
static bb_message take(uint32_t slot, uint32_t at) {
    struct order *order = &counts->orders[slot];
    const uint32_t unknown = LOAD(&order->unknown);
    const uint32_t latest = LOAD(&order->latest);
    STORE(undone_at(at), slot + 1);
    const bb_message got = bb_pool_file_take(file, mine, slot);
    if (got.code != BB_OK) {
        EXPECT(got.code == BB_DETACHED_EMPTY || got.code == BB_NOT_HELD);
        EXPECT(at == 0 || got.code == BB_NOT_HELD);
        STORE(undone_at(at), 0);
        // If the slot has no message, it has no late one, either.
        if (got.code == BB_DETACHED_EMPTY)
            exchange_32(&order->unknown, unknown, 0);
        return got;
    }
    const uint64_t id = id_in(got.place);
    STORE(undone_at(at), id);
    check(got.place, id);
    if (got.len != len_of(id) || slot_in(id) != slot)
        ADD(wrong, 1);
    if (id % SEQUENCES >= LOAD(&counts->sent[(id >> 32) % LIVES].begun))
        ADD(wrong, 1);
    check_order(id, latest);
    return got;
}

// Tries what is refused as long as the message isn't done.
static void try_undone(bb_place place) {
    const uint32_t what = next(&seed) % 16;
    if (what == 0)
        EXPECT(bb_file_party_deallocate(mine, place) == BB_FILE_NOT_DONE);
    else if (what == 1)
        EXPECT(bb_file_party_deallocate_many(mine, &place, 1).number == 0);
    else if (what == 2)
        EXPECT(bb_pool_file_post(file, mine, next(&seed) % SLOTS, place, 8) == BB_FILE_NOT_DONE);
}

// Puts back the only message that this thread has taken.
static void put_back(bb_message got) {
    const uint64_t id = id_in(got.place);
    const uint32_t slot = slot_in(id);
    STORE(&message_of(id)->is_late, 1);
    if (slot < WORKERS)
        STORE(&counts->orders[slot].put_back, id);
    if (next(&seed) % 4 == 0)
        EXPECT(bb_pool_file_give_all_back(file, mine) == BB_OK);
    else
        EXPECT(bb_pool_file_detach(file, mine, got.place).number == got.number);
    STORE(undone_at(0), 0);
}

static void be_done(bb_message got) {
    const uint32_t slot = slot_in(id_in(got.place));
    if (options.depth == 1 && next(&seed) % 2 == 0)
        EXPECT(bb_pool_file_done(file, mine, slot) == BB_OK);
    else
        EXPECT(bb_file_party_done(mine, got.place) == BB_OK);
    EXPECT(bb_file_party_done(mine, got.place) == BB_NOT_HELD);
}

// Works on a message, and is done with it. If it is done afterwards, the message comes at least
// once, and again only after a kill. If it is done before that, the message comes at most once.
static void process(bb_message got, uint32_t at) {
    const uint64_t id = id_in(got.place);
    const bool is_once = slot_in(id) >= ONCE;
    idle();
    if (is_once)
        be_done(got);
    if (__atomic_fetch_add(&message_of(id)->seen, 1, __ATOMIC_SEQ_CST) > 0) {
        if (is_once)
            ADD(wrong, 1);
        ADD(again, 1);
    }
    idle();
    check(got.place, id);
    if (!is_once)
        be_done(got);
    STORE(undone_at(at), 0);
    ADD(messages, 1);
    give_back(got.place, id);
}

// Takes messages, and is done with them in another order. Returns the code of the last take.
static uint32_t receive(uint32_t slot) {
    const uint32_t most = next(&seed) % 4 == 0 ? MOST_UNDONE : 1;
    bb_message got[MOST_UNDONE];
    uint32_t code = BB_OK;
    uint32_t count = 0;
    while (count < most) {
        got[count] = take(slot, count);
        code = got[count].code;
        if (code != BB_OK)
            break;
        try_undone(got[count].place);
        count++;
    }
    if (count == 1 && next(&seed) % 6 == 0) {
        put_back(got[0]);
        return code;
    }
    for (; count > 0; count--)
        process(got[count - 1], count - 1);
    return code;
}

// Chooses a slot from which this thread may receive.
static uint32_t choose_slot(void) {
    if (life % 2 == 0 && next(&seed) % 2 == 0)
        return position;
    return WORKERS + next(&seed) % (SLOTS - WORKERS);
}

// BY NUMBER

static void send_number(uint64_t *hand) {
    ids++;
    const uint64_t id = (uint64_t)life << 32 | (ids & 0x7fffffff);
    bb_place place = take_one(id);
    if (place == NULL)
        return;
    const bb_number number = bb_pool_file_detach(file, mine, place);
    EXPECT(number.code == BB_OK);
    if (exchange(hand, 0, id << 8 | (number.number + 1)))
        return;
    const bb_chunk back = bb_pool_file_attach(file, mine, (uint32_t)number.number);
    EXPECT(back.code == BB_OK || back.code == BB_NOT_HELD);
    if (back.code == BB_OK && is_filled(back.place, id))
        give_back(back.place, id);
    else if (back.code == BB_OK)
        EXPECT(bb_pool_file_detach(file, mine, back.place).code == BB_OK);
}

// Messages by number, in words that aren't the pool's. After a kill, their numbers are lost or
// late.
static void hand_over(void) {
    uint64_t *hand = &counts->hands[next(&seed) % HANDS];
    const uint64_t was = __atomic_load_n(hand, __ATOMIC_SEQ_CST);
    if (was == 0) {
        send_number(hand);
        return;
    }
    if (!exchange(hand, was, 0))
        return;
    const bb_chunk got = bb_pool_file_attach(file, mine, (uint32_t)(was & 255) - 1);
    if (got.code == BB_NOT_HELD)
        return;
    EXPECT(got.code == BB_OK);
    const uint64_t id = id_in(got.place);
    if ((id & 0xffffffffffffff) != was >> 8) {  // it was given back, and is a newer message
        EXPECT(bb_pool_file_detach(file, mine, got.place).code == BB_OK);
        return;
    }
    give_back(got.place, id);
    ADD(numbers, 1);
}

// Waits a little: for what may have come already, and for what may not come.
static void wait_a_little(void) {
    const uint32_t slot = next(&seed) % 2 == 0 ? BB_ANY_SLOT : next(&seed) % SLOTS;
    const uint32_t kind = next(&seed) % 3;
    uint32_t code;
    if (kind == 0)
        code = bb_pool_file_wait_full(file, slot, 3);
    else if (kind == 1)
        code = bb_pool_file_wait_empty(file, slot, 3);
    else
        code = bb_pool_file_wait_bucket(file, 3);
    EXPECT(code == BB_OK || code == BB_FILE_TIMED_OUT);
    ADD(waited, 1);
}

static void reap(void) {
    uint32_t given = 0;
    EXPECT(bb_pool_file_reap(file, next(&seed) % 4, &given) == BB_OK);
    ADD(reaped, given);
}

static void reopen(void) {
    if (threads > 1 || next(&seed) % 8 != 0)
        return;
    EXPECT(bb_pool_file_close(file) == BB_OK);
    enter();
    ADD(reopened, 1);
}

static void work(void) {
    while (__atomic_load_n(&counts->ends, __ATOMIC_SEQ_CST) == 0) {
        const uint32_t what = next(&seed) % 64;
        if (what < 22) {
            take_some();
        } else if (what < 37) {
            post();
        } else if (what < 55) {
            receive(choose_slot());
        } else if (what < 56) {
            wait_a_little();
        } else if (what < 60) {
            hand_over();
        } else if (what < 61) {
            reopen();
        } else if (what < 62) {
            EXPECT(bb_pool_file_leave(file, mine) == BB_OK);
            join();
        } else {
            reap();
        }
    }
}

static void *second_thread(void *number) {
    life = *(uint32_t *)number + 1;
    seed = life * 7919;
    join();
    work();
    return NULL;
}

static void map_counts(void) {
    void *mapped = mmap(NULL, sizeof *counts, PROT_READ | PROT_WRITE, MAP_SHARED, COUNTS_FD, 0);
    EXPECT(mapped != MAP_FAILED);
    counts = mapped;
}

// Moves what is mapped from now on, by up to this many pages of 64 KB.
static void move_mappings(uint32_t pages) {
    uint32_t own = (uint32_t)getpid();
    const size_t size = (size_t)(next(&own) % pages + 1) << 16;
    EXPECT(mmap(NULL, size, PROT_NONE, MAP_PRIVATE | MAP_ANONYMOUS | MAP_NORESERVE, -1, 0) !=
           MAP_FAILED);
}

static int run_worker(char **argv) {
    pthread_t thread;
    prctl(PR_SET_PDEATHSIG, SIGKILL);
    map_counts();
    snprintf(path, sizeof path, "%s", argv[2]);
    uint32_t number = (uint32_t)atoi(argv[3]);
    life = number;
    cached = (uint32_t)atoi(argv[4]);
    threads = (uint32_t)atoi(argv[5]);
    options.depth = (uint32_t)atoi(argv[6]);
    position = (uint32_t)atoi(argv[7]);
    seed = life * 7919;
    move_mappings(65536);
    enter();
    bb_pool_file_figures figures;
    EXPECT(bb_pool_file_info(file, &figures) == BB_OK);
    counts->starts[life] = (uintptr_t)figures.start;
    if (threads == 2)
        EXPECT(pthread_create(&thread, NULL, second_thread, &number) == 0);
    work();
    if (threads == 2)
        pthread_join(thread, NULL);
    if (life % 4 == 0)
        EXPECT(bb_pool_file_close(file) == BB_OK);
    return 0;
}

// Has a child end if this test fails.
static void end_with_parent(void) {
    prctl(PR_SET_PDEATHSIG, SIGKILL);
    alarm(600);
}

// RUN

static pid_t start_worker(uint32_t number, uint32_t at) {
    extern char **environ;
    char name[16];
    char most[16];
    char depth[16];
    char place[16];
    char *two = threads == 2 ? "2" : "1";
    char *argv[] = {"kills", "work", path, name, most, two, depth, place, NULL};
    pid_t process;
    snprintf(name, sizeof name, "%u", 2 * number);
    snprintf(most, sizeof most, "%u", cached);
    snprintf(depth, sizeof depth, "%u", options.depth);
    snprintf(place, sizeof place, "%u", at);
    EXPECT(posix_spawn(&process, "/proc/self/exe", NULL, NULL, argv, environ) == 0);
    return process;
}

static int compare(const void *a, const void *b) {
    const uint64_t one = *(const uint64_t *)a;
    const uint64_t other = *(const uint64_t *)b;
    return (one > other) - (one < other);
}

static uint32_t count_addresses(uint32_t lives) {
    uint32_t addresses = 0;
    qsort(counts->starts, lives, sizeof counts->starts[0], compare);
    for (uint32_t at = 1; at < lives; at++)
        addresses += counts->starts[at] != counts->starts[at - 1];
    return addresses;
}

// Notes what a worker that was killed had: the messages that it had taken come again, and the one
// that it was about to post may come late.
static void note_killed(uint32_t number, uint32_t at) {
    counts->orders[at].put_back = 0;
    for (uint32_t of = 0; of < 2; of++) {
        uint64_t *undone = counts->undone[2 * at + of];
        for (uint32_t each = 0; each < MOST_UNDONE; each++) {
            const uint64_t had = undone[each];
            undone[each] = 0;
            if (had == 0)
                continue;
            const uint32_t slot = had <= SLOTS ? (uint32_t)had - 1 : slot_in(had);
            if (had <= SLOTS)
                __atomic_fetch_add(&counts->orders[slot].unknown, 1, __ATOMIC_SEQ_CST);
            else
                STORE(&message_of(had)->is_late, 1);
            counts->unworked += slot >= ONCE;
        }
        const struct sent sent = counts->sent[2 * number + of];
        if (sent.begun > sent.posted)
            STORE(&counts->posts[2 * number + of][sent.begun - 1].is_late, 1);
    }
}

// The messages that were posted and not seen: those that come at least once, and those that come at
// most once.
struct unseen {
    uint32_t missing;
    uint32_t unworked;
};

static struct unseen count_unseen(uint32_t lives) {
    struct unseen unseen = {0, 0};
    for (uint32_t of = 0; of < lives; of++) {
        for (uint32_t number = 0; number < counts->sent[of].posted; number++) {
            const struct message *message = &counts->posts[of][number];
            if (message->seen == 0 && message->slot < ONCE)
                unseen.missing++;
            if (message->seen == 0 && message->slot >= ONCE)
                unseen.unworked++;
        }
    }
    return unseen;
}

// Receives what is left, and reaps. Returns how many buckets are lost.
static uint32_t finish(uint32_t lives) {
    bb_pool_file_figures figures;
    life = lives;
    cached = 0;
    enter();
    EXPECT(bb_pool_file_reap(file, BB_REAP_HELD, NULL) == BB_OK);
    for (uint32_t slot = 0; slot < SLOTS; slot++)
        while (receive(slot) != BB_DETACHED_EMPTY)
            continue;
    EXPECT(bb_pool_file_leave(file, mine) == BB_OK);
    EXPECT(bb_pool_file_reap(file, BB_REAP_DEAD | BB_REAP_LEFT, NULL) == BB_OK);
    EXPECT(bb_pool_file_info(file, &figures) == BB_OK);
    return figures.held + figures.detached + figures.wrong + figures.messages;
}

static int run(uint32_t kills) {
    pid_t processes[WORKERS];
    uint32_t numbers[WORKERS];
    uint32_t lives = 0;
    int status;
    const int fd = memfd_create("counts", 0);
    EXPECT(2 * (kills + WORKERS) < LIVES);
    EXPECT(ftruncate(fd, sizeof *counts) == 0 && dup2(fd, COUNTS_FD) == COUNTS_FD);
    map_counts();
    seed = (uint32_t)getpid();
    EXPECT(bb_pool_file_open(&file, path, &options) == BB_OK);
    EXPECT(bb_pool_file_close(file) == BB_OK);
    for (uint32_t at = 0; at < WORKERS; at++) {
        numbers[at] = lives++;
        processes[at] = start_worker(numbers[at], at);
    }
    for (uint32_t killed = 0; killed < kills && counts->wrong == 0; killed++) {
        const uint32_t at = next(&seed) % WORKERS;
        usleep(next(&seed) % 1500);
        ADD(kills, 1);
        EXPECT(kill(processes[at], SIGKILL) == 0 && waitpid(processes[at], &status, 0) > 0);
        EXPECT(WIFSIGNALED(status) && WTERMSIG(status) == SIGKILL);  // it hadn't ended by itself
        note_killed(numbers[at], at);
        ADD(kills, 1);
        numbers[at] = lives++;
        processes[at] = start_worker(numbers[at], at);
    }
    STORE(&counts->ends, 1);
    for (uint32_t at = 0; at < WORKERS; at++) {
        EXPECT(waitpid(processes[at], &status, 0) > 0);
        EXPECT(WIFEXITED(status) && WEXITSTATUS(status) == 0);
    }
    const uint32_t most_cached = cached;
    const uint32_t lost = finish(2 * lives);
    const struct unseen unseen = count_unseen(2 * lives);
    printf("kills: %u at random, cache %u, threads %u, depth %u: %u wrong, %u lost, %u messages "
           "missing, %u out of order\n",
           kills, most_cached, threads, options.depth, (unsigned)counts->wrong, lost,
           unseen.missing, (unsigned)counts->passed);
    printf("kills: %u addresses, %u takings, %u messages (%u came again, %u were done and then not "
           "worked on), %u by number, %u waits, %u opened again, %u buckets reaped\n",
           count_addresses(2 * lives), (unsigned)counts->takings, (unsigned)counts->messages,
           (unsigned)counts->again, unseen.unworked, (unsigned)counts->numbers,
           (unsigned)counts->waited, (unsigned)counts->reopened, (unsigned)counts->reaped);
    EXPECT(counts->messages > 0 || kills < 10);
    return counts->wrong + counts->passed + lost + unseen.missing != 0 ||
           unseen.unworked > counts->unworked || counts->again > kills * threads;
}

// MAKE

// Three processes make the file at once, and two of them are killed. Another one opens it, and all
// buckets are free.
static void make_once(void) {
    bb_pool_file_figures figures;
    pid_t makers[3];
    int status;
    for (uint32_t at = 0; at < 3; at++) {
        makers[at] = fork();
        if (makers[at] != 0)
            continue;
        end_with_parent();
        EXPECT(bb_pool_file_open(&file, path, &options) == BB_OK);
        for (int joined = 0; joined < 2; joined++) {
            EXPECT(bb_pool_file_join(file, &mine) == BB_OK);
            EXPECT(bb_file_party_take(mine).code == BB_OK);
        }
        pause();
    }
    const struct timespec rest = {0, next(&seed) % 400000};
    nanosleep(&rest, NULL);
    for (uint32_t at = 0; at < 2; at++)
        kill(makers[at], SIGKILL);
    for (uint32_t at = 0; at < 2; at++)
        EXPECT(waitpid(makers[at], &status, 0) > 0 && WIFSIGNALED(status));
    EXPECT(bb_pool_file_open(&file, path, &options) == BB_OK);
    EXPECT(bb_pool_file_reap(file, BB_REAP_DEAD, NULL) == BB_OK);
    kill(makers[2], SIGKILL);
    EXPECT(waitpid(makers[2], &status, 0) > 0 && WIFSIGNALED(status));
    EXPECT(bb_pool_file_reap(file, BB_REAP_DEAD, NULL) == BB_OK);
    EXPECT(bb_pool_file_info(file, &figures) == BB_OK);
    EXPECT(figures.options.buckets == BUCKETS && figures.alive == 0);
    EXPECT(figures.held + figures.detached + figures.wrong == 0);
    EXPECT(bb_pool_file_close(file) == BB_OK);
}

static int run_make(uint32_t kills) {
    uint32_t killed = 0;
    seed = (uint32_t)getpid();
    for (; killed < kills; killed += 3) {
        if (next(&seed) % 4 != 0)
            unlink(path);
        make_once();
    }
    printf("kills: %u makers: each file was whole, and nothing was held\n", killed);
    return 0;
}

// STEP

// Runs this program and its children on the processor where it is. To step a process that runs on
// another one takes much longer.
static void keep_processor(void) {
    cpu_set_t one;
    CPU_ZERO(&one);
    CPU_SET((size_t)sched_getcpu(), &one);
    EXPECT(sched_setaffinity(0, sizeof one, &one) == 0);
}

enum {
    OPENS,
    MAKES,
    JOINS,
    TAKES,
    BURSTS,
    POSTS,
    RECEIVES,
    PUTS_BACK,
    DETACHES,
    ATTACHES,
    REAPS,
    GIVES_ALL_BACK,
    LEAVES,
    CLOSES,
    OPERATIONS,
    // For `pause` only: a take whose code is noted, and the message's length, a look that notes the
    // message's length, or 0 if there is none, a reap of detached buckets, an open that notes how
    // many buckets it finds held, a post of two messages, and a `done` and a detach of a message
    // that was taken before.
    NOTES_TAKE,
    NOTES_LOOK,
    REAPS_DETACHED,
    NOTES_OPEN,
    POSTS_TWO,
    IS_DONE,
    PUTS_TAKEN_BACK
};

static const char *const NAMES[] = {"open",
                                    "open, which makes",
                                    "join",
                                    "take, deallocate",
                                    "the same of many, cached",
                                    "post",
                                    "take, done, deallocate",
                                    "take, detach",
                                    "detach",
                                    "attach",
                                    "reap",
                                    "give all back",
                                    "leave",
                                    "close"};

// Posts a message with this identification, which is 8 bytes longer than it says.
static void post_id(bb_pool_file *to, bb_file_party *party, uint32_t slot, uint64_t id) {
    const bb_chunk chunk = bb_file_party_take(party);
    EXPECT(chunk.code == BB_OK);
    fill(chunk.place, id);
    EXPECT(bb_pool_file_post(to, party, slot, chunk.place, 8 + id) == BB_OK);
}

// Returns the identification of such a message, or 0 if there was none to take.
static uint64_t id_of(bb_message got) {
    if (got.code != BB_OK) {
        EXPECT(got.code == BB_DETACHED_EMPTY || got.code == BB_NOT_HELD);
        return 0;
    }
    const uint64_t id = id_in(got.place);
    EXPECT(is_filled(got.place, id) && got.len == 8 + id);
    return id;
}

// Takes this many messages, which have to come with these identifications: the first one, and each
// the next one.
static void expect_ids(bb_pool_file *from, bb_file_party *party, uint32_t slot, uint64_t first,
                       uint32_t count) {
    for (uint32_t at = 0; at < count; at++)
        EXPECT(id_of(bb_pool_file_take(from, party, slot)) == first + at);
}

// Takes the message out of its slot: by the slot's number if the depth is 1.
static uint32_t be_done_with(bb_pool_file *of, bb_file_party *party, uint32_t slot,
                             bb_place place) {
    return options.depth == 1 ? bb_pool_file_done(of, party, slot)
                              : bb_file_party_done(party, place);
}

// Has this many messages come and go in the slot, so that the next ones begin at another of its
// cells.
static void turn(bb_pool_file *of, bb_file_party *party, uint32_t slot, uint32_t count) {
    for (uint32_t at = 0; at < count; at++) {
        post_id(of, party, slot, 1);
        const bb_message got = bb_pool_file_take(of, party, slot);
        EXPECT(id_of(got) == 1);
        EXPECT(be_done_with(of, party, slot, got.place) == BB_OK);
        EXPECT(bb_file_party_deallocate(party, got.place) == BB_OK);
    }
}

// Posts messages until the slot has no room. Returns how many.
static uint32_t fill_up(bb_pool_file *to, bb_file_party *party, uint32_t slot) {
    uint32_t count = 0;
    for (;;) {
        const bb_chunk chunk = bb_file_party_take(party);
        EXPECT(chunk.code == BB_OK);
        const uint32_t code = bb_pool_file_post(to, party, slot, chunk.place, 8);
        if (code == BB_DETACHED_FULL) {
            EXPECT(bb_file_party_deallocate(party, chunk.place) == BB_OK);
            return count;
        }
        EXPECT(code == BB_OK);
        count++;
    }
}

// Leaves a dead party that holds two buckets, and one in slot 1 that it had taken.
static void leave_dead_party(void) {
    const pid_t child = fork();
    if (child == 0) {
        EXPECT(bb_pool_file_open(&file, path, NULL) == BB_OK);
        EXPECT(bb_pool_file_join(file, &mine) == BB_OK);
        bb_chunk got = {BB_OK, NULL};
        for (int count = 0; count < 3; count++)
            got = bb_file_party_take(mine);
        fill(got.place, 77);
        EXPECT(bb_pool_file_post(file, mine, 1, got.place, 9) == BB_OK);
        EXPECT(bb_pool_file_take(file, mine, 1).code == BB_OK);
        _exit(0);
    }
    EXPECT(waitpid(child, NULL, 0) == child);
}

// The bucket, or its number, that an operation has before it begins.
struct prepared {
    bb_place place;
    uint32_t number;
};

// The notes of NOTES_TAKE, NOTES_LOOK or NOTES_OPEN, in shared memory.
static uint32_t *noted;

static struct prepared prepare(int what, uint32_t number) {
    struct prepared prepared = {NULL, number};
    const bool opens = what == OPENS || what == MAKES || what == NOTES_OPEN;
    if (!opens)
        EXPECT(bb_pool_file_open(&file, path, NULL) == BB_OK);
    // A process that joined would have the dead party's number.
    if (!opens && what != JOINS && what != REAPS && what != REAPS_DETACHED)
        EXPECT(bb_pool_file_join(file, &mine) == BB_OK);
    const bool leaves = what == LEAVES || what == GIVES_ALL_BACK;
    if (what == BURSTS || leaves)
        EXPECT(bb_file_party_cache(mine, 8) == BB_OK);
    if (what == POSTS || what == POSTS_TWO || what == DETACHES || leaves || what == CLOSES)
        prepared.place = bb_file_party_take(mine).place;
    if (prepared.place != NULL)
        fill(prepared.place, 25);
    if (leaves) {
        bb_place places[2];
        EXPECT(bb_file_party_take_many(mine, places, 2).number == 2);
        EXPECT(bb_file_party_deallocate_many(mine, places, 2).number == 2);
    }
    if (leaves || what == CLOSES)
        EXPECT(bb_pool_file_take(file, mine, 0).code == BB_OK);
    if (what == IS_DONE || what == PUTS_TAKEN_BACK)
        prepared.place = bb_pool_file_take(file, mine, 0).place;
    return prepared;
}

static void take_many(size_t count) {
    bb_place places[3];
    EXPECT(bb_file_party_take_many(mine, places, count).number == count);
    EXPECT(bb_file_party_deallocate_many(mine, places, count).number == count);
}

static void note_open(void) {
    bb_pool_file_figures figures;
    EXPECT(bb_pool_file_open(&file, path, &options) == BB_OK);
    EXPECT(bb_pool_file_info(file, &figures) == BB_OK);
    *noted = figures.held;
}

static void operate(int what, struct prepared with) {
    bb_message got;
    switch (what) {
    case OPENS:
    case MAKES: EXPECT(bb_pool_file_open(&file, path, &options) == BB_OK); break;
    case JOINS: EXPECT(bb_pool_file_join(file, &mine) == BB_OK); break;
    case TAKES: take_many(1); break;
    case BURSTS: take_many(3); break;
    case POSTS: EXPECT(bb_pool_file_post(file, mine, 2, with.place, 33) == BB_OK); break;
    case RECEIVES:
        got = bb_pool_file_take(file, mine, 0);
        EXPECT(be_done_with(file, mine, 0, got.place) == BB_OK);
        EXPECT(bb_file_party_deallocate(mine, got.place) == BB_OK);
        break;
    case PUTS_BACK:
        got = bb_pool_file_take(file, mine, 0);
        EXPECT(bb_pool_file_detach(file, mine, got.place).number == got.number);
        break;
    case DETACHES: EXPECT(bb_pool_file_detach(file, mine, with.place).code == BB_OK); break;
    case ATTACHES: EXPECT(bb_pool_file_attach(file, mine, with.number).code == BB_OK); break;
    case REAPS: EXPECT(bb_pool_file_reap(file, BB_REAP_HELD, NULL) == BB_OK); break;
    case GIVES_ALL_BACK: EXPECT(bb_pool_file_give_all_back(file, mine) == BB_OK); break;
    case LEAVES: EXPECT(bb_pool_file_leave(file, mine) == BB_OK); break;
    case NOTES_TAKE:
        got = bb_pool_file_take(file, mine, 0);
        noted[0] = got.code;
        noted[1] = (uint32_t)got.len;
        break;
    case POSTS_TWO:
        EXPECT(bb_pool_file_post(file, mine, 0, with.place, 33) == BB_OK);
        post_id(file, mine, 0, 26);
        break;
    case IS_DONE: EXPECT(bb_file_party_done(mine, with.place) == BB_OK); break;
    case PUTS_TAKEN_BACK: EXPECT(bb_pool_file_detach(file, mine, with.place).code == BB_OK); break;
    case NOTES_LOOK:
        got = bb_pool_file_look(file, 0);
        *noted = got.code == BB_OK ? (uint32_t)got.len : NO_LENGTH + got.code;
        break;
    case NOTES_OPEN: note_open(); break;
    case REAPS_DETACHED: EXPECT(bb_pool_file_reap(file, BB_REAP_DEAD, NULL) == BB_OK); break;
    default: EXPECT(bb_pool_file_close(file) == BB_OK);
    }
}

// Starts an operation in a child, which is stopped right before it.
static pid_t start(int what, uint32_t number) {
    int status;
    const pid_t child = fork();
    if (child == 0) {
        end_with_parent();
        move_mappings(4096);
        const struct prepared prepared = prepare(what, number);
        ptrace(PTRACE_TRACEME, 0, NULL, NULL);
        raise(SIGSTOP);
        operate(what, prepared);
        raise(SIGUSR1);
        _exit(0);
    }
    EXPECT(waitpid(child, &status, 0) == child);
    EXPECT(WIFSTOPPED(status) && WSTOPSIG(status) == SIGSTOP);
    return child;
}

// Has the child go that many instructions far. Returns whether the operation ended before.
static bool go(pid_t child, uint32_t steps) {
    int status;
    for (uint32_t step = 0; step < steps; step++) {
        ptrace(PTRACE_SINGLESTEP, child, NULL, NULL);
        EXPECT(waitpid(child, &status, 0) == child && WIFSTOPPED(status));
        if (WSTOPSIG(status) == SIGUSR1)
            return true;
        EXPECT(WSTOPSIG(status) == SIGTRAP);
    }
    return false;
}

static void go_on(pid_t child) {
    int status;
    ptrace(PTRACE_CONT, child, NULL, NULL);
    EXPECT(waitpid(child, &status, 0) == child);
    EXPECT(WIFSTOPPED(status) && WSTOPSIG(status) == SIGUSR1);
}

static void end_killed(pid_t child) {
    int status;
    EXPECT(kill(child, SIGKILL) == 0);
    EXPECT(waitpid(child, &status, 0) == child && WIFSIGNALED(status));
}

// Runs the operation in a child, that many instructions far, and kills it. Returns whether the
// operation ended before.
static bool run_steps(int what, uint32_t steps, uint32_t number) {
    const pid_t child = start(what, number);
    const bool ended = go(child, steps);
    end_killed(child);
    return ended;
}

static bool is_long(int what) {
    return what == OPENS || what == MAKES || what == CLOSES || what == LEAVES || what == JOINS ||
           what == REAPS || what == GIVES_ALL_BACK;
}

// How often an operation was done when its process was killed, and how often it wasn't.
struct outcome {
    uint32_t done;
    uint32_t undone;
};

static void note(struct outcome *outcome, bool is_done) {
    if (is_done)
        outcome->done++;
    else
        outcome->undone++;
}

static bool step_make(uint32_t steps) {
    bb_pool_file *ours;
    bb_pool_file_figures figures;
    const bool ended = run_steps(MAKES, steps, 0);
    EXPECT(bb_pool_file_open(&ours, path, &options) == BB_OK);
    EXPECT(bb_pool_file_info(ours, &figures) == BB_OK);
    EXPECT(figures.held + figures.detached + figures.wrong + figures.alive == 0);
    EXPECT(bb_pool_file_close(ours) == BB_OK);
    return ended;
}

// Looks at what a killed `detach` or `attach` by number leaves.
static void check_number(bb_pool_file *ours, int what, uint32_t detached, struct outcome *outcome) {
    bb_pool_file_figures figures;
    const uint32_t messages = what == DETACHES ? options.depth : 0;
    if (what == DETACHES) {
        EXPECT(detached == messages || detached == messages + 1);
        note(outcome, detached == messages + 1);
    } else {
        EXPECT(detached <= 1);
        note(outcome, detached == 0);
    }
    // The living sender's bucket stays detached, the dead one's is given back.
    const uint32_t living = what == ATTACHES && detached == 1 ? 1 : 0;
    EXPECT(bb_pool_file_reap(ours, BB_REAP_DEAD, NULL) == BB_OK);
    EXPECT(bb_pool_file_info(ours, &figures) == BB_OK);
    EXPECT(figures.messages == messages && figures.detached == messages + living);
}

// Kills a process that many steps into the operation, and looks at what it leaves: each bucket is
// free, but for those of messages, and each message was sent or not. The other messages of the
// slots come in order, and the slots have as much room as is left.
static bool step_once(int what, uint32_t steps, struct outcome *outcome) {
    bb_pool_file *ours;
    bb_file_party *party;
    bb_pool_file_figures figures;
    EXPECT(bb_pool_file_open(&ours, path, &options) == BB_OK);
    EXPECT(bb_pool_file_join(ours, &party) == BB_OK);
    // How many messages come before or after the one that the operation is about.
    const uint32_t others = options.depth - 1;
    for (uint32_t slot = 0; slot < 3; slot++)
        turn(ours, party, slot, others);
    const bb_chunk chunk = bb_file_party_take(party);
    fill(chunk.place, 36);
    const uint32_t number = (uint32_t)bb_file_party_number_at(party, chunk.place).number;
    if (what == ATTACHES)
        EXPECT(bb_pool_file_detach(ours, party, chunk.place).code == BB_OK);
    else
        EXPECT(bb_pool_file_post(ours, party, 0, chunk.place, 44) == BB_OK);
    const bool has_dead = what == JOINS || what == REAPS || what == OPENS;
    if (has_dead)
        leave_dead_party();
    for (uint32_t at = 0; at < others; at++) {
        if (what != ATTACHES)
            post_id(ours, party, 0, 10 + at);
        if (has_dead)
            post_id(ours, party, 1, 20 + at);
        if (what == POSTS)
            post_id(ours, party, 2, 30 + at);
    }
    const bool ended = run_steps(what, steps, number);
    EXPECT(bb_pool_file_reap(ours, BB_REAP_HELD, NULL) == BB_OK);
    EXPECT(bb_pool_file_info(ours, &figures) == BB_OK);
    EXPECT(figures.held == 0 && figures.wrong == 0 && figures.alive == 1);
    if (what == ATTACHES || what == DETACHES)
        check_number(ours, what, figures.detached, outcome);
    else
        EXPECT(figures.detached == figures.messages);
    if (has_dead) {
        const bb_message of_dead = bb_pool_file_take(ours, party, 1);
        EXPECT(of_dead.code == BB_OK && of_dead.len == 9 && is_filled(of_dead.place, 77));
        expect_ids(ours, party, 1, 20, others);
    }
    if (what == POSTS) {
        expect_ids(ours, party, 2, 30, others);
        const bb_message posted = bb_pool_file_take(ours, party, 2);
        if (posted.code == BB_OK)
            EXPECT(id_of(posted) == 25);
        else
            EXPECT(posted.code == (others == 0 ? BB_DETACHED_EMPTY : BB_NOT_HELD));
        note(outcome, posted.code == BB_OK);
        EXPECT(fill_up(ours, party, 2) == (posted.code == BB_OK ? 0 : 1));
    }
    const bool is_there = figures.messages == (has_dead ? 2 : 1) * options.depth;
    if (what == RECEIVES)
        note(outcome, !is_there);
    else if (what != POSTS)
        EXPECT(is_there == (what != ATTACHES));
    if (what != ATTACHES && (what == POSTS || is_there)) {
        const bb_message first = bb_pool_file_take(ours, party, 0);
        EXPECT(first.code == BB_OK && first.number == number && id_of(first) == 36);
    }
    expect_ids(ours, party, 0, 10, what == ATTACHES ? 0 : others);
    if (what != ATTACHES)
        EXPECT(fill_up(ours, party, 0) == (what == RECEIVES && !is_there ? 1 : 0));
    EXPECT(bb_pool_file_close(ours) == BB_OK);
    return ended;
}

static int run_step(uint32_t long_stride) {
    uint32_t kills = 0;
    keep_processor();
    for (int what = 0; what < OPERATIONS; what++) {
        const uint32_t stride = is_long(what) ? long_stride : 1;
        struct outcome outcome = {0, 0};
        uint32_t steps = 1;
        for (bool ended = false; !ended; steps += stride) {
            unlink(path);
            ended = what == MAKES ? step_make(steps) : step_once(what, steps, &outcome);
            kills++;
        }
        const bool has_outcome =
            what == POSTS || what == RECEIVES || what == DETACHES || what == ATTACHES;
        EXPECT(!has_outcome || (outcome.done > 0 && outcome.undone > 0));
        printf("kills: %-24s %5u instructions, killed after each", NAMES[what], steps - stride);
        if (stride > 1)
            printf(" %uth", stride);
        if (has_outcome)
            printf("; done after %u, not done after %u", outcome.done, outcome.undone);
        puts("");
    }
    printf("kills: %u by single steps: 0 wrong, 0 lost\n", kills);
    return 0;
}

// PAUSE

// Leaves a bucket that a dead party has detached by its number, which is returned.
static uint32_t leave_detached(void) {
    uint32_t *number = mmap(NULL, 4096, PROT_READ | PROT_WRITE, MAP_SHARED | MAP_ANONYMOUS, -1, 0);
    EXPECT(number != MAP_FAILED);
    const pid_t child = fork();
    if (child == 0) {
        EXPECT(bb_pool_file_open(&file, path, NULL) == BB_OK);
        EXPECT(bb_pool_file_join(file, &mine) == BB_OK);
        *number = (uint32_t)bb_pool_file_detach(file, mine, bb_file_party_take(mine).place).number;
        _exit(0);
    }
    EXPECT(waitpid(child, NULL, 0) == child);
    const uint32_t detached = *number;
    munmap(number, 4096);
    return detached;
}

// While a reap of detached buckets is stopped, another party attaches one, gives it back, takes it
// again, and posts it. The message stays.
static bool pause_reap(bb_pool_file *ours, bb_file_party *party, uint32_t steps) {
    const uint32_t number = leave_detached();
    const pid_t child = start(REAPS_DETACHED, 0);
    const bool ended = go(child, steps);
    const bb_chunk got = bb_pool_file_attach(ours, party, number);
    if (got.code == BB_OK) {
        EXPECT(bb_file_party_deallocate(party, got.place) == BB_OK);
        EXPECT(bb_file_party_take(party).place == got.place);
        fill(got.place, 55);
        EXPECT(bb_pool_file_post(ours, party, 0, got.place, 17) == BB_OK);
    }
    if (!ended)
        go_on(child);
    end_killed(child);
    const bb_message message = bb_pool_file_take(ours, party, 0);
    if (got.code == BB_OK)
        EXPECT(message.code == BB_OK && message.len == 17 && is_filled(message.place, 55));
    else
        EXPECT(message.code == BB_DETACHED_EMPTY);
    return ended;
}

// Expects that the flag of the bucket with this number has this state, and names this party or
// slot.
static void expect_flag(bb_pool_file *ours, uint32_t number, uint32_t state, size_t by) {
    bb_holder flag;
    EXPECT(bb_pool_file_holder(ours, number, &flag) == BB_OK);
    EXPECT(flag.state == state && flag.party == by);
}

// A take by a child, which is stopped, and what another party got from the same slot.
struct stopped_take {
    pid_t child;
    bool ended;
    bb_message message;
};

// Posts a message into slot 0, stops a child after this many instructions of a take of it, and then
// lets `party` take it.
static struct stopped_take stop_take(bb_pool_file *ours, bb_file_party *party, uint32_t steps) {
    const bb_chunk chunk = bb_file_party_take(party);
    fill(chunk.place, 36);
    EXPECT(bb_pool_file_post(ours, party, 0, chunk.place, 44) == BB_OK);
    const pid_t child = start(NOTES_TAKE, 0);
    const bool ended = go(child, steps);
    return (struct stopped_take){child, ended, bb_pool_file_take(ours, party, 0)};
}

// While a take is stopped, another party takes the message, is done with it, and detaches its
// bucket by number. The take gets nothing then, and the bucket stays detached by its sender: a reap
// after the taker has died doesn't free it.
static bool pause_take(bb_pool_file *ours, bb_file_party *party, uint32_t steps) {
    const struct stopped_take take = stop_take(ours, party, steps);
    const bb_message message = take.message;
    if (message.code == BB_OK) {
        EXPECT(be_done_with(ours, party, 0, message.place) == BB_OK);
        fill(message.place, 55);
        EXPECT(bb_pool_file_detach(ours, party, message.place).code == BB_OK);
    }
    if (!take.ended)
        go_on(take.child);
    if (message.code == BB_OK) {
        uint32_t freed = 1;
        EXPECT(*noted == BB_NOT_HELD || *noted == BB_DETACHED_EMPTY);
        expect_flag(ours, message.number, BB_DETACHED, bb_file_party_number(party).number);
        end_killed(take.child);
        EXPECT(bb_pool_file_reap(ours, BB_REAP_DEAD, &freed) == BB_OK && freed == 0);
        const bb_chunk back = bb_pool_file_attach(ours, party, message.number);
        EXPECT(back.code == BB_OK && is_filled(back.place, 55));
    } else {
        EXPECT(*noted == BB_OK);
        end_killed(take.child);
    }
    return take.ended;
}

// While a take is stopped, another party takes the message, is done with it, and posts its bucket
// to another slot. The take gets nothing then, and the message can be taken from there.
static bool pause_posted(bb_pool_file *ours, bb_file_party *party, uint32_t steps) {
    const struct stopped_take take = stop_take(ours, party, steps);
    const bb_message message = take.message;
    if (message.code == BB_OK) {
        EXPECT(be_done_with(ours, party, 0, message.place) == BB_OK);
        fill(message.place, 55);
        EXPECT(bb_pool_file_post(ours, party, 1, message.place, 17) == BB_OK);
    }
    if (!take.ended)
        go_on(take.child);
    if (message.code == BB_OK) {
        EXPECT(*noted == BB_NOT_HELD || *noted == BB_DETACHED_EMPTY);
        expect_flag(ours, message.number, BB_SENT, 1);
        const bb_message again = bb_pool_file_take(ours, party, 1);
        EXPECT(again.code == BB_OK && again.len == 17 && is_filled(again.place, 55));
        EXPECT(be_done_with(ours, party, 1, again.place) == BB_OK);
    } else {
        EXPECT(*noted == BB_OK);
    }
    end_killed(take.child);
    return take.ended;
}

// While a look is stopped, a party takes the message, is done with it, and posts its bucket with
// another length: to the same slot, to another one, or to both. Or it posts another bucket to the
// slot. The look finds a message that the slot had, with its length, or that the slot is empty. In
// a slot of a greater depth, a later message is in another cell, so the slot may be found empty.
static bool pause_look(bb_pool_file *ours, bb_file_party *party, uint32_t steps) {
    enum {
        TO_THE_SAME,
        TO_ANOTHER,
        TO_BOTH,
        OF_ANOTHER,
        WAYS
    };

    const uint32_t later[WAYS] = {33, NO_LENGTH + BB_DETACHED_EMPTY, 33, 22};
    const uint32_t way = steps % WAYS;
    const bb_chunk chunk = bb_file_party_take(party);
    EXPECT(bb_pool_file_post(ours, party, 0, chunk.place, 44) == BB_OK);
    const pid_t child = start(NOTES_LOOK, 0);
    const bool ended = go(child, steps);
    EXPECT(bb_pool_file_take(ours, party, 0).len == 44);
    EXPECT(be_done_with(ours, party, 0, chunk.place) == BB_OK);
    if (way == TO_ANOTHER || way == TO_BOTH) {
        EXPECT(bb_pool_file_post(ours, party, 1, chunk.place, 17) == BB_OK);
        EXPECT(bb_pool_file_take(ours, party, 1).len == 17);
    }
    if (way == TO_BOTH)
        EXPECT(be_done_with(ours, party, 1, chunk.place) == BB_OK);
    if (way == TO_THE_SAME || way == TO_BOTH)
        EXPECT(bb_pool_file_post(ours, party, 0, chunk.place, 33) == BB_OK);
    if (way == OF_ANOTHER)
        EXPECT(bb_pool_file_post(ours, party, 0, bb_file_party_take(party).place, 22) == BB_OK);
    if (!ended)
        go_on(child);
    const bool is_empty = options.depth > 1 && *noted == NO_LENGTH + BB_DETACHED_EMPTY;
    EXPECT(*noted == 44 || *noted == later[way] || is_empty);
    end_killed(child);
    return ended;
}

// While a leave is stopped, another party joins and takes a bucket, which it keeps.
static bool pause_leave(bb_pool_file *ours, bb_file_party *party, uint32_t steps) {
    bb_file_party *other;
    const bb_chunk chunk = bb_file_party_take(party);
    fill(chunk.place, 36);
    EXPECT(bb_pool_file_post(ours, party, 0, chunk.place, 44) == BB_OK);
    const pid_t child = start(LEAVES, 0);
    const bool ended = go(child, steps);
    EXPECT(bb_pool_file_join(ours, &other) == BB_OK);
    const bb_chunk got = bb_file_party_take(other);
    EXPECT(got.code == BB_OK);
    if (!ended)
        go_on(child);
    end_killed(child);
    const uint32_t number = (uint32_t)bb_file_party_number_at(other, got.place).number;
    expect_flag(ours, number, BB_HELD, bb_file_party_number(other).number);
    EXPECT(bb_pool_file_take(ours, party, 0).len == 44);
    return ended;
}

static bool is_locked(int fd, off_t byte) {
    struct flock flock = {.l_type = F_WRLCK, .l_whence = SEEK_SET, .l_start = byte, .l_len = 1};
    EXPECT(fcntl(fd, F_OFD_GETLK, &flock) == 0);
    return flock.l_type != F_UNLCK;
}

// While an open is stopped, another file comes to have the path. If the open had no lock of the old
// file, it opens the new one.
static bool pause_open(bb_pool_file *ours, bb_file_party *party, uint32_t steps) {
    (void)ours;
    (void)party;
    bb_pool_file *other;
    bb_file_party *joined;
    const size_t length = strlen(path);
    path[length] = '2';
    EXPECT(bb_pool_file_open(&other, path, &options) == BB_OK);
    EXPECT(bb_pool_file_close(other) == BB_OK);
    const int fd = open(path, O_RDWR | O_CLOEXEC);
    EXPECT(fd >= 0);
    const pid_t child = start(NOTES_OPEN, 0);
    const bool ended = go(child, steps);
    const bool has_lock = is_locked(fd, 0) || is_locked(fd, 1);
    EXPECT(close(fd) == 0 && unlink(path) == 0);
    EXPECT(bb_pool_file_open(&other, path, &options) == BB_OK);
    EXPECT(bb_pool_file_join(other, &joined) == BB_OK);
    EXPECT(bb_file_party_take(joined).code == BB_OK);
    if (!ended)
        go_on(child);
    EXPECT(has_lock || *noted == 1);
    end_killed(child);
    EXPECT(bb_pool_file_close(other) == BB_OK && unlink(path) == 0);
    path[length] = 0;
    return ended;
}

// OF A GREATER DEPTH

// How often a scene had each of its outcomes.
static uint32_t outcomes[3];

static bool is_sent(bb_pool_file *ours, uint32_t number) {
    bb_holder flag;
    EXPECT(bb_pool_file_holder(ours, number, &flag) == BB_OK);
    return flag.state == BB_SENT;
}

// While a post is stopped, another party posts two messages, and takes one. The stopped message
// comes last if it wasn't in the slot then. If it was there and wasn't sent yet, it is passed, and
// comes next once it is sent.
static bool pause_passed(bb_pool_file *ours, bb_file_party *party, uint32_t steps) {
    static const uint64_t orders[3][3] = {{21, 22, 25}, {21, 25, 22}, {25, 21, 22}};
    turn(ours, party, 2, steps % options.depth);
    const pid_t child = start(POSTS, 0);
    const bool ended = go(child, steps);
    const bb_message found = bb_pool_file_look(ours, 2);
    uint32_t outcome = 0;
    if (found.code == BB_OK)
        outcome = is_sent(ours, found.number) ? 2 : 1;
    post_id(ours, party, 2, 21);
    post_id(ours, party, 2, 22);
    EXPECT(id_of(bb_pool_file_take(ours, party, 2)) == orders[outcome][0]);
    if (!ended)
        go_on(child);
    for (int at = 1; at < 3; at++)
        EXPECT(id_of(bb_pool_file_take(ours, party, 2)) == orders[outcome][at]);
    end_killed(child);
    outcomes[outcome]++;
    return ended;
}

// A post is stopped as soon as its message is in the slot, and then a take is stopped. The sender
// goes on, and posts a second message. The take gets the first one, or none.
static bool pause_take_again(bb_pool_file *ours, bb_file_party *party, uint32_t steps) {
    turn(ours, party, 0, steps % options.depth);
    const pid_t sender = start(POSTS_TWO, 0);
    while (bb_pool_file_look(ours, 0).code == BB_DETACHED_EMPTY)
        EXPECT(!go(sender, 1));
    const pid_t receiver = start(NOTES_TAKE, 0);
    const bool ended = go(receiver, steps);
    go_on(sender);
    if (!ended)
        go_on(receiver);
    if (noted[0] == BB_OK) {
        EXPECT(noted[1] == 33);
    } else {
        EXPECT(noted[0] == BB_NOT_HELD);
        EXPECT(id_of(bb_pool_file_take(ours, party, 0)) == 25);
    }
    EXPECT(id_of(bb_pool_file_take(ours, party, 0)) == 26);
    outcomes[noted[0] != BB_OK]++;
    end_killed(sender);
    end_killed(receiver);
    return ended;
}

// While a take is stopped, another party takes the message, is done with it, and posts its bucket
// to the same slot, and a message behind that. The take gets the message in that bucket, or none.
static bool pause_posted_behind(bb_pool_file *ours, bb_file_party *party, uint32_t steps) {
    turn(ours, party, 0, steps % options.depth);
    const struct stopped_take take = stop_take(ours, party, steps);
    const bb_message message = take.message;
    if (message.code == BB_OK) {
        EXPECT(bb_file_party_done(party, message.place) == BB_OK);
        fill(message.place, 25);
        EXPECT(bb_pool_file_post(ours, party, 0, message.place, 33) == BB_OK);
    }
    post_id(ours, party, 0, 26);
    if (!take.ended)
        go_on(take.child);
    if (message.code != BB_OK) {
        EXPECT(noted[0] == BB_OK && noted[1] == 44);
    } else if (noted[0] == BB_OK) {
        EXPECT(noted[1] == 33);
    } else {
        EXPECT(noted[0] == BB_NOT_HELD || noted[0] == BB_DETACHED_EMPTY);
        EXPECT(id_of(bb_pool_file_take(ours, party, 0)) == 25);
    }
    EXPECT(id_of(bb_pool_file_take(ours, party, 0)) == 26);
    end_killed(take.child);
    outcomes[message.code == BB_OK]++;
    return take.ended;
}

// While a party is stopped that is to be done with the oldest message, another one is done with the
// second one. The slot gets room for two when the first party is done.
static bool pause_done(bb_pool_file *ours, bb_file_party *party, uint32_t steps) {
    bb_pool_file_figures figures;
    turn(ours, party, 0, steps % options.depth);
    for (uint32_t at = 0; at < options.depth; at++)
        post_id(ours, party, 0, 21 + at);
    const pid_t child = start(IS_DONE, 0);
    const bool ended = go(child, steps);
    const bb_message second = bb_pool_file_take(ours, party, 0);
    EXPECT(id_of(second) == 22);
    EXPECT(bb_file_party_done(party, second.place) == BB_OK);
    EXPECT(bb_pool_file_info(ours, &figures) == BB_OK);
    const bool is_done = figures.messages == options.depth - 2;
    EXPECT(is_done || figures.messages == options.depth - 1);
    EXPECT(bb_pool_file_wait_empty(ours, 0, 0) == (is_done ? BB_OK : BB_FILE_TIMED_OUT));
    EXPECT(fill_up(ours, party, 0) == (is_done ? 2 : 0));
    if (!ended)
        go_on(child);
    EXPECT(fill_up(ours, party, 0) == (is_done ? 0 : 2));
    expect_ids(ours, party, 0, 23, options.depth - 2);
    end_killed(child);
    outcomes[is_done]++;
    return ended;
}

// While a party is stopped that puts back the older of two messages, another one takes the older
// one if it is back already, otherwise the younger one.
static bool pause_put_back(bb_pool_file *ours, bb_file_party *party, uint32_t steps) {
    turn(ours, party, 0, steps % options.depth);
    post_id(ours, party, 0, 21);
    post_id(ours, party, 0, 22);
    const uint32_t older = bb_pool_file_look(ours, 0).number;
    const pid_t child = start(PUTS_TAKEN_BACK, 0);
    const bool ended = go(child, steps);
    const bool is_back = is_sent(ours, older);
    EXPECT(id_of(bb_pool_file_take(ours, party, 0)) == (is_back ? 21 : 22));
    if (!ended)
        go_on(child);
    EXPECT(id_of(bb_pool_file_take(ours, party, 0)) == (is_back ? 22 : 21));
    end_killed(child);
    outcomes[is_back]++;
    return ended;
}

// While a look is stopped, another party posts a message behind the only one. The look finds the
// older one.
static bool pause_look_behind(bb_pool_file *ours, bb_file_party *party, uint32_t steps) {
    turn(ours, party, 0, steps % options.depth);
    post_id(ours, party, 0, 36);
    const pid_t child = start(NOTES_LOOK, 0);
    const bool ended = go(child, steps);
    post_id(ours, party, 0, 26);
    if (!ended)
        go_on(child);
    EXPECT(*noted == 44);
    end_killed(child);
    return ended;
}

// A scene of `pause`: it stops a process after that many instructions, and returns whether the
// operation had ended before.
struct scene {
    const char *name;
    bool (*play)(bb_pool_file *ours, bb_file_party *party, uint32_t steps);
    // It stops processes after each instruction whose number, less 1, is a multiple of this, or of
    // the argument of `pause` if this is 0.
    uint32_t stride;
    // Whether it is for slots of a greater depth, and then how many outcomes it has.
    bool is_deep;
    uint32_t outcomes;
};

static int run_pause(uint32_t long_stride) {
    static const struct scene scenes[] = {
        {"take", pause_take, 1, false, 0},
        {"take, posted again", pause_posted, 1, false, 0},
        {"look", pause_look, 1, false, 0},
        {"reap", pause_reap, 0, false, 0},
        {"leave", pause_leave, 0, false, 0},
        {"open", pause_open, 0, false, 0},
        {"look, posted behind", pause_look_behind, 5, true, 0},
        {"look", pause_look, 5, true, 0},
        {"take", pause_take, 1, true, 0},
        {"take, posted again", pause_posted, 1, true, 0},
        {"take, posted behind", pause_posted_behind, 1, true, 2},
        {"take, looks again", pause_take_again, 1, true, 2},
        {"post, passed", pause_passed, 1, true, 3},
        {"done", pause_done, 1, true, 2},
        {"put back", pause_put_back, 1, true, 2},
    };
    const bool is_deep = options.depth > 1;
    EXPECT(!is_deep || options.depth >= 3);
    keep_processor();
    noted = mmap(NULL, 4096, PROT_READ | PROT_WRITE, MAP_SHARED | MAP_ANONYMOUS, -1, 0);
    EXPECT(noted != MAP_FAILED);
    for (size_t at = 0; at < sizeof scenes / sizeof *scenes; at++) {
        const struct scene *scene = &scenes[at];
        if (scene->is_deep != is_deep)
            continue;
        const uint32_t stride = scene->stride == 0 ? long_stride : scene->stride;
        uint32_t steps = 1;
        memset(outcomes, 0, sizeof outcomes);
        for (bool ended = false; !ended; steps += stride) {
            bb_pool_file *ours;
            bb_file_party *party;
            bb_pool_file_figures figures;
            unlink(path);
            EXPECT(bb_pool_file_open(&ours, path, &options) == BB_OK);
            EXPECT(bb_pool_file_join(ours, &party) == BB_OK);
            ended = scene->play(ours, party, steps);
            EXPECT(is_deep || bb_pool_file_done(ours, party, 0) != BB_INVALID_ARGUMENT);
            EXPECT(bb_pool_file_close(ours) == BB_OK);
            EXPECT(bb_pool_file_open(&ours, path, NULL) == BB_OK);
            EXPECT(bb_pool_file_reap(ours, BB_REAP_DEAD, NULL) == BB_OK);
            EXPECT(bb_pool_file_info(ours, &figures) == BB_OK);
            EXPECT(figures.held + figures.wrong == 0 && figures.detached == figures.messages);
            EXPECT(bb_pool_file_close(ours) == BB_OK);
        }
        for (uint32_t outcome = 0; outcome < scene->outcomes; outcome++)
            EXPECT(outcomes[outcome] > 0);
        printf("kills: %-24s stopped after each", scene->name);
        if (stride > 1)
            printf(" %uth", stride);
        printf(" of %u instructions\n", steps - stride);
    }
    return 0;
}

int main(int argc, char **argv) {
    if (argc == 8 && strcmp(argv[1], "work") == 0)
        return run_worker(argv);
    int status = 2;
    if (argc > 2)
        snprintf(path, sizeof path, "%s/bb-kills-%d", argv[2], (int)getpid());
    if (argc == 7 && strcmp(argv[1], "run") == 0) {
        cached = (uint32_t)atoi(argv[4]);
        threads = (uint32_t)atoi(argv[5]);
        options.depth = (uint32_t)atoi(argv[6]);
        status = run((uint32_t)atoi(argv[3]));
    } else if (argc == 4 && strcmp(argv[1], "make") == 0) {
        status = run_make((uint32_t)atoi(argv[3]));
    } else if (argc == 5 && strcmp(argv[1], "step") == 0) {
        options.depth = (uint32_t)atoi(argv[4]);
        status = run_step((uint32_t)atoi(argv[3]));
    } else if (argc == 5 && strcmp(argv[1], "pause") == 0) {
        options.depth = (uint32_t)atoi(argv[4]);
        status = run_pause((uint32_t)atoi(argv[3]));
    } else {
        fprintf(stderr, "usage: kills run FOLDER KILLS CACHED THREADS DEPTH\n"
                        "       kills make FOLDER KILLS\n"
                        "       kills step FOLDER STRIDE DEPTH\n"
                        "       kills pause FOLDER STRIDE DEPTH\n");
    }
    unlink(path);
    return status;
}
