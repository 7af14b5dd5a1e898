// Makes lcores get objects from a mempool and put them back.
//
//     loop EAL-OPTIONS -- MILLISECONDS    prints how many objects go round in a second, in a table
//     loop EAL-OPTIONS -- check           checks the handler of bb_memory
//
// This is the loop of DPDK's own mempool_perf_autotest: an lcore gets `keep` objects, `bulk` at a
// time, and puts them back in the same way.
#include <malloc.h>
#include <pthread.h>
#include <rte_cycles.h>
#include <rte_debug.h>
#include <rte_eal.h>
#include <rte_launch.h>
#include <rte_lcore.h>
#include <rte_mempool.h>
#include <stdbool.h>
#include <stdio.h>
#include <stdlib.h>
#include <string.h>

enum {
    LCORES = 4,
    // The threads without an lcore that also run the loop in `check`.
    OTHERS = 2,
    MOST_KEPT = 512,
    CACHED = 512,
    // Enough for what each thread keeps and caches. A cache may have half as many again.
    OBJECTS = (LCORES + OTHERS) * (MOST_KEPT + CACHED * 3 / 2),
    OBJECT_SIZE = 2048,
    // How often the loop runs between two looks at the clock.
    ROUNDS = 64,
    TURNS = 3,
    CHECKED_MILLISECONDS = 100,
    // How many objects each lcore gets for another one to put: all lcores get all objects.
    SENT = OBJECTS / LCORES
};

static const char *const handlers[] = {"ring_mp_mc", "stack", "bb"};
static const unsigned caches[] = {0, CACHED};
static const unsigned keeps[] = {32, MOST_KEPT};
static const unsigned bulks[] = {1, 32};

// The work of all threads.
struct task {
    struct rte_mempool *mempool;
    unsigned keep;
    unsigned bulk;
    uint64_t cycles;
    // Whether each thread marks the objects that it has, and looks at the marks before it puts them.
    bool checks;
};

// The objects that each lcore has got and put back in a second.
static double rates[RTE_MAX_LCORE];
// The objects that each lcore has got for another one.
static void *sent[LCORES][SENT];

static void expect(bool holds, const char *what) {
    if (!holds)
        rte_exit(EXIT_FAILURE, "loop: not so: %s\n", what);
}

// Writes into each object which thread has it, and reads all of that again.
static void mark(void **objects, unsigned count) {
    for (unsigned at = 0; at < count; at++)
        *(void *volatile *)objects[at] = objects;
    for (unsigned at = 0; at < count; at++)
        expect(*(void *volatile *)objects[at] == objects, "no two threads have the same object");
}

static void go_round(const struct task *task) {
    void *objects[MOST_KEPT];
    for (unsigned at = 0; at < task->keep; at += task->bulk)
        if (rte_mempool_get_bulk(task->mempool, &objects[at], task->bulk) != 0)
            rte_exit(EXIT_FAILURE, "loop: a get failed\n");
    if (task->checks)
        mark(objects, task->keep);
    for (unsigned at = 0; at < task->keep; at += task->bulk)
        rte_mempool_put_bulk(task->mempool, &objects[at], task->bulk);
}

// Runs the loop. Returns how many objects went round in a second.
static double run_here(const struct task *task) {
    const uint64_t start = rte_get_timer_cycles();
    uint64_t now = start;
    double objects = 0;
    while (now - start < task->cycles) {
        for (unsigned round = 0; round < ROUNDS; round++)
            go_round(task);
        objects += (double)task->keep * ROUNDS;
        now = rte_get_timer_cycles();
    }
    return objects / (double)(now - start) * (double)rte_get_timer_hz();
}

static int run_lcore(void *task) {
    rates[rte_lcore_id()] = run_here(task);
    return 0;
}

static void *run_other(void *task) {
    run_here(task);
    return NULL;
}

// Runs a task on all lcores, or only on this one. Returns the objects of all in a second.
static double run(struct task *task, bool on_all) {
    double sum = 0;
    memset(rates, 0, sizeof(rates));
    if (on_all) {
        rte_eal_mp_remote_launch(run_lcore, task, CALL_MAIN);
        rte_eal_mp_wait_lcore();
    } else {
        run_lcore(task);
    }
    for (unsigned lcore = 0; lcore < RTE_MAX_LCORE; lcore++)
        sum += rates[lcore];
    return sum;
}

// Makes a mempool without memory.
static struct rte_mempool *make_empty(const char *handler, unsigned cached) {
    struct rte_mempool *made =
        rte_mempool_create_empty(handler, OBJECTS, OBJECT_SIZE, cached, 0, SOCKET_ID_ANY, 0);
    expect(made != NULL, "there is memory for a mempool");
    expect(rte_mempool_set_ops_byname(made, handler, NULL) == 0, "EAL has loaded the handler");
    return made;
}

static struct rte_mempool *make(const char *handler, unsigned cached) {
    struct rte_mempool *made = make_empty(handler, cached);
    expect(rte_mempool_populate_default(made) == OBJECTS, "there is memory for all objects");
    return made;
}

// Prints a row of the table: for each handler the best of some turns.
static void print_row(unsigned cached, bool on_all, unsigned keep, unsigned bulk, uint64_t cycles) {
    printf("%5u %6u %5u %5u", cached, on_all ? rte_lcore_count() : 1, keep, bulk);
    for (unsigned at = 0; at < RTE_DIM(handlers); at++) {
        struct task task = {make(handlers[at], cached), keep, bulk, cycles, false};
        double best = 0;
        for (unsigned turn = 0; turn < TURNS; turn++)
            best = RTE_MAX(best, run(&task, on_all));
        printf(" %10.1f", best / 1e6);
        rte_mempool_free(task.mempool);
    }
    puts("");
}

static void print_table(uint64_t cycles) {
    printf("Millions of objects in a second\n%5s %6s %5s %5s", "cache", "lcores", "keep", "bulk");
    for (unsigned at = 0; at < RTE_DIM(handlers); at++)
        printf(" %10s", handlers[at]);
    puts("");
    for (unsigned cache = 0; cache < RTE_DIM(caches); cache++)
        for (unsigned lcores = 0; lcores < 2; lcores++)
            for (unsigned keep = 0; keep < RTE_DIM(keeps); keep++)
                for (unsigned bulk = 0; bulk < RTE_DIM(bulks); bulk++)
                    print_row(caches[cache], lcores == 1, keeps[keep], bulks[bulk], cycles);
}

// Checks that no object is given to two threads, of which some have no lcore.
static void check_threads(unsigned cached, uint64_t cycles) {
    struct task task = {make("bb", cached), MOST_KEPT, 32, cycles, true};
    pthread_t others[OTHERS];
    for (unsigned at = 0; at < OTHERS; at++)
        expect(pthread_create(&others[at], NULL, run_other, &task) == 0, "a thread starts");
    run(&task, true);
    for (unsigned at = 0; at < OTHERS; at++)
        pthread_join(others[at], NULL);
    expect(rte_mempool_avail_count(task.mempool) == OBJECTS, "each object is back");
    rte_mempool_free(task.mempool);
}

static int get_for_another(void *mempool) {
    void **objects = sent[rte_lcore_index(-1)];
    expect(rte_mempool_get_bulk(mempool, objects, SENT) == 0, "there are objects");
    return 0;
}

// Checks that an lcore may put back the objects of all others, that a put of what isn't in use
// changes nothing, and that a mempool may be freed while objects are in use.
static void check_puts(void) {
    struct rte_mempool *mempool = make("bb", 0);
    static void *mixed[OBJECTS];
    unsigned count = 0;
    rte_eal_mp_remote_launch(get_for_another, mempool, CALL_MAIN);
    rte_eal_mp_wait_lcore();
    expect(rte_mempool_avail_count(mempool) == 0, "each object is in use");
    rte_mempool_put(mempool, RTE_PTR_ADD(sent[0][0], 1));
    rte_mempool_put(mempool, &count);
    expect(rte_mempool_avail_count(mempool) == 0, "wrong puts change nothing");
    for (unsigned at = 0; at < SENT; at++)
        for (unsigned lcore = 0; lcore < LCORES; lcore++)
            mixed[count++] = sent[lcore][at];
    // The first object is put a second time in place of another one, which stays in use.
    mixed[2 * LCORES] = mixed[0];
    rte_mempool_put_bulk(mempool, mixed, count);
    expect(rte_mempool_avail_count(mempool) == OBJECTS - 1, "each object but one is back");
    expect(rte_mempool_get_bulk(mempool, mixed, OBJECTS) != 0, "one object is missing");
    expect(rte_mempool_avail_count(mempool) == OBJECTS - 1, "a get that fails changes nothing");
    rte_mempool_free(mempool);
}

// Checks that the memory of a mempool is freed, and that one without memory may be freed.
static void check_free(void) {
    const size_t before = mallinfo2().uordblks;
    rte_mempool_free(make("bb", 0));
    rte_mempool_free(make_empty("bb", 0));
    expect(mallinfo2().uordblks == before, "nothing is lost");
}

static void check(uint64_t cycles) {
    for (unsigned cache = 0; cache < RTE_DIM(caches); cache++)
        check_threads(caches[cache], cycles);
    check_puts();
    check_free();
    puts("DPDK: no object is given twice, any lcore may put it, and wrong puts change nothing");
}

int main(int count, char **words) {
    const int used = rte_eal_init(count, words);
    if (used < 0 || count - used != 2 || rte_lcore_count() != LCORES)
        rte_exit(EXIT_FAILURE, "usage: loop EAL-OPTIONS -- MILLISECONDS|check, with 4 lcores\n");
    const char *word = words[used + 1];
    const uint64_t per_millisecond = rte_get_timer_hz() / 1000;
    if (strcmp(word, "check") == 0)
        check(CHECKED_MILLISECONDS * per_millisecond);
    else
        print_table(strtoull(word, NULL, 10) * per_millisecond);
    return rte_eal_cleanup() == 0 ? EXIT_SUCCESS : EXIT_FAILURE;
}
