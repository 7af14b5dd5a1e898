// Makes `CALLS` allocations and the same number of frees with each allocator, and `GROUPS` calls
// for `GROUP` buckets each. So `count` can count with callgrind how many instructions a call
// executes. The argument is the number of buckets that a party caches.
#define BB_PLACES_ARE_NUMBERS
#include <bb_memory.h>
#include <stdlib.h>

enum {
    CALLS = 1000,
    BURST = 8,
    GROUP = 32,
    GROUPS = 125,
    START = 4096,
    BUCKETS = 64,
};

static const size_t region_size = (size_t)1 << 40;

static void expect(uint32_t code) {
    if (code != BB_OK)
        abort();
}

static void call_bump(void) {
    bb_bump bump = BB_EMPTY;
    expect(bb_bump_init(&bump, START, region_size));
    for (int i = 0; i < CALLS; i++)
        expect(bb_bump_allocate(&bump, 48, 8).code);
}

static void call_one_chunk(void) {
    bb_one_chunk chunk = BB_EMPTY;
    expect(bb_one_chunk_init(&chunk, START, region_size));
    for (int i = 0; i < CALLS; i++)
        expect(bb_one_chunk_deallocate(&chunk, bb_one_chunk_allocate(&chunk, 48, 8).place));
}

static void call_pool(void) {
    bb_pool pool = BB_EMPTY;
    size_t taken[BURST];
    expect(bb_pool_init(&pool, 128, 8, START, BUCKETS * 128));
    for (int burst = 0; burst < CALLS / BURST; burst++) {
        for (int i = 0; i < BURST; i++)
            taken[i] = bb_pool_take(&pool).place;
        for (int i = 0; i < BURST; i++)
            expect(bb_pool_deallocate(&pool, taken[i]));
    }
}

static void call_party(uint32_t cached) {
    bb_shared_pool pool = BB_EMPTY;
    bb_pool_party party = BB_EMPTY;
    size_t taken[BURST];
    expect(bb_shared_pool_init(&pool, 128, 8, START, BUCKETS * 128, 1));
    expect(bb_shared_pool_join(&pool, &party));
    expect(bb_pool_party_cache(&party, cached));
    for (int burst = 0; burst < CALLS / BURST; burst++) {
        for (int i = 0; i < BURST; i++)
            taken[i] = bb_pool_party_take(&party).place;
        for (int i = 0; i < BURST; i++)
            expect(bb_pool_party_deallocate(&party, taken[i]));
    }
}

static void expect_all(bb_number result) {
    if (result.code != BB_OK || result.number != GROUP)
        abort();
}

static void call_pool_for_many(void) {
    bb_pool pool = BB_EMPTY;
    size_t taken[GROUP];
    expect(bb_pool_init(&pool, 128, 8, START, BUCKETS * 128));
    for (int group = 0; group < GROUPS; group++) {
        expect_all(bb_pool_take_many(&pool, taken, GROUP));
        expect_all(bb_pool_deallocate_many(&pool, taken, GROUP));
    }
}

// One party allocates buckets, and frees them, or sends them by their numbers to the other one,
// which frees them.
static void call_parties_for_many(void) {
    bb_shared_pool pool = BB_EMPTY;
    bb_pool_party sender = BB_EMPTY;
    bb_pool_party receiver = BB_EMPTY;
    size_t taken[GROUP];
    uint32_t sent[GROUP];
    expect(bb_shared_pool_init(&pool, 128, 8, START, BUCKETS * 128, 2));
    expect(bb_shared_pool_join(&pool, &sender));
    expect(bb_shared_pool_join(&pool, &receiver));
    const uint32_t from = (uint32_t)bb_pool_party_number(&sender).number;
    for (int group = 0; group < GROUPS; group++) {
        expect_all(bb_pool_party_take_many(&sender, taken, GROUP));
        expect_all(bb_pool_party_deallocate_many(&sender, taken, GROUP));
        expect_all(bb_pool_party_take_many_detached(&sender, sent, GROUP));
        expect_all(bb_pool_party_return_many(&receiver, sent, GROUP, from));
    }
}

int main(int argc, char **argv) {
    call_bump();
    call_one_chunk();
    call_pool();
    call_pool_for_many();
    call_parties_for_many();
    call_party(argc > 1 ? (uint32_t)atoi(argv[1]) : 0);
}
