// A model of shared pools, their parties, caches and detached buckets, in one thread. There are two
// handles of pools, three `bb_detached`, and parties that belong to either pool or to one that was
// abandoned.
#include "model.h"

enum {
    POOLS = 2,
    PARTIES = 5,
    DETACHED = 3,
    // Pools that exist: one in each handle, and for each party and each `bb_detached` one that was
    // abandoned.
    PLACES = POOLS + PARTIES + DETACHED,
    NONE = PLACES,
    MOST = 24,
    MOST_PARTIES = 4
};

// Where a bucket is.
typedef enum {
    FREE,
    HELD,
    CACHED,
    IN_DETACHED,
    BY_NUMBER
} a_state;

typedef struct {
    a_state state;
    // The party that holds, caches or has detached it.
    uint32_t party;
} a_bucket;

typedef struct {
    bool joined;
    bool abandoned;
    uint32_t most;
    // The numbers of the buckets that it caches, the last one last.
    uint32_t cached[MOST];
    uint32_t count;
} a_party;

// A pool that exists, with a start that no other one has.
typedef struct {
    cut of;
    uint32_t parties;
    a_party party[MOST_PARTIES];
    a_bucket bucket[MOST];
} a_pool;

// A `bb_detached`, and the bucket that is in it.
typedef struct {
    bool made;
    uint32_t pool;
    uint32_t bucket;
    size_t len;
} a_detached;

static bb_shared_pool pools[POOLS];
static bb_pool_party parties[PARTIES];
static bb_detached detached[DETACHED];
static a_pool all[PLACES];
// Which pool a handle has, or NONE, and the number of a party there.
static uint32_t pool_of[POOLS];
static uint32_t party_pool[PARTIES];
static uint32_t party_number[PARTIES];
static a_detached detached_of[DETACHED];

// Returns the pool of a party's handle, or NULL.
static a_pool *pool_of_party(uint32_t handle) {
    return party_pool[handle] == NONE ? NULL : &all[party_pool[handle]];
}

// Returns whether a pool is in a handle, has a joined party, or a bucket of it is in a
// `bb_detached`.
static bool exists(uint32_t at) {
    for (uint32_t handle = 0; handle < POOLS; handle++)
        if (pool_of[handle] == at)
            return true;
    for (uint32_t handle = 0; handle < PARTIES; handle++)
        if (party_pool[handle] == at)
            return true;
    for (uint32_t handle = 0; handle < DETACHED; handle++)
        if (detached_of[handle].pool == at)
            return true;
    return false;
}

// Returns whether the start of bucket 0 is that of a pool that exists.
static bool is_start(wide first) {
    for (uint32_t at = 0; at < PLACES; at++)
        if (exists(at) && all[at].of.first == first)
            return true;
    return false;
}

// Returns whether the bucket is held by the party and not cached.
static bool is_held(const a_pool *pool, int64_t bucket, uint32_t party) {
    return bucket >= 0 && pool->bucket[bucket].state == HELD && pool->bucket[bucket].party == party;
}

// Returns whether the flag says that the party holds the bucket: it holds it or caches it.
static bool is_flagged(const a_pool *pool, uint32_t bucket, uint32_t party) {
    a_state state = pool->bucket[bucket].state;
    return (state == HELD || state == CACHED) && pool->bucket[bucket].party == party;
}

static uint32_t count_of(const a_pool *pool) {
    return (uint32_t)pool->of.count;
}

static void init(uint32_t handle) {
    size_t bucket_size = below(4) == 0 ? edge() : below(100);
    size_t align = edge_align();
    size_t start = below(2) == 0 ? edge() : (size_t)next() >> 1;
    size_t size = below(4) == 0 ? edge() : below(3000);
    uint32_t count = below(MOST_PARTIES + 1);
    uint32_t buckets = below(2) == 0 ? 0 : below(MOST);
    cut into;
    uint32_t expected = cut_into(bucket_size, align, start, size, count > 0, &into);
    if (expected == BB_OK && (into.count > MOST || is_start(into.first)))
        return;
    if (pool_of[handle] != NONE)
        expected = BB_ALREADY_INITIALIZED;
    if (buckets == 0) {
        EXPECT(is_code(bb_shared_pool_init(&pools[handle], bucket_size, align, start, size, count),
                       expected));
    } else {
        if (expected == BB_OK && into.count < buckets)
            expected = BB_NO_BUCKET;
        EXPECT(is_code(bb_shared_pool_init_at_least(&pools[handle], bucket_size, align, start, size,
                                                    count, buckets),
                       expected));
    }
    if (expected == BB_OK) {
        uint32_t at = 0;
        while (exists(at))
            at++;
        memset(&all[at], 0, sizeof all[at]);
        all[at].of = into;
        all[at].parties = count;
        pool_of[handle] = at;
    }
}

static void destroy(uint32_t handle) {
    uint32_t expected = BB_OK;
    if (pool_of[handle] == NONE) {
        expected = BB_UNINITIALIZED;
    } else {
        const a_pool *pool = &all[pool_of[handle]];
        for (uint32_t bucket = 0; bucket < count_of(pool); bucket++)
            if (pool->bucket[bucket].state == IN_DETACHED ||
                pool->bucket[bucket].state == BY_NUMBER)
                expected = BB_BUCKET_DETACHED;
        for (uint32_t party = 0; party < pool->parties; party++)
            if (pool->party[party].joined || pool->party[party].abandoned)
                expected = BB_PARTIES_JOINED;
    }
    EXPECT(is_code(bb_shared_pool_destroy(&pools[handle]), expected));
    EXPECT(pools[handle].made == (expected == BB_PARTIES_JOINED || expected == BB_BUCKET_DETACHED));
    if (expected == BB_OK)
        pool_of[handle] = NONE;
}

static void abandon(uint32_t handle) {
    uint32_t expected = pool_of[handle] == NONE ? BB_UNINITIALIZED : BB_OK;
    EXPECT(is_code(bb_shared_pool_abandon(&pools[handle]), expected));
    EXPECT(pools[handle].at == NULL && !pools[handle].made);
    pool_of[handle] = NONE;
}

static void ask_pool(uint32_t handle) {
    bb_shared_pool_figures figures;
    bb_shared_pool_figures before;
    memset(&before, 0xa5, sizeof before);
    figures = before;
    bb_holder holder = {77, 77};
    uint32_t number = below(8) == 0 ? (uint32_t)edge() : below(MOST);
    uint32_t code = bb_shared_pool_info(&pools[handle], &figures);
    uint32_t holder_code = bb_shared_pool_holder(&pools[handle], number, &holder);
    if (pool_of[handle] == NONE) {
        EXPECT(is_code(code, BB_UNINITIALIZED) && is_code(holder_code, BB_UNINITIALIZED));
        EXPECT(memcmp(&figures, &before, sizeof before) == 0);
        EXPECT(holder.state == 77 && holder.party == 77);
        return;
    }
    const a_pool *pool = &all[pool_of[handle]];
    size_t held = 0;
    for (uint32_t bucket = 0; bucket < count_of(pool); bucket++)
        if (pool->bucket[bucket].state != FREE)
            held++;
    EXPECT(is_code(code, BB_OK) && figures.start_address == pool->of.first);
    EXPECT(figures.size == pool->of.size && figures.bucket_size == pool->of.bucket_size);
    EXPECT(figures.max_alignment == pool->of.align && figures.held_buckets == held);
    EXPECT(figures.number_of_buckets == pool->of.count);
    if (number >= pool->of.count) {
        EXPECT(is_code(holder_code, BB_NOT_A_BUCKET));
        EXPECT(holder.state == 77 && holder.party == 77);
        return;
    }
    const a_bucket *bucket = &pool->bucket[number];
    uint32_t state = BB_FREE;
    if (bucket->state == HELD || bucket->state == CACHED)
        state = BB_HELD;
    if (bucket->state == IN_DETACHED || bucket->state == BY_NUMBER)
        state = BB_DETACHED;
    EXPECT(is_code(holder_code, BB_OK) && holder.state == state);
    EXPECT(holder.party == (state == BB_FREE ? 0 : bucket->party));
}

static void join(uint32_t handle, uint32_t party) {
    a_pool *pool = pool_of[handle] == NONE ? NULL : &all[pool_of[handle]];
    bool by_number = below(2) == 0;
    uint32_t number = below(16) == 0 ? (uint32_t)edge() : below(MOST_PARTIES);
    uint32_t expected = BB_OK;
    uint32_t code;
    if (party_pool[party] != NONE) {
        expected = BB_ALREADY_INITIALIZED;
    } else if (pool == NULL) {
        expected = BB_UNINITIALIZED;
    } else if (by_number) {
        if (number >= pool->parties || pool->party[number].joined || pool->party[number].abandoned)
            expected = BB_NO_PARTY;
    } else {
        expected = BB_NO_PARTY;
        for (uint32_t at = 0; at < pool->parties; at++)
            if (!pool->party[at].joined && !pool->party[at].abandoned)
                expected = BB_OK;
    }
    if (by_number)
        code = bb_shared_pool_join_number(&pools[handle], number, &parties[party]);
    else
        code = bb_shared_pool_join(&pools[handle], &parties[party]);
    EXPECT(is_code(code, expected));
    if (expected == BB_OK && pool != NULL) {
        bb_number own = bb_pool_party_number(&parties[party]);
        EXPECT(is_code(own.code, BB_OK) && own.number < pool->parties);
        EXPECT(!by_number || own.number == number);
        a_party *joined = &pool->party[own.number];
        EXPECT(!joined->joined && !joined->abandoned);
        joined->joined = true;
        joined->most = 0;
        joined->count = 0;
        party_pool[party] = pool_of[handle];
        party_number[party] = (uint32_t)own.number;
    }
}

// Returns the party of a handle that isn't empty.
static a_party *of_handle(uint32_t handle) {
    return &all[party_pool[handle]].party[party_number[handle]];
}

// The flag of what a party cached says that it holds it, and that is all once its cache is gone.
static void hold_cached(uint32_t handle) {
    a_pool *pool = pool_of_party(handle);
    a_party *party = of_handle(handle);
    for (uint32_t at = 0; at < party->count; at++)
        pool->bucket[party->cached[at]].state = HELD;
    party->count = 0;
}

// Frees each bucket that the party holds or caches.
static void free_all(uint32_t handle) {
    a_pool *pool = pool_of_party(handle);
    for (uint32_t bucket = 0; bucket < count_of(pool); bucket++)
        if (is_flagged(pool, bucket, party_number[handle]))
            pool->bucket[bucket].state = FREE;
    of_handle(handle)->count = 0;
}

// Frees each bucket that the party caches.
static void free_cached(uint32_t handle) {
    a_pool *pool = pool_of_party(handle);
    a_party *party = of_handle(handle);
    for (uint32_t at = 0; at < party->count; at++)
        pool->bucket[party->cached[at]].state = FREE;
    party->count = 0;
}

static void end(uint32_t handle, uint32_t party) {
    bool leaves = below(2) == 0;
    uint32_t expected = BB_OK;
    uint32_t code;
    if (pool_of[handle] == NONE || party_pool[party] == NONE)
        expected = BB_UNINITIALIZED;
    else if (pool_of[handle] != party_pool[party])
        expected = BB_OTHER_POOL;
    if (leaves)
        code = bb_shared_pool_leave(&pools[handle], &parties[party]);
    else
        code = bb_shared_pool_forget(&pools[handle], &parties[party]);
    EXPECT(is_code(code, expected));
    if (expected == BB_OK) {
        EXPECT(parties[party].at == NULL && !parties[party].made);
        if (leaves)
            free_all(party);
        else
            hold_cached(party);
        of_handle(party)->joined = false;
        party_pool[party] = NONE;
    }
}

static void abandon_party(uint32_t party) {
    uint32_t expected = party_pool[party] == NONE ? BB_UNINITIALIZED : BB_OK;
    EXPECT(is_code(bb_pool_party_abandon(&parties[party]), expected));
    EXPECT(parties[party].at == NULL && !parties[party].made);
    if (party_pool[party] != NONE) {
        hold_cached(party);
        of_handle(party)->joined = false;
        of_handle(party)->abandoned = true;
        party_pool[party] = NONE;
    }
}

// Expects that a bucket was given to a party: the one that it cached last, otherwise any free one.
// None is given if none is free. Returns whether one was given.
static bool expect_any(uint32_t handle, bb_chunk chunk) {
    a_pool *pool = pool_of_party(handle);
    a_party *party = of_handle(handle);
    uint32_t free = 0;
    for (uint32_t bucket = 0; bucket < count_of(pool); bucket++)
        if (pool->bucket[bucket].state == FREE)
            free++;
    if (party->count == 0 && free == 0) {
        EXPECT(is_refused(chunk, BB_OUT_OF_MEMORY));
        return false;
    }
    EXPECT(is_code(chunk.code, BB_OK));
    int64_t number = number_at(&pool->of, chunk.place);
    EXPECT(number >= 0);
    if (party->count > 0) {
        party->count--;
        EXPECT(number == party->cached[party->count]);
    } else {
        EXPECT(pool->bucket[number].state == FREE);
    }
    pool->bucket[number].state = HELD;
    pool->bucket[number].party = party_number[handle];
    return true;
}

static void allocate(uint32_t handle) {
    const a_pool *pool = pool_of_party(handle);
    if (below(2) == 0) {
        bb_chunk taken = bb_pool_party_take(&parties[handle]);
        if (pool == NULL)
            EXPECT(is_refused(taken, BB_UNINITIALIZED));
        else
            expect_any(handle, taken);
        return;
    }
    size_t size = pool != NULL && below(4) > 0 ? pool->of.bucket_size - 1 + below(3) : edge();
    size_t align = edge_align();
    bb_chunk chunk = bb_pool_party_allocate(&parties[handle], size, align);
    if (pool == NULL)
        EXPECT(is_refused(chunk, BB_UNINITIALIZED));
    else if (!is_layout(size, align))
        EXPECT(is_refused(chunk, BB_INVALID_LAYOUT));
    else if (size > pool->of.bucket_size)
        EXPECT(is_refused(chunk, BB_SIZE_TOO_LARGE));
    else if (align > pool->of.align)
        EXPECT(is_refused(chunk, BB_ALIGNMENT_FAILURE));
    else
        expect_any(handle, chunk);
}

static void take_many(uint32_t handle) {
    size_t slots[MOST];
    uint32_t count = below(6);
    memset(slots, 0xa5, sizeof slots);
    bb_number taken = bb_pool_party_take_many(&parties[handle], count == 0 ? NULL : slots, count);
    if (party_pool[handle] == NONE) {
        EXPECT(has_none(taken, BB_UNINITIALIZED));
        return;
    }
    EXPECT(is_code(taken.code, BB_OK) && taken.number <= count);
    for (size_t at = 0; at < taken.number; at++) {
        bb_chunk chunk = {BB_OK, slots[at]};
        EXPECT(expect_any(handle, chunk));
    }
    if (taken.number < count) {
        bb_chunk none = {BB_OUT_OF_MEMORY, 0};
        EXPECT(!expect_any(handle, none));
    }
}

// Takes a bucket back in the model, if the party holds it and doesn't cache it. Returns whether it
// does.
static bool take_back(uint32_t handle, size_t place) {
    a_pool *pool = pool_of_party(handle);
    a_party *party = of_handle(handle);
    int64_t number = number_at(&pool->of, place);
    if (!is_held(pool, number, party_number[handle]))
        return false;
    if (party->count < party->most) {
        pool->bucket[number].state = CACHED;
        party->cached[party->count] = (uint32_t)number;
        party->count++;
    } else {
        pool->bucket[number].state = FREE;
    }
    return true;
}

// Returns a place that is mostly one of a bucket of the party's pool.
static size_t a_place(uint32_t handle) {
    return party_pool[handle] == NONE ? edge() : some_place(&pool_of_party(handle)->of);
}

static void deallocate(uint32_t handle) {
    size_t place = a_place(handle);
    uint32_t code = bb_pool_party_deallocate(&parties[handle], place);
    if (party_pool[handle] == NONE)
        EXPECT(is_code(code, BB_UNINITIALIZED));
    else
        EXPECT(is_code(code, take_back(handle, place) ? BB_OK : BB_NOT_HELD));
}

static void deallocate_many(uint32_t handle) {
    size_t places[4];
    uint32_t count = below(5);
    for (uint32_t at = 0; at < 4; at++)
        places[at] = a_place(handle);
    bb_number returned =
        bb_pool_party_deallocate_many(&parties[handle], count == 0 ? NULL : places, count);
    if (party_pool[handle] == NONE) {
        EXPECT(has_none(returned, BB_UNINITIALIZED));
        return;
    }
    size_t expected = 0;
    while (expected < count && take_back(handle, places[expected]))
        expected++;
    EXPECT(is_number(returned, expected));
}

static void cache(uint32_t handle) {
    uint32_t most = below(8) == 0 ? UINT32_MAX : below(6);
    uint32_t what = below(4);
    uint32_t code;
    if (what == 0)
        code = bb_pool_party_flush(&parties[handle]);
    else if (what == 1)
        code = bb_pool_party_give_all_back(&parties[handle]);
    else
        code = bb_pool_party_cache(&parties[handle], most);
    if (party_pool[handle] == NONE) {
        EXPECT(is_code(code, BB_UNINITIALIZED));
        return;
    }
    EXPECT(is_code(code, BB_OK));
    if (what == 1)
        free_all(handle);
    else
        free_cached(handle);
    if (what > 1)
        of_handle(handle)->most = most;
}

static void ask_party(uint32_t handle) {
    const a_pool *pool = pool_of_party(handle);
    size_t place = a_place(handle);
    uint32_t number = below(8) == 0 ? (uint32_t)edge() : below(MOST);
    bb_number own = bb_pool_party_number(&parties[handle]);
    bb_number holds = bb_pool_party_holds(&parties[handle], place);
    bb_chunk place_of = bb_pool_party_place_at(&parties[handle], number);
    bb_number number_of = bb_pool_party_number_at(&parties[handle], place);
    bb_shared_pool_figures figures;
    bb_shared_pool_figures before;
    memset(&before, 0xa5, sizeof before);
    figures = before;
    uint32_t code = bb_pool_party_info(&parties[handle], &figures);
    if (pool == NULL) {
        EXPECT(has_none(own, BB_UNINITIALIZED) && has_none(holds, BB_UNINITIALIZED));
        EXPECT(is_refused(place_of, BB_UNINITIALIZED) && has_none(number_of, BB_UNINITIALIZED));
        EXPECT(is_code(code, BB_UNINITIALIZED));
        EXPECT(memcmp(&figures, &before, sizeof before) == 0);
        return;
    }
    int64_t at = number_at(&pool->of, place);
    EXPECT(is_number(own, party_number[handle]));
    EXPECT(is_number(holds, is_held(pool, at, party_number[handle])));
    if (number < pool->of.count)
        EXPECT(is_given(place_of, pool->of.first + pool->of.stride * number));
    else
        EXPECT(is_refused(place_of, BB_NOT_A_BUCKET));
    if (at >= 0)
        EXPECT(is_number(number_of, (wide)at));
    else
        EXPECT(has_none(number_of, BB_NOT_A_BUCKET));
    size_t held = 0;
    for (uint32_t bucket = 0; bucket < count_of(pool); bucket++)
        if (is_held(pool, bucket, party_number[handle]))
            held++;
    EXPECT(is_code(code, BB_OK) && figures.start_address == pool->of.first);
    EXPECT(figures.size == pool->of.size && figures.bucket_size == pool->of.bucket_size);
    EXPECT(figures.max_alignment == pool->of.align && figures.held_buckets == held);
    EXPECT(figures.number_of_buckets == pool->of.count);
}

static void make_detached(uint32_t at) {
    a_detached *of = &detached_of[at];
    if (below(2) == 0) {
        EXPECT(is_code(bb_detached_init(&detached[at]), of->made ? BB_ALREADY_INITIALIZED : BB_OK));
        of->made = true;
        return;
    }
    // Seldom with a bucket in it, which then stays detached for good.
    if (of->pool != NONE && below(16) > 0)
        return;
    EXPECT(is_code(bb_detached_destroy(&detached[at]), of->made ? BB_OK : BB_UNINITIALIZED));
    of->made = false;
    of->pool = NONE;
}

static void ask_len(uint32_t at) {
    bb_number len = bb_detached_len(&detached[at]);
    if (!detached_of[at].made)
        EXPECT(has_none(len, BB_UNINITIALIZED));
    else if (detached_of[at].pool == NONE)
        EXPECT(has_none(len, BB_DETACHED_EMPTY));
    else
        EXPECT(is_number(len, detached_of[at].len));
}

static void detach(uint32_t handle, uint32_t at) {
    a_pool *pool = pool_of_party(handle);
    a_detached *into = &detached_of[at];
    size_t place = a_place(handle);
    size_t len = pool != NULL && below(4) > 0 ? below((uint32_t)pool->of.bucket_size + 2) : edge();
    uint32_t expected = BB_OK;
    if (pool == NULL || !into->made)
        expected = BB_UNINITIALIZED;
    else if (pool->parties == 1)
        expected = BB_ONE_PARTY;
    else if (!is_held(pool, number_at(&pool->of, place), party_number[handle]))
        expected = BB_NOT_HELD;
    else if (len > pool->of.bucket_size)
        expected = BB_SIZE_TOO_LARGE;
    else if (into->pool != NONE)
        expected = BB_DETACHED_FULL;
    EXPECT(is_code(bb_pool_party_detach(&parties[handle], place, len, &detached[at]), expected));
    if (expected == BB_OK && pool != NULL) {
        into->pool = party_pool[handle];
        into->bucket = (uint32_t)number_at(&pool->of, place);
        into->len = len;
        pool->bucket[into->bucket].state = IN_DETACHED;
    }
}

static void attach(uint32_t handle, uint32_t at) {
    a_pool *pool = pool_of_party(handle);
    a_detached *from = &detached_of[at];
    uint32_t expected = BB_OK;
    if (pool == NULL || !from->made)
        expected = BB_UNINITIALIZED;
    else if (from->pool == NONE)
        expected = BB_DETACHED_EMPTY;
    else if (from->pool != party_pool[handle])
        expected = BB_OTHER_POOL;
    bool attaches = below(2) == 0;
    if (attaches) {
        bb_chunk chunk = bb_pool_party_attach(&parties[handle], &detached[at]);
        if (expected != BB_OK)
            EXPECT(is_refused(chunk, expected));
        else
            EXPECT(is_given(chunk, pool->of.first + pool->of.stride * from->bucket));
    } else {
        uint32_t code = bb_pool_party_return_detached(&parties[handle], &detached[at]);
        EXPECT(is_code(code, expected));
    }
    if (expected == BB_OK && pool != NULL) {
        pool->bucket[from->bucket].state = attaches ? HELD : FREE;
        pool->bucket[from->bucket].party = party_number[handle];
        from->pool = NONE;
    }
}

static void detach_number(uint32_t handle) {
    a_pool *pool = pool_of_party(handle);
    size_t place = a_place(handle);
    bb_number number = bb_pool_party_detach_number(&parties[handle], place);
    if (pool == NULL) {
        EXPECT(has_none(number, BB_UNINITIALIZED));
        return;
    }
    int64_t at = number_at(&pool->of, place);
    if (pool->parties == 1) {
        EXPECT(has_none(number, BB_ONE_PARTY));
    } else if (!is_held(pool, at, party_number[handle])) {
        EXPECT(has_none(number, BB_NOT_HELD));
    } else {
        EXPECT(is_number(number, (wide)at));
        pool->bucket[at].state = BY_NUMBER;
    }
}

static void attach_number(uint32_t handle) {
    a_pool *pool = pool_of_party(handle);
    uint32_t number = below(8) == 0 ? (uint32_t)edge() : below(MOST);
    uint32_t from = below(16) == 0 ? (uint32_t)edge() : below(MOST_PARTIES);
    bb_chunk chunk = bb_pool_party_attach_number(&parties[handle], number, from);
    if (pool == NULL) {
        EXPECT(is_refused(chunk, BB_UNINITIALIZED));
    } else if (number >= pool->of.count) {
        EXPECT(is_refused(chunk, BB_NOT_A_BUCKET));
    } else if (pool->bucket[number].state != BY_NUMBER || pool->bucket[number].party != from) {
        EXPECT(is_refused(chunk, BB_NOT_HELD));
    } else {
        EXPECT(is_given(chunk, pool->of.first + pool->of.stride * number));
        pool->bucket[number].state = HELD;
        pool->bucket[number].party = party_number[handle];
    }
}

// Frees a bucket in the model, if party `from` has detached it by its number. Returns the code.
static uint32_t take_back_number(a_pool *pool, uint32_t number, uint32_t from) {
    if (number >= pool->of.count)
        return BB_NOT_A_BUCKET;
    if (pool->bucket[number].state != BY_NUMBER || pool->bucket[number].party != from)
        return BB_NOT_HELD;
    pool->bucket[number].state = FREE;
    return BB_OK;
}

static void return_number(uint32_t handle) {
    a_pool *pool = pool_of_party(handle);
    uint32_t number = below(8) == 0 ? (uint32_t)edge() : below(MOST);
    uint32_t from = below(16) == 0 ? (uint32_t)edge() : below(MOST_PARTIES);
    uint32_t code = bb_pool_party_return_number(&parties[handle], number, from);
    if (pool == NULL)
        EXPECT(is_code(code, BB_UNINITIALIZED));
    else
        EXPECT(is_code(code, take_back_number(pool, number, from)));
}

static void return_many(uint32_t handle) {
    a_pool *pool = pool_of_party(handle);
    uint32_t numbers[4];
    uint32_t count = below(5);
    uint32_t from = below(MOST_PARTIES);
    for (uint32_t at = 0; at < 4; at++)
        numbers[at] = below(16) == 0 ? (uint32_t)edge() : below(MOST);
    bb_number returned =
        bb_pool_party_return_many(&parties[handle], count == 0 ? NULL : numbers, count, from);
    if (pool == NULL) {
        EXPECT(has_none(returned, BB_UNINITIALIZED));
        return;
    }
    size_t expected = 0;
    while (expected < count && take_back_number(pool, numbers[expected], from) == BB_OK)
        expected++;
    EXPECT(is_number(returned, expected));
}

static void take_many_detached(uint32_t handle) {
    a_pool *pool = pool_of_party(handle);
    uint32_t numbers[MOST];
    uint32_t count = below(6);
    memset(numbers, 0xa5, sizeof numbers);
    bb_number taken =
        bb_pool_party_take_many_detached(&parties[handle], count == 0 ? NULL : numbers, count);
    size_t took = 0;
    if (pool == NULL) {
        EXPECT(has_none(taken, BB_UNINITIALIZED));
    } else if (pool->parties == 1) {
        EXPECT(has_none(taken, BB_ONE_PARTY));
    } else {
        EXPECT(is_code(taken.code, BB_OK) && taken.number <= count);
        took = taken.number;
        for (size_t at = 0; at < took; at++) {
            EXPECT(numbers[at] < pool->of.count);
            bb_chunk chunk = {BB_OK, (size_t)(pool->of.first + pool->of.stride * numbers[at])};
            EXPECT(expect_any(handle, chunk));
            pool->bucket[numbers[at]].state = BY_NUMBER;
        }
        if (took < count) {
            bb_chunk none = {BB_OUT_OF_MEMORY, 0};
            EXPECT(!expect_any(handle, none));
        }
    }
    for (size_t at = took; at < MOST; at++)
        EXPECT(numbers[at] == 0xa5a5a5a5);
}

static void a_round(void) {
    uint32_t pool = below(POOLS);
    uint32_t party = below(PARTIES);
    uint32_t at = below(DETACHED);
    switch (below(64)) {
    case 0:
        if (below(4) == 0)
            destroy(pool);
        break;
    case 1:
        if (below(16) == 0)
            abandon(pool);
        break;
    case 2:
        if (below(16) == 0)
            abandon_party(party);
        break;
    case 3:
    case 4: init(pool); break;
    case 5:
    case 6:
    case 7: join(pool, party); break;
    case 8: end(pool, party); break;
    case 9:
    case 10: ask_pool(pool); break;
    case 11:
    case 12: ask_party(party); break;
    case 13: take_many(party); break;
    case 14:
    case 15: deallocate_many(party); break;
    case 16: cache(party); break;
    case 17: make_detached(at); break;
    case 18: ask_len(at); break;
    case 19:
    case 20:
    case 21:
    case 22: detach(party, at); break;
    case 23:
    case 24: attach(party, at); break;
    case 25:
    case 26:
    case 27: detach_number(party); break;
    case 28:
    case 29:
    case 30:
    case 31: attach_number(party); break;
    case 32:
    case 33: return_number(party); break;
    case 34: return_many(party); break;
    case 35:
    case 36: take_many_detached(party); break;
    default:
        if (below(2) == 0)
            allocate(party);
        else
            deallocate(party);
        break;
    }
}

int main(int argc, char **argv) {
    const uint32_t codes[] = {
        BB_OK,
        BB_SIZE_TOO_LARGE,
        BB_ALIGNMENT_FAILURE,
        BB_OUT_OF_MEMORY,
        BB_INVALID_LAYOUT,
        BB_UNINITIALIZED,
        BB_NOT_HELD,
        BB_ALREADY_INITIALIZED,
        BB_INVALID_ARGUMENT,
        BB_NO_PARTY,
        BB_NO_BUCKET,
        BB_BUCKET_DETACHED,
        BB_PARTIES_JOINED,
        BB_ONE_PARTY,
        BB_DETACHED_FULL,
        BB_DETACHED_EMPTY,
        BB_NOT_A_BUCKET,
        BB_OTHER_POOL,
    };
    for (uint32_t pool = 0; pool < POOLS; pool++)
        pool_of[pool] = NONE;
    for (uint32_t party = 0; party < PARTIES; party++)
        party_pool[party] = NONE;
    for (uint32_t at = 0; at < DETACHED; at++)
        detached_of[at].pool = NONE;
    return run_model("shared pool", a_round, codes, sizeof codes / sizeof *codes, argc, argv);
}
