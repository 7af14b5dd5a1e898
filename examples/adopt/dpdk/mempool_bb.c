// A handler for DPDK's mempools over shared pools of bb_memory. EAL loads it as a plugin, and an
// application chooses it by its name:
//
//     dpdk-testpmd -d ./mempool_bb.so --mbuf-pool-ops-name=bb ..
//
// A mempool's memory is the region of a shared pool, and each object is a bucket. Each lcore is a
// party. Any lcore may put an object back, so a get takes a bucket and detaches it. A put returns
// the bucket by its number and by that of the party that took it, which the bucket's flag names.
// Lcores need no lock.
#include <errno.h>
#include <rte_common.h>
#include <rte_lcore.h>
#include <rte_log.h>
#include <rte_malloc.h>
#include <rte_mempool.h>
#include <rte_spinlock.h>

#include "bb_memory.h"

enum {
    // The most objects that one call of the library takes or returns.
    BURST = 64,
    // The number of the party that all threads without an lcore use. Lcores have lower numbers.
    OTHERS = RTE_MAX_LCORE,
    PARTIES = OTHERS + 1
};

// A piece of a mempool's memory, which mostly has only one.
struct piece {
    bb_shared_pool pool;
    bb_pool_party parties[PARTIES];
    struct piece *next;
};

// A mempool's data.
struct pieces {
    struct piece *first;
    // Locked by a thread that uses the parties OTHERS.
    rte_spinlock_t others;
};

// Returns the number of the caller's party, and locks it if several threads use it.
static unsigned begin(struct pieces *pieces) {
    const unsigned lcore = rte_lcore_id();
    if (lcore < RTE_MAX_LCORE)
        return lcore;
    rte_spinlock_lock(&pieces->others);
    return OTHERS;
}

// Ends what `begin` began.
static void end(struct pieces *pieces, unsigned self) {
    if (self == OTHERS)
        rte_spinlock_unlock(&pieces->others);
}

// Takes up to `count` objects. Returns how many.
static unsigned take(const struct rte_mempool *mempool, struct piece *piece, unsigned self,
                     void **objects, unsigned count) {
    bb_pool_party *party = &piece->parties[self];
    unsigned taken = 0;
    while (taken < count) {
        uint32_t numbers[BURST];
        const size_t most = RTE_MIN(count - taken, (unsigned)BURST);
        const size_t got = bb_pool_party_take_many_detached(party, numbers, most).number;
        if (got == 0)
            break;
        for (size_t at = 0; at < got; at++) {
            void *bucket = bb_pool_party_place_at(party, numbers[at]).place;
            objects[taken++] = RTE_PTR_ADD(bucket, mempool->header_size);
        }
    }
    return taken;
}

// Puts back the first objects that are in this piece and that one party has taken. Returns how
// many. The library refuses an object that isn't in use.
static unsigned give(const struct rte_mempool *mempool, struct piece *piece, unsigned self,
                     void *const *objects, unsigned count) {
    bb_pool_party *party = &piece->parties[self];
    uint32_t numbers[BURST];
    uint32_t from = 0;
    unsigned found = 0;
    while (found < RTE_MIN(count, (unsigned)BURST)) {
        void *bucket = RTE_PTR_SUB(objects[found], mempool->header_size);
        const bb_number at = bb_pool_party_number_at(party, bucket);
        bb_holder holder = {BB_FREE, 0};
        if (at.code != BB_OK)
            break;
        bb_shared_pool_holder(&piece->pool, (uint32_t)at.number, &holder);
        if (found > 0 && holder.party != from)
            break;
        from = holder.party;
        numbers[found++] = (uint32_t)at.number;
    }
    return (unsigned)bb_pool_party_return_many(party, numbers, found, from).number;
}

// Puts back `count` objects. An object that isn't in use is logged and left out.
static int give_all(const struct rte_mempool *mempool, struct pieces *pieces, unsigned self,
                    void *const *objects, unsigned count) {
    int result = 0;
    unsigned done = 0;
    while (done < count) {
        unsigned given = 0;
        for (struct piece *at = pieces->first; at != NULL && given == 0; at = at->next)
            given = give(mempool, at, self, objects + done, count - done);
        if (given == 0) {
            RTE_LOG(ERR, MEMPOOL, "%s: a put of %p, which isn't in use\n", mempool->name,
                    objects[done]);
            result = -EINVAL;
            given = 1;
        }
        done += given;
    }
    return result;
}

static int bb_enqueue(struct rte_mempool *mempool, void *const *objects, unsigned count) {
    struct pieces *pieces = mempool->pool_data;
    const unsigned self = begin(pieces);
    const int result = give_all(mempool, pieces, self, objects, count);
    end(pieces, self);
    return result;
}

// Gets `count` objects or none.
static int bb_dequeue(struct rte_mempool *mempool, void **objects, unsigned count) {
    struct pieces *pieces = mempool->pool_data;
    const unsigned self = begin(pieces);
    unsigned taken = 0;
    for (struct piece *at = pieces->first; at != NULL && taken < count; at = at->next)
        taken += take(mempool, at, self, objects + taken, count - taken);
    if (taken < count)
        give_all(mempool, pieces, self, objects, taken);
    end(pieces, self);
    return taken == count ? 0 : -ENOBUFS;
}

// Counts the objects that are not in use, in a time that is proportional to all of them.
static unsigned bb_get_count(const struct rte_mempool *mempool) {
    const struct pieces *pieces = mempool->pool_data;
    size_t sum = 0;
    for (const struct piece *at = pieces->first; at != NULL; at = at->next) {
        bb_shared_pool_figures figures;
        if (bb_shared_pool_info(&at->pool, &figures) == BB_OK)
            sum += figures.number_of_buckets - figures.held_buckets;
    }
    return (unsigned)sum;
}

// Frees a piece. DPDK has taken out the objects before, so their buckets are detached, and the pool
// can only be abandoned. Its memory is freed all the same, since no party is left.
static void destroy(struct piece *piece) {
    for (unsigned number = 0; number < PARTIES; number++)
        bb_shared_pool_forget(&piece->pool, &piece->parties[number]);
    bb_shared_pool_abandon(&piece->pool);
    rte_free(piece);
}

// Makes a piece for `count` objects of `size` bytes, and joins all parties, so that no lcore
// requests memory later. Returns NULL if memory runs out.
static struct piece *make(int socket, size_t size, void *region, size_t count) {
    struct piece *made = rte_zmalloc_socket("bb_piece", sizeof(*made), 0, socket);
    if (made == NULL)
        return NULL;
    // DPDK has aligned the region, and `size` is a multiple of that alignment.
    uint32_t code = bb_shared_pool_init(&made->pool, size, 1, region, count * size, PARTIES);
    for (uint32_t number = 0; number < PARTIES && code == BB_OK; number++)
        code = bb_shared_pool_join_number(&made->pool, number, &made->parties[number]);
    if (code == BB_OK)
        return made;
    RTE_LOG(ERR, MEMPOOL, "bb: no pool: %s\n", bb_text(code));
    destroy(made);
    return NULL;
}

// Adds a piece of memory, of which at most `most` objects are needed. Returns how many it has.
static int bb_populate(struct rte_mempool *mempool, unsigned most, void *memory, rte_iova_t iova,
                       size_t len, rte_mempool_populate_obj_cb_t *add, void *context) {
    struct pieces *pieces = mempool->pool_data;
    const size_t size = mempool->header_size + mempool->elt_size + mempool->trailer_size;
    const size_t count = RTE_MIN(most, len / size);
    if (count == 0)
        return 0;
    struct piece *made = make(mempool->socket_id, size, memory, count);
    if (made == NULL)
        return -ENOMEM;
    made->next = pieces->first;
    pieces->first = made;
    for (size_t at = 0; at < count; at++) {
        const size_t offset = at * size + mempool->header_size;
        const rte_iova_t object = iova == RTE_BAD_IOVA ? RTE_BAD_IOVA : iova + offset;
        add(mempool, context, RTE_PTR_ADD(memory, offset), object);
    }
    return (int)count;
}

static int bb_alloc(struct rte_mempool *mempool) {
    struct pieces *made = rte_zmalloc_socket("bb_pieces", sizeof(*made), 0, mempool->socket_id);
    if (made == NULL)
        return -ENOMEM;
    rte_spinlock_init(&made->others);
    mempool->pool_data = made;
    return 0;
}

// A mempool that was never populated has no data.
static void bb_free(struct rte_mempool *mempool) {
    struct pieces *pieces = mempool->pool_data;
    struct piece *next;
    if (pieces == NULL)
        return;
    for (struct piece *at = pieces->first; at != NULL; at = next) {
        next = at->next;
        destroy(at);
    }
    rte_free(pieces);
}

static const struct rte_mempool_ops bb = {
    .name = "bb",
    .alloc = bb_alloc,
    .free = bb_free,
    .enqueue = bb_enqueue,
    .dequeue = bb_dequeue,
    .get_count = bb_get_count,
    .populate = bb_populate,
};

RTE_MEMPOOL_REGISTER_OPS(bb);
