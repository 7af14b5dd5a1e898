// SQLite's cache of pages over pools.
//
// A page is a bucket. It has the bytes of the page, SQLite's extra bytes, and a `struct page`. Each
// cache has pools of its own, so that threads with a connection each need no lock. When all are
// full, the cache makes another one with twice the number of buckets.
#include <sqlite3.h>
#include <stdbool.h>
#include <stddef.h>
#include <stdint.h>
#include <stdlib.h>
#include <string.h>
#include <sys/queue.h>

#include "bb_memory.h"
#include "sqlite_bb.h"

enum {
    // A line of the processor's cache, and more than any alignment that SQLite needs.
    ALIGN = 64,
    FIRST_BUCKETS = 64,
    // Enough for 2^30 pages. SQLite has 2^32 at most.
    POOLS = 24,
    FIRST_CHAINS = 256
};

// A cached page. The first field is what SQLite sees of it.
struct page {
    sqlite3_pcache_page seen;
    unsigned key;
    bool is_pinned;
    LIST_ENTRY(page) chain;
    // The pages that aren't pinned, from the one that was unpinned first.
    TAILQ_ENTRY(page) idle;
};

LIST_HEAD(chain, page);
TAILQ_HEAD(idle, page);

// The name of this struct is SQLite's.
struct sqlite3_pcache {
    size_t page_size;
    // SQLite's extra bytes, rounded up for the `struct page` after them.
    size_t extra_size;
    // Whether pages that aren't pinned may be thrown away.
    bool is_purgeable;
    unsigned most;
    unsigned count;
    // A table of pages by their keys.
    unsigned number_of_chains;
    struct chain *chains;
    struct idle idle;
    unsigned number_of_pools;
    bb_pool pools[POOLS];
    void *regions[POOLS];
};

// Makes another pool. Returns whether there was memory.
static bool add_pool(sqlite3_pcache *cache) {
    const unsigned at = cache->number_of_pools;
    if (at == POOLS)
        return false;
    const size_t bucket = cache->page_size + cache->extra_size + sizeof(struct page);
    const size_t size = bb_bytes_for(bucket, ALIGN, (uint32_t)FIRST_BUCKETS << at);
    void *region = aligned_alloc(ALIGN, size);
    if (region == NULL)
        return false;
    if (bb_pool_init(&cache->pools[at], bucket, ALIGN, region, size) != BB_OK) {
        free(region);
        return false;
    }
    cache->regions[at] = region;
    cache->number_of_pools++;
    return true;
}

// Returns a free bucket, or NULL if memory runs out. The last pool is the largest.
static void *take_bucket(sqlite3_pcache *cache) {
    for (unsigned at = cache->number_of_pools; at > 0; at--) {
        void *bucket = bb_pool_get(&cache->pools[at - 1]);
        if (bucket != NULL)
            return bucket;
    }
    return add_pool(cache) ? bb_pool_get(&cache->pools[cache->number_of_pools - 1]) : NULL;
}

// Frees a bucket. A pool refuses a bucket that is not its own.
static void free_bucket(sqlite3_pcache *cache, void *bucket) {
    for (unsigned at = cache->number_of_pools; at > 0; at--)
        if (bb_pool_deallocate(&cache->pools[at - 1], bucket) == BB_OK)
            return;
    abort();
}

static struct chain *chain_of(sqlite3_pcache *cache, unsigned key) {
    return &cache->chains[key % cache->number_of_chains];
}

static struct page *find(sqlite3_pcache *cache, unsigned key) {
    struct page *page = LIST_FIRST(chain_of(cache, key));
    while (page != NULL && page->key != key)
        page = LIST_NEXT(page, chain);
    return page;
}

// Doubles the table, if there is memory.
static void grow_table(sqlite3_pcache *cache) {
    const unsigned old_number = cache->number_of_chains;
    struct chain *old = cache->chains;
    struct chain *chains = calloc(2 * (size_t)old_number, sizeof(*chains));
    if (chains == NULL)
        return;
    cache->chains = chains;
    cache->number_of_chains = 2 * old_number;
    for (unsigned at = 0; at < old_number; at++)
        while (!LIST_EMPTY(&old[at])) {
            struct page *page = LIST_FIRST(&old[at]);
            LIST_REMOVE(page, chain);
            LIST_INSERT_HEAD(chain_of(cache, page->key), page, chain);
        }
    free(old);
}

static void pin(sqlite3_pcache *cache, struct page *page) {
    if (!page->is_pinned)
        TAILQ_REMOVE(&cache->idle, page, idle);
    page->is_pinned = true;
}

// Takes a page out of the cache. Returns its bucket.
static void *take_out(sqlite3_pcache *cache, struct page *page) {
    pin(cache, page);
    LIST_REMOVE(page, chain);
    cache->count--;
    return page->seen.pBuf;
}

static void discard(sqlite3_pcache *cache, struct page *page) {
    free_bucket(cache, take_out(cache, page));
}

// Puts a new page in a bucket into the cache, and pins it.
static struct page *put_in(sqlite3_pcache *cache, unsigned key, char *bucket) {
    char *extra = bucket + cache->page_size;
    struct page *page = (struct page *)(extra + cache->extra_size);
    memset(extra, 0, cache->extra_size);
    page->seen.pBuf = bucket;
    page->seen.pExtra = extra;
    page->key = key;
    page->is_pinned = true;
    if (cache->count == cache->number_of_chains)
        grow_table(cache);
    LIST_INSERT_HEAD(chain_of(cache, key), page, chain);
    cache->count++;
    return page;
}

static int pages_init(void *context) {
    (void)context;
    return SQLITE_OK;
}

static void pages_shutdown(void *context) {
    (void)context;
}

static sqlite3_pcache *pages_create(int page_size, int extra_size, int is_purgeable) {
    sqlite3_pcache *cache = calloc(1, sizeof(*cache));
    struct chain *chains = calloc(FIRST_CHAINS, sizeof(*chains));
    if (cache == NULL || chains == NULL) {
        free(cache);
        free(chains);
        return NULL;
    }
    cache->page_size = (size_t)page_size;
    cache->extra_size = BB_STRIDE(extra_size, _Alignof(struct page));
    cache->is_purgeable = is_purgeable != 0;
    cache->number_of_chains = FIRST_CHAINS;
    cache->chains = chains;
    TAILQ_INIT(&cache->idle);
    return cache;
}

static void pages_destroy(sqlite3_pcache *cache) {
    for (unsigned at = 0; at < cache->number_of_pools; at++) {
        bb_pool_destroy(&cache->pools[at]);
        free(cache->regions[at]);
    }
    free(cache->chains);
    free(cache);
}

static void pages_cachesize(sqlite3_pcache *cache, int most) {
    cache->most = (unsigned)most;
}

static int pages_pagecount(sqlite3_pcache *cache) {
    return (int)cache->count;
}

// Returns the page with a key, and pins it. If there is none, makes one unless `create` is 0. A
// full cache throws away the page that was unpinned first. If each of its pages is pinned, it grows
// only if `create` is 2.
static sqlite3_pcache_page *pages_fetch(sqlite3_pcache *cache, unsigned key, int create) {
    struct page *page = find(cache, key);
    if (page != NULL) {
        pin(cache, page);
        return &page->seen;
    }
    if (create == 0)
        return NULL;
    void *bucket = NULL;
    if (cache->is_purgeable && cache->count >= cache->most) {
        if (!TAILQ_EMPTY(&cache->idle))
            bucket = take_out(cache, TAILQ_FIRST(&cache->idle));
        else if (create == 1)
            return NULL;
    }
    if (bucket == NULL)
        bucket = take_bucket(cache);
    return bucket == NULL ? NULL : &put_in(cache, key, bucket)->seen;
}

static void pages_unpin(sqlite3_pcache *cache, sqlite3_pcache_page *seen, int is_discarded) {
    struct page *page = (struct page *)seen;
    if (is_discarded || (cache->is_purgeable && cache->count > cache->most)) {
        discard(cache, page);
        return;
    }
    TAILQ_INSERT_TAIL(&cache->idle, page, idle);
    page->is_pinned = false;
}

static void pages_rekey(sqlite3_pcache *cache, sqlite3_pcache_page *seen, unsigned old_key,
                        unsigned new_key) {
    (void)old_key;
    struct page *page = (struct page *)seen;
    struct page *other = find(cache, new_key);
    if (other != NULL)
        discard(cache, other);
    LIST_REMOVE(page, chain);
    page->key = new_key;
    LIST_INSERT_HEAD(chain_of(cache, new_key), page, chain);
}

static void pages_truncate(sqlite3_pcache *cache, unsigned limit) {
    for (unsigned at = 0; at < cache->number_of_chains; at++) {
        struct page *next;
        for (struct page *page = LIST_FIRST(&cache->chains[at]); page != NULL; page = next) {
            next = LIST_NEXT(page, chain);
            if (page->key >= limit)
                discard(cache, page);
        }
    }
}

static void pages_shrink(sqlite3_pcache *cache) {
    while (!TAILQ_EMPTY(&cache->idle))
        discard(cache, TAILQ_FIRST(&cache->idle));
}

int sqlite_bb_pages(void) {
    static const sqlite3_pcache_methods2 methods = {
        .iVersion = 1,
        .xInit = pages_init,
        .xShutdown = pages_shutdown,
        .xCreate = pages_create,
        .xCachesize = pages_cachesize,
        .xPagecount = pages_pagecount,
        .xFetch = pages_fetch,
        .xUnpin = pages_unpin,
        .xRekey = pages_rekey,
        .xTruncate = pages_truncate,
        .xDestroy = pages_destroy,
        .xShrink = pages_shrink,
    };
    return sqlite3_config(SQLITE_CONFIG_PCACHE2, &methods);
}
