// SQLite's heap over pools: size classes in slabs.
//
// The region is a pool of slabs. Each slab is the region of another pool, whose buckets have the
// size of one class. So an allocation needs no header: its address says in which slab it is, and
// the slab says its size. A slab whose buckets are all free goes back to the pool of slabs, and
// then serves any class.
//
// SQLite calls all but `heap_size` under a lock, unless SQLITE_CONFIG_MEMSTATUS is off.
#include <malloc.h>
#include <sqlite3.h>
#include <stdbool.h>
#include <stdio.h>
#include <stdlib.h>
#include <string.h>
#include <sys/queue.h>

#include "bb_memory.h"
#include "sqlite_bb.h"

enum {
    SLAB = 64 * 1024,
    ALIGN = 16,
    LARGEST = 16 * 1024,
    // Eight classes up to 128 bytes, and four for each power of two from there on.
    CLASSES = 8 + 4 * 7
};

struct size_class {
    int number;
    int size;
};

struct slab {
    bb_pool pool;
    struct size_class kind;
    bool is_listed;
    LIST_ENTRY(slab) list;
};

LIST_HEAD(list, slab);

static struct {
    char *region;
    size_t size;
    bb_pool pool;
    // The slab at each bucket of the pool. Its own pool is empty if the bucket is free.
    struct slab *slabs;
    // The slabs of each class, except those that were full when a bucket was last requested.
    struct list lists[CLASSES];
} heap;

// Returns the smallest class for a size of at most LARGEST.
static struct size_class class_for(int size) {
    int shift = 0;
    while (size > 8 * (ALIGN << shift))
        shift++;
    const int step = ALIGN << shift;
    const int steps = (size + step - 1) / step;
    return (struct size_class){4 * shift + steps - 1, steps * step};
}

// Returns the slab in which an allocation is, or NULL if it is of malloc.
static struct slab *slab_of(const void *place) {
    const size_t offset = (size_t)place - (size_t)heap.region;
    return offset < heap.size ? &heap.slabs[offset / SLAB] : NULL;
}

static void list_slab(struct slab *slab) {
    LIST_INSERT_HEAD(&heap.lists[slab->kind.number], slab, list);
    slab->is_listed = true;
}

static void unlist_slab(struct slab *slab) {
    LIST_REMOVE(slab, list);
    slab->is_listed = false;
}

// Makes a slab for a class. Returns NULL if the region is full, or if memory runs out.
static struct slab *make_slab(struct size_class kind) {
    void *room = bb_pool_get(&heap.pool);
    if (room == NULL)
        return NULL;
    struct slab *slab = slab_of(room);
    if (bb_pool_init(&slab->pool, (size_t)kind.size, ALIGN, room, SLAB) != BB_OK) {
        bb_pool_deallocate(&heap.pool, room);
        return NULL;
    }
    slab->kind = kind;
    list_slab(slab);
    return slab;
}

static void destroy_slab(struct slab *slab) {
    unlist_slab(slab);
    bb_pool_destroy(&slab->pool);
    bb_pool_deallocate(&heap.pool, heap.region + (slab - heap.slabs) * SLAB);
}

// Returns whether a slab holds nothing, and its class has another slab.
static bool is_spare(struct slab *slab) {
    bb_pool_figures figures;
    const bool is_only =
        LIST_FIRST(&heap.lists[slab->kind.number]) == slab && LIST_NEXT(slab, list) == NULL;
    return !is_only && bb_pool_info(&slab->pool, &figures) == BB_OK && figures.held_buckets == 0;
}

static void *heap_malloc(int size) {
    if (size > LARGEST)
        return malloc((size_t)size);
    const struct size_class kind = class_for(size);
    for (;;) {
        struct slab *slab = LIST_FIRST(&heap.lists[kind.number]);
        if (slab == NULL)
            slab = make_slab(kind);
        if (slab == NULL)
            return malloc((size_t)size);
        void *place = bb_pool_get(&slab->pool);
        if (place != NULL)
            return place;
        unlist_slab(slab);
    }
}

static void heap_free(void *place) {
    struct slab *slab = slab_of(place);
    if (slab == NULL) {
        free(place);
        return;
    }
    const uint32_t code = bb_pool_deallocate(&slab->pool, place);
    if (code != BB_OK) {
        fprintf(stderr, "heap_bb: a free of %p: %s\n", place, bb_text(code));
        abort();
    }
    if (!slab->is_listed)
        list_slab(slab);
    if (is_spare(slab))
        destroy_slab(slab);
}

static int heap_size(void *place) {
    const struct slab *slab = slab_of(place);
    return slab == NULL ? (int)malloc_usable_size(place) : slab->kind.size;
}

static int heap_roundup(int size) {
    return size > LARGEST ? (size + 7) / 8 * 8 : class_for(size).size;
}

// SQLite calls this only if the rounded size changes.
static void *heap_realloc(void *place, int size) {
    if (slab_of(place) == NULL && size > LARGEST)
        return realloc(place, (size_t)size);
    const int old = heap_size(place);
    void *moved = heap_malloc(size);
    if (moved == NULL)
        return NULL;
    memcpy(moved, place, (size_t)(size < old ? size : old));
    heap_free(place);
    return moved;
}

static int heap_init(void *context) {
    (void)context;
    heap.slabs = calloc(heap.size / SLAB, sizeof(*heap.slabs));
    if (heap.slabs == NULL)
        return SQLITE_NOMEM;
    if (bb_pool_init(&heap.pool, SLAB, ALIGN, heap.region, heap.size) == BB_OK)
        return SQLITE_OK;
    free(heap.slabs);
    return SQLITE_NOMEM;
}

static void heap_shutdown(void *context) {
    (void)context;
    for (int number = 0; number < CLASSES; number++)
        while (!LIST_EMPTY(&heap.lists[number]))
            destroy_slab(LIST_FIRST(&heap.lists[number]));
    bb_pool_destroy(&heap.pool);
    free(heap.slabs);
}

int sqlite_bb_heap(void *region, size_t size) {
    static const sqlite3_mem_methods methods = {
        .xMalloc = heap_malloc,
        .xFree = heap_free,
        .xRealloc = heap_realloc,
        .xSize = heap_size,
        .xRoundup = heap_roundup,
        .xInit = heap_init,
        .xShutdown = heap_shutdown,
    };
    heap.region = region;
    heap.size = size / SLAB * SLAB;
    return sqlite3_config(SQLITE_CONFIG_MALLOC, &methods);
}
