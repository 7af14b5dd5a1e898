#include "checked.h"
#include <stdlib.h>

#define NONE UINT32_MAX

typedef struct {
    uint32_t *next;
    uint8_t *held;
    size_t start;
    size_t bucket_size;
    size_t align;
    uint32_t stride;
    uint32_t buckets;
    uint32_t head;
} list;

typedef struct {
    size_t start;
    size_t end;
    size_t position;
} bump;

typedef struct {
    size_t start;
    size_t end;
    size_t place;
    int is_held;
} one_chunk;

static checked_chunk refused(uint64_t code) {
    return (checked_chunk){code, 0};
}

static int is_power_of_two(size_t align) {
    return __builtin_popcountll(align) == 1;
}

static int is_layout(size_t size, size_t align) {
    return is_power_of_two(align) && size <= ((size_t)1 << 63) - align;
}

// Allocates the object that a handle owns.
static void *made(checked_handle *handle, size_t size) {
    handle->box = malloc(size);
    handle->is_made = handle->box != NULL;
    return handle->box;
}

static void destroy(checked_handle *handle) {
    free(handle->box);
    *handle = (checked_handle){NULL, 0};
}

int checked_list_init(checked_handle *handle, uint32_t buckets, size_t bucket_size, size_t align,
                      size_t start) {
    list *l = made(handle, sizeof *l);
    if (!l)
        return 0;
    *l = (list){.start = start,
                .bucket_size = bucket_size,
                .align = align,
                .stride = (uint32_t)bucket_size,
                .buckets = buckets,
                .head = buckets ? 0 : NONE};
    l->next = malloc((buckets + 1) * sizeof *l->next);
    l->held = calloc(buckets + 1, 1);
    if (!l->next || !l->held)
        abort();
    for (uint32_t i = 0; i < buckets; i++)
        l->next[i] = i + 1 < buckets ? i + 1 : NONE;
    return 1;
}

static checked_chunk list_take(list *l) {
    uint32_t i = l->head;
    if (i == NONE)
        return refused(CHECKED_OUT_OF_MEMORY);
    l->head = l->next[i];
    l->held[i] = 1;
    return (checked_chunk){CHECKED_OK, l->start + (size_t)i * l->stride};
}

checked_chunk checked_list_allocate(checked_handle *handle, size_t size, size_t align) {
    if (handle->is_made != 1)
        return refused(CHECKED_UNINITIALIZED);
    list *l = handle->box;
    if (!is_layout(size, align))
        return refused(CHECKED_INVALID_LAYOUT);
    if (size > l->bucket_size || align > l->align)
        return refused(CHECKED_TOO_LARGE);
    return list_take(l);
}

checked_chunk checked_list_take(checked_handle *handle) {
    if (handle->is_made != 1)
        return refused(CHECKED_UNINITIALIZED);
    return list_take(handle->box);
}

uint32_t checked_list_deallocate(checked_handle *handle, size_t place) {
    if (handle->is_made != 1)
        return CHECKED_UNINITIALIZED;
    list *l = handle->box;
    size_t distance = place - l->start;
    if (distance >> 32)
        return CHECKED_NOT_HELD;
    uint32_t i = (uint32_t)distance / l->stride;
    if (i >= l->buckets || (uint32_t)distance % l->stride || !l->held[i])
        return CHECKED_NOT_HELD;
    l->held[i] = 0;
    l->next[i] = l->head;
    l->head = i;
    return CHECKED_OK;
}

void checked_list_destroy(checked_handle *handle) {
    list *l = handle->box;
    free(l->next);
    free(l->held);
    destroy(handle);
}

int checked_bump_init(checked_handle *handle, size_t start, size_t size) {
    bump *b = made(handle, sizeof *b);
    if (!b)
        return 0;
    *b = (bump){start, start + size, start};
    return 1;
}

checked_chunk checked_bump_allocate(checked_handle *handle, size_t size, size_t align) {
    if (handle->is_made != 1)
        return refused(CHECKED_UNINITIALIZED);
    if (!is_layout(size, align))
        return refused(CHECKED_INVALID_LAYOUT);
    if (!size)
        return refused(CHECKED_TOO_LARGE);
    bump *b = handle->box;
    size_t place = (b->position + align - 1) & -align;
    size_t end;
    if (__builtin_add_overflow(place, size, &end) || end > b->end)
        return refused(CHECKED_OUT_OF_MEMORY);
    b->position = end;
    return (checked_chunk){CHECKED_OK, place};
}

uint32_t checked_bump_deallocate(checked_handle *handle) {
    if (handle->is_made != 1)
        return CHECKED_UNINITIALIZED;
    bump *b = handle->box;
    b->position = b->start;
    return CHECKED_OK;
}

void checked_bump_destroy(checked_handle *handle) {
    destroy(handle);
}

int checked_one_chunk_init(checked_handle *handle, size_t start, size_t size) {
    one_chunk *o = made(handle, sizeof *o);
    if (!o)
        return 0;
    *o = (one_chunk){start, start + size, 0, 0};
    return 1;
}

checked_chunk checked_one_chunk_allocate(checked_handle *handle, size_t size, size_t align) {
    if (handle->is_made != 1)
        return refused(CHECKED_UNINITIALIZED);
    if (!is_layout(size, align))
        return refused(CHECKED_INVALID_LAYOUT);
    one_chunk *o = handle->box;
    if (o->is_held)
        return refused(CHECKED_OUT_OF_MEMORY);
    size_t place = (o->start + align - 1) & -align;
    size_t end;
    if (__builtin_add_overflow(place, size, &end) || end > o->end || place == o->end)
        return refused(CHECKED_OUT_OF_MEMORY);
    o->is_held = 1;
    o->place = place;
    return (checked_chunk){CHECKED_OK, place};
}

uint32_t checked_one_chunk_deallocate(checked_handle *handle, size_t place) {
    if (handle->is_made != 1)
        return CHECKED_UNINITIALIZED;
    one_chunk *o = handle->box;
    if (!o->is_held || o->place != place)
        return CHECKED_NOT_HELD;
    o->is_held = 0;
    return CHECKED_OK;
}

void checked_one_chunk_destroy(checked_handle *handle) {
    destroy(handle);
}
