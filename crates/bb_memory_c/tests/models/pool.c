// A model of a pool, with its region at any place and few buckets.
#include "model.h"

enum {
    MOST = 64
};

static bb_pool pool = BB_EMPTY;
static bool made;
static cut of;
static bool held[MOST];
static size_t count_held;
static size_t greatest;

// Makes a pool, if it isn't too large for a test.
static void init(void) {
    size_t bucket_size = edge();
    size_t align = edge_align();
    size_t start = edge();
    size_t size = below(2) == 0 ? edge() : below(4000);
    uint32_t buckets = below(2) == 0 ? 0 : below(MOST);
    cut into;
    uint32_t expected = cut_into(bucket_size, align, start, size, true, &into);
    if (made)
        expected = BB_ALREADY_INITIALIZED;
    if (expected == BB_OK && into.count > MOST)
        return;
    if (buckets == 0) {
        EXPECT(is_code(bb_pool_init(&pool, bucket_size, align, start, size), expected));
    } else {
        if (expected == BB_OK && into.count < buckets)
            expected = BB_NO_BUCKET;
        EXPECT(is_code(bb_pool_init_at_least(&pool, bucket_size, align, start, size, buckets),
                       expected));
    }
    EXPECT(pool.made == (made || expected == BB_OK));
    if (expected == BB_OK) {
        made = true;
        of = into;
        count_held = 0;
        greatest = 0;
        memset(held, 0, sizeof held);
    }
}

static void destroy(void) {
    EXPECT(is_code(bb_pool_destroy(&pool), made ? BB_OK : BB_UNINITIALIZED));
    EXPECT(pool.at == NULL && !pool.made);
    made = false;
}

// Expects that any free bucket was given, or that none is free.
static void expect_any(bb_chunk chunk) {
    if (count_held == of.count) {
        EXPECT(is_refused(chunk, BB_OUT_OF_MEMORY));
        return;
    }
    EXPECT(is_code(chunk.code, BB_OK));
    int64_t number = number_at(&of, chunk.place);
    EXPECT(number >= 0 && !held[number]);
    held[number] = true;
    count_held++;
    if (count_held > greatest)
        greatest = count_held;
}

static void allocate(void) {
    size_t size = below(2) == 0 && made ? of.bucket_size - 1 + below(3) : edge();
    size_t align = edge_align();
    if (below(2) == 0) {
        bb_chunk taken = bb_pool_take(&pool);
        if (made)
            expect_any(taken);
        else
            EXPECT(is_refused(taken, BB_UNINITIALIZED));
        return;
    }
    bb_chunk chunk = bb_pool_allocate(&pool, size, align);
    if (!made)
        EXPECT(is_refused(chunk, BB_UNINITIALIZED));
    else if (!is_layout(size, align))
        EXPECT(is_refused(chunk, BB_INVALID_LAYOUT));
    else if (size > of.bucket_size)
        EXPECT(is_refused(chunk, BB_SIZE_TOO_LARGE));
    else if (align > of.align)
        EXPECT(is_refused(chunk, BB_ALIGNMENT_FAILURE));
    else
        expect_any(chunk);
}

static void deallocate(void) {
    size_t place = made ? some_place(&of) : edge();
    uint32_t code = bb_pool_deallocate(&pool, place);
    if (!made) {
        EXPECT(is_code(code, BB_UNINITIALIZED));
        return;
    }
    int64_t number = number_at(&of, place);
    if (number < 0 || !held[number]) {
        EXPECT(is_code(code, BB_NOT_HELD));
        return;
    }
    EXPECT(is_code(code, BB_OK));
    held[number] = false;
    count_held--;
}

static void take_many(void) {
    size_t slots[8];
    uint32_t count = below(6);
    memset(slots, 0xa5, sizeof slots);
    bb_number taken = bb_pool_take_many(&pool, count == 0 ? NULL : slots, count);
    size_t took = 0;
    if (made) {
        EXPECT(is_code(taken.code, BB_OK) && taken.number <= count);
        took = taken.number;
        for (size_t at = 0; at < took; at++) {
            bb_chunk chunk = {BB_OK, slots[at]};
            expect_any(chunk);
        }
        if (took < count) {
            bb_chunk none = {BB_OUT_OF_MEMORY, 0};
            expect_any(none);
        }
    } else {
        EXPECT(has_none(taken, BB_UNINITIALIZED));
    }
    for (size_t at = took; at < 8; at++)
        EXPECT(slots[at] == (size_t)0xa5a5a5a5a5a5a5a5);
}

static void deallocate_many(void) {
    size_t places[4];
    uint32_t count = below(5);
    size_t expected = 0;
    for (uint32_t at = 0; at < 4; at++)
        places[at] = made ? some_place(&of) : edge();
    bb_number returned = bb_pool_deallocate_many(&pool, count == 0 ? NULL : places, count);
    if (!made) {
        EXPECT(has_none(returned, BB_UNINITIALIZED));
        return;
    }
    while (expected < count) {
        int64_t number = number_at(&of, places[expected]);
        if (number < 0 || !held[number])
            break;
        held[number] = false;
        count_held--;
        expected++;
    }
    EXPECT(is_number(returned, expected));
}

static void ask(void) {
    size_t place = made ? some_place(&of) : edge();
    uint32_t number = below(4) == 0 ? (uint32_t)edge() : below(MOST);
    bb_number holds = bb_pool_holds(&pool, place);
    bb_chunk place_of = bb_pool_place_at(&pool, number);
    bb_number number_of = bb_pool_number_at(&pool, place);
    bb_pool_figures figures;
    bb_pool_figures before;
    memset(&before, 0xa5, sizeof before);
    figures = before;
    uint32_t code = bb_pool_info(&pool, &figures);
    if (!made) {
        EXPECT(has_none(holds, BB_UNINITIALIZED) && is_refused(place_of, BB_UNINITIALIZED));
        EXPECT(has_none(number_of, BB_UNINITIALIZED) && is_code(code, BB_UNINITIALIZED));
        EXPECT(memcmp(&figures, &before, sizeof before) == 0);
        return;
    }
    int64_t at = number_at(&of, place);
    EXPECT(is_number(holds, at >= 0 && held[at]));
    if (at >= 0)
        EXPECT(is_number(number_of, (wide)at));
    else
        EXPECT(has_none(number_of, BB_NOT_A_BUCKET));
    if (number < of.count)
        EXPECT(is_given(place_of, of.first + of.stride * number));
    else
        EXPECT(is_refused(place_of, BB_NOT_A_BUCKET));
    EXPECT(is_code(code, BB_OK) && figures.start_address == of.first && figures.size == of.size);
    EXPECT(figures.bucket_size == of.bucket_size && figures.max_alignment == of.align);
    EXPECT(figures.number_of_buckets == of.count && figures.held_buckets == count_held);
    EXPECT(figures.greatest_held == greatest);
}

static void a_round(void) {
    switch (below(64)) {
    case 0: destroy(); break;
    case 1:
    case 2:
    case 3:
    case 4:
    case 5:
    case 6: init(); break;
    case 7:
    case 8: ask(); break;
    case 9:
    case 10: take_many(); break;
    case 11:
    case 12: deallocate_many(); break;
    default:
        if (below(2) == 0)
            allocate();
        else
            deallocate();
        break;
    }
}

int main(int argc, char **argv) {
    const uint32_t codes[] = {
        BB_OK,
        BB_SIZE_TOO_LARGE,
        BB_ALIGNMENT_FAILURE,
        BB_OUT_OF_MEMORY,
        BB_INVALID_LAYOUT,
        BB_UNINITIALIZED,
        BB_NOT_HELD,
        BB_ALREADY_INITIALIZED,
        BB_INVALID_ARGUMENT,
        BB_NO_BUCKET,
        BB_NOT_A_BUCKET,
    };
    return run_model("pool", a_round, codes, sizeof codes / sizeof *codes, argc, argv);
}
