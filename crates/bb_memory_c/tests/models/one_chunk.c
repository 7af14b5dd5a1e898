// A model of a one-chunk allocator, with its region at any place.
#include "model.h"

static bb_one_chunk one = BB_EMPTY;
static bool made;
static size_t start;
static size_t size;
static bool in_use;
static size_t at;

// Returns the bytes that are reserved for the chunk in use.
static size_t reserved(void) {
    return start + size - at;
}

// Returns a place that is often the one of the chunk in use.
static size_t a_place(void) {
    if (below(4) == 0)
        return edge();
    return at + (below(8) == 0 ? below(3) - (size_t)1 : 0);
}

static void init(void) {
    size_t place = edge();
    size_t bytes = edge();
    uint32_t expected = BB_OK;
    if (made)
        expected = BB_ALREADY_INITIALIZED;
    else if (!is_region(place, bytes))
        expected = BB_INVALID_ARGUMENT;
    EXPECT(is_code(bb_one_chunk_init(&one, place, bytes), expected));
    if (expected == BB_OK) {
        made = true;
        start = place;
        size = bytes;
        in_use = false;
    }
}

static void destroy(void) {
    EXPECT(is_code(bb_one_chunk_destroy(&one), made ? BB_OK : BB_UNINITIALIZED));
    EXPECT(one.at == NULL && !one.made);
    made = false;
    in_use = false;
}

static void allocate(void) {
    size_t bytes = edge();
    size_t align = edge_align();
    bb_chunk chunk = bb_one_chunk_allocate(&one, bytes, align);
    if (!made) {
        EXPECT(is_refused(chunk, BB_UNINITIALIZED));
    } else if (!is_layout(bytes, align)) {
        EXPECT(is_refused(chunk, BB_INVALID_LAYOUT));
    } else {
        wide place = rounded_up(start, align);
        wide end = (wide)start + size;
        if (in_use || place >= end || end - place < bytes) {
            EXPECT(is_refused(chunk, BB_OUT_OF_MEMORY));
        } else {
            EXPECT(is_given(chunk, place));
            in_use = true;
            at = (size_t)place;
        }
    }
}

static void deallocate(void) {
    size_t place = a_place();
    uint32_t code = bb_one_chunk_deallocate(&one, place);
    if (!made) {
        EXPECT(is_code(code, BB_UNINITIALIZED));
    } else if (!in_use || place != at) {
        EXPECT(is_code(code, BB_NOT_HELD));
    } else {
        EXPECT(is_code(code, BB_OK));
        in_use = false;
    }
}

// Returns the first code that both resizes have in common, or BB_OK.
static uint32_t resize_code(size_t place, size_t old_size, size_t old_align, size_t new_size,
                            size_t new_align) {
    if (!made)
        return BB_UNINITIALIZED;
    if (!is_layout(old_size, old_align) || !is_layout(new_size, new_align))
        return BB_INVALID_LAYOUT;
    if (!in_use || place != at)
        return BB_NOT_HELD;
    if (place % old_align != 0)
        return BB_LAYOUT_MISMATCH;
    return BB_OK;
}

static void resize(void) {
    size_t place = a_place();
    size_t old_size = below(4) == 0 && in_use ? reserved() - 1 + below(3) : edge();
    size_t new_size = below(4) == 0 && in_use ? reserved() - 1 + below(3) : edge();
    size_t old_align = edge_align();
    size_t new_align = edge_align();
    uint32_t code = resize_code(place, old_size, old_align, new_size, new_align);
    bb_chunk chunk;
    if (below(2) == 0) {
        if (code == BB_OK && new_size <= old_size)
            code = BB_GROW_WOULD_SHRINK;
        else if (code == BB_OK && new_align > old_align)
            code = BB_ALIGNMENT_FAILURE;
        else if (code == BB_OK && new_size > reserved())
            code = BB_MORE_THAN_RESERVED;
        chunk = bb_one_chunk_grow(&one, place, old_size, old_align, new_size, new_align);
    } else {
        if (code == BB_OK && old_size > reserved())
            code = BB_LAYOUT_MISMATCH;
        else if (code == BB_OK && new_size >= old_size)
            code = BB_SHRINK_WOULD_GROW;
        else if (code == BB_OK && new_align > old_align)
            code = BB_ALIGNMENT_FAILURE;
        chunk = bb_one_chunk_shrink(&one, place, old_size, old_align, new_size, new_align);
    }
    if (code == BB_OK)
        EXPECT(is_given(chunk, at));
    else
        EXPECT(is_refused(chunk, code));
}

static void ask(void) {
    size_t place = a_place();
    bb_number holds = bb_one_chunk_holds(&one, place);
    bb_number bytes = bb_one_chunk_reserved(&one, place);
    bb_one_chunk_figures figures;
    uint32_t code = bb_one_chunk_info(&one, &figures);
    if (!made) {
        EXPECT(has_none(holds, BB_UNINITIALIZED) && has_none(bytes, BB_UNINITIALIZED));
        EXPECT(is_code(code, BB_UNINITIALIZED));
        return;
    }
    EXPECT(is_number(holds, in_use && place == at));
    if (in_use && place == at)
        EXPECT(is_number(bytes, reserved()));
    else
        EXPECT(has_none(bytes, BB_NOT_HELD));
    EXPECT(is_code(code, BB_OK) && figures.start_address == start && figures.size == size);
    EXPECT(figures.has_chunk_available == !in_use);
}

static void a_round(void) {
    switch (below(24)) {
    case 0: destroy(); break;
    case 1:
    case 2: init(); break;
    case 3:
    case 4:
    case 5:
    case 6: allocate(); break;
    case 7: deallocate(); break;
    case 8:
    case 9:
    case 10: ask(); break;
    default: resize(); break;
    }
}

int main(int argc, char **argv) {
    const uint32_t codes[] = {
        BB_OK,
        BB_ALIGNMENT_FAILURE,
        BB_OUT_OF_MEMORY,
        BB_GROW_WOULD_SHRINK,
        BB_SHRINK_WOULD_GROW,
        BB_INVALID_LAYOUT,
        BB_UNINITIALIZED,
        BB_NOT_HELD,
        BB_ALREADY_INITIALIZED,
        BB_INVALID_ARGUMENT,
        BB_LAYOUT_MISMATCH,
        BB_MORE_THAN_RESERVED,
    };
    return run_model("one chunk", a_round, codes, sizeof codes / sizeof *codes, argc, argv);
}
