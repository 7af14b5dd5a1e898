// A model of a bump, with its region at any place.
#include "model.h"

static bb_bump bump = BB_EMPTY;
static bool made;
static size_t start;
static size_t size;
static wide used;

static void init(void) {
    size_t at = edge();
    size_t bytes = edge();
    uint32_t expected = BB_OK;
    if (made)
        expected = BB_ALREADY_INITIALIZED;
    else if (!is_region(at, bytes))
        expected = BB_INVALID_ARGUMENT;
    EXPECT(is_code(bb_bump_init(&bump, at, bytes), expected));
    if (expected == BB_OK) {
        made = true;
        start = at;
        size = bytes;
        used = 0;
    }
}

static void destroy(void) {
    EXPECT(is_code(bb_bump_destroy(&bump), made ? BB_OK : BB_UNINITIALIZED));
    EXPECT(bump.at == NULL && !bump.made);
    made = false;
}

static void allocate(void) {
    size_t bytes = edge();
    size_t align = edge_align();
    bb_chunk chunk = bb_bump_allocate(&bump, bytes, align);
    if (!made) {
        EXPECT(is_refused(chunk, BB_UNINITIALIZED));
    } else if (!is_layout(bytes, align)) {
        EXPECT(is_refused(chunk, BB_INVALID_LAYOUT));
    } else if (bytes == 0) {
        EXPECT(is_refused(chunk, BB_SIZE_IS_ZERO));
    } else {
        wide place = rounded_up(start + used, align);
        if (place + bytes > (wide)start + size) {
            EXPECT(is_refused(chunk, BB_OUT_OF_MEMORY));
        } else {
            EXPECT(is_given(chunk, place));
            used = place + bytes - start;
        }
    }
}

static void deallocate(void) {
    EXPECT(is_code(bb_bump_deallocate(&bump), made ? BB_OK : BB_UNINITIALIZED));
    used = 0;
}

static void info(void) {
    bb_bump_figures figures;
    bb_bump_figures before;
    memset(&before, 0xa5, sizeof before);
    figures = before;
    uint32_t code = bb_bump_info(&bump, &figures);
    if (!made) {
        EXPECT(is_code(code, BB_UNINITIALIZED) && memcmp(&figures, &before, sizeof before) == 0);
        return;
    }
    EXPECT(is_code(code, BB_OK) && figures.start_address == start && figures.total_space == size);
    EXPECT(figures.used_space == used && figures.free_space == size - used);
}

static void a_round(void) {
    switch (below(16)) {
    case 0: destroy(); break;
    case 1: deallocate(); break;
    case 2:
    case 3:
    case 4: init(); break;
    case 5: info(); break;
    default: allocate(); break;
    }
}

int main(int argc, char **argv) {
    const uint32_t codes[] = {
        BB_OK,
        BB_SIZE_IS_ZERO,
        BB_OUT_OF_MEMORY,
        BB_INVALID_LAYOUT,
        BB_UNINITIALIZED,
        BB_ALREADY_INITIALIZED,
        BB_INVALID_ARGUMENT,
    };
    return run_model("bump", a_round, codes, sizeof codes / sizeof *codes, argc, argv);
}
