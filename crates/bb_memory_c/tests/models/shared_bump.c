// A model of shared bumps and their parties, in one thread: two handles of bumps, and parties that
// may belong to either, or to a bump that was abandoned.
#include "model.h"

enum {
    BUMPS = 2,
    PARTIES = 5,
    // Bumps that exist: one in each handle, and for each party one that was abandoned.
    PLACES = BUMPS + PARTIES,
    NONE = PLACES
};

// A bump that exists, with a start that no other one has.
typedef struct {
    size_t start;
    size_t size;
    wide used;
    uint32_t parties;
    uint32_t joined;
    uint32_t abandoned;
} a_bump;

static bb_shared_bump bumps[BUMPS];
static bb_bump_party parties[PARTIES];
static a_bump all[PLACES];
// Which bump a handle has, or NONE.
static uint32_t bump_of[BUMPS];
static uint32_t party_of[PARTIES];

// Returns whether a bump is in a handle or has a joined party.
static bool exists(uint32_t at) {
    return at == bump_of[0] || at == bump_of[1] || all[at].joined > 0;
}

// Returns whether the start is that of a bump that exists.
static bool is_start(size_t start) {
    for (uint32_t at = 0; at < PLACES; at++)
        if (exists(at) && all[at].start == start)
            return true;
    return false;
}

static void init(uint32_t handle) {
    size_t start = edge();
    size_t size = edge();
    uint32_t count = below(4);
    uint32_t expected = BB_OK;
    if (is_start(start))
        return;
    if (bump_of[handle] != NONE)
        expected = BB_ALREADY_INITIALIZED;
    else if (!is_region(start, size) || count == 0)
        expected = BB_INVALID_ARGUMENT;
    EXPECT(is_code(bb_shared_bump_init(&bumps[handle], start, size, count), expected));
    if (expected == BB_OK) {
        uint32_t at = 0;
        while (exists(at))
            at++;
        all[at].start = start;
        all[at].size = size;
        all[at].used = 0;
        all[at].parties = count;
        all[at].joined = 0;
        all[at].abandoned = 0;
        bump_of[handle] = at;
    }
}

static void destroy(uint32_t handle) {
    uint32_t at = bump_of[handle];
    uint32_t expected = BB_OK;
    if (at == NONE)
        expected = BB_UNINITIALIZED;
    else if (all[at].joined + all[at].abandoned > 0)
        expected = BB_PARTIES_JOINED;
    EXPECT(is_code(bb_shared_bump_destroy(&bumps[handle]), expected));
    EXPECT(bumps[handle].made == (expected == BB_PARTIES_JOINED));
    if (expected == BB_OK)
        bump_of[handle] = NONE;
}

static void abandon(uint32_t handle) {
    uint32_t expected = bump_of[handle] == NONE ? BB_UNINITIALIZED : BB_OK;
    EXPECT(is_code(bb_shared_bump_abandon(&bumps[handle]), expected));
    EXPECT(bumps[handle].at == NULL && !bumps[handle].made);
    bump_of[handle] = NONE;
}

static void join(uint32_t handle, uint32_t party) {
    uint32_t at = bump_of[handle];
    uint32_t expected = BB_OK;
    if (party_of[party] != NONE)
        expected = BB_ALREADY_INITIALIZED;
    else if (at == NONE)
        expected = BB_UNINITIALIZED;
    else if (all[at].joined + all[at].abandoned == all[at].parties)
        expected = BB_NO_PARTY;
    EXPECT(is_code(bb_shared_bump_join(&bumps[handle], &parties[party]), expected));
    if (expected == BB_OK) {
        all[at].joined++;
        party_of[party] = at;
    }
}

static void leave(uint32_t handle, uint32_t party) {
    uint32_t at = bump_of[handle];
    uint32_t expected = BB_OK;
    if (at == NONE || party_of[party] == NONE)
        expected = BB_UNINITIALIZED;
    else if (party_of[party] != at)
        expected = BB_OTHER_POOL;
    EXPECT(is_code(bb_shared_bump_leave(&bumps[handle], &parties[party]), expected));
    if (expected == BB_OK) {
        EXPECT(parties[party].at == NULL && !parties[party].made);
        all[at].joined--;
        party_of[party] = NONE;
    }
}

static void reset(uint32_t handle) {
    uint32_t at = bump_of[handle];
    uint32_t expected = BB_OK;
    if (at == NONE)
        expected = BB_UNINITIALIZED;
    else if (all[at].joined + all[at].abandoned > 0)
        expected = BB_PARTIES_JOINED;
    EXPECT(is_code(bb_shared_bump_reset(&bumps[handle]), expected));
    if (expected == BB_OK)
        all[at].used = 0;
}

static void abandon_party(uint32_t party) {
    uint32_t at = party_of[party];
    uint32_t expected = at == NONE ? BB_UNINITIALIZED : BB_OK;
    EXPECT(is_code(bb_bump_party_abandon(&parties[party]), expected));
    EXPECT(parties[party].at == NULL && !parties[party].made);
    if (at != NONE) {
        all[at].joined--;
        all[at].abandoned++;
        party_of[party] = NONE;
    }
}

static void allocate(uint32_t party) {
    size_t size = edge();
    size_t align = edge_align();
    bb_chunk chunk = bb_bump_party_allocate(&parties[party], size, align);
    if (party_of[party] == NONE) {
        EXPECT(is_refused(chunk, BB_UNINITIALIZED));
    } else if (!is_layout(size, align)) {
        EXPECT(is_refused(chunk, BB_INVALID_LAYOUT));
    } else if (size == 0) {
        EXPECT(is_refused(chunk, BB_SIZE_IS_ZERO));
    } else {
        a_bump *of = &all[party_of[party]];
        wide place = rounded_up(of->start + of->used, align);
        if (place + size > (wide)of->start + of->size) {
            EXPECT(is_refused(chunk, BB_OUT_OF_MEMORY));
        } else {
            EXPECT(is_given(chunk, place));
            of->used = place + size - of->start;
        }
    }
}

static void info(uint32_t party) {
    bb_bump_figures figures;
    bb_bump_figures before;
    memset(&before, 0xa5, sizeof before);
    figures = before;
    uint32_t code = bb_bump_party_info(&parties[party], &figures);
    if (party_of[party] == NONE) {
        EXPECT(is_code(code, BB_UNINITIALIZED));
        EXPECT(memcmp(&figures, &before, sizeof before) == 0);
        return;
    }
    const a_bump *of = &all[party_of[party]];
    EXPECT(is_code(code, BB_OK) && figures.start_address == of->start);
    EXPECT(figures.total_space == of->size && figures.used_space == of->used);
    EXPECT(figures.free_space == of->size - of->used);
}

static void a_round(void) {
    uint32_t handle = below(BUMPS);
    uint32_t party = below(PARTIES);
    switch (below(32)) {
    case 0: destroy(handle); break;
    case 1:
        if (below(8) == 0)
            abandon(handle);
        break;
    case 2:
    case 3:
    case 4:
    case 5: init(handle); break;
    case 6:
    case 7:
    case 8:
    case 9:
    case 10: join(handle, party); break;
    case 11:
    case 12: leave(handle, party); break;
    case 13:
    case 14: reset(handle); break;
    case 15:
        if (below(4) == 0)
            abandon_party(party);
        break;
    case 16:
    case 17: info(party); break;
    default: allocate(party); break;
    }
}

int main(int argc, char **argv) {
    const uint32_t codes[] = {
        BB_OK,
        BB_SIZE_IS_ZERO,
        BB_OUT_OF_MEMORY,
        BB_INVALID_LAYOUT,
        BB_UNINITIALIZED,
        BB_ALREADY_INITIALIZED,
        BB_INVALID_ARGUMENT,
        BB_NO_PARTY,
        BB_PARTIES_JOINED,
        BB_OTHER_POOL,
    };
    for (uint32_t handle = 0; handle < BUMPS; handle++)
        bump_of[handle] = NONE;
    for (uint32_t party = 0; party < PARTIES; party++)
        party_of[party] = NONE;
    return run_model("shared bump", a_round, codes, sizeof codes / sizeof *codes, argc, argv);
}
