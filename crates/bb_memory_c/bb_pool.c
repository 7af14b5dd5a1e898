// `bb-pool FILE` shows a shared pool in a file (bb_pool_file.h): its sizes, which parties are
// alive, what each holds, the messages in slots, and a map of the buckets.
#include <errno.h>
#include <stdio.h>
#include <stdlib.h>
#include <string.h>
#include <unistd.h>

#include "pool_file.h"

// The exit statuses besides 0.
enum {
    REFUSED = 1,
    BAD_USAGE = 2
};

enum {
    // Buckets in a line of the map, and in all of it.
    IN_LINE = 64,
    IN_MAP = 4096,
    // Messages of a slot that are listed.
    IN_SLOT = 8
};

static const char USAGE[] =
    "usage: bb-pool [--reap [--detached] [--left]] [--watch] [--json] FILE\n"
    "\n"
    "Shows the shared pool in FILE: its sizes, its parties, the messages in its slots, and a map\n"
    "of its buckets. Each party is a letter, A for party 0, in lower case if the party is dead.\n"
    "\n"
    "  --reap      first frees what dead parties hold; messages in slots stay. This needs the\n"
    "              permission to write FILE; everything else needs only that to read it\n"
    "  --detached  with --reap: also frees what dead parties detached, if it is in no slot\n"
    "  --left      with --reap: the same for parties that have left\n"
    "  --watch     shows the pool every second, until it is interrupted\n"
    "  --json      prints one line of JSON for each look, with all parties and messages, and one\n"
    "              for what --reap frees\n"
    "  --version   prints the version\n"
    "  -h, --help  shows this text\n"
    "\n"
    "The status is 0, or 1 if the file can't be opened, or 2 if the arguments are wrong.\n";

// The parties of the pool, as one look has found them.
struct parties {
    bool *alive;
    uint32_t *held;
    uint32_t *detached;
};

static int fail(const char *path, uint32_t code) {
    if (code == BB_FILE_SYSTEM)
        fprintf(stderr, "bb-pool: %s: %s\n", path, strerror(errno));
    else
        fprintf(stderr, "bb-pool: %s: %s\n", path, bb_pool_file_text(code));
    return REFUSED;
}

// Returns the letter of a party. With more than 26 parties, several share a letter.
static char letter_of(const struct parties *parties, uint32_t party) {
    return (char)((parties->alive[party] ? 'A' : 'a') + party % 26);
}

static void count_buckets(bb_pool_file *file, const bb_pool_file_options *options,
                          struct parties *parties) {
    bb_holder holder;
    for (uint32_t party = 0; party < options->parties; party++) {
        const bb_number life = bb_pool_file_life(file, party);
        parties->alive[party] = bb_pool_file_is_alive(file, party, life.number).number == 1;
    }
    for (uint32_t number = 0; number < options->buckets; number++) {
        if (bb_pool_file_holder(file, number, &holder) != BB_OK)
            continue;
        if (holder.state == BB_HELD && holder.party < options->parties)
            parties->held[holder.party]++;
        if (holder.state == BB_DETACHED && holder.party < options->parties)
            parties->detached[holder.party]++;
    }
}

static void show_figures(const char *path, const bb_pool_file_figures *figures) {
    const bb_pool_file_options *options = &figures->options;
    const uint32_t used = figures->held + figures->detached + figures->wrong;
    const uint32_t free = used < options->buckets ? options->buckets - used : 0;
    printf("%s: %u buckets of %zu bytes at multiples of %zu, %u parties, %u slots of depth %u",
           path, options->buckets, options->bucket_size, options->bucket_align, options->parties,
           options->slots, options->depth);
    if (options->user_bytes > 0)
        printf(", %zu bytes of the host", options->user_bytes);
    printf("\n");
    printf("buckets: %u free, %u held (%u of them by dead parties), %u detached, %u wrong\n", free,
           figures->held, figures->lost, figures->detached, figures->wrong);
    printf("parties: %u alive\n", figures->alive);
}

static void show_parties(const bb_pool_file_options *options, const struct parties *parties) {
    for (uint32_t party = 0; party < options->parties; party++) {
        const uint32_t held = parties->held[party];
        const uint32_t detached = parties->detached[party];
        if (!parties->alive[party] && held == 0 && detached == 0)
            continue;
        printf("  %c party %u: %s, holds %u", letter_of(parties, party), party,
               parties->alive[party] ? "alive" : "dead", held);
        if (detached > 0)
            printf(", has detached %u", detached);
        printf("\n");
    }
}

// Returns whether a party has taken the message, and stores the party's number in `party`.
static bool is_taken(bb_pool_file *file, bb_message message, uint32_t *party) {
    bb_holder holder;
    if (bb_pool_file_holder(file, message.number, &holder) != BB_OK || holder.state != BB_HELD)
        return false;
    *party = holder.party;
    return true;
}

// The messages of a slot, of which some are shown.
struct slot {
    bb_pool_file *file;
    uint32_t shown;
    uint32_t others;
};

static void count_message(void *context, bb_message message) {
    uint32_t *messages = context;
    (void)message;
    ++*messages;
}

static void show_message(void *context, bb_message message) {
    struct slot *slot = context;
    uint32_t party;
    if (slot->shown == IN_SLOT) {
        slot->others++;
        return;
    }
    slot->shown++;
    if (message.code != BB_OK) {
        printf("    wrong\n");
        return;
    }
    printf("    %zu bytes in bucket %u", message.len, message.number);
    if (is_taken(slot->file, message, &party))
        printf(", taken by party %u", party);
    printf("\n");
}

static void show_messages(bb_pool_file *file, const bb_pool_file_figures *figures) {
    printf("messages: %u\n", figures->messages);
    for (uint32_t at = 0; at < figures->options.slots; at++) {
        struct slot slot = {file, 0, 0};
        uint32_t messages = 0;
        pool_file_each_message(file, at, count_message, &messages);
        if (messages == 0)
            continue;
        printf("  slot %u: %u message%s\n", at, messages, messages == 1 ? "" : "s");
        pool_file_each_message(file, at, show_message, &slot);
        if (slot.others > 0)
            printf("    and %u more\n", slot.others);
    }
}

static char sign_of(bb_pool_file *file, const bb_pool_file_options *options,
                    const struct parties *parties, uint32_t number) {
    bb_holder holder;
    if (bb_pool_file_holder(file, number, &holder) != BB_OK)
        return '?';
    if (holder.state == BB_FREE)
        return '.';
    if (holder.state == BB_SENT)
        return holder.party < options->slots ? '*' : '?';
    if (holder.party >= options->parties)
        return '?';
    return holder.state == BB_DETACHED ? '-' : letter_of(parties, holder.party);
}

static void show_map(bb_pool_file *file, const bb_pool_file_options *options,
                     const struct parties *parties) {
    const uint32_t shown = options->buckets < IN_MAP ? options->buckets : IN_MAP;
    printf("map: . free, a letter for its holder, * a message in a slot, - detached, ? wrong\n");
    for (uint32_t number = 0; number < shown; number++) {
        if (number % IN_LINE == 0)
            printf("%8u ", number);
        putchar(sign_of(file, options, parties, number));
        if (number % IN_LINE == IN_LINE - 1 || number == shown - 1)
            putchar('\n');
    }
    if (shown < options->buckets)
        printf("and %u more buckets\n", options->buckets - shown);
}

static void print_parties(const bb_pool_file_options *options, const struct parties *parties) {
    printf(",\"parties\":[");
    for (uint32_t party = 0; party < options->parties; party++)
        printf("%s{\"party\":%u,\"alive\":%s,\"held\":%u,\"detached\":%u}", party > 0 ? "," : "",
               party, parties->alive[party] ? "true" : "false", parties->held[party],
               parties->detached[party]);
    printf("]");
}

// Where a message is printed.
struct printed {
    bb_pool_file *file;
    uint32_t slot;
    const char *before;
};

static void print_message(void *context, bb_message message) {
    struct printed *to = context;
    uint32_t party;
    if (message.code != BB_OK)
        return;
    printf("%s{\"slot\":%u,\"bucket\":%u,\"bytes\":%zu,\"taken_by\":", to->before, to->slot,
           message.number, message.len);
    if (is_taken(to->file, message, &party))
        printf("%u}", party);
    else
        printf("null}");
    to->before = ",";
}

static void print_messages(bb_pool_file *file, const bb_pool_file_options *options) {
    struct printed to = {file, 0, ""};
    printf(",\"slots\":%u,\"depth\":%u,\"messages\":[", options->slots, options->depth);
    for (to.slot = 0; to.slot < options->slots; to.slot++)
        pool_file_each_message(file, to.slot, print_message, &to);
    printf("]");
}

// Prints what `show` shows as one line of JSON, but for the map.
static void print_json(bb_pool_file *file, const bb_pool_file_figures *figures,
                       const struct parties *parties) {
    const bb_pool_file_options *options = &figures->options;
    printf("{\"buckets\":%u,\"bucket_size\":%zu,\"bucket_align\":%zu,\"user_bytes\":%zu",
           options->buckets, options->bucket_size, options->bucket_align, options->user_bytes);
    printf(",\"held\":%u,\"lost\":%u,\"detached\":%u,\"wrong\":%u,\"alive\":%u", figures->held,
           figures->lost, figures->detached, figures->wrong, figures->alive);
    print_parties(options, parties);
    print_messages(file, options);
    printf("}\n");
}

static uint32_t show(bb_pool_file *file, const char *path, bool as_json) {
    bb_pool_file_figures figures;
    struct parties parties;
    uint32_t code = bb_pool_file_info(file, &figures);
    if (code != BB_OK)
        return code;
    const bb_pool_file_options *options = &figures.options;
    parties.alive = calloc(options->parties, sizeof *parties.alive);
    parties.held = calloc(options->parties, sizeof *parties.held);
    parties.detached = calloc(options->parties, sizeof *parties.detached);
    if (parties.alive == NULL || parties.held == NULL || parties.detached == NULL) {
        code = BB_MALLOC_REFUSED;
    } else {
        count_buckets(file, options, &parties);
        if (as_json) {
            print_json(file, &figures, &parties);
        } else {
            show_figures(path, &figures);
            show_parties(options, &parties);
            show_messages(file, &figures);
            show_map(file, options, &parties);
        }
    }
    free(parties.alive);
    free(parties.held);
    free(parties.detached);
    return code;
}

// Shows the pool every second.
static uint32_t watch(bb_pool_file *file, const char *path, bool as_json) {
    for (;;) {
        if (!as_json && isatty(STDOUT_FILENO))
            printf("\033[H\033[J");
        const uint32_t code = show(file, path, as_json);
        if (code != BB_OK)
            return code;
        if (fflush(stdout) != 0)
            return BB_FILE_SYSTEM;
        sleep(1);
    }
}

static uint32_t reap(bb_pool_file *file, uint32_t what, bool as_json) {
    uint32_t given_back = 0;
    const uint32_t code = bb_pool_file_reap(file, what, &given_back);
    if (code == BB_OK)
        printf(as_json ? "{\"freed\":%u}\n" : "freed: %u\n", given_back);
    return code;
}

int main(int argc, char **argv) {
    const char *path = NULL;
    bool reaps = false;
    uint32_t what = BB_REAP_HELD;
    bool watches = false;
    bool as_json = false;
    bool is_right = true;
    for (int at = 1; at < argc; at++) {
        if (strcmp(argv[at], "--help") == 0 || strcmp(argv[at], "-h") == 0) {
            fputs(USAGE, stdout);
            return 0;
        }
        if (strcmp(argv[at], "--version") == 0) {
            puts("bb-pool " BB_VERSION);
            return 0;
        }
        if (strcmp(argv[at], "--reap") == 0)
            reaps = true;
        else if (strcmp(argv[at], "--detached") == 0)
            what |= BB_REAP_DEAD;
        else if (strcmp(argv[at], "--left") == 0)
            what |= BB_REAP_LEFT;
        else if (strcmp(argv[at], "--watch") == 0)
            watches = true;
        else if (strcmp(argv[at], "--json") == 0)
            as_json = true;
        else if (argv[at][0] == '-' || path != NULL)
            is_right = false;
        else
            path = argv[at];
    }
    if (!is_right || path == NULL || (what != BB_REAP_HELD && !reaps)) {
        fputs(USAGE, stderr);
        return BAD_USAGE;
    }
    // The user may look at any file that the system lets this process read, and reap in any file
    // that it lets this process write.
    const bb_pool_file_options options = {.buckets = 0, .mode = 0666};
    bb_pool_file *file;
    uint32_t code =
        reaps ? bb_pool_file_open(&file, path, &options) : pool_file_open_to_look(&file, path);
    if (code != BB_OK)
        return fail(path, code);
    if (reaps)
        code = reap(file, what, as_json);
    if (code == BB_OK)
        code = watches ? watch(file, path, as_json) : show(file, path, as_json);
    if (code != BB_OK)
        return fail(path, code);
    bb_pool_file_close(file);
    return fflush(stdout) == 0 ? 0 : REFUSED;
}
