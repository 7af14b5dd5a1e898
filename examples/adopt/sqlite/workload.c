// Does the same work with SQLite's own allocators and with those over pools.
//
//     workload MODE ROWS    prints a hash of all that SQLite answers
//     workload twice        frees an allocation of the heap over pools twice, which ends the program
//
// MODE is `default`, `heap`, `pages` or `both`, and the hash does not depend on it. Each of two
// threads has a database of its own in a temporary file, with a cache that is too small for it, and
// a second one in memory.
#include <pthread.h>
#include <sqlite3.h>
#include <stdbool.h>
#include <stdint.h>
#include <stdio.h>
#include <stdlib.h>
#include <string.h>

#include "sqlite_bb.h"

enum {
    THREADS = 2,
    // Less than the work needs, so that some of it is malloc's.
    HEAP = 2 * 1024 * 1024,
    LONGEST_BODY = 600,
    ROWS_FOR_A_QUERY = 20
};

// One thread's work, and what came out.
struct work {
    int rows;
    uint64_t random;
    uint64_t hash;
    sqlite3 *db;
};

static _Alignas(16) char heap[HEAP];

static void expect(bool holds, const char *what) {
    if (!holds) {
        fprintf(stderr, "workload: not so: %s\n", what);
        exit(1);
    }
}

static uint64_t next_random(struct work *work) {
    work->random ^= work->random << 13;
    work->random ^= work->random >> 7;
    work->random ^= work->random << 17;
    return work->random;
}

// Adds bytes to the hash (FNV-1a).
static void add_to_hash(struct work *work, const void *bytes, size_t len) {
    for (size_t at = 0; at < len; at++)
        work->hash = (work->hash ^ ((const unsigned char *)bytes)[at]) * 0x100000001b3;
}

static sqlite3_stmt *prepare(struct work *work, const char *sql) {
    sqlite3_stmt *made = NULL;
    expect(sqlite3_prepare_v2(work->db, sql, -1, &made, NULL) == SQLITE_OK, sql);
    return made;
}

// Runs a statement to its end, and adds each value of each row to the hash.
static void step(struct work *work, sqlite3_stmt *statement) {
    int code = sqlite3_step(statement);
    while (code == SQLITE_ROW) {
        for (int column = 0; column < sqlite3_column_count(statement); column++) {
            const void *bytes = sqlite3_column_blob(statement, column);
            add_to_hash(work, bytes, (size_t)sqlite3_column_bytes(statement, column));
        }
        code = sqlite3_step(statement);
    }
    expect(code == SQLITE_DONE, sqlite3_errmsg(work->db));
    sqlite3_reset(statement);
}

// Runs one statement.
static void run(struct work *work, const char *sql) {
    sqlite3_stmt *statement = prepare(work, sql);
    step(work, statement);
    sqlite3_finalize(statement);
}

static void insert_rows(struct work *work) {
    char name[40];
    unsigned char body[LONGEST_BODY];
    sqlite3_stmt *insert = prepare(work, "INSERT INTO t(name, n, body) VALUES(?, ?, ?)");
    run(work, "BEGIN");
    for (int row = 0; row < work->rows; row++) {
        const uint64_t random = next_random(work);
        snprintf(name, sizeof(name), "name-%016llx", (unsigned long long)random);
        memset(body, (int)(random % 256), sizeof(body));
        sqlite3_bind_text(insert, 1, name, -1, SQLITE_TRANSIENT);
        sqlite3_bind_int(insert, 2, (int)(random % 1000));
        sqlite3_bind_blob(insert, 3, body, (int)(random % LONGEST_BODY), SQLITE_TRANSIENT);
        step(work, insert);
    }
    run(work, "COMMIT");
    sqlite3_finalize(insert);
}

static void select_rows(struct work *work) {
    sqlite3_stmt *by_key = prepare(work, "SELECT id, name, body FROM t WHERE id = ?");
    for (int row = 0; row < work->rows; row++) {
        const uint64_t random = next_random(work);
        sqlite3_bind_int(by_key, 1, (int)(random % (uint64_t)work->rows) + 1);
        step(work, by_key);
        if (row % ROWS_FOR_A_QUERY == 0) {
            char *sql =
                sqlite3_mprintf("SELECT count(*), max(name) FROM t WHERE n = %d AND id < %d",
                                (int)(random % 1000), row);
            expect(sql != NULL, "there is memory for a query");
            run(work, sql);
            sqlite3_free(sql);
        }
    }
    sqlite3_finalize(by_key);
}

static void *work_on(void *argument) {
    struct work *work = argument;
    expect(sqlite3_open("", &work->db) == SQLITE_OK, "a temporary database is there");
    run(work, "PRAGMA cache_size = 100");
    run(work, "PRAGMA auto_vacuum = FULL");
    run(work, "CREATE TABLE t(id INTEGER PRIMARY KEY, name TEXT, n INTEGER, body BLOB)");
    insert_rows(work);
    run(work, "CREATE INDEX by_name ON t(name)");
    run(work, "CREATE INDEX by_n ON t(n, id)");
    select_rows(work);
    run(work, "ATTACH ':memory:' AS m");
    run(work, "CREATE TABLE m.copy AS SELECT * FROM t ORDER BY name");
    run(work, "SELECT n, count(*), group_concat(name) FROM m.copy GROUP BY n ORDER BY 2 DESC, 1");
    run(work,
        "SELECT a.id FROM t a JOIN m.copy b ON a.n = b.n AND b.id = a.id + 1 ORDER BY a.name");
    run(work, "DROP TABLE m.copy");
    run(work, "UPDATE t SET name = name || '-' || n WHERE n < 300");
    run(work, "DELETE FROM t WHERE n % 2 = 1");
    run(work, "PRAGMA shrink_memory");
    run(work, "VACUUM");
    run(work, "PRAGMA integrity_check");
    run(work, "SELECT * FROM t ORDER BY name DESC");
    expect(sqlite3_close(work->db) == SQLITE_OK, "all statements are finalized");
    return NULL;
}

// Makes SQLite allocate as the mode says. The lookaside buffers of connections would take most of the
// small requests before they get to the heap.
static void configure(const char *mode) {
    const bool is_both = strcmp(mode, "both") == 0;
    const bool is_heap = strcmp(mode, "heap") == 0 || strcmp(mode, "twice") == 0;
    expect(sqlite3_config(SQLITE_CONFIG_LOOKASIDE, 0, 0) == SQLITE_OK, "lookaside is off");
    if (is_both || is_heap)
        expect(sqlite_bb_heap(heap, sizeof(heap)) == SQLITE_OK, "the heap is over pools");
    if (is_both || strcmp(mode, "pages") == 0)
        expect(sqlite_bb_pages() == SQLITE_OK, "the cache is over pools");
    expect(sqlite3_initialize() == SQLITE_OK, "SQLite starts");
}

static int free_twice(void) {
    void *place = sqlite3_malloc(100);
    sqlite3_free(place);
    sqlite3_free(place);
    return 0;
}

int main(int count, char **words) {
    pthread_t threads[THREADS];
    struct work works[THREADS];
    uint64_t hash = 0;
    expect(count == 2 || count == 3, "usage: workload MODE ROWS, or workload twice");
    configure(words[1]);
    if (count == 2)
        return free_twice();
    for (int at = 0; at < THREADS; at++) {
        works[at] = (struct work){atoi(words[2]), 88172645463325252u + (unsigned)at,
                                  0xcbf29ce484222325, NULL};
        expect(pthread_create(&threads[at], NULL, work_on, &works[at]) == 0, "a thread starts");
    }
    for (int at = 0; at < THREADS; at++) {
        pthread_join(threads[at], NULL);
        hash = hash * 3 + works[at].hash;
    }
    expect(sqlite3_memory_used() == 0, "everything is freed");
    expect(sqlite3_shutdown() == SQLITE_OK, "SQLite stops");
    printf("%016llx\n", (unsigned long long)hash);
    return 0;
}
