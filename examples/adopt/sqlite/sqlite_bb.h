// SQLite over pools of bb_memory. Call each function before `sqlite3_initialize`.
#ifndef SQLITE_BB_H
#define SQLITE_BB_H

#include <stddef.h>

// Makes a region SQLite's heap, by SQLITE_CONFIG_MALLOC. SQLite uses malloc for what has more than
// 16 KiB, and for what the region has no room for.
//
// `region` is a multiple of 16, and is kept until `sqlite3_shutdown`. Returns a code of SQLite.
int sqlite_bb_heap(void *region, size_t size);

// Makes pools SQLite's cache of pages, by SQLITE_CONFIG_PCACHE2. Their regions are requested from
// malloc as the cache grows.
//
// Returns a code of SQLite.
int sqlite_bb_pages(void);

#endif
