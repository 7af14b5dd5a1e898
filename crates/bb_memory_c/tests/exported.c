// `exported FILE` calls the exported forms of the functions that the headers define inline, as a
// program in another language does: the declarations are its own, and no header is included. It
// makes a pool in FILE, and prints the version.
#include <stdbool.h>
#include <stddef.h>
#include <stdint.h>
#include <stdio.h>
#include <stdlib.h>
#include <string.h>

typedef struct {
    void *at;
    bool made;
} handle;

typedef struct {
    size_t bucket_size;
    size_t bucket_align;
    uint32_t buckets;
    uint32_t parties;
    uint32_t slots;
    uint32_t depth;
    uint32_t mode;
    size_t user_bytes;
} file_options;

const char *bb_version(void);
const char *bb_name(uint32_t code);
const char *bb_text(uint32_t code);
const char *bb_pool_file_name(uint32_t code);
const char *bb_pool_file_text(uint32_t code);
size_t bb_bytes_for(size_t size, size_t align, uint32_t buckets);
uint32_t bb_pool_init_at_least(handle *pool, size_t bucket_size, size_t bucket_align, void *start,
                               size_t size, uint32_t buckets);
void *bb_pool_get(handle *pool);
uint32_t bb_pool_destroy(handle *pool);
uint32_t bb_shared_pool_init_at_least(handle *pool, size_t bucket_size, size_t bucket_align,
                                      void *start, size_t size, uint32_t parties, uint32_t buckets);
uint32_t bb_shared_pool_join(handle *pool, handle *party);
void *bb_pool_party_get(handle *party);
uint32_t bb_shared_pool_leave(handle *pool, handle *party);
uint32_t bb_shared_pool_destroy(handle *pool);
uint32_t bb_pool_file_open(void **file, const char *path, const file_options *options);
uint32_t bb_pool_file_join(void *file, void **party);
void *bb_file_party_get(void *party);
uint32_t bb_file_party_deallocate(void *party, const void *place);
uint32_t bb_pool_file_close(void *file);

// The numbers of codes of the headers.
enum {
    OK = 0,
    UNINITIALIZED = 8,
    NO_BUCKET = 16,
    FILE_NOT_DONE = 34
};

static uint64_t region[16];

static void expect_at(int line, bool holds) {
    if (!holds) {
        fprintf(stderr, "exported: not so: line %d\n", line);
        exit(1);
    }
}

#define EXPECT(holds) expect_at(__LINE__, holds)

// Allocates all buckets of a pool in a file, and frees one of them.
static void get_from_file(const char *path) {
    const file_options options = {64, 8, 2, 1, 0, 0, 0, 0};
    void *file;
    void *party;
    EXPECT(bb_pool_file_open(&file, path, &options) == OK);
    EXPECT(bb_pool_file_join(file, &party) == OK);
    unsigned char *first = bb_file_party_get(party);
    unsigned char *second = bb_file_party_get(party);
    EXPECT(first != NULL && second != NULL && (first + 64 == second || second + 64 == first));
    EXPECT(bb_file_party_get(party) == NULL);
    EXPECT(bb_file_party_deallocate(party, first) == OK);
    EXPECT(bb_file_party_get(party) == first);
    EXPECT(bb_pool_file_close(file) == OK);
}

int main(int argc, char **argv) {
    handle pool = {NULL, false};
    handle party = {NULL, false};
    EXPECT(argc == 2);
    EXPECT(strcmp(bb_name(NO_BUCKET), "BB_NO_BUCKET") == 0);
    EXPECT(strcmp(bb_text(UNINITIALIZED), "the handle is empty") == 0);
    EXPECT(strcmp(bb_pool_file_name(NO_BUCKET), "BB_NO_BUCKET") == 0);
    EXPECT(strcmp(bb_pool_file_name(FILE_NOT_DONE), "BB_FILE_NOT_DONE") == 0);
    EXPECT(strcmp(bb_pool_file_text(UNINITIALIZED), "the file or the party is not open here") == 0);
    EXPECT(strcmp(bb_pool_file_text(FILE_NOT_DONE), "the bucket is still in a slot") == 0);
    EXPECT(bb_bytes_for(60, 8, 2) == 128);
    EXPECT(bb_pool_get(&pool) == NULL);
    EXPECT(bb_pool_init_at_least(&pool, 64, 8, region, sizeof region, 3) == NO_BUCKET);
    EXPECT(bb_pool_init_at_least(&pool, 64, 8, region, sizeof region, 2) == OK);
    EXPECT(bb_pool_get(&pool) != NULL);
    EXPECT(bb_pool_get(&pool) != NULL);
    EXPECT(bb_pool_get(&pool) == NULL);
    EXPECT(bb_pool_destroy(&pool) == OK);
    EXPECT(bb_shared_pool_init_at_least(&pool, 64, 8, region, sizeof region, 1, 3) == NO_BUCKET);
    EXPECT(bb_shared_pool_init_at_least(&pool, 64, 8, region, sizeof region, 1, 2) == OK);
    EXPECT(bb_pool_party_get(&party) == NULL);
    EXPECT(bb_shared_pool_join(&pool, &party) == OK);
    EXPECT(bb_pool_party_get(&party) != NULL);
    EXPECT(bb_shared_pool_leave(&pool, &party) == OK);
    EXPECT(bb_shared_pool_destroy(&pool) == OK);
    get_from_file(argv[1]);
    puts(bb_version());
    return 0;
}
