// Exports the functions that the headers define inline, for programs in languages that can't
// include a header, and `bb_version`. This file is outside the proofs.

// The headers' functions have other names in this file.
#define bb_name inline_name
#define bb_text inline_text
#define bb_bytes_for inline_bytes_for
#define bb_pool_init_at_least inline_pool_init_at_least
#define bb_pool_get inline_pool_get
#define bb_shared_pool_init_at_least inline_shared_pool_init_at_least
#define bb_pool_party_get inline_pool_party_get
#define bb_file_party_get inline_file_party_get
#define bb_pool_file_name inline_pool_file_name
#define bb_pool_file_text inline_pool_file_text

#include "bb_pool_file.h"

#undef bb_name
#undef bb_text
#undef bb_bytes_for
#undef bb_pool_init_at_least
#undef bb_pool_get
#undef bb_shared_pool_init_at_least
#undef bb_pool_party_get
#undef bb_file_party_get
#undef bb_pool_file_name
#undef bb_pool_file_text

const char *bb_version(void) {
    return BB_VERSION;
}

const char *bb_name(uint32_t code) {
    return inline_name(code);
}

const char *bb_text(uint32_t code) {
    return inline_text(code);
}

size_t bb_bytes_for(size_t size, size_t align, uint32_t buckets) {
    return inline_bytes_for(size, align, buckets);
}

uint32_t bb_pool_init_at_least(bb_pool *pool, size_t bucket_size, size_t bucket_align,
                               bb_place start, size_t size, uint32_t buckets) {
    return inline_pool_init_at_least(pool, bucket_size, bucket_align, start, size, buckets);
}

void *bb_pool_get(bb_pool *pool) {
    return inline_pool_get(pool);
}

uint32_t bb_shared_pool_init_at_least(bb_shared_pool *pool, size_t bucket_size, size_t bucket_align,
                                      bb_place start, size_t size, uint32_t parties,
                                      uint32_t buckets) {
    return inline_shared_pool_init_at_least(pool, bucket_size, bucket_align, start, size, parties,
                                            buckets);
}

void *bb_pool_party_get(bb_pool_party *party) {
    return inline_pool_party_get(party);
}

void *bb_file_party_get(bb_file_party *party) {
    return inline_file_party_get(party);
}

const char *bb_pool_file_name(uint32_t code) {
    return inline_pool_file_name(code);
}

const char *bb_pool_file_text(uint32_t code) {
    return inline_pool_file_text(code);
}
