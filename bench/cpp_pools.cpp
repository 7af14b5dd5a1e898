// The pools of the C++ library, and of Boost if that is installed. Each of them allocates more
// memory if it has no free bucket, so the loops count the buckets.
#include "heaps.h"
#include <memory_resource>
#include <optional>

#if __has_include(<boost/interprocess/allocators/cached_node_allocator.hpp>)
#define HAS_BOOST 1
#include <boost/interprocess/allocators/cached_node_allocator.hpp>
#include <boost/interprocess/indexes/iset_index.hpp>
#include <boost/interprocess/managed_external_buffer.hpp>
#include <boost/interprocess/sync/mutex_family.hpp>
#include <cstdlib>
#else
#define HAS_BOOST 0
#endif

namespace {

constexpr std::size_t request_size = 48;
constexpr std::size_t request_align = 8;

std::optional<std::pmr::unsynchronized_pool_resource> pmr;
std::optional<std::pmr::synchronized_pool_resource> pmr_shared;

// Returns options by which one chunk of the resource has room for all buckets.
std::pmr::pool_options options(std::uint32_t buckets, std::size_t bucket_size) {
    std::pmr::pool_options wanted;
    wanted.max_blocks_per_chunk = buckets;
    wanted.largest_required_pool_block = bucket_size;
    return wanted;
}

}  // namespace

int pmr_open(std::uint32_t buckets, std::size_t bucket_size, std::uint32_t) {
    pmr.emplace(options(buckets, bucket_size));
    return 1;
}

std::size_t pmr_take() {
    return reinterpret_cast<std::size_t>(pmr->allocate(request_size, request_align));
}

void pmr_give(std::size_t place) {
    pmr->deallocate(reinterpret_cast<void *>(place), request_size, request_align);
}

void pmr_close() {
    pmr.reset();
}

int pmr_shared_open(std::uint32_t buckets, std::size_t bucket_size, std::uint32_t) {
    pmr_shared.emplace(options(buckets, bucket_size));
    return 1;
}

std::size_t pmr_shared_take() {
    return reinterpret_cast<std::size_t>(pmr_shared->allocate(request_size, request_align));
}

void pmr_shared_give(std::size_t place) {
    pmr_shared->deallocate(reinterpret_cast<void *>(place), request_size, request_align);
}

void pmr_shared_close() {
    pmr_shared.reset();
}

#if HAS_BOOST
namespace {

namespace interprocess = boost::interprocess;

constexpr std::size_t node_size = 128;

struct node {
    alignas(8) unsigned char bytes[node_size];
};

// The type of managed shared memory, but over a buffer instead of a file.
using segment = interprocess::basic_managed_external_buffer<
    char, interprocess::rbtree_best_fit<interprocess::mutex_family>, interprocess::iset_index>;
using allocator = interprocess::cached_node_allocator<node, segment::segment_manager>;

void *buffer;
std::optional<segment> memory;
std::size_t cached_nodes;
thread_local std::optional<allocator> own;

}  // namespace

int interprocess_open(std::uint32_t buckets, std::size_t bucket_size, std::uint32_t cached) {
    // Room for the nodes, for those that threads cache, and for the bookkeeping of both.
    std::size_t size = (std::size_t{buckets} + 1024) * 2 * node_size;
    if (bucket_size != node_size)
        return 0;
    buffer = std::aligned_alloc(4096, size);
    if (buffer == nullptr)
        std::abort();
    memory.emplace(interprocess::create_only, buffer, size);
    cached_nodes = cached;
    interprocess_enter();
    return 1;
}

std::size_t interprocess_take() {
    return reinterpret_cast<std::size_t>(own->allocate_one().get());
}

void interprocess_give(std::size_t place) {
    own->deallocate_one(reinterpret_cast<node *>(place));
}

void interprocess_close() {
    interprocess_leave();
    memory.reset();
    std::free(buffer);
}

void interprocess_enter() {
    own.emplace(memory->get_segment_manager());
    own->set_max_cached_nodes(cached_nodes);
}

void interprocess_leave() {
    own.reset();
}
#else
int interprocess_open(std::uint32_t, std::size_t, std::uint32_t) {
    return 0;
}

std::size_t interprocess_take() {
    return 0;
}

void interprocess_give(std::size_t) {}

void interprocess_close() {}

void interprocess_enter() {}

void interprocess_leave() {}
#endif
