// bb_memory for C++17, over bb_memory.h, whose terms, rules and codes hold here, too.

// This header has owners that destroy what they initialized, parties that leave when they go out of
// scope, a `std::unique_ptr` that frees its bucket, and a `std::pmr::memory_resource` over a bump,
// a pool or a party.

// An error is a value: an `error`, or an empty result. Only a memory resource throws:
// `std::bad_alloc`, as containers require.

//     alignas(64) static unsigned char region[BB_BYTES_FOR(64, 64, 16)];
//
//     // The pool outlives its parties, and each thread has a party.
//     bb::shared_pool pool;
//     if (pool.init(64, 64, region, sizeof region, 2) != bb::error::ok)
//         return;
//     bb::pool_party party;
//     if (pool.join(party) != bb::error::ok)
//         return;
//     // The pointer is empty if no bucket is free.
//     auto number = bb::make<int>(party.get(), 7);
//     bb::pool_resource nodes(party.get());
//     std::pmr::list<int> numbers({1, 2, 3}, &nodes);
//     // There are no statistics if there is no party.
//     if (party.info()->held_buckets != 4)
//         return;

// `get()` returns the handle, for the functions of bb_memory.h.

// Owners and parties can be neither moved nor copied, since resources and pointers keep the
// addresses of their handles. A container that constructs them in place, such as `std::deque` or
// `std::optional`, can hold them. Only `bb::detached` can be moved: nothing keeps its address.

#ifndef BB_MEMORY_HPP
#define BB_MEMORY_HPP

#include <cstddef>
#include <cstdint>
#include <memory>
#include <memory_resource>
#include <mutex>
#include <new>
#include <optional>
#include <type_traits>
#include <utility>

#include "bb_memory.h"

namespace bb {

//
// CODES
//

// clang-format would drop the space before the brace.
// clang-format off

// The codes of bb_memory.h, which says what each of them means.
enum class [[nodiscard]] error : std::uint32_t {
    ok = BB_OK,
    size_is_zero = BB_SIZE_IS_ZERO,
    size_too_large = BB_SIZE_TOO_LARGE,
    alignment_failure = BB_ALIGNMENT_FAILURE,
    out_of_memory = BB_OUT_OF_MEMORY,
    grow_would_shrink = BB_GROW_WOULD_SHRINK,
    shrink_would_grow = BB_SHRINK_WOULD_GROW,
    invalid_layout = BB_INVALID_LAYOUT,
    uninitialized = BB_UNINITIALIZED,
    not_held = BB_NOT_HELD,
    already_initialized = BB_ALREADY_INITIALIZED,
    invalid_argument = BB_INVALID_ARGUMENT,
    no_party = BB_NO_PARTY,
    layout_mismatch = BB_LAYOUT_MISMATCH,
    malloc_refused = BB_MALLOC_REFUSED,
    more_than_reserved = BB_MORE_THAN_RESERVED,
    no_bucket = BB_NO_BUCKET,
    bucket_detached = BB_BUCKET_DETACHED,
    parties_joined = BB_PARTIES_JOINED,
    one_party = BB_ONE_PARTY,
    detached_full = BB_DETACHED_FULL,
    detached_empty = BB_DETACHED_EMPTY,
    not_a_bucket = BB_NOT_A_BUCKET,
    other_pool = BB_OTHER_POOL,
};

// clang-format on

// Returns a short text about a code, for a log.
inline const char *text(error code) noexcept {
    return bb_text(static_cast<std::uint32_t>(code));
}

// Returns the name of a code in bb_memory.h, such as "BB_NOT_HELD".
inline const char *name(error code) noexcept {
    return bb_name(static_cast<std::uint32_t>(code));
}

//
// STATISTICS
//

// Returns the statistics of what is in the handle, or nothing if the handle is empty.
template<class Figures, class Handle>
std::optional<Figures> figures(std::uint32_t (*info)(Handle *, Figures *),
                               std::remove_const_t<Handle> *of) noexcept {
    Figures result{};
    return info(of, &result) == BB_OK ? std::optional<Figures>(result) : std::nullopt;
}

// Returns the statistics of a bump, or nothing if the handle is empty.
inline std::optional<bb_bump_figures> info(bb_bump *of) noexcept {
    return figures(bb_bump_info, of);
}

// Returns the statistics of a party's bump, or nothing if the handle is empty.
inline std::optional<bb_bump_figures> info(bb_bump_party *of) noexcept {
    return figures(bb_bump_party_info, of);
}

// Returns the statistics of a one-chunk allocator, or nothing if the handle is empty.
inline std::optional<bb_one_chunk_figures> info(bb_one_chunk *of) noexcept {
    return figures(bb_one_chunk_info, of);
}

// Returns the statistics of a pool, or nothing if the handle is empty.
inline std::optional<bb_pool_figures> info(bb_pool *of) noexcept {
    return figures(bb_pool_info, of);
}

// Returns the statistics of a party's pool, or nothing if the handle is empty. Only the buckets
// that the party holds and doesn't cache count as held.
inline std::optional<bb_shared_pool_figures> info(bb_pool_party *of) noexcept {
    return figures(bb_pool_party_info, of);
}

// Returns the statistics of a shared pool, or nothing if the handle is empty.
inline std::optional<bb_shared_pool_figures> info(bb_shared_pool *of) noexcept {
    return figures(bb_shared_pool_info, of);
}

//
// OWNERS
//

// Owns a handle, which is empty before `init` and after `destroy`. An owner can't be moved.
template<class Handle, auto Destroy>
class owner {
public:
    owner() noexcept = default;
    owner(const owner &) = delete;
    owner &operator=(const owner &) = delete;

    ~owner() { static_cast<void>(destroy()); }

    // Destroys what is in the handle. The owner can be initialized again.
    error destroy() noexcept { return static_cast<error>(Destroy(&handle_)); }

    // Returns the handle, for functions of bb_memory.h.
    Handle *get() noexcept { return &handle_; }

    // Returns the handle, for functions of bb_memory.h.
    const Handle *get() const noexcept { return &handle_; }

private:
    Handle handle_ BB_EMPTY;
};

// Owns a bump.
class bump : public owner<bb_bump, bb_bump_destroy> {
public:
    // Makes a bump over the region of `size` bytes at `start`.
    error init(void *start, std::size_t size) noexcept {
        return static_cast<error>(bb_bump_init(get(), start, size));
    }

    // Frees all chunks. The next chunk is allocated at the start of the region again. The chunks
    // must not be used anymore.
    error reset() noexcept { return static_cast<error>(bb_bump_deallocate(get())); }

    // Returns the statistics of the bump, or nothing if there is none.
    std::optional<bb_bump_figures> info() noexcept { return bb::info(get()); }
};

// Owns a one-chunk allocator.
class one_chunk : public owner<bb_one_chunk, bb_one_chunk_destroy> {
public:
    // Makes a one-chunk allocator over the region of `size` bytes at `start`.
    error init(void *start, std::size_t size) noexcept {
        return static_cast<error>(bb_one_chunk_init(get(), start, size));
    }

    // Returns the statistics of the allocator, or nothing if there is none.
    std::optional<bb_one_chunk_figures> info() noexcept { return bb::info(get()); }
};

// Owns a pool.
class pool : public owner<bb_pool, bb_pool_destroy> {
public:
    // Makes a pool over the region of `size` bytes at `start`. Each bucket has `bucket_size` bytes
    // and begins at a multiple of `bucket_align`.
    error init(std::size_t bucket_size, std::size_t bucket_align, void *start,
               std::size_t size) noexcept {
        return static_cast<error>(bb_pool_init(get(), bucket_size, bucket_align, start, size));
    }

    // Returns the statistics of the pool, or nothing if there is none.
    std::optional<bb_pool_figures> info() noexcept { return bb::info(get()); }
};

// Owns a `bb_detached`. It can be moved, together with the bucket that is in it.
class detached {
public:
    detached() noexcept = default;

    detached(detached &&other) noexcept
        : handle_(std::exchange(other.handle_, bb_detached BB_EMPTY)) {}

    detached &operator=(detached &&other) noexcept {
        detached moved(std::move(other));
        std::swap(handle_, moved.handle_);
        return *this;
    }

    ~detached() { bb_detached_destroy(&handle_); }

    // Makes a `bb_detached` with no bucket in it.
    error init() noexcept { return static_cast<error>(bb_detached_init(&handle_)); }

    // Returns the length in bytes of the chunk that is in it, or nothing if there is none.
    std::optional<std::size_t> len() noexcept {
        bb_number result = bb_detached_len(&handle_);
        return result.code == BB_OK ? std::optional<std::size_t>(result.number) : std::nullopt;
    }

    // Returns the handle, for functions of bb_memory.h.
    bb_detached *get() noexcept { return &handle_; }

    // Returns the handle, for functions of bb_memory.h.
    const bb_detached *get() const noexcept { return &handle_; }

private:
    bb_detached handle_ BB_EMPTY;
};

//
// SHARED BETWEEN THREADS
//

// Owns a bump or a pool that threads share. It has to outlive its parties, which join and leave
// under its lock, in any thread.
template<class Handle, auto Destroy, auto Abandon, class PartyHandle, auto Join, auto Leave>
class shared : public owner<Handle, Destroy> {
public:
    // A party, which leaves when it goes out of scope. It can't be moved.
    class party {
    public:
        party() noexcept = default;
        party(const party &) = delete;
        party &operator=(const party &) = delete;

        ~party() { leave(); }

        // Makes the party leave. It can join again later. Each bucket that it holds is freed, and
        // must not be used anymore.
        void leave() noexcept { end_by(Leave); }

        // Returns the handle, for functions of bb_memory.h.
        PartyHandle *get() noexcept { return &handle_; }

        // Returns the handle, for functions of bb_memory.h.
        const PartyHandle *get() const noexcept { return &handle_; }

    protected:
        // Makes the party leave with `Leave`, or with another call that empties its handle.
        void end_by(std::uint32_t (*call)(Handle *, PartyHandle *)) noexcept {
            if (shared *of = std::exchange(of_, nullptr)) {
                std::lock_guard<std::mutex> lock(of->lock_);
                call(of->get(), &handle_);
            }
        }

    private:
        friend class shared;

        shared *of_ = nullptr;
        PartyHandle handle_ BB_EMPTY;
    };

    shared() noexcept = default;

    // Destroys the bump or the pool. Abandons it if it can't be destroyed, such as a pool with a
    // detached bucket: as long as anybody uses the `bb_detached` with that bucket, no other shared
    // pool may have the same start.
    ~shared() {
        if (this->destroy() != error::ok)
            Abandon(this->get());
    }

    // Destroys the bump or the pool, unless a party is joined or a bucket is detached.
    error destroy() noexcept {
        std::lock_guard<std::mutex> lock(lock_);
        return owner<Handle, Destroy>::destroy();
    }

    // Makes the party `into` join. The call fails if that party has joined already.
    error join(party &into) noexcept { return join_by(Join, into); }

protected:
    // Makes the party join with `Join`, or with another call that fills its handle.
    template<class Call>
    error join_by(Call call, party &into) noexcept {
        std::lock_guard<std::mutex> lock(lock_);
        error code = static_cast<error>(call(this->get(), &into.handle_));
        if (code == error::ok)
            into.of_ = this;
        return code;
    }

    std::mutex lock_;
};

namespace detail {

using shared_bump = shared<bb_shared_bump, bb_shared_bump_destroy, bb_shared_bump_abandon,
                           bb_bump_party, bb_shared_bump_join, bb_shared_bump_leave>;
using shared_pool = shared<bb_shared_pool, bb_shared_pool_destroy, bb_shared_pool_abandon,
                           bb_pool_party, bb_shared_pool_join, bb_shared_pool_leave>;

}  // namespace detail

// A party of a bump that threads share.
class bump_party : public detail::shared_bump::party {
public:
    // Returns the statistics of the bump, or nothing if the party hasn't joined.
    std::optional<bb_bump_figures> info() noexcept { return bb::info(get()); }
};

// A bump that threads share.
class shared_bump : public detail::shared_bump {
public:
    using party = bump_party;

    // Makes a bump over the region of `size` bytes at `start`, for this number of parties.
    error init(void *start, std::size_t size, std::uint32_t parties) noexcept {
        return static_cast<error>(bb_shared_bump_init(get(), start, size, parties));
    }

    // Frees all chunks, and starts again over the region, if every party has left. The chunks must
    // not be used anymore.
    error reset() noexcept {
        std::lock_guard<std::mutex> lock(lock_);
        return static_cast<error>(bb_shared_bump_reset(get()));
    }
};

// A party of a pool that threads share.
class pool_party : public detail::shared_pool::party {
public:
    // Returns the statistics of the pool, or nothing if the party hasn't joined. Only the buckets
    // that this party holds and doesn't cache count as held.
    std::optional<bb_shared_pool_figures> info() noexcept { return bb::info(get()); }

    // Returns the number by which flags name this party, or nothing if it hasn't joined.
    std::optional<std::uint32_t> number() noexcept {
        bb_number result = bb_pool_party_number(get());
        if (result.code != BB_OK)
            return std::nullopt;
        return static_cast<std::uint32_t>(result.number);
    }

    // Makes the party cache at most `most` of the buckets that it frees from now on.
    error cache(std::uint32_t most) noexcept {
        return static_cast<error>(bb_pool_party_cache(get(), most));
    }

    // Frees the buckets that the party caches.
    error flush() noexcept { return static_cast<error>(bb_pool_party_flush(get())); }

    // Frees the bucket that is in `from`, without attaching it.
    error return_detached(detached &from) noexcept {
        return static_cast<error>(bb_pool_party_return_detached(get(), from.get()));
    }

    // Frees each bucket that this party holds, cached or not. The party stays joined.
    error give_all_back() noexcept {
        return static_cast<error>(bb_pool_party_give_all_back(get()));
    }

    // Makes the party leave without freeing anything: the next party that joins with its number
    // holds what this one held.
    void forget() noexcept { end_by(bb_shared_pool_forget); }
};

// A pool that threads share.
class shared_pool : public detail::shared_pool {
public:
    using party = pool_party;

    // Makes a pool over the region of `size` bytes at `start`, for this number of parties. Each
    // bucket has `bucket_size` bytes and begins at a multiple of `bucket_align`.
    error init(std::size_t bucket_size, std::size_t bucket_align, void *start, std::size_t size,
               std::uint32_t parties) noexcept {
        return static_cast<error>(
            bb_shared_pool_init(get(), bucket_size, bucket_align, start, size, parties));
    }

    // Returns the statistics of the pool, or nothing if there is none.
    std::optional<bb_shared_pool_figures> info() noexcept { return bb::info(get()); }

    // Makes `into` join as the party with this number, which `number()` returns.
    error join_number(std::uint32_t number, party &into) noexcept {
        return join_by(
            [number](bb_shared_pool *of, bb_pool_party *handle) {
                return bb_shared_pool_join_number(of, number, handle);
            },
            into);
    }

    // Returns what the flag of the bucket with this number says, or nothing if no bucket has the
    // number. Any thread may call this.
    std::optional<bb_holder> holder(std::uint32_t number) const noexcept {
        bb_holder result{};
        if (bb_shared_pool_holder(get(), number, &result) != BB_OK)
            return std::nullopt;
        return result;
    }
};

//
// CALLS: overloads by the handle's type, for `take`, `make` and the resources.
//

// Allocates `size` bytes at a multiple of `align` in a bump.
inline bb_chunk allocate(bb_bump *of, std::size_t size, std::size_t align) {
    return bb_bump_allocate(of, size, align);
}

// Allocates `size` bytes at a multiple of `align` in a party's bump.
inline bb_chunk allocate(bb_bump_party *of, std::size_t size, std::size_t align) {
    return bb_bump_party_allocate(of, size, align);
}

// Allocates `size` bytes at a multiple of `align` in a bucket of a pool.
inline bb_chunk allocate(bb_pool *of, std::size_t size, std::size_t align) {
    return bb_pool_allocate(of, size, align);
}

// Allocates `size` bytes at a multiple of `align` in a bucket of a party's pool.
inline bb_chunk allocate(bb_pool_party *of, std::size_t size, std::size_t align) {
    return bb_pool_party_allocate(of, size, align);
}

// Allocates a whole bucket of a pool.
inline bb_chunk take_whole(bb_pool *of) {
    return bb_pool_take(of);
}

// Allocates a whole bucket of a party's pool.
inline bb_chunk take_whole(bb_pool_party *of) {
    return bb_pool_party_take(of);
}

// Frees the bucket of a pool at `place`.
inline error deallocate(bb_pool *to, const void *place) {
    return static_cast<error>(bb_pool_deallocate(to, place));
}

// Frees the bucket at `place`, which the party holds.
inline error deallocate(bb_pool_party *to, const void *place) {
    return static_cast<error>(bb_pool_party_deallocate(to, place));
}

// Allocates up to `count` whole buckets, and stores their places from `slots` on. Returns how many
// were allocated.
inline std::size_t take_many(bb_pool_party *from, void **slots, std::size_t count) {
    return bb_pool_party_take_many(from, slots, count).number;
}

// Allocates up to `count` whole buckets, and stores their places from `slots` on. Returns how many
// were allocated.
inline std::size_t take_many(bb_pool *from, void **slots, std::size_t count) {
    return bb_pool_take_many(from, slots, count).number;
}

// Frees the buckets at these places, up to the first one that fails. Returns how many were freed.
inline std::size_t deallocate_many(bb_pool *to, void *const *places, std::size_t count) {
    return bb_pool_deallocate_many(to, places, count).number;
}

// Frees the buckets at these places, up to the first one that fails. Returns how many were freed.
inline std::size_t deallocate_many(bb_pool_party *to, void *const *places, std::size_t count) {
    return bb_pool_party_deallocate_many(to, places, count).number;
}

// Frees the bucket with this number if party `from` has detached it by its number.
inline error return_number(bb_pool_party *to, std::uint32_t number, std::uint32_t from) {
    return static_cast<error>(bb_pool_party_return_number(to, number, from));
}

// Frees the buckets with these numbers, which party `from` has detached, up to the first one that
// fails. Returns how many were freed.
inline std::size_t return_many(bb_pool_party *to, const std::uint32_t *numbers, std::size_t count,
                               std::uint32_t from) {
    return bb_pool_party_return_many(to, numbers, count, from).number;
}

// Allocates up to `count` whole buckets, detaches them, and stores their numbers from `numbers` on.
// Returns how many were allocated: none if the pool has no other party.
inline std::size_t take_many_detached(bb_pool_party *from, std::uint32_t *numbers,
                                      std::size_t count) {
    return bb_pool_party_take_many_detached(from, numbers, count).number;
}

//
// VALUES IN BUCKETS
//

// A deleter, which destroys a T and frees its bucket, or only frees the bucket if T is `void`. The
// handle has to stay at its address until then.
template<class T, class Handle>
struct give_back {
    Handle *to;

    void operator()(T *place) const noexcept {
        if constexpr (!std::is_void_v<T>)
            place->~T();
        static_cast<void>(bb::deallocate(to, place));
    }
};

// Owns a T in a bucket, or a whole bucket if T is `void`.
template<class T, class Handle>
using unique = std::unique_ptr<T, give_back<T, Handle>>;

// True if a handle is that of a pool or of a pool's party.
template<class Handle>
inline constexpr bool has_buckets =
    std::is_same_v<Handle, bb_pool> || std::is_same_v<Handle, bb_pool_party>;

// Allocates a whole bucket of a pool or of a party's pool, whose handle has to outlive the pointer.
// The pointer is empty if no bucket is free.
template<class Handle, class = std::enable_if_t<has_buckets<Handle>>>
unique<void, Handle> take(Handle *from) {
    bb_chunk given = bb::take_whole(from);
    return unique<void, Handle>(given.code == BB_OK ? given.place : nullptr, {from});
}

// Makes a T in a bucket of a pool or of a party's pool, whose handle has to outlive the pointer. An
// aggregate, such as a struct without constructors, gets its members in their order. The pointer is
// empty if the pool has no such bucket. If T's constructor throws, the bucket is freed.
template<class T, class Handle, class... Arguments>
std::enable_if_t<has_buckets<Handle>, unique<T, Handle>> make(Handle *from,
                                                              Arguments &&...arguments) {
    bb_chunk given = bb::allocate(from, sizeof(T), alignof(T));
    if (given.code != BB_OK)
        return unique<T, Handle>(nullptr, {from});
    unique<void, Handle> bucket(given.place, {from});
    T *made;
    if constexpr (std::is_constructible_v<T, Arguments...>)
        made = ::new (bucket.get()) T(std::forward<Arguments>(arguments)...);
    else
        made = ::new (bucket.get()) T{std::forward<Arguments>(arguments)...};
    bucket.release();
    return unique<T, Handle>(made, {from});
}

//
// MESSAGES: a bucket that goes from one party to another, with the value in it.
//

// A call that detaches a bucket takes the pointer that owns the bucket, and empties it. So nobody
// destroys the value on its way: whoever attaches the bucket owns the value. If the call fails, the
// pointer keeps both. A bucket that no such pointer owns is detached by the functions of
// bb_memory.h.

// Detaches the bucket of `from`, with its T, into a `bb_detached`. Returns `not_held` if `from` is
// empty, and otherwise the codes of `bb_pool_party_detach`.
template<class T>
std::enable_if_t<!std::is_void_v<T>, error> detach(unique<T, bb_pool_party> &from, detached &into) {
    if (!from)
        return error::not_held;
    bb_pool_party *party = from.get_deleter().to;
    error code = static_cast<error>(bb_pool_party_detach(party, from.get(), sizeof(T), into.get()));
    if (code == error::ok)
        static_cast<void>(from.release());
    return code;
}

// Detaches the bucket of `from`, with a chunk of `len` bytes, into a `bb_detached`. Returns
// `not_held` if `from` is empty, and otherwise the codes of `bb_pool_party_detach`.
inline error detach(unique<void, bb_pool_party> &from, std::size_t len, detached &into) {
    if (!from)
        return error::not_held;
    bb_pool_party *party = from.get_deleter().to;
    error code = static_cast<error>(bb_pool_party_detach(party, from.get(), len, into.get()));
    if (code == error::ok)
        static_cast<void>(from.release());
    return code;
}

// Detaches the bucket of `from`, with its T, unless that is `void`, and returns the bucket's
// number, by which another party attaches it. Returns nothing if `from` is empty, if its party
// doesn't hold the bucket, or if the pool has no other party.
template<class T>
std::optional<std::uint32_t> detach_number(unique<T, bb_pool_party> &from) {
    if (!from)
        return std::nullopt;
    bb_number number = bb_pool_party_detach_number(from.get_deleter().to, from.get());
    if (number.code != BB_OK)
        return std::nullopt;
    static_cast<void>(from.release());
    return static_cast<std::uint32_t>(number.number);
}

// Attaches the bucket that is in `from`. The sender has made a T in it, unless T is `void`. The
// pointer is empty if the pool has no such bucket, or if the chunk in `from` doesn't have the size
// of a T: then the bucket stays in `from`.
template<class T = void>
unique<T, bb_pool_party> attach(bb_pool_party *to, detached &from) {
    if constexpr (!std::is_void_v<T>)
        if (from.len() != sizeof(T))
            return unique<T, bb_pool_party>(nullptr, {to});
    bb_chunk given = bb_pool_party_attach(to, from.get());
    void *place = given.code == BB_OK ? given.place : nullptr;
    return unique<T, bb_pool_party>(static_cast<T *>(place), {to});
}

// Attaches the bucket with this number if party `from` has detached it by `detach_number`. The
// sender has made a T in it, unless T is `void`. If several parties call this, at most one gets the
// bucket; the others get an empty pointer.
template<class T = void>
unique<T, bb_pool_party> attach_number(bb_pool_party *to, std::uint32_t number,
                                       std::uint32_t from) {
    bb_chunk given = bb_pool_party_attach_number(to, number, from);
    void *place = given.code == BB_OK ? given.place : nullptr;
    return unique<T, bb_pool_party>(static_cast<T *>(place), {to});
}

//
// MEMORY RESOURCES
//

// A resource serves requests from a handle, which has to outlive it. If the handle can't serve a
// request, the upstream resource serves it, and throws if it can't. Two resources over one handle
// are equal if their upstream resources are: then one may free what the other allocated, and
// containers move their elements from one to the other without a copy. A program without RTTI finds
// a resource equal only to itself.

// As long as a chunk is in use, the handle isn't used for another region.

namespace detail {

// The base of all resources: the handle, the upstream resource, and where the handle's memory lies.
template<class Handle>
class resource : public std::pmr::memory_resource {
protected:
    resource(Handle *from, std::pmr::memory_resource *upstream) noexcept
        : from_(from), upstream_(upstream) {
        find();
    }

    // Returns the place of a chunk that the handle has allocated.
    void *allocated(void *place) noexcept {
        if (!has(place))
            find();
        return place;
    }

    // Returns whether a place lies in the handle's memory, if a call could find out where that is:
    // the handle was not empty then.
    bool has(const void *place) noexcept {
        if (length_ == 0)
            find();
        return reinterpret_cast<std::uintptr_t>(place) - first_ < length_;
    }

    Handle *from_;
    std::pmr::memory_resource *upstream_;

private:
    // Finds where the handle's memory lies, unless the handle is empty.
    void find() noexcept {
        if (auto of = bb::info(from_)) {
            first_ = of->start_address;
            length_ = length(*of);
        }
    }

    // Returns how many bytes the region of a bump has.
    static std::uintptr_t length(const bb_bump_figures &of) noexcept { return of.total_space; }

    // Returns how many bytes the buckets of a pool have.
    template<class Figures>
    static std::uintptr_t length(const Figures &of) noexcept {
        return BB_STRIDE(of.bucket_size, of.max_alignment) * of.number_of_buckets;
    }

    bool do_is_equal(const std::pmr::memory_resource &other) const noexcept override {
#ifdef __cpp_rtti
        const auto *same = dynamic_cast<const resource *>(&other);
        return same != nullptr && same->from_ == from_ && same->upstream_->is_equal(*upstream_);
#else
        return this == &other;
#endif
    }

    std::uintptr_t first_ = 0;
    std::uintptr_t length_ = 0;
};

}  // namespace detail

// A resource over a bump or a party's bump. Deallocating a chunk of the bump does nothing. A place
// in the bump's region is never passed upstream, even if the bump has been reset or the party has
// left.
template<class Handle>
class bump_resource final : public detail::resource<Handle> {
    static_assert(!has_buckets<Handle>, "pool_resource is the one that frees buckets");

public:
    // Makes a resource over the bump of `from`. Without `upstream` it throws if the bump refuses.
    explicit bump_resource(Handle *from, std::pmr::memory_resource *upstream =
                                             std::pmr::null_memory_resource()) noexcept
        : detail::resource<Handle>(from, upstream) {}

private:
    void *do_allocate(std::size_t size, std::size_t align) override {
        bb_chunk given = bb::allocate(this->from_, size == 0 ? 1 : size, align);
        if (given.code != BB_OK)
            return this->upstream_->allocate(size, align);
        return this->allocated(given.place);
    }

    void do_deallocate(void *place, std::size_t size, std::size_t align) override {
        if (!this->has(place))
            this->upstream_->deallocate(place, size, align);
    }
};

template<class Handle>
bump_resource(Handle *) -> bump_resource<Handle>;

template<class Handle>
bump_resource(Handle *, std::pmr::memory_resource *) -> bump_resource<Handle>;

// A resource over a pool or a party's pool. A place in the pool's buckets is never passed upstream,
// even if the pool refuses to free it or the party has left. Pools with buckets of several sizes
// are chained: each one is the upstream resource of the one with the next smaller buckets.
template<class Handle>
class pool_resource final : public detail::resource<Handle> {
public:
    // Makes a resource over the pool of `from`. Without `upstream` it throws if the pool refuses.
    explicit pool_resource(Handle *from, std::pmr::memory_resource *upstream =
                                             std::pmr::null_memory_resource()) noexcept
        : detail::resource<Handle>(from, upstream) {}

private:
    void *do_allocate(std::size_t size, std::size_t align) override {
        bb_chunk given = bb::allocate(this->from_, size, align);
        if (given.code != BB_OK)
            return this->upstream_->allocate(size, align);
        return this->allocated(given.place);
    }

    void do_deallocate(void *place, std::size_t size, std::size_t align) override {
        if (bb::deallocate(this->from_, place) != error::ok && !this->has(place))
            this->upstream_->deallocate(place, size, align);
    }
};

template<class Handle>
pool_resource(Handle *) -> pool_resource<Handle>;

template<class Handle>
pool_resource(Handle *, std::pmr::memory_resource *) -> pool_resource<Handle>;

}  // namespace bb

#endif
