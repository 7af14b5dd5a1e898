// Pools in files for C++17, over bb_pool_file.h, whose terms, rules and codes hold here, too.

// When they go out of scope, a watch is closed, a party leaves, a bucket is freed, and a message
// frees its bucket or is put back. A file is closed when the last of the objects goes out of scope
// that use it: the file itself, and its watches, parties, buckets and messages. They may do so in
// any order.

//     struct order { int number; double price; };
//
//     bb_pool_file_options options{};
//     options.bucket_size = sizeof(order);
//     options.bucket_align = alignof(order);
//     options.buckets = 1000;
//     options.parties = 16;
//     options.slots = 8;
//     options.depth = 32;  // messages that each slot has room for
//     bb::pool_file file;
//     if (file.open("/dev/shm/orders", options) != BB_OK)
//         return;
//     // Each thread has a party.
//     bb::pool_file_party party;
//     if (party.join(file) != BB_OK)
//         return;
//     if (party.post(0, order{7, 1.5}) != BB_OK)
//         return;
//     if (file.wait_full(0, 1000) != BB_OK)
//         return;
//     bb::pool_file_message message = party.take(0);
//     if (const order *got = message.as<order>())
//         printf("order %d\n", got->number);
//     message.done();
//
//     // A message that is built in its bucket, without a copy.
//     bb::pool_file_bucket bucket = party.bucket();
//     if (!bucket)
//         return;
//     new (bucket.data()) order{8, 2.5};
//     if (bucket.post<order>(0) != BB_OK)
//         return;

// An error is a code. Files, watches, parties, buckets and messages can be moved, but not copied.
// Only one thread at a time uses a party with its buckets and messages.

#ifndef BB_POOL_FILE_HPP
#define BB_POOL_FILE_HPP

#include <atomic>
#include <cstddef>
#include <cstdint>
#include <cstring>
#include <new>
#include <optional>
#include <type_traits>
#include <unistd.h>
#include <utility>

#include "bb_pool_file.h"

namespace bb {

namespace detail {

// One of those that use an open file, or none. The last of them closes the file.
class file_user {
public:
    file_user() = default;

    file_user(const file_user &other) noexcept : opened_(other.opened_) {
        if (opened_ != nullptr)
            opened_->users.fetch_add(1, std::memory_order_relaxed);
    }

    file_user(file_user &&other) noexcept : opened_(std::exchange(other.opened_, nullptr)) {}

    file_user &operator=(file_user &&other) noexcept {
        std::swap(opened_, other.opened_);
        return *this;
    }

    ~file_user() { close(); }

    // Uses a file that is open. If memory runs out, it is closed: BB_MALLOC_REFUSED.
    std::uint32_t use(bb_pool_file *file) noexcept {
        opened_ = new (std::nothrow) opened{file};
        if (opened_ != nullptr)
            return BB_OK;
        bb_pool_file_close(file);
        return BB_MALLOC_REFUSED;
    }

    // Stops using the file. If nobody else uses it, closes it, and returns the code of that.
    std::uint32_t close() noexcept {
        opened *last = std::exchange(opened_, nullptr);
        if (last == nullptr || last->users.fetch_sub(1, std::memory_order_acq_rel) > 1)
            return BB_OK;
        bb_pool_file *file = last->file;
        delete last;
        return bb_pool_file_close(file);
    }

    // Returns the file, or null if there is none.
    bb_pool_file *get() const noexcept { return opened_ != nullptr ? opened_->file : nullptr; }

private:
    // An open file, and how many use it.
    struct opened {
        bb_pool_file *file;
        std::atomic<std::size_t> users{1};

        explicit opened(bb_pool_file *of) noexcept : file(of) {}
    };

    opened *opened_ = nullptr;
};

// A party that has joined, which the `pool_file_party`, its messages and its buckets share.
struct joined_party {
    file_user file;
    // Null once the party has left.
    bb_file_party *party;
    // How many share this. One thread at a time uses them.
    std::size_t users = 1;
    // How often the party has given all back.
    std::uint64_t given_back = 0;

    joined_party(const file_user &of, bb_file_party *joined) noexcept : file(of), party(joined) {}

    // Counts one less of those that share this, and frees it with the last.
    void release() noexcept {
        users--;
        if (users == 0)
            delete this;
    }
};

// The party that holds a message or a bucket, for as long as it does.
class holder {
public:
    holder() = default;

    explicit holder(joined_party *joined) noexcept
        : joined_(joined), given_back_(joined->given_back) {
        joined_->users++;
    }

    holder(holder &&other) noexcept
        : joined_(std::exchange(other.joined_, nullptr)), given_back_(other.given_back_) {}

    holder &operator=(holder &&other) noexcept {
        std::swap(joined_, other.joined_);
        std::swap(given_back_, other.given_back_);
        return *this;
    }

    ~holder() {
        if (joined_ != nullptr)
            joined_->release();
    }

    // Returns the party, or null if it has left or given all back.
    bb_file_party *party() const noexcept {
        return joined_ != nullptr && joined_->given_back == given_back_ ? joined_->party : nullptr;
    }

    // Returns the party's file. There has to be a party.
    bb_pool_file *file() const noexcept { return joined_->file.get(); }

private:
    joined_party *joined_ = nullptr;
    std::uint64_t given_back_ = 0;
};

}  // namespace detail

// A pool in a file.
class pool_file {
public:
    pool_file() = default;
    pool_file(pool_file &&other) noexcept = default;
    pool_file &operator=(pool_file &&other) noexcept = default;

    // Opens the pool in the file at `path`, and makes it if there is none, as `bb_pool_file_open`
    // does. BB_ALREADY_INITIALIZED if this has a file already.
    [[nodiscard]] std::uint32_t open(const char *path,
                                     const bb_pool_file_options &options) noexcept {
        return open_by(bb_pool_file_open, path, &options);
    }

    // Opens the pool in a file that exists, whatever its sizes.
    [[nodiscard]] std::uint32_t open(const char *path) noexcept {
        return open_by(bb_pool_file_open, path, nullptr);
    }

    // Opens the pool in an open file, such as a memfd, as `bb_pool_file_open_fd` does.
    [[nodiscard]] std::uint32_t open_fd(int fd, const bb_pool_file_options *options) noexcept {
        return open_by(bb_pool_file_open_fd, fd, options);
    }

    // Stops using the file, if there is one, so that this can open another one. If no watch, party,
    // bucket or message uses the file either, it is closed: then BB_FILE_SYSTEM if the system fails
    // to unmap or to unlock it, as `bb_pool_file_close` says. Otherwise the last of them closes it.
    std::uint32_t close() noexcept { return file_.close(); }

    // Returns the statistics of the file, or nothing if there are none.
    std::optional<bb_pool_file_figures> info() const noexcept {
        bb_pool_file_figures figures{};
        if (get() == nullptr || bb_pool_file_info(get(), &figures) != BB_OK)
            return std::nullopt;
        return figures;
    }

    // Returns where the file has bytes for the host itself, at a multiple of 128, or null if it has
    // none. All processes share them, and all are 0 when the file is made.
    void *user() const noexcept { return get() != nullptr ? bb_pool_file_user(get()) : nullptr; }

    // Returns these bytes as a T, whose members other processes may change at any time: so they are
    // atomics, or are used under a lock of the host. Returns null if there are fewer bytes than a T
    // has. Call this once, since it looks up the statistics of the file, as `info` does.
    template<class T>
    T *user() const noexcept {
        static_assert(std::is_trivially_destructible_v<T> && std::is_standard_layout_v<T>);
        static_assert(alignof(T) <= 128);
        const std::optional<bb_pool_file_figures> figures = info();
        if (!figures || figures->options.user_bytes < sizeof(T))
            return nullptr;
        return static_cast<T *>(user());
    }

    // Waits until a message can be taken from the slot (with BB_ANY_SLOT, from any slot), for at
    // most this many milliseconds. BB_UNINITIALIZED if there is no file; then the codes of
    // `bb_pool_file_wait_full`.
    [[nodiscard]] std::uint32_t wait_full(std::uint32_t slot,
                                          std::uint32_t milliseconds) const noexcept {
        return get() != nullptr ? bb_pool_file_wait_full(get(), slot, milliseconds)
                                : std::uint32_t{BB_UNINITIALIZED};
    }

    // Waits until the slot (with BB_ANY_SLOT, any slot) has room for a message, for at most this
    // many milliseconds. The codes are those of `wait_full`.
    [[nodiscard]] std::uint32_t wait_empty(std::uint32_t slot,
                                           std::uint32_t milliseconds) const noexcept {
        return get() != nullptr ? bb_pool_file_wait_empty(get(), slot, milliseconds)
                                : std::uint32_t{BB_UNINITIALIZED};
    }

    // Waits until a bucket is free, for at most this many milliseconds. BB_UNINITIALIZED if there
    // is no file; then the codes of `bb_pool_file_wait_bucket`.
    [[nodiscard]] std::uint32_t wait_bucket(std::uint32_t milliseconds) const noexcept {
        return get() != nullptr ? bb_pool_file_wait_bucket(get(), milliseconds)
                                : std::uint32_t{BB_UNINITIALIZED};
    }

    // Frees what dead parties held, and what `what` says: BB_REAP_HELD, BB_REAP_DEAD, BB_REAP_LEFT,
    // or the last two added together. Stores in `*freed` how many buckets were freed, unless
    // `freed` is null. BB_UNINITIALIZED if there is no file; then the codes of `bb_pool_file_reap`.
    std::uint32_t reap(std::uint32_t what, std::uint32_t *freed = nullptr) const noexcept {
        return get() != nullptr ? bb_pool_file_reap(get(), what, freed)
                                : std::uint32_t{BB_UNINITIALIZED};
    }

    // Returns the life of the party with this number. BB_UNINITIALIZED if there is no file; then
    // the codes of `bb_pool_file_life`.
    bb_number life(std::uint32_t party) const noexcept {
        return get() != nullptr ? bb_pool_file_life(get(), party) : bb_number{BB_UNINITIALIZED, 0};
    }

    // Returns 1 if the process is alive that has joined as the party with this number and has this
    // life, otherwise 0. BB_UNINITIALIZED if there is no file; then the codes of
    // `bb_pool_file_is_alive`.
    bb_number is_alive(std::uint32_t party, std::uint64_t life) const noexcept {
        return get() != nullptr ? bb_pool_file_is_alive(get(), party, life)
                                : bb_number{BB_UNINITIALIZED, 0};
    }

    // Returns the pointer for the functions of bb_pool_file.h, or null if there is no file.
    bb_pool_file *get() const noexcept { return file_.get(); }

private:
    friend class pool_file_watch;
    friend class pool_file_party;

    // Opens a file by a call with `by` and the options.
    template<class By>
    std::uint32_t open_by(std::uint32_t (*call)(bb_pool_file **, By, const bb_pool_file_options *),
                          By by, const bb_pool_file_options *options) noexcept {
        if (get() != nullptr)
            return BB_ALREADY_INITIALIZED;
        bb_pool_file *file;
        const std::uint32_t code = call(&file, by, options);
        return code == BB_OK ? file_.use(file) : code;
    }

    detail::file_user file_;
};

// A descriptor that watches a file for messages, which is closed when this goes out of scope.
class pool_file_watch {
public:
    pool_file_watch() = default;

    pool_file_watch(pool_file_watch &&other) noexcept
        : file_(std::move(other.file_)), fd_(std::exchange(other.fd_, -1)) {}

    pool_file_watch &operator=(pool_file_watch &&other) noexcept {
        std::swap(file_, other.file_);
        std::swap(fd_, other.fd_);
        return *this;
    }

    ~pool_file_watch() {
        if (fd_ >= 0)
            ::close(fd_);
    }

    // Opens the descriptor. BB_ALREADY_INITIALIZED if this has one already, BB_UNINITIALIZED if
    // `file` isn't open; then the codes of `bb_pool_file_watch`.
    [[nodiscard]] std::uint32_t open(const pool_file &file) noexcept {
        if (fd_ >= 0)
            return BB_ALREADY_INITIALIZED;
        if (file.get() == nullptr)
            return BB_UNINITIALIZED;
        const std::uint32_t code = bb_pool_file_watch(file.get(), &fd_);
        if (code == BB_OK)
            file_ = detail::file_user(file.file_);
        return code;
    }

    // Makes the descriptor unreadable, and arms it for this slot (with BB_ANY_SLOT, for any slot),
    // as `bb_pool_file_arm` does. BB_UNINITIALIZED if there is no descriptor; then the codes of
    // that function.
    [[nodiscard]] std::uint32_t arm(std::uint32_t slot) noexcept {
        return fd_ >= 0 ? bb_pool_file_arm(file_.get(), fd_, slot)
                        : std::uint32_t{BB_UNINITIALIZED};
    }

    // Returns the descriptor for `poll` and `epoll`, or -1 if there is none.
    int fd() const noexcept { return fd_; }

private:
    detail::file_user file_;
    int fd_ = -1;
};

// A message that a party has taken, or the code of an error. When it goes out of scope after
// `done`, its bucket is freed. Without `done` the message is put back, and can be taken again,
// before younger ones. A party may have several messages at a time.
//
// If the party leaves or gives all back before that, there is no message here anymore, and the
// bucket may be used by others. Its place stays mapped until this goes out of scope.
class pool_file_message {
public:
    pool_file_message(pool_file_message &&other) noexcept = default;

    pool_file_message &operator=(pool_file_message &&other) noexcept {
        std::swap(by_, other.by_);
        std::swap(message_, other.message_);
        std::swap(is_done_, other.is_done_);
        return *this;
    }

    ~pool_file_message() {
        if (code() != BB_OK)
            return;
        if (is_done_)
            bb_file_party_deallocate(by_.party(), message_.place);
        else
            static_cast<void>(bb_pool_file_detach(by_.file(), by_.party(), message_.place).code);
    }

    // Returns BB_OK if there is a message, otherwise why there is none: BB_NOT_HELD if it was
    // moved, or if the party has left or given all back since.
    std::uint32_t code() const noexcept {
        const bool is_kept = message_.code != BB_OK || by_.party() != nullptr;
        return is_kept ? message_.code : std::uint32_t{BB_NOT_HELD};
    }

    // Returns whether there is a message.
    explicit operator bool() const noexcept { return code() == BB_OK; }

    // Returns the bytes of the message, or null if there is none.
    const void *data() const noexcept { return code() == BB_OK ? message_.place : nullptr; }

    // Returns how many bytes the message has, or 0 if there is none.
    std::size_t size() const noexcept { return code() == BB_OK ? message_.len : 0; }

    // Returns the message as a T, or null if there is none, or if it has another size or isn't at a
    // multiple of T's alignment.
    template<class T>
    const T *as() const noexcept {
        static_assert(std::is_trivially_copyable_v<T>);
        const bool is_aligned = reinterpret_cast<std::uintptr_t>(data()) % alignof(T) == 0;
        return is_aligned && size() == sizeof(T) ? static_cast<const T *>(data()) : nullptr;
    }

    // Takes the message out of its slot, so that nobody takes it again. Its bytes stay until this
    // goes out of scope. BB_NOT_HELD if this was done before; `code()` if there is no message; then
    // the codes of `bb_file_party_done`.
    std::uint32_t done() noexcept {
        if (code() != BB_OK)
            return code();
        if (is_done_)
            return BB_NOT_HELD;
        const std::uint32_t code = bb_file_party_done(by_.party(), message_.place);
        is_done_ = code == BB_OK;
        return code;
    }

private:
    friend class pool_file_party;

    // There is a party if the code is BB_OK.
    pool_file_message(detail::holder by, bb_message message) noexcept
        : by_(std::move(by)), message_(message) {}

    detail::holder by_;
    bb_message message_;
    bool is_done_ = false;
};

// A bucket that a party holds, or the code of an error. When it goes out of scope, the bucket is
// freed, unless it was posted or detached.
//
// If the party leaves or gives all back before that, there is no bucket here anymore, and others
// may use it. Its place stays mapped until this goes out of scope.
class pool_file_bucket {
public:
    pool_file_bucket(pool_file_bucket &&other) noexcept = default;

    pool_file_bucket &operator=(pool_file_bucket &&other) noexcept {
        std::swap(by_, other.by_);
        std::swap(chunk_, other.chunk_);
        return *this;
    }

    ~pool_file_bucket() {
        if (code() == BB_OK)
            bb_file_party_deallocate(by_.party(), chunk_.place);
    }

    // Returns BB_OK if there is a bucket, otherwise why there is none: BB_NOT_HELD if it was
    // posted, detached or moved, or if the party has left or given all back since.
    std::uint32_t code() const noexcept {
        const bool is_kept = chunk_.code != BB_OK || by_.party() != nullptr;
        return is_kept ? chunk_.code : std::uint32_t{BB_NOT_HELD};
    }

    // Returns whether there is a bucket.
    explicit operator bool() const noexcept { return code() == BB_OK; }

    // Returns where the bucket is, or null if there is none.
    void *data() const noexcept { return code() == BB_OK ? chunk_.place : nullptr; }

    // Posts the bucket, with a message of `len` bytes, without copying it. Returns `code()` if
    // there is no bucket; then the codes of `bb_pool_file_post`. After a failure this still has its
    // bucket.
    [[nodiscard]] std::uint32_t post(std::uint32_t slot, std::size_t len) noexcept {
        if (code() != BB_OK)
            return code();
        const std::uint32_t code =
            bb_pool_file_post(by_.file(), by_.party(), slot, chunk_.place, len);
        if (code == BB_OK)
            chunk_ = bb_chunk{BB_NOT_HELD, nullptr};
        return code;
    }

    // Posts the bucket with the T that was built in it, as `post` does with that many bytes.
    template<class T>
    [[nodiscard]] std::uint32_t post(std::uint32_t slot) noexcept {
        static_assert(std::is_trivially_copyable_v<T>);
        return post(slot, sizeof(T));
    }

    // Detaches the bucket and returns its number, by which another party attaches it. Returns
    // nothing if there is no bucket.
    [[nodiscard]] std::optional<std::uint32_t> detach() noexcept {
        if (code() != BB_OK)
            return std::nullopt;
        const bb_number number = bb_pool_file_detach(by_.file(), by_.party(), chunk_.place);
        if (number.code != BB_OK)
            return std::nullopt;
        chunk_ = bb_chunk{BB_NOT_HELD, nullptr};
        return static_cast<std::uint32_t>(number.number);
    }

private:
    friend class pool_file_party;

    // There is a party if the code is BB_OK.
    pool_file_bucket(detail::holder by, bb_chunk chunk) noexcept
        : by_(std::move(by)), chunk_(chunk) {}

    detail::holder by_;
    bb_chunk chunk_;
};

// A party of a file, which leaves when it goes out of scope: what it holds is freed.
class pool_file_party {
public:
    pool_file_party() = default;

    pool_file_party(pool_file_party &&other) noexcept
        : joined_(std::exchange(other.joined_, nullptr)) {}

    pool_file_party &operator=(pool_file_party &&other) noexcept {
        std::swap(joined_, other.joined_);
        return *this;
    }

    ~pool_file_party() { leave(); }

    // Joins as a party of the file. BB_ALREADY_INITIALIZED if it has joined already,
    // BB_UNINITIALIZED if `file` isn't open; then the codes of `bb_pool_file_join`.
    [[nodiscard]] std::uint32_t join(const pool_file &file) noexcept {
        if (joined_ != nullptr)
            return BB_ALREADY_INITIALIZED;
        if (file.get() == nullptr)
            return BB_UNINITIALIZED;
        bb_file_party *party;
        const std::uint32_t code = bb_pool_file_join(file.get(), &party);
        if (code != BB_OK)
            return code;
        joined_ = new (std::nothrow) detail::joined_party(file.file_, party);
        if (joined_ != nullptr)
            return BB_OK;
        bb_pool_file_leave(file.get(), party);
        return BB_MALLOC_REFUSED;
    }

    // Leaves, if it has joined. What its messages and buckets have is put back or freed.
    void leave() noexcept {
        if (joined_ == nullptr)
            return;
        bb_pool_file_leave(joined_->file.get(), joined_->party);
        joined_->party = nullptr;
        std::exchange(joined_, nullptr)->release();
    }

    // Frees what the party holds, cached or not, and the party stays joined. What its messages and
    // buckets have is put back or freed. BB_UNINITIALIZED if the party hasn't joined.
    std::uint32_t give_all_back() noexcept {
        if (joined_ == nullptr)
            return BB_UNINITIALIZED;
        joined_->given_back++;
        return bb_pool_file_give_all_back(joined_->file.get(), joined_->party);
    }

    // Posts a copy of these bytes, in a bucket of their own. BB_UNINITIALIZED if the party hasn't
    // joined, BB_SIZE_TOO_LARGE if a bucket has fewer bytes, BB_OUT_OF_MEMORY if no bucket is free;
    // then the codes of `bb_pool_file_post`.
    [[nodiscard]] std::uint32_t post(std::uint32_t slot, const void *bytes,
                                     std::size_t size) noexcept {
        return post_copy(slot, bytes, size, 1);
    }

    // Posts a copy of the value, as `post` does with its bytes. BB_ALIGNMENT_FAILURE if T's
    // alignment is greater than a bucket's.
    template<class T>
    [[nodiscard]] std::uint32_t post(std::uint32_t slot, const T &value) noexcept {
        static_assert(std::is_trivially_copyable_v<T>);
        return post_copy(slot, &value, sizeof value, alignof(T));
    }

    // Takes the oldest message in the slot that nobody has taken. BB_UNINITIALIZED if the party
    // hasn't joined; then the codes of `bb_pool_file_take`.
    [[nodiscard]] pool_file_message take(std::uint32_t slot) noexcept {
        if (joined_ == nullptr)
            return {detail::holder(), bb_message{BB_UNINITIALIZED, 0, nullptr, 0}};
        return {detail::holder(joined_),
                bb_pool_file_take(joined_->file.get(), joined_->party, slot)};
    }

    // Allocates a whole bucket, to build a message in it. BB_UNINITIALIZED if the party hasn't
    // joined, BB_OUT_OF_MEMORY if no bucket is free.
    [[nodiscard]] pool_file_bucket bucket() noexcept {
        if (joined_ == nullptr)
            return {detail::holder(), bb_chunk{BB_UNINITIALIZED, nullptr}};
        return {detail::holder(joined_), bb_file_party_take(joined_->party)};
    }

    // Attaches the bucket with this number, which another party has detached. BB_UNINITIALIZED if
    // the party hasn't joined; then the codes of `bb_pool_file_attach`.
    [[nodiscard]] pool_file_bucket attach(std::uint32_t number) noexcept {
        if (joined_ == nullptr)
            return {detail::holder(), bb_chunk{BB_UNINITIALIZED, nullptr}};
        return {detail::holder(joined_),
                bb_pool_file_attach(joined_->file.get(), joined_->party, number)};
    }

    // Returns the party for the functions of bb_pool_file.h, or null if it hasn't joined.
    bb_file_party *get() const noexcept { return joined_ != nullptr ? joined_->party : nullptr; }

private:
    // Posts a copy of these bytes, which have to be at a multiple of this alignment.
    std::uint32_t post_copy(std::uint32_t slot, const void *bytes, std::size_t size,
                            std::size_t align) noexcept {
        if (joined_ == nullptr)
            return BB_UNINITIALIZED;
        bb_file_party *party = joined_->party;
        const bb_chunk chunk = bb_file_party_allocate(party, size, align);
        if (chunk.code == BB_INVALID_LAYOUT)  // no object has that many bytes
            return BB_SIZE_TOO_LARGE;
        if (chunk.code != BB_OK)
            return chunk.code;
        std::memcpy(chunk.place, bytes, size);
        const std::uint32_t code =
            bb_pool_file_post(joined_->file.get(), party, slot, chunk.place, size);
        if (code != BB_OK)
            bb_file_party_deallocate(party, chunk.place);
        return code;
    }

    detail::joined_party *joined_ = nullptr;
};

}  // namespace bb

#endif
