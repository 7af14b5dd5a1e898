// `owners FILE` tests that objects of C++ give back what they own when they end, in any order, that
// messages and buckets are values, and that waits, watches and reaps are those of the file.
#include <atomic>
#include <cstdint>
#include <cstdio>
#include <cstdlib>
#include <cstring>
#include <fcntl.h>
#include <new>
#include <poll.h>
#include <sys/wait.h>
#include <unistd.h>

#include "bb_memory.hpp"

#include "bb_pool_file.hpp"

namespace {

// True if C++ has no memory left.
bool is_out_of_memory = false;

}  // namespace

void *operator new(std::size_t size, const std::nothrow_t &) noexcept {
    return is_out_of_memory ? nullptr : std::malloc(size);
}

void operator delete(void *place) noexcept {
    std::free(place);
}

void operator delete(void *place, std::size_t) noexcept {
    std::free(place);
}

namespace {

struct order {
    int number;
    double price;
};

// A value that has more bytes than the file's buckets.
struct large_order {
    order many[5];
};

// A value for which the file's buckets are not aligned.
struct alignas(16) aligned_order {
    order one;
};

// The bytes that the processes of this host share.
struct shared {
    std::atomic<std::uint64_t> orders;
    std::atomic<std::uint32_t> clerks;
};

const bb_pool_file_options OPTIONS = {64, 8, 20, 4, 3, 1, 0, sizeof(shared)};

void expect(bool holds, int line) {
    if (!holds) {
        fprintf(stderr, "owners: not so: line %d\n", line);
        exit(1);
    }
}

#define EXPECT(holds) expect(holds, __LINE__)

// Makes a party that holds a bucket and has detached another one, and ends without leaving.
void die(const char *path) {
    const pid_t child = fork();
    EXPECT(child >= 0);
    if (child == 0) {
        bb::pool_file file;
        bb::pool_file_party party;
        EXPECT(file.open(path) == BB_OK && party.join(file) == BB_OK);
        bb::pool_file_bucket held = party.bucket();
        bb::pool_file_bucket sent = party.bucket();
        EXPECT(held && sent.detach());
        _exit(0);
    }
    int status;
    EXPECT(waitpid(child, &status, 0) == child && status == 0);
}

void run_waits(const char *path) {
    bb::pool_file none;
    std::uint32_t freed = 7;
    EXPECT(none.wait_full(0, 0) == BB_UNINITIALIZED && none.wait_empty(0, 0) == BB_UNINITIALIZED);
    EXPECT(none.wait_bucket(0) == BB_UNINITIALIZED && none.reap(BB_REAP_DEAD) == BB_UNINITIALIZED);
    EXPECT(none.reap(BB_REAP_DEAD, &freed) == BB_UNINITIALIZED && freed == 7);
    EXPECT(none.life(0).code == BB_UNINITIALIZED && none.is_alive(0, 1).code == BB_UNINITIALIZED);
    bb::pool_file file;
    bb::pool_file_party party;
    EXPECT(party.give_all_back() == BB_UNINITIALIZED);
    EXPECT(file.open(path) == BB_OK && party.join(file) == BB_OK);
    const auto number = static_cast<std::uint32_t>(bb_file_party_number(party.get()).number);
    const bb_number life = file.life(number);
    EXPECT(life.code == BB_OK && file.is_alive(number, life.number).number == 1);
    EXPECT(file.is_alive(number, life.number + 2).number == 0);
    EXPECT(file.wait_full(BB_ANY_SLOT, 1) == BB_FILE_TIMED_OUT);
    EXPECT(file.wait_full(3, 1) == BB_INVALID_ARGUMENT && file.wait_empty(0, 1) == BB_OK);
    EXPECT(party.post(0, 5) == BB_OK && file.wait_full(0, 1) == BB_OK);
    EXPECT(file.wait_full(1, 1) == BB_FILE_TIMED_OUT && file.wait_empty(1, 1) == BB_OK);
    EXPECT(file.wait_empty(0, 1) == BB_FILE_TIMED_OUT && file.wait_bucket(1) == BB_OK);
    EXPECT(party.take(0).done() == BB_OK && file.wait_empty(0, 1) == BB_OK);
    void *places[20];
    EXPECT(bb_file_party_take_many(party.get(), places, 20).number == 20);
    EXPECT(file.wait_bucket(1) == BB_FILE_TIMED_OUT);
    EXPECT(party.give_all_back() == BB_OK && file.is_alive(number, life.number).number == 1);
    die(path);
    EXPECT(file.reap(BB_REAP_HELD, &freed) == BB_OK && freed == 1 && file.info()->detached == 1);
    EXPECT(file.reap(BB_REAP_LEFT, &freed) == BB_OK && freed == 0 && file.info()->detached == 1);
    EXPECT(file.reap(BB_REAP_DEAD, &freed) == BB_OK && freed == 1 && file.info()->detached == 0);
    die(path);
    EXPECT(file.reap(BB_REAP_DEAD) == BB_OK && file.info()->held == 0);
    EXPECT(file.info()->detached == 0);
}

// The bytes that the file has for the host.
void run_user(const bb::pool_file &file, const char *path) {
    bb::pool_file none;
    bb::pool_file other;
    EXPECT(none.user() == nullptr && none.user<shared>() == nullptr && none.close() == BB_OK);
    EXPECT(other.open(path) == BB_OK && file.user() != nullptr && file.user() != other.user());
    shared *mine = file.user<shared>();
    EXPECT(mine == file.user() && mine->orders == 0 && mine->clerks == 0);
    mine->clerks = 3;
    EXPECT(other.user<shared>()->clerks == 3 && other.user<shared>()->orders == 0);
    EXPECT(file.user<shared[2]>() == nullptr && other.close() == BB_OK);
}

bool is_readable(int fd) {
    pollfd watched{fd, POLLIN, 0};
    EXPECT(poll(&watched, 1, 0) >= 0);
    return watched.revents == POLLIN;
}

void run_watches(const char *path) {
    bb::pool_file file;
    bb::pool_file_party party;
    bb::pool_file_watch none;
    EXPECT(none.open(file) == BB_UNINITIALIZED && none.arm(0) == BB_UNINITIALIZED);
    EXPECT(none.fd() == -1 && file.open(path) == BB_OK && party.join(file) == BB_OK);
    int fd;
    {
        bb::pool_file_watch first;
        EXPECT(first.open(file) == BB_OK && first.open(file) == BB_ALREADY_INITIALIZED);
        EXPECT(first.arm(3) == BB_INVALID_ARGUMENT && first.arm(0) == BB_OK);
        fd = first.fd();
        bb::pool_file_watch watch = std::move(first);
        EXPECT(first.fd() == -1 && watch.fd() == fd && !is_readable(fd));
        EXPECT(party.post(1, 5) == BB_OK && !is_readable(fd));
        EXPECT(party.post(0, 5) == BB_OK && is_readable(fd));
        EXPECT(watch.arm(BB_ANY_SLOT) == BB_OK && !is_readable(fd));
        EXPECT(party.post(2, 5) == BB_OK && is_readable(fd));
        none = std::move(watch);
        EXPECT(none.fd() == fd && watch.fd() == -1);
        watch = std::move(none);
    }
    EXPECT(fcntl(fd, F_GETFD) == -1);
    for (std::uint32_t slot = 0; slot < 3; slot++)
        EXPECT(party.take(slot).done() == BB_OK);
}

// Buckets that are filled where they are, and go in slots and by numbers.
void run_buckets(const bb::pool_file &file, bb::pool_file_party &sender,
                 bb::pool_file_party &receiver) {
    {
        bb::pool_file_bucket first = sender.bucket();
        bb::pool_file_bucket second = sender.bucket();
        EXPECT(first && first.code() == BB_OK && first.data() != second.data());
        EXPECT(file.info()->held == 2);
        second = std::move(first);
        bb::pool_file_bucket third = std::move(second);
        EXPECT(!second && second.code() == BB_NOT_HELD && second.data() == nullptr);
        EXPECT(second.post(0, 1) == BB_NOT_HELD && !second.detach() && file.info()->held == 2);
        std::memcpy(third.data(), "hello", 6);
        EXPECT(third.post(9, 6) == BB_INVALID_ARGUMENT && third.post(0, 65) == BB_SIZE_TOO_LARGE);
        EXPECT(third.post(0, 6) == BB_OK && !third && third.post(0, 6) == BB_NOT_HELD);
    }
    EXPECT(file.info()->held == 0 && file.info()->messages == 1);
    {
        bb::pool_file_message message = receiver.take(0);
        EXPECT(message.size() == 6 &&
               std::strcmp(static_cast<const char *>(message.data()), "hello") == 0);
        EXPECT(message.done() == BB_OK);
    }
    std::optional<std::uint32_t> number;
    {
        bb::pool_file_bucket sent = sender.bucket();
        std::memcpy(sent.data(), "number", 7);
        number = sent.detach();
        EXPECT(number && !sent && !sent.detach());
    }
    EXPECT(file.info()->held == 0 && file.info()->detached == 1);
    {
        bb::pool_file_bucket got = receiver.attach(*number);
        EXPECT(got && std::strcmp(static_cast<const char *>(got.data()), "number") == 0);
        EXPECT(sender.attach(*number).code() == BB_NOT_HELD);
        EXPECT(sender.attach(20).code() == BB_NOT_A_BUCKET && file.info()->held == 1);
    }
    EXPECT(file.info()->held == 0 && file.info()->detached == 0);
    {
        bb::pool_file_bucket built = sender.bucket();
        new (built.data()) order{9, 4.5};
        EXPECT(built.post<large_order>(0) == BB_SIZE_TOO_LARGE && built);
        EXPECT(built.post<order>(0) == BB_OK && !built && built.post<order>(1) == BB_NOT_HELD);
        bb::pool_file_message message = receiver.take(0);
        EXPECT(message.as<order>()->number == 9 && message.as<order>()->price == 4.5);
        EXPECT(message.done() == BB_OK);
    }
    EXPECT(file.info()->held == 0 && file.info()->messages == 0);
}

// A party that hasn't joined, or is moved, has a code for each call.
void run_unjoined(const char *path) {
    bb::pool_file_party party;
    EXPECT(party.get() == nullptr && party.post(0, 5) == BB_UNINITIALIZED);
    EXPECT(party.take(0).code() == BB_UNINITIALIZED && party.take(0).done() == BB_UNINITIALIZED);
    EXPECT(party.take(0).data() == nullptr && party.take(0).as<order>() == nullptr);
    EXPECT(party.bucket().code() == BB_UNINITIALIZED && party.bucket().data() == nullptr);
    EXPECT(party.bucket().post(0, 1) == BB_UNINITIALIZED && !party.bucket().detach());
    EXPECT(party.attach(0).code() == BB_UNINITIALIZED);
    party.leave();
    bb::pool_file file;
    EXPECT(file.open(path) == BB_OK && party.join(file) == BB_OK);
    bb::pool_file_party moved = std::move(party);
    EXPECT(party.take(0).code() == BB_UNINITIALIZED && party.bucket().code() == BB_UNINITIALIZED);
    bb::pool_file_party &same = moved;
    moved = std::move(same);
    EXPECT(moved.post(0, 5) == BB_OK && moved.take(0).done() == BB_OK);
    moved.leave();
    EXPECT(moved.take(0).code() == BB_UNINITIALIZED && moved.join(file) == BB_OK);
}

// Returns whether this process has mapped the file.
bool is_mapped(const char *path) {
    FILE *maps = fopen("/proc/self/maps", "r");
    EXPECT(maps != nullptr);
    char line[4096];
    bool found = false;
    while (fgets(line, sizeof line, maps) != nullptr)
        found = found || std::strstr(line, path) != nullptr;
    fclose(maps);
    return found;
}

// Whatever uses a file keeps it open.
void run_in_any_order(const char *path) {
    {
        bb::pool_file_party party;
        bb::pool_file_watch watch;
        {
            bb::pool_file file;
            EXPECT(file.open(path) == BB_OK && party.join(file) == BB_OK);
            EXPECT(watch.open(file) == BB_OK && file.close() == BB_OK && file.get() == nullptr);
            EXPECT(file.open(path) == BB_OK && file.info()->alive == 1);
        }
        EXPECT(party.post(0, order{7, 1.5}) == BB_OK);
        EXPECT(party.take(0).as<order>()->number == 7 && watch.arm(0) == BB_OK);
        party.leave();
        EXPECT(watch.arm(0) == BB_OK && is_mapped(path));
    }
    EXPECT(!is_mapped(path));
    bb::pool_file file;
    EXPECT(file.open(path) == BB_OK && file.info()->alive == 0 && file.info()->messages == 1);
    {
        // A message and a bucket whose party is gone before them.
        bb::pool_file_party first;
        EXPECT(first.join(file) == BB_OK);
        bb::pool_file_message message = first.take(0);
        bb::pool_file_bucket bucket = first.bucket();
        EXPECT(message && bucket && file.info()->held == 2);
        bb::pool_file_message done = [&] {
            bb::pool_file_party gone = std::move(first);
            EXPECT(gone.post(1, order{8, 2.5}) == BB_OK);
            bb::pool_file_message taken = gone.take(1);
            EXPECT(taken.done() == BB_OK);
            return taken;
        }();
        EXPECT(file.info()->held == 0 && file.info()->messages == 1);
        EXPECT(!message && message.code() == BB_NOT_HELD && message.done() == BB_NOT_HELD);
        EXPECT(message.data() == nullptr && message.size() == 0 && done.data() == nullptr);
        EXPECT(bucket.code() == BB_NOT_HELD && bucket.data() == nullptr);
        EXPECT(bucket.post(1, 1) == BB_NOT_HELD && !bucket.detach());
        // The next party has the same number, and keeps what it holds when they end.
        bb::pool_file_party second;
        EXPECT(second.join(file) == BB_OK && file.close() == BB_OK);
        void *places[20];
        EXPECT(bb_file_party_take_many(second.get(), places, 20).number == 19);
        message = second.take(0);
        EXPECT(message.as<order>()->number == 7);
        bucket = second.bucket();
        done = second.take(1);
        EXPECT(bucket.code() == BB_OUT_OF_MEMORY && done.code() == BB_DETACHED_EMPTY);
        EXPECT(bb_file_party_holds(second.get(), places[18]).number == 1);
        // A bucket that the party has given back isn't freed again by whoever had it.
        EXPECT(second.give_all_back() == BB_OK && message.code() == BB_NOT_HELD);
        EXPECT(bb_file_party_take_many(second.get(), places, 20).number == 19);
        message = second.take(0);
        bucket = second.bucket();
        EXPECT(bb_file_party_holds(second.get(), places[18]).number == 1 && message);
        EXPECT(message.done() == BB_OK && is_mapped(path));
    }
    EXPECT(!is_mapped(path));
}

// If memory runs out, neither an open file nor a party is left.
void run_out_of_memory(const char *path) {
    bb::pool_file file;
    bb::pool_file_party party;
    is_out_of_memory = true;
    EXPECT(file.open(path) == BB_MALLOC_REFUSED && file.get() == nullptr && !is_mapped(path));
    is_out_of_memory = false;
    EXPECT(file.open(path) == BB_OK);
    is_out_of_memory = true;
    EXPECT(party.join(file) == BB_MALLOC_REFUSED && party.get() == nullptr);
    EXPECT(file.info()->alive == 0);
    is_out_of_memory = false;
    EXPECT(party.join(file) == BB_OK && file.info()->alive == 1);
}

// Of two buckets that are 24 bytes apart, one is at a multiple of 16.
void run_unaligned(const char *path) {
    struct alignas(16) wide {
        char text[16];
    };

    bb::pool_file file;
    bb::pool_file_party party;
    EXPECT(file.open(path, {24, 8, 2, 1, 2, 1, 0, 0}) == BB_OK && party.join(file) == BB_OK);
    const char text[16] = "sixteen bytes..";
    EXPECT(party.post(0, text) == BB_OK && party.post(1, text) == BB_OK);
    const bb::pool_file_message first = party.take(0);
    const bb::pool_file_message second = party.take(1);
    EXPECT((first.as<wide>() == nullptr) != (second.as<wide>() == nullptr));
    EXPECT(std::strcmp(*first.as<char[16]>(), text) == 0);
    EXPECT(std::strcmp(*second.as<char[16]>(), text) == 0);
}

// The messages of one slot come in order. A party works on several of them, and is done with them
// in any order.
void run_queues(const char *path) {
    bb::pool_file file;
    bb::pool_file_party party;
    EXPECT(file.open(path, {64, 8, 20, 4, 2, 3, 0, 0}) == BB_OK && party.join(file) == BB_OK);
    EXPECT(file.info()->options.depth == 3);
    for (int number = 1; number <= 3; number++)
        EXPECT(party.post(1, number) == BB_OK);
    EXPECT(party.post(1, 4) == BB_DETACHED_FULL && file.info()->messages == 3);
    EXPECT(file.wait_empty(1, 1) == BB_FILE_TIMED_OUT && file.wait_empty(0, 1) == BB_OK);
    {
        bb::pool_file_message first = party.take(1);
        bb::pool_file_message second = party.take(1);
        EXPECT(*first.as<int>() == 1 && *second.as<int>() == 2 && file.info()->held == 2);
        EXPECT(second.done() == BB_OK && second.done() == BB_NOT_HELD);
        // The first message keeps its place, so there is no room yet.
        EXPECT(file.info()->messages == 2 && party.post(1, 4) == BB_DETACHED_FULL);
        std::swap(first, second);
        EXPECT(*first.as<int>() == 2 && *second.as<int>() == 1);
    }
    EXPECT(file.info()->held == 0 && file.info()->messages == 2);
    {
        // The first message was put back, and comes before the third one.
        bb::pool_file_message first = party.take(1);
        EXPECT(*first.as<int>() == 1 && first.done() == BB_OK && file.wait_empty(1, 1) == BB_OK);
    }
    EXPECT(party.post(1, 4) == BB_OK && party.post(1, 5) == BB_OK);
    EXPECT(party.post(1, 6) == BB_DETACHED_FULL);
    for (int number = 3; number <= 5; number++) {
        bb::pool_file_message message = party.take(1);
        EXPECT(*message.as<int>() == number && message.done() == BB_OK);
    }
    EXPECT(party.take(1).code() == BB_DETACHED_EMPTY && file.info()->messages == 0);
    EXPECT(file.info()->held == 0 && file.info()->detached == 0);
}

// A party that outlives `main`, as a static object does, leaves all the same.
void run_exit(const char *path) {
    const pid_t child = fork();
    EXPECT(child >= 0);
    if (child == 0) {
        static bb::pool_file_party party;
        static bb::pool_file_bucket bucket = party.bucket();
        bb::pool_file file;
        EXPECT(file.open(path) == BB_OK && party.join(file) == BB_OK);
        bucket = party.bucket();
        EXPECT(bucket && party.post(2, 5) == BB_OK && file.close() == BB_OK);
        exit(0);
    }
    int status;
    EXPECT(waitpid(child, &status, 0) == child && status == 0);
    bb::pool_file file;
    bb::pool_file_party party;
    EXPECT(file.open(path) == BB_OK && file.info()->alive == 0 && file.info()->held == 0);
    EXPECT(file.info()->messages == 1 && party.join(file) == BB_OK);
    EXPECT(party.take(2).done() == BB_OK);
}

void run(const char *path) {
    bb::pool_file file;
    EXPECT(!file.info() && file.get() == nullptr && file.open(path) == BB_FILE_SYSTEM);
    EXPECT(file.open(path, OPTIONS) == BB_OK && file.open(path) == BB_ALREADY_INITIALIZED);
    {
        bb::pool_file_party none;
        bb::pool_file closed;
        EXPECT(none.join(closed) == BB_UNINITIALIZED && none.post(0, 5) == BB_UNINITIALIZED);
        bb::pool_file_party sender;
        bb::pool_file_party receiver;
        EXPECT(sender.join(file) == BB_OK && sender.join(file) == BB_ALREADY_INITIALIZED);
        EXPECT(receiver.join(file) == BB_OK && file.info()->alive == 2);
        EXPECT(sender.post(0, order{7, 1.5}) == BB_OK);
        EXPECT(sender.post(0, order{8, 2.5}) == BB_DETACHED_FULL);
        EXPECT(sender.post(9, order{8, 2.5}) == BB_INVALID_ARGUMENT);
        char large[65] = "";
        EXPECT(sender.post(1, large) == BB_SIZE_TOO_LARGE && file.info()->held == 0);
        EXPECT(sender.post(1, aligned_order{{8, 2.5}}) == BB_ALIGNMENT_FAILURE);
        volatile std::size_t all = SIZE_MAX;  // which no compiler knows
        EXPECT(sender.post(1, large, all) == BB_SIZE_TOO_LARGE && file.info()->held == 0);
        EXPECT(!receiver.take(1) && receiver.take(1).code() == BB_DETACHED_EMPTY);
        EXPECT(receiver.take(1).done() == BB_DETACHED_EMPTY);
        {
            bb::pool_file_message message = receiver.take(0);
            EXPECT(message && message.size() == sizeof(order) && message.as<int>() == nullptr);
            EXPECT(message.as<order>()->number == 7 && file.info()->held == 1);
            EXPECT(!receiver.take(0));
        }
        // A message that wasn't done with is put back.
        EXPECT(file.info()->held == 0 && file.info()->messages == 1);
        {
            bb::pool_file_message first = receiver.take(0);
            bb::pool_file_message message = std::move(first);
            EXPECT(!first && message.as<order>()->price == 1.5);
            EXPECT(message.done() == BB_OK && file.info()->messages == 0);
            EXPECT(message.as<order>()->number == 7);  // its bytes are there until it ends
            EXPECT(message.done() == BB_NOT_HELD);
        }
        EXPECT(file.info()->held == 0 && file.info()->detached == 0);
        run_buckets(file, sender, receiver);
        run_user(file, path);
        EXPECT(bb_file_party_take(sender.get()).code == BB_OK);
        bb::pool_file_party moved = std::move(sender);
        EXPECT(sender.get() == nullptr && moved.get() != nullptr && file.info()->held == 1);
        moved.leave();
        EXPECT(file.info()->held == 0 && file.info()->alive == 1);
    }
    EXPECT(file.info()->alive == 0);
    bb::pool_file moved = std::move(file);
    EXPECT(file.get() == nullptr && moved.info()->options.buckets == 20);
    EXPECT(moved.close() == BB_OK && moved.close() == BB_OK && moved.open(path) == BB_OK);
}

}  // namespace

int main(int argc, char **argv) {
    EXPECT(argc == 2);
    run(argv[1]);
    run_waits(argv[1]);
    run_watches(argv[1]);
    run_unjoined(argv[1]);
    run_in_any_order(argv[1]);
    run_out_of_memory(argv[1]);
    run_exit(argv[1]);
    EXPECT(unlink(argv[1]) == 0);
    run_unaligned(argv[1]);
    EXPECT(unlink(argv[1]) == 0);
    run_queues(argv[1]);
    EXPECT(unlink(argv[1]) == 0);
    puts("owners: files, watches, parties, buckets and messages give back what they have");
    return 0;
}
