// Containers of the standard library that live in a bump, in a pool and in a pool that threads
// share, by std::pmr; values that free their buckets when they are destroyed; and parties that
// leave when their threads end.
#include <atomic>
#include <cstdio>
#include <cstdlib>
#include <deque>
#include <list>
#include <map>
#include <optional>
#include <stdexcept>
#include <string>
#include <thread>
#include <type_traits>
#include <vector>

#include "bb_memory.hpp"

namespace {

constexpr std::size_t bucket = 64;
constexpr std::size_t buckets = 128;
alignas(bucket) unsigned char region[BB_BYTES_FOR(bucket, bucket, buckets)];

void expect(bool holds, const char *what) {
    if (!holds) {
        std::fprintf(stderr, "containers: not so: %s\n", what);
        std::exit(1);
    }
}

void expect_ok(bb::error code) {
    expect(code == bb::error::ok, bb::text(code));
}

template<class Call>
bool throws_bad_alloc(Call call) {
    try {
        call();
    } catch (const std::bad_alloc &) {
        return true;
    }
    return false;
}

// Strings of any length are stored one after another in a bump.
void strings_in_a_bump() {
    bb::bump bump;
    expect(bump.init(nullptr, 64) == bb::error::invalid_argument, "a region doesn't start at 0");
    expect_ok(bump.init(region, sizeof region));
    bb::bump_resource lines_of(bump.get());
    std::pmr::vector<std::pmr::string> lines(&lines_of);
    for (int number = 0; number < 20; number++)
        lines.emplace_back("a line that a string keeps in memory of its own, number " +
                           std::to_string(number));
    expect(lines[7].back() == '7' && lines[7].get_allocator().resource() == &lines_of,
           "each line is there");
    expect(throws_bad_alloc([&] { std::pmr::vector<char> all(sizeof region, &lines_of); }),
           "a full bump throws");
    lines_of.deallocate(lines_of.allocate(0, 1), 0, 1);
    expect(bump.info()->used_space > 20 * 56, "the bump has them");
}

// The heap, which counts the chunks that are in use.
struct counting : std::pmr::memory_resource {
    int in_use = 0;

    void *do_allocate(std::size_t size, std::size_t align) override {
        in_use++;
        return std::pmr::new_delete_resource()->allocate(size, align);
    }

    void do_deallocate(void *place, std::size_t size, std::size_t align) override {
        in_use--;
        std::pmr::new_delete_resource()->deallocate(place, size, align);
    }

    bool do_is_equal(const std::pmr::memory_resource &other) const noexcept override {
        return this == &other;
    }
};

// A bump serves one request after another, and is reset after each. What it can't serve comes from
// the heap.
void requests_in_a_bump() {
    bb::bump bump;
    expect(bump.reset() == bb::error::uninitialized, "there is no bump");
    expect_ok(bump.init(region, 256));
    counting heap;
    bb::bump_resource request(bump.get(), &heap);
    for (int round = 0; round < 10; round++) {
        {
            std::pmr::vector<int> few({1, 2, 3}, &request);
            expect(heap.in_use == 0 && bump.info()->used_space == 3 * sizeof(int), "it has room");
            std::pmr::vector<int> many(100, round, &request);
            expect(heap.in_use == 1 && many[99] == round, "the heap serves what is too much");
        }
        expect(heap.in_use == 0, "the heap gets back what it gave");
        expect_ok(bump.reset());
        expect(bump.info()->used_space == 0, "the bump is empty again");
    }
    void *last = request.allocate(8, 8);
    expect(bump.destroy() == bb::error::ok && heap.in_use == 0, "the bump served it");
    request.deallocate(last, 8, 8);
    expect(heap.in_use == 0, "the heap gets no chunk of a bump that is gone");
}

// Nodes of one size are stored in buckets of a pool. Requests that the pool can't serve go
// upstream.
void nodes_in_a_pool() {
    bb::pool pool;
    expect(bb_pool_init_at_least(pool.get(), bucket, bucket, region + 1, sizeof region - 1,
                                 buckets) == BB_NO_BUCKET,
           "a start that isn't aligned costs a bucket");
    expect_ok(pool.init(bucket, bucket, region, sizeof region));
    bb::pool_resource nodes(pool.get());
    std::pmr::map<int, int> squares(&nodes);
    for (int number = 0; number < 100; number++)
        squares[number] = number * number;
    expect(squares[99] == 9801 && pool.info()->held_buckets == 100, "each node has a bucket");
    expect(throws_bad_alloc([&] {
               for (int number = 100; number < 200; number++)
                   squares[number] = 0;
           }),
           "a full pool throws");
    squares.clear();
    expect(pool.info()->held_buckets == 0, "each bucket is back");

    bb::pool_resource with_heap(pool.get(), std::pmr::new_delete_resource());
    std::pmr::vector<int> grows(&with_heap);
    for (int number = 0; number < 1000; number++)
        grows.push_back(number);
    expect(grows[999] == 999 && pool.info()->held_buckets == 0,
           "a vector that outgrew its bucket freed it");
}

// Two resources over one handle are equal, so a list moves its nodes from one to the other.
void resources_over_one_handle() {
    bb::pool pool;
    bb::pool other;
    expect_ok(pool.init(bucket, bucket, region, 8 * bucket));
    expect_ok(other.init(bucket, bucket, region + 8 * bucket, 8 * bucket));
    counting heap;
    bb::pool_resource one(pool.get());
    bb::pool_resource same(pool.get());
    bb::pool_resource with_heap(pool.get(), &heap);
    bb::pool_resource elsewhere(other.get());
    expect(one == same && one == bb::pool_resource(one), "the handle is the same");
    expect(one != with_heap && one != elsewhere, "another upstream or handle is another memory");
    expect(one != *std::pmr::new_delete_resource(), "the heap is another memory");
    std::pmr::list<int> from({1, 2, 3}, &one);
    const int *first = &from.front();
    std::pmr::list<int> to(&same);
    to = std::move(from);
    expect(&to.front() == first && pool.info()->held_buckets == 3, "a node stays where it is");
    std::pmr::list<int> far(&elsewhere);
    far = std::move(to);
    expect(&far.front() != first && far.size() == 3, "a node of another pool is another one");

    bb::shared_pool shared;
    bb::pool_party party;
    expect_ok(shared.init(bucket, bucket, region + 16 * bucket, 8 * bucket, 1));
    expect_ok(shared.join(party));
    bb::pool_resource gives(party.get(), &heap);
    bb::pool_resource frees(party.get(), &heap);
    void *node = gives.allocate(1, 1);
    party.leave();
    frees.deallocate(node, 1, 1);
    expect(gives == frees && heap.in_use == 0, "the heap gets no bucket of a party that left");
}

// A chain of pools: each request goes to the smallest buckets that are large enough and free, and
// the heap serves what is too large for all of them. Containers that lie in others use it, too.
void containers_in_containers() {
    bb::pool small;
    bb::pool large;
    expect_ok(small.init(bucket, bucket, region, 32 * bucket));
    expect_ok(large.init(8 * bucket, bucket, region + 32 * bucket, 64 * bucket));
    {
        counting heap;
        bb::pool_resource to_large(large.get(), &heap);
        bb::pool_resource nodes(small.get(), &to_large);
        using words = std::pmr::list<std::pmr::string>;
        std::pmr::vector<words> pages(&nodes);
        pages.reserve(4);
        expect(large.info()->held_buckets == 1 && small.info()->held_buckets == 0,
               "four lists don't fit in a small bucket");
        words &page = pages.emplace_back();
        page.emplace_back("short");
        expect(small.info()->held_buckets == 1, "a node has a small bucket");
        page.emplace_back("a text that has to be longer than a small bucket, which has 64 bytes");
        expect(small.info()->held_buckets == 2 && large.info()->held_buckets == 2,
               "and a long text a large one");
        page.emplace_back(1000, 'x');
        expect(heap.in_use == 1, "what is too large comes from the heap");
        expect(page.back().get_allocator().resource() == &nodes, "a text in a list in a vector");
        while (small.info()->held_buckets < 32)
            page.emplace_back();
        page.emplace_back();
        expect(large.info()->held_buckets == 3, "a full pool passes a request on");
        pages.clear();
        expect(small.info()->held_buckets == 0 && large.info()->held_buckets == 1 &&
                   heap.in_use == 0,
               "each chunk went back to where it came from");
    }
    expect(large.info()->held_buckets == 0, "the vector's, too");
}

// Keeping the address of a handle is right, since owners and parties don't move.
template<class Owner>
constexpr bool stays = !std::is_move_constructible_v<Owner> && !std::is_move_assignable_v<Owner> &&
                       !std::is_copy_constructible_v<Owner> && !std::is_copy_assignable_v<Owner>;
static_assert(stays<bb::bump> && stays<bb::one_chunk> && stays<bb::pool>);
static_assert(stays<bb::shared_bump> && stays<bb::bump_party>);
static_assert(stays<bb::shared_pool> && stays<bb::pool_party>);
static_assert(std::is_move_constructible_v<bb::detached>);

// An owner in a container is constructed in its place, and stays there when others are added.
void owners_in_a_container() {
    std::deque<bb::pool> pools;
    bb::pool &first = pools.emplace_back();
    expect_ok(first.init(BB_OF(int), region, sizeof(int)));
    bb::pool_resource nodes(first.get());
    auto value = bb::make<int>(first.get(), 7);
    for (int number = 0; number < 100; number++)
        pools.emplace_back();
    expect(pools.front().info()->held_buckets == 1, "the pool has its value");
    value.reset();
    expect(pools.front().info()->held_buckets == 0, "which came back to it");
    nodes.deallocate(nodes.allocate(1, 1), 1, 1);
    expect(first.destroy() == bb::error::ok && !first.info(), "an owner ends before its variable");
    expect(first.destroy() == bb::error::uninitialized, "and has nothing then");
    expect(std::string(bb::name(first.destroy())) == "BB_UNINITIALIZED", "a code has a name");
}

struct message {
    static int alive;
    int number;

    explicit message(int of) : number(of) {
        if (of < 0)
            throw std::invalid_argument("a number of a message");
        alive++;
    }

    message(const message &) = delete;

    ~message() { alive--; }
};

int message::alive = 0;

// A struct without constructors.
struct point {
    int x;
    double y;
};

void values_in_a_pool() {
    bb::pool pool;
    expect_ok(pool.init(BB_OF(message), region, sizeof(message)));
    {
        auto first = bb::make<message>(pool.get(), 7);
        auto second = bb::make<message>(pool.get(), 8);
        expect(first && first->number == 7 && !second && message::alive == 1,
               "the pool has one bucket");
    }
    expect(message::alive == 0 && pool.info()->held_buckets == 0, "a value frees its bucket");
    if (auto whole = bb::take(pool.get()))
        expect(!bb::take(pool.get()), "a bucket that is allocated whole is held");
    expect(pool.info()->held_buckets == 0, "and goes back with its owner");
    auto read = bb::make<const message>(pool.get(), 7);
    expect(read->number == 7 && pool.info()->held_buckets == 1, "a value may be constant");
    read.reset();
    bool thrown = false;
    try {
        static_cast<void>(bb::make<message>(pool.get(), -1));
    } catch (const std::invalid_argument &) {
        thrown = true;
    }
    expect(thrown && pool.info()->held_buckets == 0, "a constructor that throws loses no bucket");

    bb::pool points;
    expect_ok(points.init(BB_OF(point), region + bucket, sizeof(point)));
    auto made = bb::make<point>(points.get(), 3, 0.5);
    expect(made && made->x == 3 && made->y == 0.5, "a struct gets its members in their order");
}

// Threads come and go: each has a party, which leaves when the thread ends, even with buckets that
// it didn't free.
void lists_in_threads() {
    bb::shared_pool pool;
    expect_ok(pool.init(bucket, bucket, region, sizeof region, 2));
    for (int round = 0; round < 50; round++) {
        std::vector<std::thread> threads;
        for (int number = 0; number < 2; number++)
            threads.emplace_back([&pool, number] {
                bb::pool_party party;
                expect_ok(pool.join(party));
                bb::pool_resource nodes(party.get());
                std::pmr::list<int> list(30, number, &nodes);
                for (int each : list)
                    expect(each == number, "a node has what its thread wrote");
                expect(party.info()->held_buckets == 30, "each node has a bucket");
                auto left_behind = bb::make<int>(party.get(), number);
                expect(left_behind.release() != nullptr, "a value isn't freed");
            });
        for (auto &thread : threads)
            thread.join();
    }
    bb::pool_party last;
    expect_ok(pool.join(last));
    bb::pool_resource nodes(last.get());
    std::pmr::list<int> list(buckets, 1, &nodes);
    expect(last.info()->held_buckets == buckets, "every bucket came back");
    expect(pool.info()->held_buckets == buckets, "any thread sees it");
    expect(pool.destroy() == bb::error::parties_joined, "a pool stays while a party is joined");
}

// Two threads take turns: they make a value in the only bucket and free it, by calls for one or for
// many buckets. One of them once calls `give_all_back` instead, and in the end it leaves with the
// bucket. The turns don't order memory, so ThreadSanitizer would report a race if it didn't learn
// of an allocation or a free.
void values_in_threads() {
    constexpr int turns = 1000;
    bb::shared_pool pool;
    expect_ok(pool.init(BB_OF(int), region, sizeof(int), 2));
    std::atomic<int> turn{0};
    auto run = [&](int own) {
        bb::pool_party party;
        expect_ok(pool.join(party));
        for (int at = own; at < turns; at += 2) {
            while (turn.load(std::memory_order_relaxed) != at)
                std::this_thread::yield();
            if (at % 4 < 2) {
                void *place = nullptr;
                expect(bb::take_many(party.get(), &place, 1) == 1, "one bucket of many is there");
                ::new (place) int(at);
                expect(bb::deallocate_many(party.get(), &place, 1) == 1, "one of many goes back");
            } else {
                auto value = bb::make<int>(party.get(), at);
                expect(value && *value == at, "the bucket is there");
                if (at == 2) {
                    expect(value.release() != nullptr, "a value isn't freed");
                    expect_ok(party.give_all_back());
                }
                if (at == turns - 2) {
                    expect(value.release() != nullptr, "a value isn't freed");
                    party.leave();
                }
            }
            turn.store(at + 1, std::memory_order_relaxed);
        }
    };
    std::thread one(run, 0);
    std::thread other(run, 1);
    one.join();
    other.join();
    expect(pool.info()->held_buckets == 0, "each bucket is back");
}

// A chunk of the pool is never freed upstream: not if another party holds it, and not if the party
// has left.
void places_of_the_pool() {
    bb::shared_pool pool;
    expect_ok(pool.init(bucket, bucket, region, sizeof region, 2));
    bb::pool_party party;
    bb::pool_party other;
    expect_ok(pool.join(party));
    expect_ok(pool.join(other));
    counting heap;
    bb::pool_resource nodes(party.get(), &heap);
    void *first = nodes.allocate(1, 1);
    void *last = nodes.allocate(1, 1);
    void *large = nodes.allocate(2 * bucket, 1);
    auto value = bb::make<int>(other.get(), 7);
    nodes.deallocate(value.get(), 1, 1);
    nodes.deallocate(first, 1, 1);
    nodes.deallocate(first, 1, 1);
    party.leave();
    nodes.deallocate(last, 1, 1);
    expect(heap.in_use == 1, "upstream gets no bucket");
    nodes.deallocate(large, 2 * bucket, 1);
    expect(heap.in_use == 0 && *value == 7, "upstream gets what it gave");
}

// A reader frees a detached bucket without attaching it, and the writer allocates it again.
void detached_buckets_come_back() {
    bb::shared_pool pool;
    expect_ok(pool.init(bucket, bucket, region, bucket, 2));
    bb::pool_party writer;
    bb::pool_party reader;
    expect_ok(pool.join(writer));
    expect(!reader.number(), "it hasn't joined");
    expect_ok(pool.join(reader));
    bb::detached detached;
    expect_ok(detached.init());
    std::atomic<int> sent{0};
    std::thread reading([&] {
        for (int round = 1; round <= 100; round++) {
            while (sent.load() != round)
                std::this_thread::yield();
            expect(*reinterpret_cast<const int *>(region) == round,
                   "the bucket has what was written");
            expect_ok(reader.return_detached(detached));
        }
    });
    for (int round = 1; round <= 100; round++) {
        auto value = bb::make<int>(writer.get(), round);
        for (; !value; value = bb::make<int>(writer.get(), round))
            std::this_thread::yield();
        auto holder = pool.holder(0);
        expect(holder && holder->state == BB_HELD && holder->party == writer.number() &&
                   !pool.holder(1),
               "the writer holds it");
        expect_ok(bb::detach(value, detached));
        sent = round;
    }
    reading.join();
    auto last = bb::make<int>(writer.get(), 7);
    expect_ok(bb::detach(last, detached));
    bb::detached moved(std::move(detached));
    expect(moved.len() == sizeof(int) && !detached.len(), "a bucket moves with its bb_detached");
    if (auto attached = bb::attach(reader.get(), moved)) {
        expect(*static_cast<int *>(attached.get()) == 7, "it has what was written");
        expect(bb::detach(attached, bucket + 1, moved) == bb::error::size_too_large && attached,
               "a pointer keeps what can't be sent");
        expect_ok(bb::detach(attached, sizeof(int), moved));
        expect(!attached && bb::detach(attached, 0, moved) == bb::error::not_held,
               "an empty pointer sends nothing");
    }
    expect(!bb::attach(reader.get(), detached), "nothing is in an empty one");
    writer.leave();
    reader.leave();
    expect(pool.destroy() == bb::error::bucket_detached, "a pool stays while a bucket is detached");
    expect_ok(pool.join(reader));
    expect(pool.holder(0)->state == BB_DETACHED, "it is detached without its parties, too");
    expect_ok(reader.return_detached(moved));
    expect(pool.holder(0)->state == BB_FREE, "it is free");
}

// A value is sent as it is: it is neither destroyed nor copied on its way, and whoever attaches it
// destroys it.
void values_are_sent() {
    bb::shared_pool pool;
    expect_ok(pool.init(bucket, bucket, region, 2 * bucket, 2));
    bb::pool_party writer;
    bb::pool_party reader;
    expect_ok(pool.join(writer));
    expect_ok(pool.join(reader));
    bb::detached detached;
    bb::detached full;
    expect_ok(detached.init());
    expect_ok(full.init());
    {
        auto value = bb::make<message>(writer.get(), 7);
        expect(bb::detach(value, full) == bb::error::ok && !value, "the writer has sent it");
        expect(bb::detach(value, detached) == bb::error::not_held, "it can't be sent again");
        auto other = bb::make<message>(writer.get(), 8);
        expect(bb::detach(other, full) == bb::error::detached_full && other->number == 8,
               "what can't be sent stays");
    }
    expect(message::alive == 1, "one of the two is on its way");
    expect(!bb::attach<char>(reader.get(), full) && full.len() == sizeof(message),
           "it isn't a char");
    auto got = bb::attach<message>(reader.get(), full);
    expect(got && got->number == 7 && message::alive == 1, "the reader has it");
    const std::optional<std::uint32_t> number = bb::detach_number(got);
    expect(number && !got && !bb::detach_number(got), "the reader sends it by its number");
    auto back = bb::attach_number<message>(writer.get(), *number, *reader.number());
    expect(back && back->number == 7, "the writer has it again");
    back.reset();
    expect(message::alive == 0 && pool.info()->held_buckets == 0, "and destroys it");

    bb::shared_pool of_one;
    bb::pool_party only;
    expect_ok(of_one.init(bucket, bucket, region + 2 * bucket, bucket, 1));
    expect_ok(of_one.join(only));
    auto kept = bb::make<message>(only.get(), 9);
    expect(!bb::detach_number(kept) && kept->number == 9, "nobody could attach it");
    bb::unique<message, bb_pool_party> never;
    expect(bb::detach(never, detached) == bb::error::not_held, "a pointer may have no party");
}

// A writer sends buckets by their numbers. Of two readers that try, exactly one gets each bucket.
// As in `values_in_threads`, the threads' counters don't order memory.
void buckets_go_by_number() {
    constexpr int rounds = 1000;
    bb::shared_pool pool;
    expect_ok(pool.init(bucket, bucket, region, bucket, 3));
    bb::pool_party writer;
    expect_ok(pool.join_number(2, writer));
    expect(writer.number() == 2u, "the party has the number that was asked for");
    std::atomic<int> sent{0};
    std::atomic<int> read{0};
    std::atomic<int> done{0};
    std::vector<std::thread> threads;
    for (std::uint32_t own = 0; own < 2; own++)
        threads.emplace_back([&, own] {
            bb::pool_party reader;
            expect_ok(pool.join_number(own, reader));
            for (int round = 1; round <= rounds; round++) {
                while (sent.load(std::memory_order_relaxed) < round)
                    std::this_thread::yield();
                if (auto got = bb::attach_number<int>(reader.get(), 0, 2)) {
                    expect(*got == round, "it is what the writer wrote");
                    read++;
                }
                done.fetch_add(1, std::memory_order_relaxed);
            }
        });
    for (int round = 1; round <= rounds; round++) {
        auto value = bb::make<int>(writer.get(), round);
        expect(bb::detach_number(value) == 0u, "it is on its way");
        sent.store(round, std::memory_order_relaxed);
        while (done.load(std::memory_order_relaxed) != 2 * round)
            std::this_thread::yield();
    }
    for (auto &thread : threads)
        thread.join();
    expect(read == rounds, "each bucket went to one reader");
    expect(!bb::attach_number(writer.get(), 0, 2), "a bucket that isn't detached stays");
}

// A party that is forgotten leaves its buckets to the next party of its number.
void parties_are_forgotten() {
    bb::shared_pool pool;
    expect_ok(pool.init(bucket, bucket, region, 2 * bucket, 2));
    bb::pool_party first;
    bb::pool_party next;
    expect_ok(pool.join_number(1, first));
    expect(pool.join_number(1, next) == bb::error::no_party, "one party has a number");
    auto value = bb::make<int>(first.get(), 7);
    const int *kept = value.release();
    expect(kept != nullptr, "a bucket is held");
    first.forget();
    expect(!first.number() && pool.info()->held_buckets == 1, "it stays held");
    expect_ok(pool.join_number(1, next));
    expect(bb_pool_party_holds(next.get(), kept).number == 1 && *kept == 7, "by the next party");
    expect_ok(next.give_all_back());
    expect(next.number() == 1u && pool.info()->held_buckets == 0, "which frees it");
    expect(first.give_all_back() == bb::error::uninitialized, "and the first has nothing");
}

// A caching party allocates the bucket that it freed last.
void buckets_in_a_cache() {
    bb::shared_pool pool;
    expect_ok(pool.init(bucket, bucket, region, 4 * bucket, 2));
    bb::pool_party party;
    expect(party.cache(2) == bb::error::uninitialized, "it hasn't joined");
    expect_ok(pool.join(party));
    expect_ok(party.cache(2));
    auto one = bb::take(party.get());
    void *place = one.get();
    one.reset();
    expect(pool.info()->held_buckets == 1 && party.info()->held_buckets == 0, "it is cached");
    expect(bb::take(party.get()).get() == place, "it is allocated first");
    expect_ok(party.flush());
    expect(pool.info()->held_buckets == 0, "it is back");
}

// Several buckets are allocated or freed in one call. A party frees by their numbers what another
// one has allocated.
void many_buckets_at_once() {
    bb::pool alone;
    void *places[5];
    expect_ok(alone.init(BB_OF(int), region, 4 * sizeof(int)));
    expect(bb::take_many(alone.get(), places, 5) == 4, "four buckets are there");
    expect(bb::deallocate_many(alone.get(), places, 4) == 4, "all of them come back");
    bb::shared_pool pool;
    bb::pool_party sender;
    bb::pool_party receiver;
    std::uint32_t numbers[5];
    expect_ok(pool.init(BB_OF(int), region, 4 * sizeof(int), 2));
    expect_ok(pool.join(sender));
    expect_ok(pool.join(receiver));
    const auto from = static_cast<std::uint32_t>(bb_pool_party_number(sender.get()).number);
    expect(bb::take_many_detached(sender.get(), numbers, 5) == 4, "four are detached");
    expect_ok(bb::return_number(receiver.get(), numbers[0], from));
    expect(bb::return_number(receiver.get(), numbers[0], from) == bb::error::not_held,
           "a bucket is freed once");
    expect(bb::return_many(receiver.get(), numbers + 1, 3, from) == 3, "the others are freed");
}

void words_in_a_shared_bump() {
    bb::shared_bump bump;
    expect_ok(bump.init(region, sizeof region, 1));
    {
        bb::bump_party party;
        expect_ok(bump.join(party));
        bb::bump_resource words_of(party.get());
        std::pmr::vector<std::uint64_t> words(100, 7, &words_of);
        expect(words[99] == 7 && bump.reset() == bb::error::parties_joined, "a party has joined");
        expect(party.info()->used_space == 800, "its words are used");
    }
    expect_ok(bump.reset());
}

}  // namespace

int main() {
    strings_in_a_bump();
    requests_in_a_bump();
    nodes_in_a_pool();
    resources_over_one_handle();
    containers_in_containers();
    owners_in_a_container();
    values_in_a_pool();
    lists_in_threads();
    values_in_threads();
    places_of_the_pool();
    detached_buckets_come_back();
    values_are_sent();
    buckets_go_by_number();
    parties_are_forgotten();
    many_buckets_at_once();
    buckets_in_a_cache();
    words_in_a_shared_bump();
    std::puts("containers: every bucket came back");
    return 0;
}
