// What goes from senders to receivers, each of which is a process: through the slots of a pool in a
// file, a POSIX message queue, or one of Boost. A sender writes each byte of a message, and a
// receiver reads a byte of each line.
#ifndef BENCH_MESSAGES_HPP
#define BENCH_MESSAGES_HPP

#include "processes.hpp"
#include <algorithm>
#include <cstring>
#include <fcntl.h>
#include <memory>
#include <vector>

#if __has_include(<boost/interprocess/ipc/message_queue.hpp>)
#define HAS_BOOST 1
#include <boost/interprocess/ipc/message_queue.hpp>
#else
#define HAS_BOOST 0
#endif

constexpr std::size_t group = 16;
constexpr std::size_t line = 64;
constexpr std::size_t fewest = 64;
// The most bytes of the buckets of a file, or of the messages for which a queue has room.
constexpr std::size_t largest_file = std::size_t{256} << 20;

// How long each message is, how many each sender sends, through how many slots they go in turn, for
// how many messages a slot or a queue has room, and how many senders there are. There are as many
// receivers.
struct traffic {
    std::size_t size;
    std::size_t count;
    std::uint32_t slots;
    std::uint32_t depth;
    unsigned senders;
};

inline unsigned processes_of(const traffic &of) {
    return 2 * of.senders;
}

inline double messages_of(const traffic &of) {
    return static_cast<double>(of.count) * of.senders;
}

// Returns fewer messages the longer they are.
inline std::size_t count_of(std::size_t size) {
    const std::size_t count = size <= 64      ? calls
                              : size <= 4096  ? calls / 4
                              : size <= 65536 ? calls / 40
                                              : calls / 400;
    return std::max(count, fewest);
}

inline void write_message(void *place, const traffic &of, std::size_t at) {
    std::memset(place, static_cast<int>(at % 251), of.size);
}

// Reads a message, which is the one with this number if there is only one sender.
inline void read_message(const void *place, const traffic &of, std::size_t at) {
    const auto *bytes = static_cast<const volatile unsigned char *>(place);
    const unsigned char last = bytes[of.size - 1];
    bool holds = of.senders > 1 || last == at % 251;
    for (std::size_t i = 0; i < of.size; i += line)
        holds = holds && bytes[i] == last;
    must(holds, "a message is wrong");
}

// POOLS IN FILES

inline void post(const opened &own, const traffic &of, std::size_t at, void *place) {
    const auto slot = static_cast<std::uint32_t>(at % of.slots);
    write_message(place, of, at);
    std::uint32_t code = bb_pool_file_post(own.file, own.party, slot, place, of.size);
    while (code == BB_DETACHED_FULL) {
        must_wait(bb_pool_file_wait_empty(own.file, slot, longest_wait));
        code = bb_pool_file_post(own.file, own.party, slot, place, of.size);
    }
    must(code == BB_OK, "post");
}

// Takes the next message out of its slot.
inline void *receive(const opened &own, const traffic &of, std::size_t at) {
    const auto slot = static_cast<std::uint32_t>(at % of.slots);
    bb_message message = bb_pool_file_take(own.file, own.party, slot);
    while (message.code == BB_DETACHED_EMPTY || message.code == BB_NOT_HELD) {
        must_wait(bb_pool_file_wait_full(own.file, slot, longest_wait));
        message = bb_pool_file_take(own.file, own.party, slot);
    }
    must(message.code == BB_OK && message.len == of.size, "take");
    read_message(message.place, of, at);
    must(bb_file_party_done(own.party, message.place) == BB_OK, "done");
    return message.place;
}

inline void free_bucket(const opened &own, void *place) {
    must(bb_file_party_deallocate(own.party, place) == BB_OK, "deallocate");
}

inline void send_each(const opened &own, const traffic &of) {
    for (std::size_t at = 0; at < of.count; at++) {
        bb_chunk chunk = bb_file_party_take(own.party);
        while (chunk.code == BB_OUT_OF_MEMORY) {
            must_wait(bb_pool_file_wait_bucket(own.file, longest_wait));
            chunk = bb_file_party_take(own.party);
        }
        must(chunk.code == BB_OK, "take");
        post(own, of, at, chunk.place);
    }
}

// Receives all messages, and keeps the last `held` of them.
inline void receive_each(const opened &own, const traffic &of, std::size_t held) {
    std::vector<void *> kept(held);
    for (std::size_t at = 0; at < of.count; at++) {
        void *place = receive(own, of, at);
        if (held > 0)
            std::swap(place, kept[at % held]);
        if (place != nullptr)
            free_bucket(own, place);
    }
    for (void *place : kept)
        if (place != nullptr)
            free_bucket(own, place);
}

// The same with buckets that are allocated and freed in groups.
inline void send_groups(const opened &own, const traffic &of) {
    bb_place places[group];
    for (std::size_t at = 0; at < of.count;) {
        const std::size_t wanted = std::min(of.count - at, group);
        const bb_number taken = bb_file_party_take_many(own.party, places, wanted);
        must(taken.code == BB_OK, "take_many");
        if (taken.number == 0)
            must_wait(bb_pool_file_wait_bucket(own.file, longest_wait));
        for (std::size_t each = 0; each < taken.number; each++)
            post(own, of, at++, places[each]);
    }
}

inline void receive_groups(const opened &own, const traffic &of) {
    bb_place places[group];
    for (std::size_t at = 0; at < of.count;) {
        std::size_t count = 0;
        while (count < group && at < of.count)
            places[count++] = receive(own, of, at++);
        must(bb_file_party_deallocate_many(own.party, places, count).number == count, "deallocate");
    }
}

// Reads a byte of each page of the buckets, so that no page is mapped while messages are timed.
inline void map_pages(const opened &own) {
    constexpr std::size_t page = 4096;
    bb_pool_file_figures figures;
    must(bb_pool_file_info(own.file, &figures) == BB_OK, "info");
    const std::uint32_t last = figures.options.buckets - 1;
    const auto *bytes = static_cast<const volatile unsigned char *>(figures.start);
    const auto *end =
        static_cast<const unsigned char *>(bb_file_party_place_at(own.party, last).place);
    const std::size_t size = end - static_cast<const unsigned char *>(figures.start) + 1;
    for (std::size_t i = 0; i < size; i += page)
        static_cast<void>(bytes[i]);
}

// A file with this many buckets.
inline bb_pool_file_options options_of(const traffic &of, std::uint32_t count) {
    bb_pool_file_options options = options_of(count, of.size);
    options.parties = std::max(parties, processes_of(of));
    options.slots = of.slots;
    options.depth = of.depth;
    return options;
}

inline preparation message_in_file(const traffic &of, std::uint32_t count, bool in_groups) {
    return [of, count, in_groups](unsigned number) -> std::function<void()> {
        const opened own(options_of(of, count));
        map_pages(own);
        if (number < of.senders && in_groups)
            return [own, of] { send_groups(own, of); };
        if (number < of.senders)
            return [own, of] { send_each(own, of); };
        if (in_groups)
            return [own, of] { receive_groups(own, of); };
        return [own, of] { receive_each(own, of, 0); };
    };
}

// POSIX

// Makes a POSIX message queue. Returns false if the system has no such queues.
inline bool make_posix_queue(std::size_t size, std::uint32_t depth) {
    mq_attr wanted{};
    wanted.mq_maxmsg = static_cast<long>(depth);
    wanted.mq_msgsize = static_cast<long>(size);
    mq_unlink(name.c_str());
    const mqd_t queue = mq_open(name.c_str(), O_CREAT | O_EXCL | O_RDWR, 0600, &wanted);
    if (queue == static_cast<mqd_t>(-1))
        return false;
    mq_close(queue);
    return true;
}

inline preparation message_by_posix(const traffic &of) {
    return [of](unsigned number) -> std::function<void()> {
        const mqd_t queue = mq_open(name.c_str(), O_RDWR);
        must(queue != static_cast<mqd_t>(-1), "mq_open");
        if (number < of.senders)
            return [queue, of] {
                std::vector<char> bytes(of.size);
                for (std::size_t at = 0; at < of.count; at++) {
                    write_message(bytes.data(), of, at);
                    must(mq_send(queue, bytes.data(), of.size, 0) == 0, "mq_send");
                }
            };
        return [queue, of] {
            std::vector<char> bytes(of.size);
            for (std::size_t at = 0; at < of.count; at++) {
                const ssize_t length = mq_receive(queue, bytes.data(), of.size, nullptr);
                must(length == static_cast<ssize_t>(of.size), "mq_receive");
                read_message(bytes.data(), of, at);
            }
        };
    };
}

// Times processes over the POSIX queue that was made last, and removes it.
inline double time_of_posix(const traffic &of) {
    const double time = nanoseconds_of(processes_of(of), message_by_posix(of));
    mq_unlink(name.c_str());
    return time;
}

// BOOST

#if HAS_BOOST
namespace interprocess = boost::interprocess;

inline preparation message_by_boost(const traffic &of) {
    return [of](unsigned number) -> std::function<void()> {
        auto queue =
            std::make_shared<interprocess::message_queue>(interprocess::open_only, name.c_str());
        if (number < of.senders)
            return [queue, of] {
                std::vector<char> bytes(of.size);
                for (std::size_t at = 0; at < of.count; at++) {
                    write_message(bytes.data(), of, at);
                    queue->send(bytes.data(), of.size, 0);
                }
            };
        return [queue, of] {
            std::vector<char> bytes(of.size);
            for (std::size_t at = 0; at < of.count; at++) {
                interprocess::message_queue::size_type length;
                unsigned priority;
                queue->receive(bytes.data(), of.size, length, priority);
                must(length == of.size, "receive");
                read_message(bytes.data(), of, at);
            }
        };
    };
}

// Times processes over a queue of Boost, and removes it.
inline double time_of_boost(const traffic &of) {
    interprocess::message_queue::remove(name.c_str());
    interprocess::message_queue(interprocess::create_only, name.c_str(), of.depth, of.size);
    const double time = nanoseconds_of(processes_of(of), message_by_boost(of));
    interprocess::message_queue::remove(name.c_str());
    return time;
}
#endif

#endif
