// Times queues between processes, from one to one and from four to four: a slot of a pool in a
// file, and its peers, by the messages for which they have room. A process that finds a queue full
// or empty sleeps until that changes. Each process is kept on a processor: on each one in turn.
//
// Arguments: the number of rounds, and five times the number of messages of 48 bytes in a round, of
// which there are fewer if they are longer. Prints lines for each queue, which `report` reads: the
// processor time of a message, and the time from one message to the next, in nanoseconds.
#include "messages.hpp"
#include <sys/resource.h>

namespace {

// The buckets of each process, besides those for which the queue has room.
constexpr std::uint32_t of_each = 2 * group;

// Fewer messages the longer they are, but enough to fill the queue several times.
traffic traffic_of(std::size_t size, std::uint32_t depth, unsigned senders) {
    const std::size_t messages = std::max<std::size_t>(count_of(size) / 5, 4 * depth);
    return {size, messages / senders, 1, depth, senders};
}

void print_times(const traffic &of, const char *by, double time) {
    const unsigned processes = processes_of(of);
    const std::string size = std::to_string(of.size);
    const std::string depth = std::to_string(of.depth);
    print(("queue processor time of " + size).c_str(), processes, depth.c_str(), by,
          processor_time_of(processes) / messages_of(of));
    print(("queue time of " + size).c_str(), processes, depth.c_str(), by, time / messages_of(of));
}

void time_queues(const traffic &of) {
    const unsigned processes = processes_of(of);
    const std::uint32_t count = of.depth + of_each * processes;
    if (count * of.size > largest_file)
        return;
    print_times(of, "C file", time_of_file(processes, message_in_file(of, count, false)));
    print_times(of, "C file group", time_of_file(processes, message_in_file(of, count, true)));
#if HAS_BOOST
    print_times(of, "boost::interprocess", time_of_boost(of));
#endif
    if (make_posix_queue(of.size, of.depth))
        print_times(of, "POSIX", time_of_posix(of));
}

// Lets this process make as large a POSIX queue as its user may: root raises the limit itself.
void raise_posix_limit() {
    rlimit limit{RLIM_INFINITY, RLIM_INFINITY};
    if (setrlimit(RLIMIT_MSGQUEUE, &limit) == 0)
        return;
    must(getrlimit(RLIMIT_MSGQUEUE, &limit) == 0, "getrlimit");
    limit.rlim_cur = limit.rlim_max;
    must(setrlimit(RLIMIT_MSGQUEUE, &limit) == 0, "setrlimit");
}

}  // namespace

int main(int argc, char **argv) {
    const int rounds = begin(argc, argv);
    raise_posix_limit();
    for (int round = 0; round < rounds; round++)
        for (const std::uint32_t depth : {1U, 8U, 64U, 1024U}) {
            time_queues(traffic_of(48, depth, 1));
            time_queues(traffic_of(48, depth, 4));
            time_queues(traffic_of(4096, depth, 1));
            time_queues(traffic_of(4096, depth, 4));
            time_queues(traffic_of(1 << 20, depth, 1));
        }
    return 0;
}
