// Times messages from process to process: through a slot of a pool in a file, and through peers.
// Then times streams through a file, whose receiver keeps the last messages and frees the oldest
// one, over pools of several sizes. Each process is kept on a processor of its own.
//
// Arguments: the number of rounds, and the number of messages of 64 bytes in a round, of which
// there are fewer if they are longer. Prints a line for each figure, which `report` reads: the
// nanoseconds of a message.
#include "messages.hpp"
#include "iceoryx.hpp"

#ifdef WITH_ZMQ
#include <zmq.h>
#endif

namespace {

// The most messages of a stream that are on their way at one time.
constexpr std::uint32_t stream_room = 16;
// The depth of a POSIX queue that any user may make.
constexpr std::uint32_t posix_room = 10;

// POOLS IN FILES

preparation stream_in_file(const traffic &of, std::uint32_t count, std::size_t held) {
    return [of, count, held](unsigned number) -> std::function<void()> {
        const opened own(options_of(of, count));
        map_pages(own);
        if (number < of.senders)
            return [own, of] { send_each(own, of); };
        return [own, of, held] { receive_each(own, of, held); };
    };
}

// PEERS

// A POSIX message queue has room for fewer messages if the system refuses a larger one.
void time_posix(traffic of, const char *call) {
    while (!make_posix_queue(of.size, of.depth)) {
        if (of.depth <= posix_room)
            return;
        of.depth = posix_room;
    }
    print(call, 2, "", "POSIX", time_of_posix(of) / messages_of(of));
}

void time_boost([[maybe_unused]] const traffic &of, [[maybe_unused]] const char *call) {
#if HAS_BOOST
    print(call, 2, "", "boost::interprocess", time_of_boost(of) / messages_of(of));
#endif
}

#if defined(WITH_ZMQ) || defined(ROUDI)
// Waits until the receiver has all messages. If the sender closed its end sooner, some of those on
// their way would be lost.
void wait_for_receiver() {
    while (common->received == 0)
        usleep(100);
}

void end_waiting() {
    common->received = 1;
}
#endif

#ifdef WITH_ZMQ
// The context and the socket of a process.
struct zmq_end {
    void *context = zmq_ctx_new();
    void *socket = zmq_socket(context, ZMQ_PAIR);

    explicit zmq_end(bool is_sender) {
        const std::string address = "ipc://@" + name;
        const int most = room;
        must(zmq_setsockopt(socket, ZMQ_SNDHWM, &most, sizeof most) == 0, "zmq_setsockopt");
        must(zmq_setsockopt(socket, ZMQ_RCVHWM, &most, sizeof most) == 0, "zmq_setsockopt");
        const int code =
            is_sender ? zmq_bind(socket, address.c_str()) : zmq_connect(socket, address.c_str());
        must(code == 0, "zmq_bind or zmq_connect");
    }

    zmq_end(const zmq_end &) = delete;
    zmq_end &operator=(const zmq_end &) = delete;

    ~zmq_end() {
        zmq_close(socket);
        zmq_ctx_term(context);
    }
};

// Messages are written and read where ZeroMQ keeps them.
preparation message_by_zmq(const traffic &of) {
    return [of](unsigned number) -> std::function<void()> {
        auto own = std::make_shared<zmq_end>(number == 0);
        if (number == 0)
            return [own, of] {
                for (std::size_t at = 0; at < of.count; at++) {
                    zmq_msg_t message;
                    must(zmq_msg_init_size(&message, of.size) == 0, "zmq_msg_init_size");
                    write_message(zmq_msg_data(&message), of, at);
                    must(zmq_msg_send(&message, own->socket, 0) >= 0, "zmq_msg_send");
                }
                wait_for_receiver();
            };
        return [own, of] {
            for (std::size_t at = 0; at < of.count; at++) {
                zmq_msg_t message;
                zmq_msg_init(&message);
                must(zmq_msg_recv(&message, own->socket, 0) >= 0, "zmq_msg_recv");
                must(zmq_msg_size(&message) == of.size, "zmq_msg_recv");
                read_message(zmq_msg_data(&message), of, at);
                zmq_msg_close(&message);
            }
            end_waiting();
        };
    };
}

void time_zmq(const traffic &of, const char *call) {
    common->received = 0;
    const double time = nanoseconds_of(2, message_by_zmq(of));
    print(call, 2, "", "ZeroMQ", time / messages_of(of));
}
#else
void time_zmq(const traffic &, const char *) {}
#endif

#ifdef ROUDI
std::function<void()> send_by_iceoryx(const traffic &of) {
    auto own = open_iceoryx_publisher(of);
    while (!own->hasSubscribers())
        usleep(1000);
    return [own, of] {
        for (std::size_t at = 0; at < of.count; at++)
            publish_by_iceoryx(*own, of, at);
        wait_for_receiver();
    };
}

std::function<void()> receive_by_iceoryx(const traffic &of) {
    auto own = std::make_shared<iceoryx_subscriber>(of, room);
    return [own, of] {
        for (std::size_t at = 0; at < of.count; at++)
            own->receive(of, at);
        end_waiting();
    };
}

preparation message_by_iceoryx(const traffic &of) {
    return [of](unsigned number) -> std::function<void()> {
        register_process(number);
        return number == 0 ? send_by_iceoryx(of) : receive_by_iceoryx(of);
    };
}

void time_iceoryx(const traffic &of, const char *call) {
    common->received = 0;
    const double time = nanoseconds_of(2, message_by_iceoryx(of));
    print(call, 2, "", "iceoryx", time / messages_of(of));
}
#else
void time_iceoryx(const traffic &, const char *) {}
#endif

// FIGURES

// Times messages through one slot, and through slots that hold one message each, in turn.
void time_messages(std::size_t size) {
    const traffic of = {size, count_of(size), 1, room, 1};
    const traffic by_slots = {size, count_of(size), room, 1, 1};
    const std::string call = "process message of " + std::to_string(size);
    const double each = time_of_file(2, message_in_file(of, buckets, false));
    print(call.c_str(), 2, "", "C file", each / messages_of(of));
    const double in_groups = time_of_file(2, message_in_file(of, buckets, true));
    print(call.c_str(), 2, "", "C file group", in_groups / messages_of(of));
    const double in_slots = time_of_file(2, message_in_file(by_slots, buckets, false));
    print(call.c_str(), 2, "", "C file slots", in_slots / messages_of(of));
    time_iceoryx(of, call.c_str());
    time_zmq(of, call.c_str());
    time_boost(of, call.c_str());
    time_posix(of, call.c_str());
}

// Times a stream over each pool that has enough buckets and isn't too large.
void time_streams(std::size_t size, std::uint32_t held) {
    const std::size_t messages = std::max<std::size_t>(count_of(size), 8 * held);
    const traffic of = {size, messages, 1, stream_room, 1};
    const std::string call =
        "stream of " + std::to_string(size) + " with " + std::to_string(held) + " held";
    for (const std::uint32_t count : {40U, 4000U, 65536U}) {
        if (count < held + stream_room + 2 || count * size > largest_file)
            continue;
        const double time = time_of_file(2, stream_in_file(of, count, held));
        print(call.c_str(), 2, std::to_string(count).c_str(), "C file", time / messages_of(of));
    }
}

}  // namespace

int main(int argc, char **argv) {
    const int rounds = begin(argc, argv);
    [[maybe_unused]] const roudi daemon;
    for (int round = 0; round < rounds; round++) {
        for (const std::size_t size : message_sizes)
            time_messages(size);
        for (const std::size_t size : {64, 4096, 65536})
            for (const std::uint32_t held : {16U, 256U})
                time_streams(size, held);
    }
    return 0;
}
