// Times messages from one publisher to one and to three subscribers, each in a process: through a
// topic in a file (examples/adopt/publish), and through peers. The publisher writes all bytes of a
// message, and each subscriber reads a byte of each line. No message is lost.
//
// Arguments: the number of rounds, and five times the number of messages of 64 bytes in a round, of
// which there are fewer if they are longer. Prints a line for each figure, which `report` reads: the
// nanoseconds from one message to the next.
#include "iceoryx.hpp"
#include "messages.hpp"

extern "C" {
#include "../examples/adopt/publish/topic.h"
}

#ifdef WITH_ZMQ
#include <zmq.h>
#endif

#ifdef WITH_NNG
#include <nng/nng.h>
#include <nng/protocol/pubsub0/pub.h>
#include <nng/protocol/pubsub0/sub.h>
#endif

namespace {

// For how many messages each subscriber has room.
constexpr std::uint32_t topic_room = 16;

// A publisher, which is process 0, and its subscribers.
traffic traffic_of(std::size_t size) {
    return {size, std::max(count_of(size) / 5, std::size_t{8} * topic_room), 1, topic_room, 1};
}

// What a publisher and a subscriber do with each message.
using publishing = std::function<void(const traffic &, std::size_t)>;
using subscribing = std::function<void(const traffic &, std::size_t)>;

// Publishes all messages, and waits until all subscribers have them. If a peer's publisher closed
// its end sooner, some of those on their way would be lost.
std::function<void()> publish_each(const traffic &of, unsigned subscribers, publishing publish) {
    return [of, subscribers, publish] {
        for (std::size_t at = 0; at < of.count; at++)
            publish(of, at);
        while (common->received < subscribers)
            usleep(100);
    };
}

std::function<void()> receive_each(const traffic &of, subscribing receive) {
    return [of, receive] {
        for (std::size_t at = 0; at < of.count; at++)
            receive(of, at);
        common->received++;
    };
}

// TOPICS

topic_options topic_of(const traffic &of, unsigned subscribers) {
    topic_options options{};
    options.size = of.size;
    options.subscribers = subscribers;
    options.depth = topic_room;
    return options;
}

// Reads a byte of each page of the file, so that no page is mapped while messages are timed.
void map_pages_of_file() {
    constexpr std::uintptr_t page = 4096;
    std::ifstream maps("/proc/self/maps");
    for (std::string line; std::getline(maps, line);) {
        unsigned long at = 0;
        unsigned long end = 0;
        if (line.find(path) == std::string::npos ||
            std::sscanf(line.c_str(), "%lx-%lx", &at, &end) != 2)
            continue;
        for (; at < end; at += page)
            static_cast<void>(*reinterpret_cast<const volatile unsigned char *>(at));
    }
}

void publish_in_topic(topic *own, const traffic &of, std::size_t at) {
    write_message(topic_loan(own), of, at);
    must(topic_publish(own, of.size, BB_NO_TIMEOUT) == BB_OK, "topic_publish");
}

void receive_from_topic(topic *own, const traffic &of, std::size_t at) {
    topic_message message;
    must(topic_receive(own, &message, BB_NO_TIMEOUT) == BB_OK, "topic_receive");
    must(message.number == at + 1 && message.len == of.size, "topic_receive");
    read_message(message.bytes, of, at);
    must(topic_finish(own) == BB_OK, "topic_finish");
}

// The subscriptions have to be wanted before the first message.
preparation message_by_topic(const traffic &of, unsigned subscribers) {
    return [of, subscribers](unsigned number) -> std::function<void()> {
        const topic_options options = topic_of(of, subscribers);
        topic *own;
        if (number > 0) {
            must(topic_open_subscriber(&own, path.c_str(), &options, number - 1) == BB_OK, "open");
            map_pages_of_file();
            return receive_each(of, [own](const traffic &each, std::size_t at) {
                receive_from_topic(own, each, at);
            });
        }
        must(topic_open_publisher(&own, path.c_str(), &options) == BB_OK, "open");
        map_pages_of_file();
        return publish_each(of, subscribers, [own](const traffic &each, std::size_t at) {
            publish_in_topic(own, each, at);
        });
    };
}

// ZEROMQ

#ifdef WITH_ZMQ
struct zmq_end {
    void *context = zmq_ctx_new();
    void *socket;

    explicit zmq_end(int type) : socket(zmq_socket(context, type)) {
        const int most = topic_room;
        must(zmq_setsockopt(socket, ZMQ_SNDHWM, &most, sizeof most) == 0, "zmq_setsockopt");
        must(zmq_setsockopt(socket, ZMQ_RCVHWM, &most, sizeof most) == 0, "zmq_setsockopt");
    }

    zmq_end(const zmq_end &) = delete;
    zmq_end &operator=(const zmq_end &) = delete;

    ~zmq_end() {
        zmq_close(socket);
        zmq_ctx_term(context);
    }
};

// An XPUB is a PUB that learns of its subscribers, and that can wait for those whose queue is full.
std::shared_ptr<zmq_end> open_zmq_publisher(unsigned subscribers) {
    auto own = std::make_shared<zmq_end>(ZMQ_XPUB);
    const int yes = 1;
    must(zmq_setsockopt(own->socket, ZMQ_XPUB_NODROP, &yes, sizeof yes) == 0, "zmq_setsockopt");
    must(zmq_setsockopt(own->socket, ZMQ_XPUB_VERBOSE, &yes, sizeof yes) == 0, "zmq_setsockopt");
    must(zmq_bind(own->socket, ("ipc://@" + name).c_str()) == 0, "zmq_bind");
    for (unsigned number = 0; number < subscribers; number++) {
        char subscription = 0;
        must(zmq_recv(own->socket, &subscription, 1, 0) == 1, "zmq_recv");
    }
    return own;
}

std::shared_ptr<zmq_end> open_zmq_subscriber() {
    auto own = std::make_shared<zmq_end>(ZMQ_SUB);
    must(zmq_setsockopt(own->socket, ZMQ_SUBSCRIBE, "", 0) == 0, "zmq_setsockopt");
    must(zmq_connect(own->socket, ("ipc://@" + name).c_str()) == 0, "zmq_connect");
    return own;
}

void publish_by_zmq(const zmq_end &own, const traffic &of, std::size_t at) {
    zmq_msg_t message;
    must(zmq_msg_init_size(&message, of.size) == 0, "zmq_msg_init_size");
    write_message(zmq_msg_data(&message), of, at);
    must(zmq_msg_send(&message, own.socket, 0) >= 0, "zmq_msg_send");
}

void receive_by_zmq(const zmq_end &own, const traffic &of, std::size_t at) {
    zmq_msg_t message;
    zmq_msg_init(&message);
    must(zmq_msg_recv(&message, own.socket, 0) >= 0, "zmq_msg_recv");
    must(zmq_msg_size(&message) == of.size, "zmq_msg_recv");
    read_message(zmq_msg_data(&message), of, at);
    zmq_msg_close(&message);
}

preparation message_by_zmq(const traffic &of, unsigned subscribers) {
    return [of, subscribers](unsigned number) -> std::function<void()> {
        if (number > 0) {
            const auto own = open_zmq_subscriber();
            return receive_each(
                of, [own](const traffic &each, std::size_t at) { receive_by_zmq(*own, each, at); });
        }
        const auto own = open_zmq_publisher(subscribers);
        return publish_each(of, subscribers, [own](const traffic &each, std::size_t at) {
            publish_by_zmq(*own, each, at);
        });
    };
}
#endif

// NNG

#ifdef WITH_NNG
// The publisher drops a message for a subscriber whose queue is full. So it counts what each one
// has received, and waits.
void wait_for_subscribers(unsigned subscribers, std::size_t at) {
    for (unsigned number = 0; number < subscribers; number++)
        while (common->progress[number] + topic_room <= at)
            sched_yield();
}

nng_socket open_nng_publisher() {
    nng_socket own;
    must(nng_pub0_open(&own) == 0, "nng_pub0_open");
    must(nng_socket_set_int(own, NNG_OPT_SENDBUF, topic_room) == 0, "nng_socket_set_int");
    must(nng_listen(own, ("ipc://" + path).c_str(), nullptr, 0) == 0, "nng_listen");
    return own;
}

nng_socket open_nng_subscriber() {
    nng_socket own;
    must(nng_sub0_open(&own) == 0, "nng_sub0_open");
    must(nng_socket_set_int(own, NNG_OPT_RECVBUF, topic_room) == 0, "nng_socket_set_int");
    must(nng_socket_set_size(own, NNG_OPT_RECVMAXSZ, 0) == 0, "nng_socket_set_size");
    must(nng_socket_set(own, NNG_OPT_SUB_SUBSCRIBE, "", 0) == 0, "nng_socket_set");
    while (nng_dial(own, ("ipc://" + path).c_str(), nullptr, 0) != 0)
        usleep(1000);
    return own;
}

void publish_by_nng(nng_socket own, const traffic &of, unsigned subscribers, std::size_t at) {
    nng_msg *message;
    wait_for_subscribers(subscribers, at);
    must(nng_msg_alloc(&message, of.size) == 0, "nng_msg_alloc");
    write_message(nng_msg_body(message), of, at);
    must(nng_sendmsg(own, message, 0) == 0, "nng_sendmsg");
}

void receive_by_nng(nng_socket own, const traffic &of, unsigned number, std::size_t at) {
    nng_msg *message;
    must(nng_recvmsg(own, &message, 0) == 0, "nng_recvmsg");
    must(nng_msg_len(message) == of.size, "nng_recvmsg");
    read_message(nng_msg_body(message), of, at);
    nng_msg_free(message);
    common->progress[number] = at + 1;
}

preparation message_by_nng(const traffic &of, unsigned subscribers) {
    return [of, subscribers](unsigned number) -> std::function<void()> {
        if (number > 0) {
            const nng_socket own = open_nng_subscriber();
            common->progress[number - 1] = 0;
            // The publisher has to know the subscriber before its first message.
            usleep(50000);
            return receive_each(of, [own, number](const traffic &each, std::size_t at) {
                receive_by_nng(own, each, number - 1, at);
            });
        }
        const nng_socket own = open_nng_publisher();
        return publish_each(of, subscribers,
                            [own, subscribers](const traffic &each, std::size_t at) {
                                publish_by_nng(own, each, subscribers, at);
                            });
    };
}
#endif

// ICEORYX

#ifdef ROUDI
preparation message_by_iceoryx(const traffic &of, unsigned subscribers) {
    return [of, subscribers](unsigned number) -> std::function<void()> {
        register_process(number);
        if (number > 0) {
            const auto own = std::make_shared<iceoryx_subscriber>(of, topic_room);
            return receive_each(
                of, [own](const traffic &each, std::size_t at) { own->receive(each, at); });
        }
        const auto own = open_iceoryx_publisher(of);
        return publish_each(of, subscribers, [own](const traffic &each, std::size_t at) {
            publish_by_iceoryx(*own, each, at);
        });
    };
}
#endif

// BOOST

#if HAS_BOOST
std::string queue_name(unsigned number) {
    return name + "-" + std::to_string(number);
}

// A queue for each subscriber, since a message goes to one receiver.
preparation message_by_boost(const traffic &of, unsigned subscribers) {
    using interprocess::message_queue;
    return [of, subscribers](unsigned number) -> std::function<void()> {
        auto queues = std::make_shared<std::vector<std::unique_ptr<message_queue>>>();
        auto bytes = std::make_shared<std::vector<char>>(of.size);
        for (unsigned each = 0; each < subscribers; each++)
            queues->push_back(
                std::make_unique<message_queue>(interprocess::open_only, queue_name(each).c_str()));
        if (number > 0)
            return receive_each(of, [queues, bytes, number](const traffic &each, std::size_t at) {
                message_queue::size_type length;
                unsigned priority;
                (*queues)[number - 1]->receive(bytes->data(), each.size, length, priority);
                must(length == each.size, "receive");
                read_message(bytes->data(), each, at);
            });
        return publish_each(of, subscribers, [queues, bytes](const traffic &each, std::size_t at) {
            write_message(bytes->data(), each, at);
            for (const auto &queue : *queues)
                queue->send(bytes->data(), each.size, 0);
        });
    };
}

double time_of_boost(const traffic &of, unsigned subscribers) {
    for (unsigned number = 0; number < subscribers; number++) {
        interprocess::message_queue::remove(queue_name(number).c_str());
        interprocess::message_queue(interprocess::create_only, queue_name(number).c_str(), of.depth,
                                    of.size);
    }
    const double time = nanoseconds_of(1 + subscribers, message_by_boost(of, subscribers));
    for (unsigned number = 0; number < subscribers; number++)
        interprocess::message_queue::remove(queue_name(number).c_str());
    return time;
}
#endif

// FIGURES

void time_topics(std::size_t size, unsigned subscribers) {
    const traffic of = traffic_of(size);
    const unsigned processes = 1 + subscribers;
    const std::string call = "publish " + std::to_string(size);
    const auto print_one = [&](const char *by, double time) {
        print(call.c_str(), processes, "", by, time / messages_of(of));
        common->received = 0;
    };
    print_one("C topic", time_of_file(processes, message_by_topic(of, subscribers)));
#ifdef ROUDI
    print_one("iceoryx", nanoseconds_of(processes, message_by_iceoryx(of, subscribers)));
#endif
#ifdef WITH_ZMQ
    print_one("ZeroMQ", nanoseconds_of(processes, message_by_zmq(of, subscribers)));
#endif
#ifdef WITH_NNG
    print_one("nng", time_of_file(processes, message_by_nng(of, subscribers)));
#endif
#if HAS_BOOST
    print_one("boost::interprocess", time_of_boost(of, subscribers));
#endif
}

// Says which peers aren't installed.
void print_skipped() {
#ifndef ROUDI
    std::fputs("publish: iceoryx isn't installed, skipped\n", stderr);
#endif
#ifndef WITH_ZMQ
    std::fputs("publish: ZeroMQ isn't installed, skipped\n", stderr);
#endif
#ifndef WITH_NNG
    std::fputs("publish: nng isn't installed, skipped\n", stderr);
#endif
#if !HAS_BOOST
    std::fputs("publish: Boost isn't installed, skipped\n", stderr);
#endif
}

}  // namespace

int main(int argc, char **argv) {
    const int rounds = begin(argc, argv);
    print_skipped();
    [[maybe_unused]] const roudi daemon;
    for (int round = 0; round < rounds; round++)
        for (const std::size_t size : message_sizes)
            for (const unsigned subscribers : {1U, 3U})
                time_topics(size, subscribers);
    return 0;
}
