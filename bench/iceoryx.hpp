// Publishing and subscribing by iceoryx, if it is installed: ROUDI is the path of its daemon.
#ifndef BENCH_ICEORYX_HPP
#define BENCH_ICEORYX_HPP

#include "messages.hpp"
#include <array>
#include <fstream>

#ifdef ROUDI
#include <iceoryx_hoofs/log/logmanager.hpp>
#include <iceoryx_posh/popo/untyped_publisher.hpp>
#include <iceoryx_posh/popo/untyped_subscriber.hpp>
#include <iceoryx_posh/popo/wait_set.hpp>
#include <iceoryx_posh/runtime/posh_runtime.hpp>
#endif

constexpr std::array<std::size_t, 3> message_sizes = {64, 4096, 1 << 20};

#ifdef ROUDI
// iceoryx's daemon, whose shared memory has as many chunks of each size as a file has buckets.
class roudi {
    std::string config = path + ".toml";
    pid_t daemon;

public:
    roudi() {
        std::ofstream file(config);
        file << "[general]\nversion = 1\n\n[[segment]]\n";
        for (const std::size_t size : message_sizes)
            file << "\n[[segment.mempool]]\nsize = " << size << "\ncount = " << buckets << "\n";
        file.close();
        std::fflush(stdout);
        daemon = fork();
        must(daemon >= 0, "fork");
        if (daemon > 0)
            return;
        prctl(PR_SET_PDEATHSIG, SIGTERM);
        const int nowhere = open("/dev/null", O_WRONLY);
        dup2(nowhere, STDOUT_FILENO);
        dup2(nowhere, STDERR_FILENO);
        execl(ROUDI, ROUDI, "-c", config.c_str(), "-m", "off", "-l", "error", nullptr);
        std::_Exit(127);
    }

    roudi(const roudi &) = delete;
    roudi &operator=(const roudi &) = delete;

    ~roudi() {
        kill(daemon, SIGTERM);
        waitpid(daemon, nullptr, 0);
        unlink(config.c_str());
    }
};

inline iox::capro::ServiceDescription service_of(const traffic &of) {
    const std::string event = name + std::to_string(of.size);
    return {"bench", "messages", iox::capro::IdString_t(iox::cxx::TruncateToCapacity, event)};
}

inline void register_process(unsigned number) {
    const std::string process =
        name.substr(1) + "-" + std::to_string(number) + "-" + std::to_string(getpid());
    iox::log::LogManager::GetLogManager().SetDefaultLogLevel(
        iox::log::LogLevel::kOff, iox::log::LogLevelOutput::kHideLogLevel);
    iox::runtime::PoshRuntime::initRuntime(
        iox::RuntimeName_t(iox::cxx::TruncateToCapacity, process));
}

// A publisher that waits for a subscriber whose queue is full.
inline std::shared_ptr<iox::popo::UntypedPublisher> open_iceoryx_publisher(const traffic &of) {
    iox::popo::PublisherOptions options;
    options.subscriberTooSlowPolicy = iox::popo::ConsumerTooSlowPolicy::WAIT_FOR_CONSUMER;
    return std::make_shared<iox::popo::UntypedPublisher>(service_of(of), options);
}

inline void publish_by_iceoryx(iox::popo::UntypedPublisher &own, const traffic &of,
                               std::size_t at) {
    auto loan = own.loan(static_cast<std::uint32_t>(of.size));
    must(!loan.has_error(), "loan");
    write_message(loan.value(), of, at);
    own.publish(loan.value());
}

// A subscriber whose queue has room for some messages, and which waits until there is one.
class iceoryx_subscriber {
    iox::popo::UntypedSubscriber subscriber;
    iox::popo::WaitSet<> waiting;

    static iox::popo::SubscriberOptions options_with(std::uint32_t capacity) {
        iox::popo::SubscriberOptions options;
        options.queueCapacity = capacity;
        options.queueFullPolicy = iox::popo::QueueFullPolicy::BLOCK_PRODUCER;
        return options;
    }

public:
    iceoryx_subscriber(const traffic &of, std::uint32_t capacity)
        : subscriber(service_of(of), options_with(capacity)) {
        must(!waiting.attachState(subscriber, iox::popo::SubscriberState::HAS_DATA).has_error(),
             "attachState");
        while (subscriber.getSubscriptionState() != iox::SubscribeState::SUBSCRIBED)
            usleep(1000);
    }

    void receive(const traffic &of, std::size_t at) {
        auto taken = subscriber.take();
        while (taken.has_error()) {
            waiting.wait();
            taken = subscriber.take();
        }
        read_message(taken.value(), of, at);
        subscriber.release(taken.value());
    }
};
#else
struct roudi {};
#endif

#endif
