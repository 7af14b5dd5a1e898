// The processes of a benchmark: they are kept on processors of their own, begin together, and open
// a pool in a file.
#ifndef BENCH_PROCESSES_HPP
#define BENCH_PROCESSES_HPP

#include <bb_pool_file.h>

#include <atomic>
#include <chrono>
#include <csignal>
#include <cstdint>
#include <cstdio>
#include <cstdlib>
#include <ctime>
#include <functional>
#include <immintrin.h>
#include <mqueue.h>
#include <string>
#include <sys/mman.h>
#include <sys/prctl.h>
#include <sys/wait.h>
#include <unistd.h>

extern "C" {
#include "pin.h"
}

constexpr unsigned most_processes = 8;
constexpr std::uint32_t buckets = 64;
constexpr std::uint32_t parties = 4;
// The most messages that are on their way at one time.
constexpr std::uint32_t room = 32;
// The milliseconds after which a wait starts again.
constexpr std::uint32_t longest_wait = 1000;

inline std::size_t calls;
// The path of the file, and the name of what the peers share.
inline std::string path;
inline std::string name;

// The memory that the processes share with the one that starts them.
struct shared {
    std::atomic<unsigned> came;
    // How many processes wait for messages, and how many messages they have received.
    std::atomic<unsigned> waiting;
    std::atomic<unsigned> received;
    // How many messages each process has received.
    std::atomic<std::size_t> progress[most_processes];
    double nanoseconds[most_processes];
    // The processor time of each process, in nanoseconds.
    double processor_time[most_processes];
};

inline shared *common;

// Ends the program, without leaving a file or a queue, if something failed. What Boost shares is
// the file. The settings of iceoryx's daemon are in a file beside it.
inline void must(bool holds, const char *what) {
    if (holds)
        return;
    std::perror(what);
    unlink(path.c_str());
    unlink((path + ".toml").c_str());
    mq_unlink(name.c_str());
    std::abort();
}

// Reads the arguments, which are the number of rounds and the number of calls of each process in a
// round. Returns the number of rounds.
inline int begin(int argc, char **argv) {
    if (argc < 3)
        std::exit(2);
    calls = static_cast<std::size_t>(std::atol(argv[2]));
    name = "/bb-bench-" + std::to_string(getpid());
    path = "/dev/shm" + name;
    void *memory =
        mmap(nullptr, sizeof(shared), PROT_READ | PROT_WRITE, MAP_SHARED | MAP_ANONYMOUS, -1, 0);
    must(memory != MAP_FAILED, "mmap");
    common = new (memory) shared{};
    find_processors();
    return std::atoi(argv[1]);
}

// Prepares the process with this number, and returns the function to time.
using preparation = std::function<std::function<void()>(unsigned)>;

// Returns the processor time that this process has taken so far, in nanoseconds.
inline double processor_time() {
    timespec time;
    must(clock_gettime(CLOCK_PROCESS_CPUTIME_ID, &time) == 0, "clock_gettime");
    return static_cast<double>(time.tv_sec) * 1e9 + static_cast<double>(time.tv_nsec);
}

// Runs the calls of one process, after all processes have come.
inline void run_one(unsigned number, unsigned processes, const preparation &prepare) {
    keep_on_a_processor(number);
    const std::function<void()> timed = prepare(number);
    common->came++;
    while (common->came < processes)
        _mm_pause();
    const double processor_start = processor_time();
    const auto start = std::chrono::steady_clock::now();
    timed();
    const std::chrono::duration<double, std::nano> time = std::chrono::steady_clock::now() - start;
    common->nanoseconds[number] = time.count();
    common->processor_time[number] = processor_time() - processor_start;
}

// Starts processes, waits for them, and returns the mean of their nanoseconds.
inline double nanoseconds_of(unsigned processes, const preparation &prepare) {
    double sum = 0;
    common->came = 0;
    std::fflush(stdout);
    for (unsigned number = 0; number < processes; number++) {
        const pid_t child = fork();
        must(child >= 0, "fork");
        if (child == 0) {
            // If another process fails, this one would wait for it forever.
            prctl(PR_SET_PDEATHSIG, SIGKILL);
            run_one(number, processes, prepare);
            std::exit(0);
        }
    }
    for (unsigned number = 0; number < processes; number++) {
        int status = 0;
        must(wait(&status) > 0 && status == 0, "a process failed");
    }
    for (unsigned number = 0; number < processes; number++)
        sum += common->nanoseconds[number];
    return sum / processes;
}

// Returns the sum of the processor times of the processes that `nanoseconds_of` started last.
inline double processor_time_of(unsigned processes) {
    double sum = 0;
    for (unsigned number = 0; number < processes; number++)
        sum += common->processor_time[number];
    return sum;
}

inline void print(const char *call, unsigned processes, const char *size, const char *by,
                  double time) {
    std::printf("%s,%u,%s,,%s,%.2f\n", call, processes, size, by, time);
}

inline bb_pool_file_options options_of(std::uint32_t count, std::size_t size) {
    bb_pool_file_options options{};
    options.bucket_size = size;
    options.bucket_align = 64;
    options.buckets = count;
    options.parties = parties;
    options.slots = room;
    options.mode = 0600;
    return options;
}

// A file that a process has opened, and a party of its pool. Both end with the process.
struct opened {
    bb_pool_file *file = nullptr;
    bb_file_party *party = nullptr;

    opened(std::size_t size, std::uint32_t caches) : opened(options_of(buckets, size)) {
        must(bb_file_party_cache(party, caches) == BB_OK, "cache");
    }

    explicit opened(const bb_pool_file_options &options) {
        must(bb_pool_file_open(&file, path.c_str(), &options) == BB_OK, "open");
        must(bb_pool_file_join(file, &party) == BB_OK, "join");
    }
};

// Times processes that open the file. The file is removed before and afterwards.
inline double time_of_file(unsigned processes, const preparation &prepare) {
    unlink(path.c_str());
    const double time = nanoseconds_of(processes, prepare);
    unlink(path.c_str());
    return time;
}

inline void must_wait(std::uint32_t code) {
    must(code == BB_OK || code == BB_FILE_TIMED_OUT, "wait");
}

#endif
