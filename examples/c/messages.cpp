// `messages FILE COUNT` sends COUNT messages, as producer.c does, and `messages FILE` receives
// them, as consumer.c does. Programs in C, C++ and Rust may use one file at the same time, and any
// of them may be killed.
#include <cstdio>
#include <string>
#include <unistd.h>

#include "bb_pool_file.hpp"

// The sizes of the file, as in producer.c.
static bb_pool_file_options sizes() {
    bb_pool_file_options sizes{};
    sizes.bucket_size = 256;
    sizes.bucket_align = 64;
    sizes.buckets = 1000;
    sizes.parties = 16;
    sizes.slots = 1;
    sizes.depth = 100;
    return sizes;
}

// The queue.
static const std::uint32_t slot = 0;

// Posts the text. Waits for room in the queue and for a free bucket. Frees what dead processes hold
// if a wait times out.
static std::uint32_t send(bb::pool_file &file, bb::pool_file_party &mine, const std::string &text) {
    for (;;) {
        std::uint32_t code = mine.post(slot, text.c_str(), text.size() + 1);
        if (code == BB_OUT_OF_MEMORY)
            code = file.wait_bucket(1000);
        else if (code == BB_DETACHED_FULL)
            code = file.wait_empty(slot, 1000);
        else
            return code;
        if (code == BB_FILE_TIMED_OUT)
            code = file.reap(BB_REAP_HELD);
        if (code != BB_OK)
            return code;
    }
}

// Prints the oldest message that no other process has taken, if there is one. If this process is
// killed before it is done with it, another one prints it again.
static std::uint32_t receive(bb::pool_file_party &mine) {
    bb::pool_file_message message = mine.take(slot);
    if (message.code() == BB_DETACHED_EMPTY || message.code() == BB_NOT_HELD)
        return BB_OK;
    if (!message)
        return message.code();
    std::puts(static_cast<const char *>(message.data()));
    std::fflush(stdout);
    return message.done();
}

int main(int argc, char **argv) {
    bb::pool_file file;
    bb::pool_file_party mine;
    if (argc < 2) {
        std::fputs("usage: messages FILE [COUNT]\n", stderr);
        return 2;
    }
    std::uint32_t code = file.open(argv[1], sizes());
    if (code == BB_OK)
        code = mine.join(file);
    // A message that a killed process had taken comes first.
    if (code == BB_OK)
        code = file.reap(BB_REAP_HELD);
    for (int number = 0; code == BB_OK && argc > 2 && number < std::stoi(argv[2]); number++)
        code = send(file, mine, std::to_string(getpid()) + " " + std::to_string(number));
    while (code == BB_OK && argc == 2) {
        code = file.wait_full(slot, 1000);
        if (code == BB_FILE_TIMED_OUT)
            code = file.reap(BB_REAP_HELD);
        if (code == BB_OK)
            code = receive(mine);
    }
    if (code == BB_FILE_SYSTEM)
        std::perror("messages");
    else if (code != BB_OK)
        std::fprintf(stderr, "messages: %s\n", bb_pool_file_text(code));
    return code != BB_OK;
}
