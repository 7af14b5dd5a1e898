// Prints the messages of publisher.c, as the subscriber with this number, from 0 to 7:
// `subscriber FILE NUMBER`. It finishes a message only after it has printed it: if it is killed
// before that, the message is printed again.
#include <stdio.h>
#include <stdlib.h>

#include "topic.h"

static const topic_options OPTIONS = {.size = 256, .subscribers = 8, .depth = 100, .drops = false};

int main(int argc, char **argv) {
    topic *own;
    if (argc != 3) {
        fputs("usage: subscriber FILE NUMBER\n", stderr);
        return 2;
    }
    uint32_t code = topic_open_subscriber(&own, argv[1], &OPTIONS, (uint32_t)atol(argv[2]));
    while (code == BB_OK) {
        topic_message message;
        code = topic_receive(own, &message, BB_NO_TIMEOUT);
        if (code != BB_OK)
            break;
        puts((const char *)message.bytes);
        fflush(stdout);
        code = topic_finish(own);
    }
    fprintf(stderr, "subscriber: %s\n", bb_pool_file_text(code));
    return 1;
}
