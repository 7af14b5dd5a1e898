// Publishes COUNT messages to all who subscribe to the topic in a file: `publisher FILE COUNT`.
#include <stdio.h>
#include <stdlib.h>

#include "topic.h"

static const topic_options OPTIONS = {.size = 256, .subscribers = 8, .depth = 100, .drops = false};

int main(int argc, char **argv) {
    topic *own;
    if (argc != 3) {
        fputs("usage: publisher FILE COUNT\n", stderr);
        return 2;
    }
    uint32_t code = topic_open_publisher(&own, argv[1], &OPTIONS);
    for (long left = atol(argv[2]); code == BB_OK && left > 0; left--) {
        char *text = (char *)topic_loan(own);
        const int len = snprintf(text, 256, "message %lu", (unsigned long)topic_next(own));
        code = topic_publish(own, (size_t)len + 1, BB_NO_TIMEOUT);
    }
    if (code == BB_OK)
        code = topic_close(own);
    if (code != BB_OK)
        fprintf(stderr, "publisher: %s\n", bb_pool_file_text(code));
    return code != BB_OK;
}
