// Tests of topics in one process, which opens a topic several times: `calls FOLDER`.
#include <stdio.h>
#include <unistd.h>

#include "check.h"

enum {
    DEPTH = 4,
    LAPS = 1000,
    SECONDS = 60
};

static const topic_options WAITS = {.size = 1000, .subscribers = 3, .depth = DEPTH, .drops = false};
static const topic_options DROPS = {.size = 1000, .subscribers = 3, .depth = DEPTH, .drops = true};

static topic *publisher_of(const topic_options *options) {
    topic *opened;
    EXPECT_CODE(BB_OK, topic_open_publisher(&opened, check_path, options));
    return opened;
}

static topic *subscriber_of(const topic_options *options, uint32_t number) {
    topic *opened;
    EXPECT_CODE(BB_OK, topic_open_subscriber(&opened, check_path, options, number));
    return opened;
}

static void finish(topic *subscriber) {
    EXPECT_CODE(BB_OK, topic_finish(subscriber));
}

static void receive_and_finish(topic *subscriber, uint64_t number) {
    EXPECT(check_receive(subscriber, 0) == number);
    finish(subscriber);
}

static void close_topic(topic *opened) {
    EXPECT_CODE(BB_OK, topic_close(opened));
}

static void remove_topic(void) {
    check_nothing_left();
    EXPECT(unlink(check_path) == 0);
}

// Each subscriber gets each message in order, one of them always later than the others.
static void test_order(void) {
    topic *publisher = publisher_of(&WAITS);
    topic *first = subscriber_of(&WAITS, 0);
    topic *second = subscriber_of(&WAITS, 1);
    for (uint64_t number = 1; number <= LAPS; number++) {
        EXPECT(check_publish(publisher, 0) == number);
        receive_and_finish(first, number);
        if (number >= DEPTH)
            receive_and_finish(second, number - DEPTH + 1);
    }
    EXPECT(check_receive(first, 0) == 0);
    for (uint64_t number = LAPS - DEPTH + 2; number <= LAPS; number++)
        receive_and_finish(second, number);
    EXPECT(check_receive(second, 0) == 0);
    close_topic(first);
    close_topic(second);
    close_topic(publisher);
    remove_topic();
}

// All subscribers read a message where the publisher has written it.
static void test_no_copy(void) {
    topic *publisher = publisher_of(&WAITS);
    topic *subscribers[] = {subscriber_of(&WAITS, 0), subscriber_of(&WAITS, 2)};
    char *written = (char *)topic_loan(publisher);
    written[0] = 'a';
    EXPECT_CODE(BB_OK, topic_publish(publisher, 1, 0));
    written[0] = 'b';
    for (size_t at = 0; at < 2; at++) {
        topic_message message;
        EXPECT_CODE(BB_OK, topic_receive(subscribers[at], &message, 0));
        EXPECT(message.len == 1 && *(const char *)message.bytes == 'b');
        finish(subscribers[at]);
        close_topic(subscribers[at]);
    }
    EXPECT(topic_loan(publisher) == written);
    close_topic(publisher);
    remove_topic();
}

// A full queue makes the publisher wait. Then nobody gets the message.
static void test_full(void) {
    topic *publisher = publisher_of(&WAITS);
    topic *quick = subscriber_of(&WAITS, 0);
    topic *slow = subscriber_of(&WAITS, 1);
    for (uint64_t number = 1; number <= DEPTH; number++) {
        EXPECT(check_publish(publisher, 0) == number);
        receive_and_finish(quick, number);
    }
    EXPECT(check_publish(publisher, 0) == 0);
    EXPECT(check_publish(publisher, 150) == 0);
    EXPECT(topic_next(publisher) == DEPTH + 1);
    EXPECT(check_receive(quick, 0) == 0);
    // A message takes room until it is finished.
    EXPECT(check_receive(slow, 0) == 1);
    EXPECT(check_publish(publisher, 0) == 0);
    finish(slow);
    EXPECT(check_publish(publisher, 0) == DEPTH + 1);
    receive_and_finish(quick, DEPTH + 1);
    for (uint64_t number = 2; number <= DEPTH + 1; number++)
        receive_and_finish(slow, number);
    EXPECT(topic_dropped(slow) == 0);
    close_topic(quick);
    close_topic(slow);
    close_topic(publisher);
    remove_topic();
}

// With `drops`, the others get the message, and the slow subscriber finds out.
static void test_drops(void) {
    topic *publisher = publisher_of(&DROPS);
    topic *quick = subscriber_of(&DROPS, 0);
    topic *slow = subscriber_of(&DROPS, 1);
    for (uint64_t number = 1; number <= LAPS; number++) {
        EXPECT(check_publish(publisher, 0) == number);
        receive_and_finish(quick, number);
    }
    EXPECT(topic_dropped(quick) == 0);
    EXPECT(topic_dropped(slow) == LAPS - DEPTH);
    for (uint64_t number = 1; number <= DEPTH; number++)
        receive_and_finish(slow, number);
    EXPECT(check_receive(slow, 0) == 0);
    EXPECT(check_publish(publisher, 0) == LAPS + 1);
    receive_and_finish(slow, LAPS + 1);
    receive_and_finish(quick, LAPS + 1);
    close_topic(quick);
    close_topic(slow);
    close_topic(publisher);
    remove_topic();
}

// A subscription begins with the next message, outlives its process, and ends only by
// `topic_unsubscribe`.
static void test_subscriptions(void) {
    topic *publisher = publisher_of(&WAITS);
    EXPECT(check_publish(publisher, 0) == 1);
    topic *subscriber = subscriber_of(&WAITS, 0);
    EXPECT(check_receive(subscriber, 0) == 0);
    EXPECT(check_publish(publisher, 0) == 2);
    EXPECT(check_receive(subscriber, 0) == 2);
    close_topic(subscriber);
    EXPECT(check_publish(publisher, 0) == 3);
    subscriber = subscriber_of(&WAITS, 0);
    receive_and_finish(subscriber, 2);
    receive_and_finish(subscriber, 3);
    for (uint64_t number = 4; number < 4 + DEPTH; number++)
        EXPECT(check_publish(publisher, 0) == number);
    EXPECT(check_publish(publisher, 0) == 0);
    topic_unsubscribe(subscriber);
    close_topic(subscriber);
    for (uint64_t number = 4 + DEPTH; number < LAPS; number++)
        EXPECT(check_publish(publisher, 0) == number);
    // What is left in its queue is old.
    subscriber = subscriber_of(&WAITS, 0);
    EXPECT(check_receive(subscriber, 0) == 0);
    EXPECT(check_publish(publisher, 0) == 0);
    EXPECT(check_receive(subscriber, 0) == 0);
    EXPECT(check_publish(publisher, 0) == LAPS);
    receive_and_finish(subscriber, LAPS);
    close_topic(subscriber);
    close_topic(publisher);
    remove_topic();
}

// A new publisher goes on with the next number. A message that was only loaned is nobody's.
static void test_publishers(void) {
    topic *publisher = publisher_of(&WAITS);
    topic *subscriber = subscriber_of(&WAITS, 0);
    EXPECT(check_publish(publisher, 0) == 1);
    EXPECT(topic_loan(publisher) != NULL);
    close_topic(publisher);
    publisher = publisher_of(&WAITS);
    EXPECT(check_publish(publisher, 0) == 2);
    close_topic(publisher);
    receive_and_finish(subscriber, 1);
    receive_and_finish(subscriber, 2);
    EXPECT(check_receive(subscriber, 0) == 0);
    close_topic(subscriber);
    remove_topic();
}

// Calls that fail.
static void test_codes(void) {
    topic *publisher = publisher_of(&WAITS);
    topic *subscriber = subscriber_of(&WAITS, 0);
    topic *other;
    EXPECT_CODE(BB_NO_PARTY, topic_open_publisher(&other, check_path, &WAITS));
    EXPECT_CODE(BB_NO_PARTY, topic_open_subscriber(&other, check_path, &WAITS, 0));
    EXPECT_CODE(BB_INVALID_ARGUMENT, topic_open_subscriber(&other, check_path, &WAITS, 3));
    EXPECT_CODE(BB_FILE_MISMATCH, topic_open_subscriber(&other, check_path, &DROPS, 1));
    topic_options wrong = WAITS;
    wrong.depth = 0;
    EXPECT_CODE(BB_INVALID_ARGUMENT, topic_open_publisher(&other, check_path, &wrong));
    wrong = WAITS;
    wrong.subscribers = TOPIC_SUBSCRIBERS + 1;
    EXPECT_CODE(BB_INVALID_ARGUMENT, topic_open_publisher(&other, check_path, &wrong));
    EXPECT_CODE(BB_SIZE_TOO_LARGE, topic_publish(publisher, WAITS.size + 1, 0));
    EXPECT_CODE(BB_NOT_HELD, topic_finish(subscriber));
    EXPECT(topic_next(publisher) == 1);
    close_topic(subscriber);
    close_topic(publisher);
    remove_topic();
}

int main(int argc, char **argv) {
    if (argc != 2) {
        fputs("usage: calls FOLDER\n", stderr);
        return 2;
    }
    check_begin(argv[1], SECONDS);
    test_order();
    test_no_copy();
    test_full();
    test_drops();
    test_subscriptions();
    test_publishers();
    test_codes();
    puts("topic: order, full queues, dropped messages, subscriptions, codes");
    return 0;
}
