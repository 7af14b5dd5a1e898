// What the tests of topics share.
#ifndef CHECK_H
#define CHECK_H

#include <stdbool.h>
#include <stdint.h>

#include "topic.h"

// The file of the topic under test. It is removed at the end of the process that made it, also after
// a failure.
extern char check_path[128];

// Ends the process, and the one that made the file, if something isn't so, and says where.
void check_holds(bool holds, const char *what, const char *file, int line);

#define EXPECT(holds) check_holds(holds, #holds, __FILE__, __LINE__)
#define EXPECT_CODE(code, call) check_code(code, call, #call, __FILE__, __LINE__)

// Compares the code that a call returned with the one that it has to return.
void check_code(uint32_t wanted, uint32_t code, const char *call, const char *file, int line);

// Begins a test in this folder: chooses the file, and ends the process after that many seconds.
void check_begin(const char *folder, unsigned seconds);

// Publishes the next message. Its length and its bytes depend on its number, and it says which
// process has written it. Returns the number, or 0 if the wait timed out.
uint64_t check_publish(topic *publisher, uint32_t milliseconds);

// Receives a message, and checks its length and its bytes. Returns its number, or 0 if the wait
// timed out.
uint64_t check_receive(topic *subscriber, uint32_t milliseconds);

// Returns which process has written the message that this process received last.
uint64_t check_writer(void);

// Checks that nothing is left of dead processes once a process has reaped: no bucket is in use, no
// message in a queue.
void check_nothing_left(void);

#endif
