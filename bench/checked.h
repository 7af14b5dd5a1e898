// Allocators in plain C that make the same tests as the library: of the handle, the layout and the
// place, and for a double free. They are in a file of their own, so that each call is a real call,
// as into a library.
#include <stddef.h>
#include <stdint.h>

// A code, and the place of a chunk.
typedef struct {
    uint64_t code;
    size_t place;
} checked_chunk;

// A handle, like the library's.
typedef struct {
    void *box;
    uint8_t is_made;
} checked_handle;

enum {
    CHECKED_OK,
    CHECKED_TOO_LARGE,
    CHECKED_OUT_OF_MEMORY,
    CHECKED_INVALID_LAYOUT,
    CHECKED_UNINITIALIZED,
    CHECKED_NOT_HELD,
};

// A list of the free buckets of a region. The bucket that was freed last is allocated first. A byte
// for each bucket records whether it is held.
int checked_list_init(checked_handle *, uint32_t buckets, size_t bucket_size, size_t align,
                      size_t start);
checked_chunk checked_list_allocate(checked_handle *, size_t size, size_t align);
checked_chunk checked_list_take(checked_handle *);
uint32_t checked_list_deallocate(checked_handle *, size_t place);
void checked_list_destroy(checked_handle *);

int checked_bump_init(checked_handle *, size_t start, size_t size);
checked_chunk checked_bump_allocate(checked_handle *, size_t size, size_t align);
uint32_t checked_bump_deallocate(checked_handle *);
void checked_bump_destroy(checked_handle *);

int checked_one_chunk_init(checked_handle *, size_t start, size_t size);
checked_chunk checked_one_chunk_allocate(checked_handle *, size_t size, size_t align);
uint32_t checked_one_chunk_deallocate(checked_handle *, size_t place);
void checked_one_chunk_destroy(checked_handle *);
