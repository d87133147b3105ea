// A heap that keeps the length of each block, as pools and counters of bytes do, and of a block that
// is made longer just the bytes that it is told to keep. It is taken in place of heap.c.
#include "boltcomfrey.h"
#include "expect.h"
#include <string.h>

// In front of a block is its length; what it has before it is written, and after it was given back.
enum { HEAD = 16, FRESH = 0xA5, GONE = 0x5A };

static size_t length_of(const void *at) {
    size_t length;
    memcpy(&length, (const uint8_t *)at - HEAD, sizeof length);
    return length;
}

rattle_block rattle_alloc(size_t size, size_t align) {
    rattle_block block = {0, NULL};
    EXPECT(align > 0 && align <= HEAD && (align & (align - 1)) == 0);
    uint8_t *at = malloc(HEAD + size);
    if (at != NULL) {
        memcpy(at, &size, sizeof size);
        memset(at + HEAD, FRESH, size);
        block.is_given = 1;
        block.at = at + HEAD;
    }
    return block;
}

rattle_block rattle_realloc(void *at, size_t kept, size_t size, size_t align) {
    EXPECT(kept <= length_of(at));
    rattle_block block = rattle_alloc(size, align);
    if (block.is_given) {
        memcpy(block.at, at, kept < size ? kept : size);
        rattle_dealloc(at);
    }
    return block;
}

void rattle_dealloc(void *at) {
    memset(at, GONE, length_of(at));
    free((uint8_t *)at - HEAD);
}
