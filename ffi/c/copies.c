// That a change copies no node that one tree alone has: it asks for no memory then, but for the
// bytes of a value. Of a node that another tree shares it makes a copy. And that a node has up to
// 22 bytes of its key in place: only a longer key takes a block of its own, and only one of more
// than 248 bytes two. And that a load believes no length in its bytes: it asks for no more than
// they can fill.
#include "boltcomfrey.h"
#include "expect.h"
#include <string.h>

static unsigned long requests;
static size_t greatest; // of the sizes that were asked for

rattle_block rattle_alloc(size_t size, size_t align) {
    rattle_block block = {true, malloc(size > 0 ? size : align)};
    requests++;
    greatest = size > greatest ? size : greatest;
    return block;
}

rattle_block rattle_realloc(void *at, size_t kept, size_t size, size_t align) {
    rattle_block block = {true, realloc(at, size > 0 ? size : align)};
    (void)kept;
    requests++;
    greatest = size > greatest ? size : greatest;
    return block;
}

void rattle_dealloc(void *at) {
    free(at);
}

// Each begins the next, so that the way to the last leads through four nodes.
static const char *const KEYS[] = {"a", "ab", "abc", "abcd"};
enum { COUNT = sizeof KEYS / sizeof *KEYS };
static const char *const LAST = "abcd";

static const uint8_t *bytes(const char *text) {
    return (const uint8_t *)text;
}

// How many requests it takes to set the last key anew.
static unsigned long to_set(rart_tree *tree) {
    requests = 0;
    EXPECT(rart_insert(tree, bytes(LAST), strlen(LAST), 9, NULL) == RART_DONE);
    return requests;
}

static unsigned long to_set_bytes(rart_bytes *tree) {
    requests = 0;
    EXPECT(rart_bytes_insert(tree, bytes(LAST), strlen(LAST), bytes("value"), 5) == RART_DONE);
    return requests;
}

// How many requests it takes to insert a first key of so many bytes.
static unsigned long to_begin(size_t len) {
    static const uint8_t key[249];
    rart_tree tree = {0};
    requests = 0;
    EXPECT(RART_OK(rart_insert(&tree, key, len, 1, NULL)));
    unsigned long begun = requests;
    rart_clear(&tree);
    return begun;
}

static void try_lengths(void) {
    unsigned long in_place = to_begin(1);
    EXPECT(to_begin(22) == in_place);
    EXPECT(to_begin(23) == in_place + 1 && to_begin(248) == in_place + 1);
    EXPECT(to_begin(249) == in_place + 2);
}

static void try_numbers(void) {
    rart_tree alone = {0}, tree = {0}, other = {0};
    EXPECT(RART_OK(rart_insert(&alone, bytes(LAST), strlen(LAST), 1, NULL)));
    for (int at = 0; at < COUNT; at++) {
        EXPECT(RART_OK(rart_insert(&tree, bytes(KEYS[at]), strlen(KEYS[at]), 1, NULL)));
    }
    EXPECT(to_set(&alone) == 0 && to_set(&tree) == 0);
    EXPECT(rart_clone(&tree, &other) == RART_DONE);
    EXPECT(to_set(&tree) >= COUNT && to_set(&tree) == 0);
    requests = 0;
    EXPECT(rart_remove(&tree, bytes(LAST), strlen(LAST), NULL) == RART_DONE && requests == 0);
    rart_clear(&alone);
    rart_clear(&tree);
    rart_clear(&other);
}

static void try_bytes(void) {
    rart_bytes alone = {0}, tree = {0}, other = {0};
    EXPECT(RART_OK(rart_bytes_insert(&alone, bytes(LAST), strlen(LAST), bytes("first"), 5)));
    for (int at = 0; at < COUNT; at++) {
        const char *key = KEYS[at];
        EXPECT(RART_OK(rart_bytes_insert(&tree, bytes(key), strlen(key), bytes("first"), 5)));
    }
    unsigned long of_value = to_set_bytes(&alone);
    EXPECT(to_set_bytes(&tree) == of_value);
    EXPECT(rart_bytes_clone(&tree, &other) == RART_DONE);
    EXPECT(to_set_bytes(&tree) >= of_value + COUNT && to_set_bytes(&tree) == of_value);
    rart_bytes_clear(&alone);
    rart_bytes_clear(&tree);
    rart_bytes_clear(&other);
}

// 2^62 as the format writes a number: seven bits a byte, the least first.
static const uint8_t HUGE_NUMBER[] = {0x80, 0x80, 0x80, 0x80, 0x80, 0x80, 0x80, 0x80, 0x40};
enum { HEAD = 9 }; // the name, the format's number and the kind of values

static size_t put(uint8_t *into, size_t at, const uint8_t *part, size_t count) {
    memcpy(into + at, part, count);
    return at + count;
}

// A load of bytes that end early: none of their lengths is asked for.
static void refuse_early_end(const uint8_t *from, size_t len) {
    rart_tree tree = {0};
    size_t offset;
    greatest = 0;
    EXPECT(rart_load(&tree, from, len, &offset) == RART_TRUNCATED && greatest < 4096);
    rart_clear(&tree);
}

static void try_lying_lengths(void) {
    static const uint8_t one_pair[] = {1, 1, 0}; // the map's number, its pairs, no byte in common
    uint8_t saved[256], lie[256];
    rart_tree tree = {0};
    size_t len;
    EXPECT(rart_save(&tree, saved, sizeof saved, &len) == RART_DONE && len > HEAD);
    size_t at = put(lie, 0, saved, HEAD);
    at = put(lie, at, HUGE_NUMBER, sizeof HUGE_NUMBER);
    refuse_early_end(lie, put(lie, at, HUGE_NUMBER, sizeof HUGE_NUMBER)); // so many pairs
    at = put(lie, HEAD, one_pair, sizeof one_pair);
    refuse_early_end(lie, put(lie, at, HUGE_NUMBER, sizeof HUGE_NUMBER)); // so long a key
    rart_clear(&tree);
}

int main(void) {
    try_lengths();
    try_numbers();
    try_bytes();
    try_lying_lengths();
    puts("a change copies nodes that another tree shares, and no others");
    return 0;
}
