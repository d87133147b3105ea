// That walks give the pairs that they are to give, either way, and end: over all pairs, a range and a
// prefix, of trees that change meanwhile, and where a key or a value has no room.
#define RART_WALK_ROOM 8 // (so that longer keys have none)
#include "boltcomfrey.h"
#include "expect.h"
#include <stdlib.h>
#include <string.h>

enum { KEYS = 512, KEY = 2 }; // more keys than a page has entries

// The keys of numbers are those of two bytes from 0xFE00 on.
static void write_key(size_t number, uint8_t key[KEY]) {
    key[0] = (uint8_t)(number / 256 + 0xFE);
    key[1] = (uint8_t)(number % 256);
}

static size_t number_of(const uint8_t key[KEY]) {
    return (size_t)(key[0] - 0xFE) * 256 + key[1];
}

static void fill(rart_tree *numbers, rart_bytes *strings) {
    for (size_t number = 0; number < KEYS; number++) {
        uint8_t key[KEY];
        write_key(number, key);
        EXPECT(rart_insert(numbers, key, KEY, number, NULL) == RART_ABSENT);
        EXPECT(rart_bytes_insert(strings, key, KEY, key, number % 3) == RART_ABSENT);
    }
}

// That a walk of numbers gives those from first to last, and no more.
static void expect_numbers(rart_walk *walk, size_t first, size_t last, bool goes_back) {
    size_t count = 0;
    if (goes_back) {
        rart_walk_back(walk);
    }
    while (rart_walk_next(walk)) {
        size_t wanted = goes_back ? last - count : first + count;
        EXPECT(walk->key_len == KEY && number_of(walk->key) == wanted && walk->value == wanted);
        count++;
    }
    EXPECT(walk->answer == RART_ABSENT && !rart_walk_next(walk) && count == last + 1 - first);
}

static void expect_strings(rart_bytes_walk *walk, size_t first, size_t last, bool goes_back) {
    size_t count = 0;
    if (goes_back) {
        rart_bytes_walk_back(walk);
    }
    while (rart_bytes_walk_next(walk)) {
        size_t wanted = goes_back ? last - count : first + count;
        EXPECT(walk->key_len == KEY && number_of(walk->key) == wanted);
        EXPECT(walk->value_len == wanted % 3 && memcmp(walk->value, walk->key, wanted % 3) == 0);
        count++;
    }
    EXPECT(walk->answer == RART_ABSENT && !rart_bytes_walk_next(walk) && count == last + 1 - first);
}

static void try_either_way(rart_tree *numbers, rart_bytes *strings, bool goes_back) {
    static const uint8_t low[] = {0xFE, 100}, high[] = {0xFF, 200}, end[] = {0xFF};
    uint8_t room[64];
    rart_walk walk;
    rart_bytes_walk texts;
    rart_walk_all(&walk, numbers);
    expect_numbers(&walk, 0, KEYS - 1, goes_back);
    rart_walk_range(&walk, numbers, low, sizeof low, high, sizeof high);
    expect_numbers(&walk, 100, 455, goes_back);
    rart_walk_range(&walk, numbers, low, sizeof low, NULL, 0);
    expect_numbers(&walk, 100, KEYS - 1, goes_back);
    rart_walk_prefix(&walk, numbers, end, sizeof end); // (no key is its end)
    expect_numbers(&walk, 256, KEYS - 1, goes_back);
    rart_walk_prefix(&walk, numbers, low, 1);
    expect_numbers(&walk, 0, 255, goes_back);
    rart_walk_after(&walk, numbers, low, sizeof low);
    expect_numbers(&walk, 101, KEYS - 1, goes_back);
    rart_walk_after(&walk, numbers, low, 1); // (no key is its end)
    expect_numbers(&walk, 0, KEYS - 1, goes_back);
    rart_bytes_walk_all(&texts, strings, room, sizeof room);
    expect_strings(&texts, 0, KEYS - 1, goes_back);
    rart_bytes_walk_range(&texts, strings, room, sizeof room, low, sizeof low, high, sizeof high);
    expect_strings(&texts, 100, 455, goes_back);
    rart_bytes_walk_prefix(&texts, strings, room, sizeof room, end, sizeof end);
    expect_strings(&texts, 256, KEYS - 1, goes_back);
    rart_bytes_walk_after(&texts, strings, room, sizeof room, low, sizeof low);
    expect_strings(&texts, 101, KEYS - 1, goes_back);
}

// A walk that is copied goes on by itself, when its first one is gone; and one that has given a pair
// isn't turned.
static void try_copies(rart_tree *numbers) {
    rart_walk *walk = malloc(sizeof *walk);
    EXPECT(walk != NULL);
    rart_walk_all(walk, numbers);
    EXPECT(rart_walk_next(walk));
    rart_walk_back(walk);
    rart_walk copy = *walk;
    memset(walk, 0, sizeof *walk);
    free(walk);
    for (size_t number = 1; number < KEYS; number++) {
        EXPECT(rart_walk_next(&copy) && copy.value == number && number_of(copy.key) == number);
    }
    EXPECT(!rart_walk_next(&copy) && copy.answer == RART_ABSENT);
}

// Bounds the other way round, one that nothing is at, and trees without a key.
static void try_nothing(rart_tree *numbers, rart_bytes *strings) {
    static const uint8_t low[] = {1}, high[] = {2};
    uint8_t room[8];
    rart_tree none = {0};
    rart_bytes no_text = {0};
    rart_walk walk;
    rart_bytes_walk texts;
    rart_walk_range(&walk, numbers, high, 1, low, 1);
    EXPECT(!rart_walk_next(&walk) && walk.answer == RART_ABSENT);
    rart_walk_prefix(&walk, numbers, low, 1);
    EXPECT(!rart_walk_next(&walk) && walk.answer == RART_ABSENT);
    rart_walk_all(&walk, &none);
    EXPECT(!rart_walk_next(&walk) && walk.answer == RART_ABSENT);
    rart_bytes_walk_all(&texts, &no_text, NULL, 0);
    EXPECT(!rart_bytes_walk_next(&texts) && texts.answer == RART_ABSENT);
    rart_bytes_walk_prefix(&texts, strings, room, sizeof room, low, 1);
    EXPECT(!rart_bytes_walk_next(&texts) && texts.answer == RART_ABSENT);
}

// Each pair that is given is taken out at once.
static void try_changes(rart_tree *tree) {
    rart_walk walk;
    size_t count = 0;
    for (rart_walk_all(&walk, tree); rart_walk_next(&walk); count++) {
        EXPECT(rart_remove(tree, walk.key, walk.key_len, NULL) == RART_DONE);
    }
    EXPECT(walk.answer == RART_ABSENT && count == KEYS && rart_is_empty(tree));
}

// Keys and bounds of more bytes than a walk has room for, and values of more than the room.
static void try_rooms(void) {
    static const char longest[] = "123456789", value[] = "a value of 24 characters";
    uint8_t small[4], room[64];
    const uint8_t *key = (const uint8_t *)longest, *text = (const uint8_t *)value;
    rart_tree tree = {0};
    rart_bytes strings = {0};
    rart_walk walk;
    rart_bytes_walk texts;
    EXPECT(RART_OK(rart_insert(&tree, key, 9, 1, NULL)));
    rart_walk_prefix(&walk, &tree, longest, 9);
    EXPECT(!rart_walk_next(&walk) && walk.answer == RART_TOO_LONG);
    rart_walk_all(&walk, &tree);
    EXPECT(!rart_walk_next(&walk) && walk.answer == RART_TOO_SMALL && walk.needed == 9);
    EXPECT(RART_OK(rart_bytes_insert(&strings, key, 3, text, 24)));
    EXPECT(RART_OK(rart_bytes_insert(&strings, key, 2, text, 2)));
    rart_bytes_walk_all(&texts, &strings, small, sizeof small);
    EXPECT(rart_bytes_walk_next(&texts) && texts.key_len == 2 && texts.value_len == 2);
    EXPECT(!rart_bytes_walk_next(&texts) && texts.answer == RART_TOO_SMALL);
    EXPECT(texts.needed == 3 && texts.value_needed == 24);
    rart_bytes_walk_room(&texts, room, sizeof room);
    EXPECT(rart_bytes_walk_next(&texts) && texts.key_len == 3 && texts.value_len == 24);
    EXPECT(memcmp(texts.value, value, 24) == 0);
    EXPECT(!rart_bytes_walk_next(&texts) && texts.answer == RART_ABSENT);
    // a key that a page has and the bounds have not
    EXPECT(RART_OK(rart_bytes_insert(&strings, key, 9, text, 2)));
    rart_bytes_walk_all(&texts, &strings, room, sizeof room);
    size_t count = 0;
    while (rart_bytes_walk_next(&texts)) {
        count++;
    }
    EXPECT(count == 3 && texts.answer == RART_TOO_LONG && !rart_bytes_walk_next(&texts));
    rart_clear(&tree);
    rart_bytes_clear(&strings);
}

int main(void) {
    rart_tree numbers = {0};
    rart_bytes strings = {0};
    fill(&numbers, &strings);
    try_either_way(&numbers, &strings, false);
    try_either_way(&numbers, &strings, true);
    try_nothing(&numbers, &strings);
    try_copies(&numbers);
    try_changes(&numbers);
    try_rooms();
    rart_clear(&numbers);
    rart_bytes_clear(&strings);
    puts("walks give each pair once, either way, and end");
    return 0;
}
