// That a read stores nothing in a tree, nor in what it leads to: several threads read two trees at
// once, by each call that reads. (They are only read so here, and by the Rust crate's `Unshared`: what
// comes from one tree stays on one thread.) And that trees
// that have nothing to do with each other may be on several: each thread changes two of its own.
#define RART_PAGES
#include "boltcomfrey.h"
#include "expect.h"
#include <pthread.h>
#include <stdlib.h>
#include <string.h>

enum { THREADS = 4, KEYS = 300, KEY = 3, PAGE = 32 };

struct trees {
    rart_tree numbers;
    rart_bytes strings;
};

static struct trees common, twin; // of the same pairs

// (no two pointers of one call are one)
static const uint8_t none[1];

// The key of a number: some begin alike, and nodes of each width are met.
static void write_key(size_t number, uint8_t key[KEY]) {
    key[0] = number % 3 == 0 ? 'a' : 'b';
    key[1] = (uint8_t)(number / 2);
    key[2] = (uint8_t)(number % 2);
}

static void fill(struct trees *trees) {
    uint8_t key[KEY];
    for (size_t number = 0; number < KEYS; number++) {
        write_key(number, key);
        EXPECT(rart_insert(&trees->numbers, key, KEY, number, NULL) == RART_ABSENT);
        EXPECT(rart_bytes_insert(&trees->strings, key, KEY, key, KEY) == RART_ABSENT);
    }
}

static void take_out(struct trees *trees) {
    uint8_t key[KEY];
    for (size_t number = 0; number < KEYS; number++) {
        write_key(number, key);
        EXPECT(rart_remove(&trees->numbers, key, KEY, NULL) == RART_DONE);
        EXPECT(rart_bytes_remove(&trees->strings, key, KEY) == RART_DONE);
    }
}

// What one key leads to in a tree of numbers, also as its neighbours tell it.
static void read_number(rart_tree *tree, size_t number) {
    uint8_t key[KEY], room[KEY], again[KEY];
    size_t len;
    uint64_t value;
    write_key(number, key);
    EXPECT(rart_get(tree, key, KEY, &value) == RART_DONE && value == number);
    EXPECT(rart_longest(tree, key, KEY, &len, &value) == RART_DONE && value == number);
    EXPECT(rart_seek(tree, key, KEY, room, KEY, &len, &value) == RART_DONE && value == number);
    EXPECT(rart_seek_back(tree, key, KEY, room, KEY, &len, &value) == RART_DONE && value == number);
    if (rart_next(tree, key, KEY, room, KEY, &len, &value) == RART_DONE) {
        EXPECT(rart_prev(tree, room, len, again, KEY, &len, &value) == RART_DONE);
        EXPECT(value == number);
    } else {
        EXPECT(rart_last(tree, room, KEY, &len, &value) == RART_DONE && value == number);
    }
}

static void read_string(rart_bytes *tree, size_t number) {
    uint8_t key[KEY], room[KEY], again[KEY], into[KEY];
    size_t key_len, len;
    write_key(number, key);
    EXPECT(rart_bytes_get(tree, key, KEY, into, KEY, &len) == RART_DONE);
    EXPECT(memcmp(into, key, KEY) == 0);
    EXPECT(rart_bytes_longest(tree, key, KEY, &key_len, into, KEY, &len) == RART_DONE);
    EXPECT(rart_bytes_seek(tree, key, KEY, room, KEY, &key_len, into, KEY, &len) == RART_DONE);
    EXPECT(rart_bytes_seek_back(tree, key, KEY, room, KEY, &key_len, into, KEY, &len) == RART_DONE);
    if (rart_bytes_next(tree, key, KEY, room, KEY, &key_len, into, KEY, &len) == RART_DONE) {
        EXPECT(rart_bytes_prev(tree, room, key_len, again, KEY, &key_len, into, KEY, &len) ==
               RART_DONE);
        EXPECT(memcmp(into, key, KEY) == 0);
    } else {
        EXPECT(rart_bytes_last(tree, room, KEY, &key_len, into, KEY, &len) == RART_DONE);
    }
}

// How many pairs the pages of a tree of numbers have.
static size_t pairs_of_numbers(rart_tree *tree) {
    uint8_t low[KEY] = {0}, bytes[PAGE * KEY];
    rart_entry entries[PAGE];
    size_t low_len = 0, count, needed, pairs = 0;
    while (rart_page(tree, low, low_len, RART_EXCLUDED, none, 0, RART_UNBOUNDED, bytes,
                     sizeof bytes, entries, PAGE, &count, &needed) == RART_DONE) {
        low_len = KEY;
        memcpy(low, bytes + entries[count - 1].end - KEY, KEY);
        pairs += count;
    }
    return pairs;
}

static size_t pairs_of_strings(rart_bytes *tree) {
    uint8_t low[KEY] = {0}, bytes[PAGE * 2 * KEY];
    rart_bytes_entry entries[PAGE];
    size_t low_len = 0, count, key_len, len, pairs = 0;
    while (rart_bytes_page(tree, low, low_len, RART_EXCLUDED, none, 0, RART_UNBOUNDED, bytes,
                           sizeof bytes, entries, PAGE, &count, &key_len, &len) == RART_DONE) {
        low_len = KEY;
        memcpy(low, bytes + entries[count - 1].key_end - KEY, KEY);
        pairs += count;
    }
    return pairs;
}

// The reads that go through all pairs.
static void read_wholly(struct trees *trees) {
    uint8_t room[PAGE * KEY];
    size_t numbers = 0, strings = 0, len, told;
    rart_walk walk;
    rart_bytes_walk texts;
    rart_walk_all(&walk, &trees->numbers);
    for (rart_walk_back(&walk); rart_walk_next(&walk);) {
        numbers++;
    }
    rart_bytes_walk_all(&texts, &trees->strings, room, sizeof room);
    for (rart_bytes_walk_back(&texts); rart_bytes_walk_next(&texts);) {
        strings++;
    }
    EXPECT(numbers == KEYS && strings == KEYS);
    EXPECT(rart_common(&trees->numbers, &twin.numbers) == KEYS);
    EXPECT(rart_bytes_common(&trees->strings, &twin.strings) == KEYS);
    EXPECT(rart_equals(&trees->numbers, &twin.numbers) == RART_DONE);
    EXPECT(rart_bytes_equals(&trees->strings, &twin.strings) == RART_DONE);
    EXPECT(rart_saved_len(&trees->numbers, &len) == RART_DONE);
    uint8_t *file = (uint8_t *)malloc(len);
    EXPECT(file != NULL && rart_save(&trees->numbers, file, len, &told) == RART_DONE);
    EXPECT(told == len);
    free(file);
    EXPECT(rart_bytes_saved_len(&trees->strings, &len) == RART_DONE);
    file = (uint8_t *)malloc(len);
    EXPECT(file != NULL && rart_bytes_save(&trees->strings, file, len, &told) == RART_DONE);
    EXPECT(told == len);
    free(file);
}

static void read_all(struct trees *trees) {
    EXPECT(rart_version(&trees->numbers) == KEYS && rart_bytes_version(&trees->strings) == KEYS);
    EXPECT(rart_len(&trees->numbers) == KEYS && rart_bytes_len(&trees->strings) == KEYS);
    EXPECT(!rart_is_empty(&trees->numbers) && !rart_bytes_is_empty(&trees->strings));
    EXPECT(rart_longest_key(&trees->numbers) == RART_LONGEST_KEY);
    EXPECT(rart_bytes_longest_key(&trees->strings) == RART_LONGEST_KEY);
    read_wholly(trees);
    for (size_t number = 0; number < KEYS; number++) {
        read_number(&trees->numbers, number);
        read_string(&trees->strings, number);
    }
    EXPECT(pairs_of_numbers(&trees->numbers) == KEYS);
    EXPECT(pairs_of_strings(&trees->strings) == KEYS);
}

static void clear(struct trees *trees) {
    rart_clear(&trees->numbers);
    rart_bytes_clear(&trees->strings);
}

static void *run(void *unused) {
    struct trees own = {0}, before = {0};
    read_all(&common);
    fill(&own);
    EXPECT(rart_clone(&own.numbers, &before.numbers) == RART_DONE);
    EXPECT(rart_bytes_clone(&own.strings, &before.strings) == RART_DONE);
    take_out(&own);
    read_all(&before);
    clear(&own);
    clear(&before);
    return unused;
}

int main(void) {
    pthread_t threads[THREADS];
    fill(&common);
    fill(&twin);
    for (size_t at = 0; at < THREADS; at++) {
        EXPECT(pthread_create(&threads[at], NULL, run, NULL) == 0);
    }
    for (size_t at = 0; at < THREADS; at++) {
        EXPECT(pthread_join(threads[at], NULL) == 0);
    }
    clear(&common);
    clear(&twin);
    puts("threads read trees at once, and change others");
    return 0;
}
