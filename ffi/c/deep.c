// That keys as long as they may be end no thread, however they begin one another: chains of them are
// made, read, compared, cut, saved, loaded, taken out, put back and freed on a thread with little
// stack.
//
//   deep [LONGEST [KIB]]   of so many bytes, 1,024 without a word, on a thread with so many KiB of
//                          stack, 2,048 without a word
//
// Built with BYTES, of maps to byte strings, whose calls take more stack.
#include "boltcomfrey.h"
#include "expect.h"
#include <pthread.h>
#include <stdio.h>
#include <stdlib.h>
#include <string.h>

#ifdef BYTES
typedef rart_bytes tree;
#define CALL(name) rart_bytes_##name
#else
typedef rart_tree tree;
#define CALL(name) rart_##name
#endif

// A chain of keys, each a byte longer than the one before, and how many more keys stand beside each.
struct chain {
    tree tree;
    size_t longest;
    size_t beside;
    bool ends_differ; // (b, ab, aab, .. in place of a, aa, aaa, ..)
};

// One byte more than a key may have.
static uint8_t *key;

static void insert(struct chain *chain, size_t len, rart_answer wanted) {
#ifdef BYTES
    EXPECT(rart_bytes_insert(&chain->tree, key, len, key, 1) == wanted);
#else
    EXPECT(rart_insert(&chain->tree, key, len, len, NULL) == wanted);
#endif
}

static void take_out(struct chain *chain, size_t len, rart_answer wanted) {
#ifdef BYTES
    EXPECT(rart_bytes_remove(&chain->tree, key, len) == wanted);
#else
    EXPECT(rart_remove(&chain->tree, key, len, NULL) == wanted);
#endif
}

static void fill(struct chain *chain) {
    EXPECT(CALL(set_longest_key)(&chain->tree, chain->longest) == RART_DONE);
    memset(key, 'a', chain->longest + 1);
    for (size_t len = 1; len <= chain->longest; len++) {
        key[len - 1] = chain->ends_differ ? 'b' : 'a';
        insert(chain, len, RART_ABSENT);
        for (size_t other = 1; other <= chain->beside; other++) {
            key[len - 1] = (uint8_t)('b' + other);
            insert(chain, len, RART_ABSENT);
        }
        key[len - 1] = 'a';
    }
}

// A key of a byte more is refused, and nothing changes.
static void refuse_longer(struct chain *chain) {
    size_t len = CALL(len)(&chain->tree);
    uint64_t number = CALL(version)(&chain->tree);
    insert(chain, chain->longest + 1, RART_TOO_LONG);
    EXPECT(CALL(len)(&chain->tree) == len && CALL(version)(&chain->tree) == number);
    take_out(chain, chain->longest + 1, RART_ABSENT);
    EXPECT(CALL(set_longest_key)(&chain->tree, chain->longest + 1) == RART_NOT_EMPTY);
}

// What is made of two such trees, and of such a tree's bytes.
static void make_others(struct chain *chain, tree *copy, size_t keys) {
    tree none = {0}, part = {0};
    EXPECT(CALL(intersection)(&chain->tree, copy, &part) == RART_DONE && CALL(len)(&part) == keys);
    EXPECT(CALL(difference)(&chain->tree, &none, &part) == RART_DONE && CALL(len)(&part) == keys);
    size_t len, at;
    EXPECT(CALL(saved_len)(&part, &len) == RART_DONE);
    uint8_t *bytes = malloc(len);
    EXPECT(bytes != NULL && CALL(save)(&part, bytes, len, &len) == RART_DONE);
    EXPECT(CALL(load)(&part, bytes, len, &at) == RART_DONE && CALL(len)(&part) == keys);
    free(bytes);
    CALL(clear)(&part);
}

static void try_chain(struct chain *chain) {
    tree copy = {0};
    fill(chain);
    refuse_longer(chain);
    size_t keys = chain->longest * (chain->beside + 1);
    EXPECT(CALL(len)(&chain->tree) == keys && CALL(snapshot)(&chain->tree, &copy) == RART_DONE);
    EXPECT(CALL(longest_key)(&copy) == chain->longest);
    EXPECT(CALL(common)(&chain->tree, &copy) == keys);
    key[chain->longest - 1] = chain->ends_differ ? 'b' : 'a';
    insert(chain, chain->longest, RART_DONE);
    EXPECT(CALL(common)(&chain->tree, &copy) == keys);
    take_out(chain, chain->longest, RART_DONE);
    EXPECT(CALL(common)(&chain->tree, &copy) == keys - 1);
    EXPECT(CALL(restore_prefix)(&chain->tree, key, chain->longest, &copy) == RART_DONE);
    EXPECT(CALL(common)(&chain->tree, &copy) == keys);
    make_others(chain, &copy, keys);
    CALL(clear)(&copy);
    CALL(clear)(&chain->tree);
}

static void *run(void *longest) {
    static const size_t beside[] = {0, 3, 16, 48, 99};
    for (size_t at = 0; at < sizeof beside / sizeof beside[0]; at++) {
        for (int ends_differ = 0; ends_differ < 2; ends_differ++) {
            struct chain chain = {.longest = *(size_t *)longest, .beside = beside[at]};
            chain.ends_differ = ends_differ;
            try_chain(&chain);
        }
    }
    return NULL;
}

int main(int count, char **words) {
    size_t longest = count > 1 ? strtoull(words[1], NULL, 10) : RART_LONGEST_KEY;
    size_t kib = count > 2 ? strtoull(words[2], NULL, 10) : 2048;
    pthread_attr_t attributes;
    pthread_t thread;
    key = malloc(longest + 1);
    EXPECT(key != NULL && pthread_attr_init(&attributes) == 0);
    EXPECT(pthread_attr_setstacksize(&attributes, kib * 1024) == 0);
    EXPECT(pthread_create(&thread, &attributes, run, &longest) == 0);
    EXPECT(pthread_join(thread, NULL) == 0);
    free(key);
    printf("chains of keys of %zu bytes end no thread of %zu KiB\n", longest, kib);
    return 0;
}
