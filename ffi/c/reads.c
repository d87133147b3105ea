// That a read stores nothing in the tree that it reads: each read of trees in memory that can't be
// written, of one tree given twice too. And that one that is cleared is all zeros.
#define _DEFAULT_SOURCE // (for mmap's MAP_ANONYMOUS)
#define RART_PAGES
#include "boltcomfrey.h"
#include "expect.h"
#include <stdlib.h>
#include <string.h>
#include <sys/mman.h>

struct trees {
    rart_tree numbers, no_number;
    rart_bytes strings, no_string;
};

static const uint8_t te[] = {'t', 'e'}, tea[] = {'t', 'e', 'a'}, none[] = {0};

static void fill(struct trees *trees) {
    uint64_t replaced;
    EXPECT(rart_insert(&trees->numbers, te, sizeof te, 7, &replaced) == RART_ABSENT);
    EXPECT(rart_insert(&trees->numbers, tea, sizeof tea, 300, &replaced) == RART_ABSENT);
    EXPECT(rart_bytes_insert(&trees->strings, te, sizeof te, tea, 1) == RART_ABSENT);
    EXPECT(rart_bytes_insert(&trees->strings, tea, sizeof tea, tea, 3) == RART_ABSENT);
}

static void clear(struct trees *trees) {
    static const struct trees zeros;
    rart_clear(&trees->numbers);
    rart_clear(&trees->no_number);
    rart_bytes_clear(&trees->strings);
    rart_bytes_clear(&trees->no_string);
    EXPECT(memcmp(trees, &zeros, sizeof zeros) == 0);
}

// The reads of a tree of numbers with so many of the keys; `same` is that tree once more.
static void read_numbers(rart_tree *tree, rart_tree *same, size_t keys) {
    uint8_t room[8], file[128];
    size_t len, count, needed;
    uint64_t value;
    rart_entry entries[2];
    rart_tree copy = {0};
    EXPECT(rart_version(tree) == keys && rart_len(tree) == keys);
    EXPECT(rart_longest_key(tree) == RART_LONGEST_KEY);
    EXPECT(rart_is_empty(tree) == (keys == 0));
    EXPECT(rart_get(tree, tea, 3, &value) == (keys ? RART_DONE : RART_ABSENT));
    EXPECT(rart_longest(tree, tea, 3, &len, &value) == (keys ? RART_DONE : RART_ABSENT));
    EXPECT(rart_seek(tree, te, 2, room, 8, &len, &value) == (keys ? RART_DONE : RART_ABSENT));
    EXPECT(rart_next(tree, te, 2, room, 8, &len, &value) == (keys ? RART_DONE : RART_ABSENT));
    EXPECT(rart_seek_back(tree, tea, 3, room, 8, &len, &value) == (keys ? RART_DONE : RART_ABSENT));
    EXPECT(rart_prev(tree, te, 2, room, 8, &len, &value) == RART_ABSENT);
    EXPECT(rart_last(tree, room, 8, &len, &value) == (keys ? RART_DONE : RART_ABSENT));
    EXPECT(rart_page(tree, none, 0, RART_UNBOUNDED, none, 0, RART_UNBOUNDED, room, 8, entries, 2,
                     &count, &needed) == (keys ? RART_DONE : RART_ABSENT));
    EXPECT(rart_page_back(tree, none, 0, RART_UNBOUNDED, none, 0, RART_UNBOUNDED, room, 8, entries,
                          2, &count, &needed) == (keys ? RART_DONE : RART_ABSENT));
    EXPECT(count == keys && rart_common(tree, same) == keys);
    EXPECT(rart_equals(tree, same) == RART_DONE);
    EXPECT(rart_snapshot(tree, &copy) == RART_DONE && rart_clone(tree, &copy) == RART_DONE);
    EXPECT(rart_saved_len(tree, &needed) == RART_DONE);
    EXPECT(rart_save(tree, file, sizeof file, &len) == RART_DONE && len == needed);
    EXPECT(rart_load(&copy, file, len, &needed) == RART_DONE && rart_len(&copy) == keys);
    rart_clear(&copy);
}

static void read_strings(rart_bytes *tree, rart_bytes *same, size_t keys) {
    uint8_t room[8], into[8], file[128];
    size_t key_len, len;
    rart_bytes copy = {0};
    rart_answer wanted = keys ? RART_DONE : RART_ABSENT;
    EXPECT(rart_bytes_version(tree) == keys && rart_bytes_len(tree) == keys);
    EXPECT(rart_bytes_longest_key(tree) == RART_LONGEST_KEY);
    EXPECT(rart_bytes_is_empty(tree) == (keys == 0));
    EXPECT(rart_bytes_get(tree, tea, 3, into, 8, &len) == wanted);
    EXPECT(rart_bytes_longest(tree, tea, 3, &key_len, into, 8, &len) == wanted);
    EXPECT(rart_bytes_seek(tree, te, 2, room, 8, &key_len, into, 8, &len) == wanted);
    EXPECT(rart_bytes_next(tree, te, 2, room, 8, &key_len, into, 8, &len) == wanted);
    EXPECT(rart_bytes_seek_back(tree, tea, 3, room, 8, &key_len, into, 8, &len) == wanted);
    EXPECT(rart_bytes_prev(tree, te, 2, room, 8, &key_len, into, 8, &len) == RART_ABSENT);
    EXPECT(rart_bytes_last(tree, room, 8, &key_len, into, 8, &len) == wanted);
    rart_bytes_entry entries[2];
    size_t count;
    EXPECT(rart_bytes_page(tree, none, 0, RART_UNBOUNDED, none, 0, RART_UNBOUNDED, room, 8, entries,
                           2, &count, &key_len, &len) == wanted);
    EXPECT(rart_bytes_page_back(tree, none, 0, RART_UNBOUNDED, none, 0, RART_UNBOUNDED, room, 8,
                                entries, 2, &count, &key_len, &len) == wanted);
    EXPECT(count == (keys ? 1 : 0) || count == keys);
    EXPECT(rart_bytes_common(tree, same) == keys);
    EXPECT(rart_bytes_equals(tree, same) == RART_DONE);
    EXPECT(rart_bytes_snapshot(tree, &copy) == RART_DONE);
    EXPECT(rart_bytes_clone(tree, &copy) == RART_DONE);
    EXPECT(rart_bytes_saved_len(tree, &key_len) == RART_DONE);
    EXPECT(rart_bytes_save(tree, file, sizeof file, &len) == RART_DONE && len == key_len);
    EXPECT(rart_bytes_load(&copy, file, len, &key_len) == RART_DONE);
    EXPECT(rart_bytes_len(&copy) == keys);
    rart_bytes_clear(&copy);
}

int main(void) {
    struct trees *trees =
        mmap(NULL, sizeof *trees, PROT_READ | PROT_WRITE, MAP_PRIVATE | MAP_ANONYMOUS, -1, 0);
    EXPECT(trees != MAP_FAILED);
    fill(trees);
    EXPECT(mprotect(trees, sizeof *trees, PROT_READ) == 0);
    read_numbers(&trees->numbers, &trees->numbers, 2);
    read_numbers(&trees->no_number, &trees->no_number, 0);
    read_strings(&trees->strings, &trees->strings, 2);
    read_strings(&trees->no_string, &trees->no_string, 0);
    EXPECT(mprotect(trees, sizeof *trees, PROT_READ | PROT_WRITE) == 0);
    clear(trees);
    puts("each read of a tree that can't be written is answered");
    return 0;
}
