// That each call that takes bytes or entries takes a null pointer for none of them: what it answers
// is what it answers for a pointer to some place. A tree's first key here has no byte.
#define RART_PAGES
#include "boltcomfrey.h"
#include "expect.h"

// Nothing to read, and no room for bytes or entries.
struct none {
    const uint8_t *bytes;
    uint8_t *room, *into;
    rart_entry *entries;
    rart_bytes_entry *bytes_entries;
};

static void change_number(rart_tree *tree, const struct none *no) {
    uint64_t value = 0;
    EXPECT(rart_remove(tree, no->bytes, 0, &value) == RART_ABSENT);
    EXPECT(rart_replace(tree, no->bytes, 0, 5, &value) == RART_ABSENT);
    EXPECT(rart_add(tree, no->bytes, 0, 6, &value) == RART_ABSENT);
    EXPECT(rart_add(tree, no->bytes, 0, 9, &value) == RART_DONE && value == 6);
    EXPECT(rart_insert(tree, no->bytes, 0, 7, &value) == RART_DONE && value == 6);
    EXPECT(rart_replace(tree, no->bytes, 0, 8, &value) == RART_DONE && value == 7);
    EXPECT(rart_remove(tree, no->bytes, 0, &value) == RART_DONE && value == 8);
    EXPECT(rart_insert(tree, no->bytes, 0, 3, &value) == RART_ABSENT);
}

static void read_number(rart_tree *tree, const struct none *no) {
    uint64_t value = 0;
    size_t len = 9;
    EXPECT(rart_get(tree, no->bytes, 0, &value) == RART_DONE && value == 3);
    EXPECT(rart_longest(tree, no->bytes, 0, &len, &value) == RART_DONE && len == 0 && value == 3);
    EXPECT(rart_seek(tree, no->bytes, 0, no->room, 0, &len, &value) == RART_DONE && len == 0);
    EXPECT(rart_next(tree, no->bytes, 0, no->room, 0, &len, &value) == RART_TOO_SMALL && len == 3);
    EXPECT(rart_seek_back(tree, no->bytes, 0, no->room, 0, &len, &value) == RART_DONE && len == 0);
    EXPECT(rart_prev(tree, no->bytes, 0, no->room, 0, &len, &value) == RART_ABSENT);
    EXPECT(rart_last(tree, no->room, 0, &len, &value) == RART_TOO_SMALL && len == 3);
}

// Reads pages of a tree of two keys: that of no byte, and one of three.
static void read_number_pages(rart_tree *tree, const struct none *no) {
    size_t count = 9, needed = 9;
    rart_entry entries[2] = {{9, 9}, {9, 9}};
    EXPECT(rart_page(tree, no->bytes, 0, RART_INCLUDED, no->bytes, 0, RART_UNBOUNDED, no->room, 0,
                     no->entries, 0, &count, &needed) == RART_NO_ENTRIES &&
           count == 0);
    EXPECT(rart_page(tree, no->bytes, 0, RART_INCLUDED, no->bytes, 0, RART_UNBOUNDED, no->room, 0,
                     entries, 2, &count, &needed) == RART_DONE &&
           count == 1 && entries[0].end == 0 && entries[0].value == 3);
    EXPECT(rart_page_back(tree, no->bytes, 0, RART_EXCLUDED, no->bytes, 0, RART_UNBOUNDED, no->room,
                          0, entries, 2, &count, &needed) == RART_TOO_SMALL &&
           count == 0 && needed == 3);
    EXPECT(rart_page_back(tree, no->bytes, 0, RART_UNBOUNDED, no->bytes, 0, RART_INCLUDED, no->room,
                          0, no->entries, 0, &count, &needed) == RART_NO_ENTRIES);
}

static void take_all_numbers(rart_tree *tree, const struct none *no) {
    rart_tree all = {0};
    size_t count = 0;
    EXPECT(rart_prefix_snapshot(tree, no->bytes, 0, &all) == RART_DONE && rart_len(&all) == 2);
    EXPECT(rart_remove_prefix(tree, no->bytes, 0, &count) == RART_DONE && count == 2);
    EXPECT(rart_restore_prefix(tree, no->bytes, 0, &all) == RART_DONE && rart_len(tree) == 2);
    EXPECT(rart_save(tree, no->room, 0, &count) == RART_TOO_SMALL && count > 0);
    EXPECT(rart_load(tree, no->bytes, 0, &count) == RART_TRUNCATED && rart_len(tree) == 2);
    rart_clear(&all);
}

static void try_numbers(const struct none *no) {
    rart_tree tree = {0};
    change_number(&tree, no);
    EXPECT(rart_insert(&tree, (const uint8_t *)"tea", 3, 300, NULL) == RART_ABSENT);
    read_number(&tree, no);
    read_number_pages(&tree, no);
    take_all_numbers(&tree, no);
    rart_clear(&tree);
}

static void change_string(rart_bytes *tree, const struct none *no) {
    EXPECT(rart_bytes_remove(tree, no->bytes, 0) == RART_ABSENT);
    EXPECT(rart_bytes_replace(tree, no->bytes, 0, no->bytes, 0) == RART_ABSENT);
    EXPECT(rart_bytes_add(tree, no->bytes, 0, no->bytes, 0) == RART_ABSENT);
    EXPECT(rart_bytes_add(tree, no->bytes, 0, no->bytes, 0) == RART_DONE);
    EXPECT(rart_bytes_insert(tree, no->bytes, 0, no->bytes, 0) == RART_DONE);
    EXPECT(rart_bytes_replace(tree, no->bytes, 0, no->bytes, 0) == RART_DONE);
    EXPECT(rart_bytes_remove(tree, no->bytes, 0) == RART_DONE);
    EXPECT(rart_bytes_insert(tree, no->bytes, 0, no->bytes, 0) == RART_ABSENT);
}

static void read_string(rart_bytes *tree, const struct none *no) {
    const uint8_t *none = no->bytes;
    uint8_t *room = no->room, *into = no->into;
    size_t key = 9, len = 9;
    EXPECT(rart_bytes_get(tree, none, 0, into, 0, &len) == RART_DONE && len == 0);
    EXPECT(rart_bytes_longest(tree, none, 0, &key, into, 0, &len) == RART_DONE && key == 0);
    EXPECT(rart_bytes_seek(tree, none, 0, room, 0, &key, into, 0, &len) == RART_DONE && key == 0);
    EXPECT(rart_bytes_next(tree, none, 0, room, 0, &key, into, 0, &len) == RART_TOO_SMALL);
    EXPECT(key == 3 && len == 5);
    EXPECT(rart_bytes_seek_back(tree, none, 0, room, 0, &key, into, 0, &len) == RART_DONE);
    EXPECT(rart_bytes_prev(tree, none, 0, room, 0, &key, into, 0, &len) == RART_ABSENT);
    EXPECT(rart_bytes_last(tree, room, 0, &key, into, 0, &len) == RART_TOO_SMALL && len == 5);
}

static void read_string_pages(rart_bytes *tree, const struct none *no) {
    size_t count = 9, key = 9, len = 9;
    rart_bytes_entry entries[2] = {{9, 9}, {9, 9}};
    EXPECT(rart_bytes_page(tree, no->bytes, 0, RART_INCLUDED, no->bytes, 0, RART_UNBOUNDED,
                           no->room, 0, no->bytes_entries, 0, &count, &key,
                           &len) == RART_NO_ENTRIES &&
           count == 0);
    EXPECT(rart_bytes_page(tree, no->bytes, 0, RART_INCLUDED, no->bytes, 0, RART_UNBOUNDED,
                           no->room, 0, entries, 2, &count, &key, &len) == RART_DONE &&
           count == 1 && entries[0].key_end == 0 && entries[0].end == 0);
    EXPECT(rart_bytes_page_back(tree, no->bytes, 0, RART_EXCLUDED, no->bytes, 0, RART_UNBOUNDED,
                                no->room, 0, entries, 2, &count, &key, &len) == RART_TOO_SMALL &&
           count == 0 && key == 3 && len == 5);
    EXPECT(rart_bytes_page_back(tree, no->bytes, 0, RART_UNBOUNDED, no->bytes, 0, RART_INCLUDED,
                                no->room, 0, no->bytes_entries, 0, &count, &key,
                                &len) == RART_NO_ENTRIES);
}

static void take_all_strings(rart_bytes *tree, const struct none *no) {
    rart_bytes all = {0};
    size_t count = 0;
    EXPECT(rart_bytes_prefix_snapshot(tree, no->bytes, 0, &all) == RART_DONE);
    EXPECT(rart_bytes_remove_prefix(tree, no->bytes, 0, &count) == RART_DONE && count == 2);
    EXPECT(rart_bytes_restore_prefix(tree, no->bytes, 0, &all) == RART_DONE);
    EXPECT(rart_bytes_len(tree) == 2);
    EXPECT(rart_bytes_save(tree, no->room, 0, &count) == RART_TOO_SMALL && count > 0);
    EXPECT(rart_bytes_load(tree, no->bytes, 0, &count) == RART_TRUNCATED);
    EXPECT(rart_bytes_len(tree) == 2);
    rart_bytes_clear(&all);
}

static void try_strings(const struct none *no) {
    static const uint8_t green[] = {'g', 'r', 'e', 'e', 'n'};
    rart_bytes tree = {0};
    change_string(&tree, no);
    EXPECT(rart_bytes_insert(&tree, (const uint8_t *)"tea", 3, green, 5) == RART_ABSENT);
    read_string(&tree, no);
    read_string_pages(&tree, no);
    take_all_strings(&tree, no);
    rart_bytes_clear(&tree);
}

int main(void) {
    uint8_t bytes[1] = {7}, room[1] = {7}, into[1] = {7};
    rart_entry entries[1] = {{7, 7}};
    rart_bytes_entry bytes_entries[1] = {{7, 7}};
    const struct none some = {bytes, room, into, entries, bytes_entries};
    const struct none null = {NULL, NULL, NULL, NULL, NULL};
    try_numbers(&some);
    try_numbers(&null);
    try_strings(&some);
    try_strings(&null);
    EXPECT(bytes[0] == 7 && room[0] == 7 && into[0] == 7);
    EXPECT(entries[0].end == 7 && bytes_entries[0].end == 7);
    puts("each call takes null for bytes or entries that are none");
    return 0;
}
