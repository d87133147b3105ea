// Random calls on trees whose values are numbers, each compared with tables.
#define TREE rart_tree
#define CALL(name) rart_##name
#define VALUES 1
#include "shared.h"

static bool is_same(uint64_t value, uint64_t other) {
    return value == other;
}

static size_t put_value(uint64_t value, uint8_t *to) {
    for (size_t at = 0; at < 8; at++) {
        to[at] = (uint8_t)(value >> 8 * at);
    }
    return 8;
}

// (a value before that isn't wanted may go nowhere)
static rart_answer insert(size_t at, const struct key *key, uint64_t value) {
    uint64_t replaced = NO_NUMBER;
    if (random_below(8) == 0) {
        return rart_insert(&trees[at], BYTES_OF(key), value, NULL);
    }
    rart_answer answer = rart_insert(&trees[at], BYTES_OF(key), value, &replaced);
    EXPECT(replaced == (answer == RART_DONE ? tables[at].values[key->number] : NO_NUMBER));
    return answer;
}

static rart_answer add(size_t at, const struct key *key, uint64_t value) {
    uint64_t found = NO_NUMBER;
    rart_answer answer = rart_add(&trees[at], BYTES_OF(key), value, &found);
    EXPECT(found == (answer == RART_DONE ? tables[at].values[key->number] : NO_NUMBER));
    return answer;
}

static rart_answer replace(size_t at, const struct key *key, uint64_t value) {
    uint64_t replaced = NO_NUMBER;
    rart_answer answer = rart_replace(&trees[at], BYTES_OF(key), value, &replaced);
    EXPECT(replaced == (answer == RART_DONE ? tables[at].values[key->number] : NO_NUMBER));
    return answer;
}

static rart_answer take_out(size_t at, const struct key *key) {
    uint64_t value = NO_NUMBER;
    if (random_below(8) == 0) {
        return rart_remove(&trees[at], BYTES_OF(key), NULL);
    }
    rart_answer answer = rart_remove(&trees[at], BYTES_OF(key), &value);
    EXPECT(value == (answer == RART_DONE ? tables[at].values[key->number] : NO_NUMBER));
    return answer;
}

// That the value of this key was read, or none.
static void expect_value(size_t at, size_t wanted, rart_answer answer, uint64_t value) {
    EXPECT(answer == (wanted < KEYS ? RART_DONE : RART_ABSENT));
    EXPECT(value == (wanted < KEYS ? tables[at].values[wanted] : NO_NUMBER));
}

static void look(size_t at, const struct key *key, size_t wanted) {
    uint64_t value = NO_NUMBER;
    rart_answer answer = rart_get(&trees[at], BYTES_OF(key), &value);
    expect_value(at, wanted, answer, value);
}

static void look_longest(size_t at, const struct key *probe, size_t wanted) {
    size_t len = NO_NUMBER;
    uint64_t value = NO_NUMBER;
    rart_answer answer = rart_longest(&trees[at], BYTES_OF(probe), &len, &value);
    EXPECT(len == (wanted < KEYS ? key_of(wanted).len : NO_NUMBER));
    expect_value(at, wanted, answer, value);
}

// That this key was copied to the room, where it fits there, with its value, or none.
static void expect_pair(size_t at, size_t wanted, rart_answer answer, const struct room *room,
                        uint64_t value) {
    bool fits = has_key(room, wanted);
    EXPECT(answer == (fits ? RART_DONE : wanted < KEYS ? RART_TOO_SMALL : RART_ABSENT));
    EXPECT(value == (fits ? tables[at].values[wanted] : NO_NUMBER));
}

static void look_first(size_t at, const struct key *from, bool is_strict, size_t wanted) {
    struct room room = room_for_key(wanted);
    uint64_t value = NO_NUMBER;
    rart_answer answer = (is_strict ? rart_next : rart_seek)(
        &trees[at], from->bytes, from->len, room.bytes, room.size, &room.len, &value);
    expect_pair(at, wanted, answer, &room, value);
}

static void look_last(size_t at, const struct key *to, bool is_strict, size_t wanted) {
    struct room room = room_for_key(wanted);
    uint64_t value = NO_NUMBER;
    rart_answer answer = (is_strict ? rart_prev : rart_seek_back)(
        &trees[at], to->bytes, to->len, room.bytes, room.size, &room.len, &value);
    expect_pair(at, wanted, answer, &room, value);
}

static void look_last_of_all(size_t at, size_t wanted) {
    struct room room = room_for_key(wanted);
    uint64_t value = NO_NUMBER;
    rart_answer answer = rart_last(&trees[at], ROOM_OF(&room), &room.len, &value);
    expect_pair(at, wanted, answer, &room, value);
}

enum { MOST_PAGE = 3 * MOST_BYTES + 3 };

// What a page is written to, how much of it the call is told of, and the numbers that it writes.
struct page {
    uint8_t bytes[MOST_PAGE];
    size_t room;
    rart_entry entries[MOST_ENTRIES];
    size_t most, count, needed;
};

// That a page has the first pairs of a range, one behind the other. The range goes on behind them.
// Gives where the page ends.
static size_t expect_pairs(size_t at, const struct page *page, struct range *range) {
    size_t end = 0;
    for (size_t entry = 0; entry < page->count; entry++) {
        size_t wanted = next_within(at, range), start = end;
        EXPECT(wanted < KEYS);
        struct key key = key_of(wanted);
        go_on(range, wanted);
        end += key.len;
        EXPECT(page->entries[entry].end == end && end <= page->room);
        EXPECT(memcmp(page->bytes + start, key.bytes, key.len) == 0);
        EXPECT(page->entries[entry].value == tables[at].values[wanted]);
    }
    return end;
}

// That nothing is written behind what a page has room for.
static void expect_kept(const struct page *page) {
    for (size_t entry = page->count; entry < MOST_ENTRIES; entry++) {
        EXPECT(page->entries[entry].end == 0 && page->entries[entry].value == 0);
    }
    for (size_t byte = page->room; byte < MOST_PAGE; byte++) {
        EXPECT(page->bytes[byte] == NO_BYTE);
    }
}

// Reads a page of any length. Where a pair is left it is full, and one without a pair has no room
// for an entry, or says how long the key of that is. Tells whether one is left; the range goes on.
static bool read_page(size_t at, struct range *range) {
    struct page page = {.room = random_below(MOST_PAGE + 1),
                        .most = random_below(MOST_ENTRIES + 1),
                        .count = NO_NUMBER,
                        .needed = NO_NUMBER};
    memset(page.bytes, NO_BYTE, MOST_PAGE);
    unsigned long long before = requests_refused();
    rart_answer answer = (range->descends ? rart_page_back : rart_page)(
        &trees[at], BYTES_OF(&range->low.key), range->low.kind, BYTES_OF(&range->high.key),
        range->high.kind, page.room > 0 ? page.bytes : NULL, page.room,
        page.most > 0 ? page.entries : NULL, page.most, &page.count, &page.needed);
    unheeded += requests_refused() - before;
    EXPECT(page.count <= page.most);
    size_t end = expect_pairs(at, &page, range), next = next_within(at, range);
    size_t len = next < KEYS ? key_of(next).len : NO_NUMBER;
    EXPECT(next == KEYS || page.count == page.most || page.room - end < len);
    rart_answer empty = page.most == 0 ? RART_NO_ENTRIES : RART_TOO_SMALL;
    EXPECT(answer == (page.count > 0 ? RART_DONE : next == KEYS ? RART_ABSENT : empty));
    EXPECT(page.needed == (answer == RART_TOO_SMALL ? len : NO_NUMBER));
    expect_kept(&page);
    return next < KEYS;
}

static void read_all(size_t at) {
    struct range range = {random_bound(), random_bound(), random_below(2) == 0};
    if (random_below(2) == 0) {
        walk(at);
    } else {
        while (read_page(at, &range)) {
        }
    }
}

int main(int count, char **words) {
    return compare(count, words, "numbers");
}
