// The same calls on trees whose values are byte strings.
#define TREE rart_bytes
#define CALL(name) rart_bytes_##name
#define VALUES 2
#include "shared.h"

// The byte string that stands for a number: short or long, its bytes from another generator. Gives
// its length.
static size_t value_of(uint64_t number, uint8_t *value) {
    size_t len = number % 2 == 0 ? number % 9 : number % (MOST_VALUE + 1);
    for (size_t at = 0; at < len; at++) {
        number = number * 6364136223846793005u + 1442695040888963407u;
        value[at] = (uint8_t)(number >> 56);
    }
    return len;
}

static bool is_same(uint64_t number, uint64_t other) {
    uint8_t one[MOST_VALUE] = {0}, another[MOST_VALUE] = {0};
    size_t len = value_of(number, one);
    return value_of(other, another) == len && memcmp(one, another, len) == 0;
}

static size_t put_value(uint64_t number, uint8_t *to) {
    uint8_t value[MOST_VALUE] = {0};
    size_t len = value_of(number, value), front = put_number(len, to);
    memcpy(to + front, value, len);
    return front + len;
}

static rart_answer insert(size_t at, const struct key *key, uint64_t number) {
    uint8_t value[MOST_VALUE] = {0};
    size_t len = value_of(number, value);
    return rart_bytes_insert(&trees[at], BYTES_OF(key), at_times_null(value, len), len);
}

static rart_answer add(size_t at, const struct key *key, uint64_t number) {
    uint8_t value[MOST_VALUE] = {0};
    size_t len = value_of(number, value);
    return rart_bytes_add(&trees[at], BYTES_OF(key), at_times_null(value, len), len);
}

static rart_answer replace(size_t at, const struct key *key, uint64_t number) {
    uint8_t value[MOST_VALUE] = {0};
    size_t len = value_of(number, value);
    return rart_bytes_replace(&trees[at], BYTES_OF(key), at_times_null(value, len), len);
}

static rart_answer take_out(size_t at, const struct key *key) {
    return rart_bytes_remove(&trees[at], BYTES_OF(key));
}

// A room for the value of this key, or for one that isn't there.
static struct room room_for_value(size_t at, size_t number) {
    uint8_t value[MOST_VALUE];
    return room_for(number < KEYS ? value_of(tables[at].values[number], value) : MOST_VALUE);
}

// That the value of this key was read where it may be and has room, else its length alone; nothing
// where there is no key.
static void expect_value(size_t at, size_t wanted, rart_answer answer, const struct room *room,
                         bool may_be) {
    uint8_t value[MOST_VALUE] = {0};
    size_t len = wanted < KEYS ? value_of(tables[at].values[wanted], value) : NO_NUMBER;
    bool is_read = wanted < KEYS && may_be && len <= room->size;
    EXPECT(answer == (is_read ? RART_DONE : wanted < KEYS ? RART_TOO_SMALL : RART_ABSENT));
    EXPECT(room->len == len);
    expect_front(room, value, is_read ? len : 0);
}

static void look(size_t at, const struct key *key, size_t wanted) {
    struct room room = room_for_value(at, wanted);
    rart_answer answer =
        rart_bytes_get(&trees[at], BYTES_OF(key), ROOM_OF(&room), &room.len);
    expect_value(at, wanted, answer, &room, true);
}

static void look_longest(size_t at, const struct key *probe, size_t wanted) {
    struct room room = room_for_value(at, wanted);
    size_t len = NO_NUMBER;
    rart_answer answer =
        rart_bytes_longest(&trees[at], BYTES_OF(probe), &len, ROOM_OF(&room), &room.len);
    EXPECT(len == (wanted < KEYS ? key_of(wanted).len : NO_NUMBER));
    expect_value(at, wanted, answer, &room, true);
}

static void look_first(size_t at, const struct key *from, bool is_strict, size_t wanted) {
    struct room key = room_for_key(wanted), value = room_for_value(at, wanted);
    rart_answer answer = (is_strict ? rart_bytes_next : rart_bytes_seek)(
        &trees[at], from->bytes, from->len, key.bytes, key.size, &key.len, value.bytes, value.size,
        &value.len);
    bool fits = has_key(&key, wanted);
    expect_value(at, wanted, answer, &value, fits);
}

static void look_last(size_t at, const struct key *to, bool is_strict, size_t wanted) {
    struct room key = room_for_key(wanted), value = room_for_value(at, wanted);
    rart_answer answer = (is_strict ? rart_bytes_prev : rart_bytes_seek_back)(
        &trees[at], to->bytes, to->len, key.bytes, key.size, &key.len, value.bytes, value.size,
        &value.len);
    bool fits = has_key(&key, wanted);
    expect_value(at, wanted, answer, &value, fits);
}

static void look_last_of_all(size_t at, size_t wanted) {
    struct room key = room_for_key(wanted), value = room_for_value(at, wanted);
    rart_answer answer =
        rart_bytes_last(&trees[at], ROOM_OF(&key), &key.len, ROOM_OF(&value), &value.len);
    bool fits = has_key(&key, wanted);
    expect_value(at, wanted, answer, &value, fits);
}

enum { MOST_PAGE = 2 * MOST_VALUE };

// What a page is written to, how much of it the call is told of, and the numbers that it writes.
struct page {
    uint8_t bytes[MOST_PAGE];
    size_t room;
    rart_bytes_entry entries[MOST_ENTRIES];
    size_t most, count, key_len, len;
};

// That a page has the first pairs of a range, each key with its value behind it. The range goes on
// behind them. Gives where the page ends.
static size_t expect_pairs(size_t at, const struct page *page, struct range *range) {
    size_t end = 0;
    for (size_t entry = 0; entry < page->count; entry++) {
        uint8_t value[MOST_VALUE] = {0};
        size_t wanted = next_within(at, range), start = end;
        EXPECT(wanted < KEYS);
        struct key key = key_of(wanted);
        go_on(range, wanted);
        size_t len = value_of(tables[at].values[wanted], value), key_end = start + key.len;
        end = key_end + len;
        EXPECT(page->entries[entry].key_end == key_end && page->entries[entry].end == end);
        EXPECT(end <= page->room);
        EXPECT(memcmp(page->bytes + start, key.bytes, key.len) == 0);
        EXPECT(memcmp(page->bytes + key_end, value, len) == 0);
    }
    return end;
}

// That nothing is written behind what a page has room for.
static void expect_kept(const struct page *page) {
    for (size_t entry = page->count; entry < MOST_ENTRIES; entry++) {
        EXPECT(page->entries[entry].key_end == 0 && page->entries[entry].end == 0);
    }
    for (size_t byte = page->room; byte < MOST_PAGE; byte++) {
        EXPECT(page->bytes[byte] == NO_BYTE);
    }
}

// Reads a page of any length. Where a pair is left it is full, and one without a pair has no room
// for an entry, or says how long the key and the value of that are. Tells whether one is left; the
// range goes on.
static bool read_page(size_t at, struct range *range) {
    uint8_t value[MOST_VALUE];
    struct page page = {.room = random_below(MOST_PAGE + 1),
                        .most = random_below(MOST_ENTRIES + 1),
                        .count = NO_NUMBER,
                        .key_len = NO_NUMBER,
                        .len = NO_NUMBER};
    memset(page.bytes, NO_BYTE, MOST_PAGE);
    unsigned long long before = requests_refused();
    rart_answer answer = (range->descends ? rart_bytes_page_back : rart_bytes_page)(
        &trees[at], BYTES_OF(&range->low.key), range->low.kind, BYTES_OF(&range->high.key),
        range->high.kind, page.room > 0 ? page.bytes : NULL, page.room,
        page.most > 0 ? page.entries : NULL, page.most, &page.count, &page.key_len, &page.len);
    unheeded += requests_refused() - before;
    EXPECT(page.count <= page.most);
    size_t end = expect_pairs(at, &page, range), next = next_within(at, range);
    size_t key_len = next < KEYS ? key_of(next).len : NO_NUMBER;
    size_t len = next < KEYS ? value_of(tables[at].values[next], value) : NO_NUMBER;
    EXPECT(next == KEYS || page.count == page.most || page.room - end < key_len + len);
    rart_answer empty = page.most == 0 ? RART_NO_ENTRIES : RART_TOO_SMALL;
    EXPECT(answer == (page.count > 0 ? RART_DONE : next == KEYS ? RART_ABSENT : empty));
    EXPECT(page.key_len == (answer == RART_TOO_SMALL ? key_len : NO_NUMBER));
    EXPECT(page.len == (answer == RART_TOO_SMALL ? len : NO_NUMBER));
    expect_kept(&page);
    return next < KEYS;
}

static void read_all(size_t at) {
    struct range range = {random_bound(), random_bound(), random_below(2) == 0};
    if (random_below(2) == 0) {
        walk(at);
    } else {
        while (read_page(at, &range)) {
        }
    }
}

int main(int count, char **words) {
    return compare(count, words, "byte strings");
}
