// What the two models share: random keys, tables of what eight trees should have, and random calls
// on both. A model says before it includes this of what type its trees are (TREE), how their calls
// are named (CALL) and of what kind their values are in files (VALUES), and behind it what a value is.
#ifndef SHARED_H
#define SHARED_H

#define RART_PAGES
#include "boltcomfrey.h"
#include "expect.h"
#include "random.h"
#include <string.h>

// Keys have few letters, so that they often begin one another; or any, so that nodes are wide.
#ifdef ANY_LETTER
enum { MOST_BYTES = 2, LETTERS = 256, KEYS = 65793 };
#else
enum { MOST_BYTES = 7, LETTERS = 4, KEYS = 21845 };
#endif

enum { TREES = 8, MOST_VALUE = 300, MOST_ROOM = MOST_VALUE + 2 };

// What a byte and a number are before a call that may write them.
enum { NO_BYTE = 7, NO_NUMBER = 99 };

// How many entries a page may have room for.
enum { MOST_ENTRIES = 5 };

static uint8_t letter(size_t number) {
    static const uint8_t few[] = {0, 'a', 'b', 255};
    return LETTERS == 4 ? few[number % 4] : (uint8_t)number;
}

// A key: its bytes, and its number among all keys of so many letters at most. The empty key is 0,
// longer ones stand behind shorter.
struct key {
    uint8_t bytes[MOST_BYTES];
    size_t len;
    size_t number;
};

// What a tree should have: of each key whether it is there, and its value.
struct table {
    bool has[KEYS];
    uint64_t values[KEYS];
    uint64_t number;
    size_t len;
    size_t longest;
};

static TREE trees[TREES];
static struct table tables[TREES];

// The key of a number.
static struct key key_of(size_t number) {
    struct key key = {.number = number};
    for (size_t left = number; left > 0; left = (left - 1) / LETTERS) {
        memmove(key.bytes + 1, key.bytes, key.len++);
        key.bytes[0] = letter((left - 1) % LETTERS);
    }
    return key;
}

// The bytes of a key, or of a room, and how many they are: where there is none, at times null.
#define BYTES_OF(key) at_times_null((key)->bytes, (key)->len), (key)->len
#define ROOM_OF(room) (uint8_t *)at_times_null((room)->bytes, (room)->size), (room)->size

static const uint8_t *at_times_null(const uint8_t *bytes, size_t len) {
    return len > 0 || random_below(2) == 0 ? bytes : NULL;
}

// A key of any length, which random numbers would seldom be.
static struct key random_key(void) {
    size_t number = 0;
    for (size_t left = random_below(MOST_BYTES + 1); left > 0; left--) {
        number = LETTERS * number + random_below(LETTERS) + 1;
    }
    return key_of(number);
}

// The number of the key behind this one in the order of bytes, of all that there may be: its first
// extension, else what follows it or the longest of its beginnings that something follows.
static size_t number_behind(size_t number) {
    if (LETTERS * number + 1 < KEYS) {
        return LETTERS * number + 1;
    }
    while (number > 0 && number % LETTERS == 0) {
        number = (number - 1) / LETTERS;
    }
    return number > 0 ? number + 1 : KEYS;
}

// The number of a tree's first key from this number on, KEYS where there is none.
static size_t first_from(size_t at, size_t number) {
    while (number < KEYS && !tables[at].has[number]) {
        number = number_behind(number);
    }
    return number;
}

// The number of a tree's longest key that begins the probe, KEYS where there is none.
static size_t longest_of(size_t at, const struct key *probe) {
    size_t number = probe->number;
    while (number > 0 && !tables[at].has[number]) {
        number = (number - 1) / LETTERS;
    }
    return tables[at].has[number] ? number : KEYS;
}

// Whether the one key stands before the other, in the order of bytes.
static bool is_before(const struct key *key, const struct key *other) {
    size_t common = key->len < other->len ? key->len : other->len;
    int order = memcmp(key->bytes, other->bytes, common);
    return order < 0 || (order == 0 && key->len < other->len);
}

// Bytes that a call may write to, how many of them it is told of, and the length that it writes.
struct room {
    uint8_t bytes[MOST_ROOM];
    size_t size;
    size_t len;
};

// A room for so many bytes, which is often just long enough, or one byte too short.
static struct room room_for(size_t len) {
    struct room room = {.size = len, .len = NO_NUMBER};
    memset(room.bytes, NO_BYTE, MOST_ROOM);
    uint64_t what = random_below(4);
    if (what == 0 && len > 0) {
        room.size = len - 1;
    } else if (what > 1) {
        room.size = random_below(len + 3);
    }
    return room;
}

// A room for a key of this number, or for one that isn't there.
static struct room room_for_key(size_t number) {
    return room_for(number < KEYS ? key_of(number).len : MOST_BYTES);
}

// That a call has written these bytes to the front of a room, and nothing behind them.
static void expect_front(const struct room *room, const uint8_t *bytes, size_t len) {
    EXPECT(memcmp(room->bytes, bytes, len) == 0);
    for (size_t at = len; at < MOST_ROOM; at++) {
        EXPECT(room->bytes[at] == NO_BYTE);
    }
}

// Whether a room has the key of this number, which its length says even where it doesn't fit; and
// that nothing was written where there is no key.
static bool has_key(const struct room *room, size_t number) {
    struct key key = key_of(number < KEYS ? number : 0);
    EXPECT(room->len == (number < KEYS ? key.len : NO_NUMBER));
    bool fits = number < KEYS && key.len <= room->size;
    bool is_cut = number < KEYS && !fits; // (what it has then is not told)
    expect_front(room, is_cut ? room->bytes : key.bytes, is_cut ? room->size : key.len);
    return fits;
}

// The calls that take or write a value, and what each is to write. Those that read also expect
// their answer: they are told the number of the key to be found, KEYS where there is none.
static rart_answer insert(size_t at, const struct key *key, uint64_t value);
static rart_answer add(size_t at, const struct key *key, uint64_t value);
static rart_answer replace(size_t at, const struct key *key, uint64_t value);
static rart_answer take_out(size_t at, const struct key *key);
static void look(size_t at, const struct key *key, size_t wanted);
static void look_longest(size_t at, const struct key *probe, size_t wanted);
static void look_first(size_t at, const struct key *from, bool is_strict, size_t wanted);
static void look_last(size_t at, const struct key *to, bool is_strict, size_t wanted);
static void look_last_of_all(size_t at, size_t wanted);
static void read_all(size_t at);

// Whether the values that two numbers stand for are the same.
static bool is_same(uint64_t value, uint64_t other);

// What refusing.c keeps to and counts.
void refuse_one_in(unsigned long long so_many);
unsigned long long requests_refused(void);
unsigned long long reallocs_refused(void);
long long blocks_held(void);

// How many calls were refused, and how many requests within pages, which go on without memory.
static unsigned long long refused, unheeded, too_long;

// Whether memory was refused, or else that the answer is the wanted one.
static bool is_refused(rart_answer answer, rart_answer wanted) {
    refused += answer == RART_NO_MEMORY;
    EXPECT(answer == RART_NO_MEMORY || answer == wanted);
    return answer == RART_NO_MEMORY;
}

// The table of a tree as it is at first, but for its number.
static void begin_table(size_t at, uint64_t number) {
    memset(&tables[at], 0, sizeof tables[at]);
    tables[at].number = number;
    tables[at].longest = RART_LONGEST_KEY;
}

// What is read of a tree without a walk, and of one key.
static void expect_state(size_t at, const struct key *key) {
    EXPECT(CALL(longest_key)(&trees[at]) == tables[at].longest);
    EXPECT(CALL(version)(&trees[at]) == tables[at].number);
    EXPECT(CALL(len)(&trees[at]) == tables[at].len);
    EXPECT(CALL(is_empty)(&trees[at]) == (tables[at].len == 0));
    look(at, key, tables[at].has[key->number] ? key->number : KEYS);
}

// What a change answers where memory is given: the number must rise if there is something to
// change.
static rart_answer answer_of_change(size_t at, const struct key *key, bool must_rise) {
    if (must_rise && tables[at].number == UINT64_MAX) {
        return RART_LAST_NUMBER;
    }
    return tables[at].has[key->number] ? RART_DONE : RART_ABSENT;
}

// What such a call answers that sets a key.
static rart_answer answer_of_key(size_t at, const struct key *key, bool must_rise) {
    bool is_long = key->len > tables[at].longest;
    too_long += is_long;
    return is_long ? RART_TOO_LONG : answer_of_change(at, key, must_rise);
}

static void set_in_table(size_t at, const struct key *key, uint64_t value) {
    tables[at].len += !tables[at].has[key->number];
    tables[at].number++;
    tables[at].has[key->number] = true;
    tables[at].values[key->number] = value;
}

static void expect_insert(size_t at, const struct key *key, uint64_t value) {
    rart_answer wanted = answer_of_key(at, key, true);
    if (!is_refused(insert(at, key, value), wanted) && RART_OK(wanted)) {
        set_in_table(at, key, value);
    }
    expect_state(at, key);
}

// A key that is there stays as it is, and the call isn't refused.
static void expect_add(size_t at, const struct key *key, uint64_t value) {
    bool is_there = tables[at].has[key->number];
    rart_answer wanted = answer_of_key(at, key, !is_there);
    if (is_refused(add(at, key, value), wanted)) {
        EXPECT(!is_there);
    } else if (wanted == RART_ABSENT) {
        set_in_table(at, key, value);
    }
    expect_state(at, key);
}

// So it is where a key that is not there is to be replaced.
static void expect_replace(size_t at, const struct key *key, uint64_t value) {
    bool is_there = tables[at].has[key->number];
    rart_answer wanted = answer_of_change(at, key, is_there);
    if (is_refused(replace(at, key, value), wanted)) {
        EXPECT(is_there);
    } else if (wanted == RART_DONE) {
        set_in_table(at, key, value);
    }
    expect_state(at, key);
}

static void expect_take_out(size_t at, const struct key *key) {
    bool is_there = tables[at].has[key->number];
    rart_answer wanted = answer_of_change(at, key, is_there);
    if (is_refused(take_out(at, key), wanted)) {
        EXPECT(is_there);
    } else if (wanted == RART_DONE) {
        tables[at].len--;
        tables[at].number++;
        tables[at].has[key->number] = false;
    }
    expect_state(at, key);
}

// A place that holds no tree, for the calls that only make one: what stands there leads nowhere.
static TREE no_tree(void) {
    TREE place;
    memset(&place, 0xA5, sizeof place);
    return place;
}

// Puts a tree that was made elsewhere in place of another, or sees that none was made.
static rart_answer keep_made(rart_answer answer, const TREE *made, size_t to) {
    if (answer != RART_DONE) {
        EXPECT(made->at == NULL);
        return answer;
    }
    CALL(clear)(&trees[to]);
    trees[to] = *made;
    return answer;
}

static rart_answer copy(size_t at, size_t to, bool is_snapshot) {
    TREE *tree = &trees[at], made = no_tree();
    if (random_below(2) == 0) {
        return is_snapshot ? CALL(snapshot)(tree, &trees[to]) : CALL(clone)(tree, &trees[to]);
    }
    rart_answer answer =
        is_snapshot ? CALL(snapshot_new)(tree, &made) : CALL(clone_new)(tree, &made);
    return keep_made(answer, &made, to);
}

static void expect_copy(size_t at, size_t to, bool is_snapshot) {
    struct key key = random_key();
    bool has_room = !is_snapshot || tables[at].number < UINT64_MAX;
    rart_answer answer = copy(at, to, is_snapshot);
    if (!is_refused(answer, has_room ? RART_DONE : RART_LAST_NUMBER) && has_room) {
        tables[to] = tables[at];
        tables[to].number += is_snapshot;
    }
    expect_state(at, &key);
    expect_state(to, &key);
}

// The number of a tree's first key from this number on that the prefix begins, KEYS where there is
// none.
static size_t first_under(size_t at, size_t number, const struct key *prefix) {
    size_t first = first_from(at, number);
    struct key key = key_of(first < KEYS ? first : 0);
    bool is_under = key.len >= prefix->len && memcmp(key.bytes, prefix->bytes, prefix->len) == 0;
    return first < KEYS && is_under ? first : KEYS;
}

static size_t count_under(size_t at, const struct key *prefix) {
    size_t count = 0, next = first_under(at, prefix->number, prefix);
    for (; next < KEYS; next = first_under(at, number_behind(next), prefix)) {
        count++;
    }
    return count;
}

// Leaves a table the keys alone that the prefix begins, or those that it doesn't.
static void cut_table(size_t at, const struct key *prefix, bool keeps_them) {
    for (size_t number = first_from(at, 0); number < KEYS;
         number = first_from(at, number_behind(number))) {
        bool is_under = first_under(at, number, prefix) == number;
        tables[at].has[number] = is_under == keeps_them;
        tables[at].len -= is_under != keeps_them;
    }
    tables[at].number++;
}

// What is under a prefix is taken out. Where nothing is there the call isn't refused.
static void expect_remove_prefix(size_t at, const struct key *prefix) {
    size_t count = count_under(at, prefix), removed = NO_NUMBER;
    bool has_room = tables[at].number < UINT64_MAX;
    rart_answer wanted = count == 0 ? RART_ABSENT : has_room ? RART_DONE : RART_LAST_NUMBER;
    rart_answer answer =
        CALL(remove_prefix)(&trees[at], BYTES_OF(prefix), &removed);
    bool was_refused = is_refused(answer, wanted);
    EXPECT(!was_refused || count > 0);
    EXPECT(removed == (answer == RART_DONE ? count : NO_NUMBER));
    if (answer == RART_DONE) {
        cut_table(at, prefix, false);
    }
    expect_state(at, prefix);
}

static rart_answer copy_prefix(size_t at, size_t to, const struct key *prefix) {
    TREE made = no_tree();
    if (random_below(2) == 0) {
        return CALL(prefix_snapshot)(&trees[at], BYTES_OF(prefix), &trees[to]);
    }
    return keep_made(CALL(prefix_snapshot_new)(&trees[at], BYTES_OF(prefix), &made), &made, to);
}

static void expect_prefix_snapshot(size_t at, size_t to, const struct key *prefix) {
    bool has_room = tables[at].number < UINT64_MAX;
    rart_answer answer = copy_prefix(at, to, prefix);
    if (!is_refused(answer, has_room ? RART_DONE : RART_LAST_NUMBER) && has_room) {
        tables[to] = tables[at];
        cut_table(to, prefix, true);
    }
    expect_state(at, prefix);
    expect_state(to, prefix);
}

// What another tree has under a prefix stands there then, and the numbers add up.
static void expect_restore_prefix(size_t at, size_t from, const struct key *prefix) {
    bool is_long = tables[from].longest > tables[at].longest;
    bool has_room = tables[from].number <= UINT64_MAX - tables[at].number;
    rart_answer wanted = is_long ? RART_TOO_LONG : has_room ? RART_DONE : RART_LAST_NUMBER;
    rart_answer answer =
        CALL(restore_prefix)(&trees[at], BYTES_OF(prefix), &trees[from]);
    if (!is_refused(answer, wanted) && wanted == RART_DONE) {
        cut_table(at, prefix, false);
        for (size_t next = first_under(from, prefix->number, prefix); next < KEYS;
             next = first_under(from, number_behind(next), prefix)) {
            tables[at].has[next] = true;
            tables[at].values[next] = tables[from].values[next];
            tables[at].len++;
        }
        tables[at].number += tables[from].number - 1; // (which the cut raised)
    }
    too_long += is_long;
    expect_state(at, prefix);
    expect_state(from, prefix);
}

// In place of what the tree was, one without a key.
static void expect_new(size_t at, uint64_t number) {
    struct key key = random_key();
    if (!is_refused(CALL(new_at)(&trees[at], number), RART_DONE)) {
        begin_table(at, number);
    }
    expect_state(at, &key);
}

// Only of a tree without a key can it be set how long keys may be.
static void expect_longest_key(size_t at, size_t longest) {
    struct key key = random_key();
    rart_answer wanted = tables[at].len > 0 ? RART_NOT_EMPTY : RART_DONE;
    if (!is_refused(CALL(set_longest_key)(&trees[at], longest), wanted) && RART_OK(wanted)) {
        tables[at].longest = longest;
    }
    expect_state(at, &key);
}

static void expect_clear(size_t at) {
    struct key key = random_key();
    CALL(clear)(&trees[at]);
    begin_table(at, 0);
    expect_state(at, &key);
}

static size_t expect_first(size_t at, const struct key *from, bool is_strict) {
    size_t wanted = first_from(at, is_strict ? number_behind(from->number) : from->number);
    look_first(at, from, is_strict, wanted);
    return wanted;
}

// The number of a tree's last key that is not behind this one, or that is before it, or of all its
// keys; KEYS where there is none.
static size_t last_to(size_t at, const struct key *to, bool is_strict) {
    size_t last = KEYS;
    for (size_t next = first_from(at, 0); next < KEYS; next = first_from(at, number_behind(next))) {
        struct key key = key_of(next);
        if (to != NULL && (is_strict ? !is_before(&key, to) : is_before(to, &key))) {
            break;
        }
        last = next;
    }
    return last;
}

static void expect_last(size_t at, const struct key *to, bool is_strict) {
    look_last(at, to, is_strict, last_to(at, to, is_strict));
    look_last_of_all(at, last_to(at, NULL, false));
}

// A walk from key to key meets as many as there are, in order.
static void walk(size_t at) {
    struct key last = {0};
    size_t met = 0;
    for (size_t next = expect_first(at, &last, false); next < KEYS;
         next = expect_first(at, &last, true)) {
        struct key key = key_of(next);
        EXPECT(met == 0 || is_before(&last, &key));
        last = key;
        met++;
    }
    EXPECT(met == tables[at].len);
}

static void count_common(size_t at, size_t other) {
    size_t wanted = 0;
    for (size_t key = 0; key < KEYS; key++) {
        wanted += tables[at].has[key] && tables[other].has[key];
    }
    EXPECT(CALL(common)(&trees[at], &trees[other]) == wanted);
}

// Trees are equal where they have the same keys with the same values.
static void expect_equals(size_t at, size_t other) {
    rart_answer wanted = RART_DONE;
    for (size_t key = 0; key < KEYS; key++) {
        bool is_here = tables[at].has[key], is_there = tables[other].has[key];
        if (is_here != is_there ||
            (is_there && !is_same(tables[at].values[key], tables[other].values[key]))) {
            wanted = RART_DIFFERENT;
        }
    }
    is_refused(CALL(equals)(&trees[at], &trees[other]), wanted);
}

static rart_answer combine(size_t at, size_t other, size_t to, bool is_common) {
    TREE *tree = &trees[at], *others = &trees[other], made = no_tree();
    if (random_below(2) == 0) {
        return is_common ? CALL(intersection)(tree, others, &trees[to])
                         : CALL(difference)(tree, others, &trees[to]);
    }
    rart_answer answer = is_common ? CALL(intersection_new)(tree, others, &made)
                                   : CALL(difference_new)(tree, others, &made);
    return keep_made(answer, &made, to);
}

// The pairs of a tree alone whose key another one has too; or lacks, or has with another value. (Of
// a visit that was refused memory more may be refused, until it ends.)
static void expect_part(size_t at, size_t other, size_t to, bool is_common) {
    struct key key = random_key();
    unsigned long long before = requests_refused();
    rart_answer answer = combine(at, other, to, is_common);
    if (is_refused(answer, RART_DONE)) {
        unheeded += requests_refused() - before - 1;
    } else {
        tables[to] = tables[at];
        for (size_t number = first_from(at, 0); number < KEYS;
             number = first_from(at, number_behind(number))) {
            bool is_there = tables[other].has[number];
            bool equals =
                is_there && is_same(tables[at].values[number], tables[other].values[number]);
            tables[to].has[number] = is_common ? is_there : !equals;
            tables[to].len -= !tables[to].has[number];
        }
    }
    expect_state(at, &key);
    expect_state(other, &key);
    expect_state(to, &key);
    read_all(to);
}

#include "saving.h"

struct bound {
    struct key key;
    uint8_t kind;
};

// (a kind that is none of the three is a bound that each key meets)
static struct bound random_bound(void) {
    return (struct bound){.key = random_key(), .kind = (uint8_t)random_below(5)};
}

// Whether a key meets a lower bound, and whether it meets an upper one.
static bool is_from(const struct key *key, const struct bound *low) {
    return low->kind == RART_INCLUDED   ? !is_before(key, &low->key)
           : low->kind == RART_EXCLUDED ? is_before(&low->key, key)
                                        : true;
}

static bool is_up_to(const struct key *key, const struct bound *high) {
    return high->kind == RART_INCLUDED   ? !is_before(&high->key, key)
           : high->kind == RART_EXCLUDED ? is_before(key, &high->key)
                                         : true;
}

// What pages are asked for: the pairs within two bounds, in an order.
struct range {
    struct bound low, high;
    bool descends;
};

// The number of a tree's next key of a range, KEYS where there is none.
static size_t next_within(size_t at, const struct range *range) {
    size_t last = KEYS;
    for (size_t next = first_from(at, 0); next < KEYS; next = first_from(at, number_behind(next))) {
        struct key key = key_of(next);
        if (is_from(&key, &range->low) && is_up_to(&key, &range->high)) {
            last = next;
            if (!range->descends) {
                break;
            }
        }
    }
    return last;
}

// The range behind this key of it.
static void go_on(struct range *range, size_t number) {
    struct bound behind = {.key = key_of(number), .kind = RART_EXCLUDED};
    *(range->descends ? &range->high : &range->low) = behind;
}

static void make_call(size_t at) {
    uint64_t what = random_below(2000);
    size_t other = (at + 1 + random_below(TREES - 1)) % TREES;
    struct key key = random_key();
    if (what < 1) {
        expect_new(at, random_below(8) > 0 ? 0 : UINT64_MAX - random_below(1000));
        expect_longest_key(at, random_below(4) > 0 ? MOST_BYTES : random_below(MOST_BYTES));
    } else if (what < 2) {
        expect_longest_key(at, MOST_BYTES);
    } else if (what < 20) {
        expect_copy(at, other, random_below(2) == 0);
        expect_equals(at, other);
    } else if (what < 37) {
        count_common(at, other);
        expect_equals(at, other);
    } else if (what < 40) {
        size_t third = other;
        while (third == at || third == other) {
            third = random_below(TREES);
        }
        expect_part(at, other, third, random_below(2) == 0);
    } else if (what < 60) {
        read_all(at);
    } else if (what < 62) {
        expect_save(at, other, VALUES);
    } else if (what < 70) {
        expect_last(at, &key, random_below(2) == 0);
    } else if (what < 72) {
        expect_prefix_snapshot(at, other, &key);
    } else if (what < 75) {
        expect_remove_prefix(at, &key);
    } else if (what < 77) {
        expect_restore_prefix(at, other, &key);
    } else if (what < 600) {
        look_longest(at, &key, longest_of(at, &key));
        expect_first(at, &key, random_below(2) == 0);
    } else if (what < 1300) {
        expect_take_out(at, &key);
    } else if (what < 1400) {
        expect_add(at, &key, random_below(UINT64_MAX));
        expect_replace(at, &key, random_below(UINT64_MAX));
    } else {
        expect_insert(at, &key, random_below(UINT64_MAX));
    }
    expect_state(at, &key);
}

// At the greatest number a change is refused, and changes nothing.
static void run_out(void) {
    const struct key tea = key_of(1), milk = key_of(2);
    expect_insert(1, &milk, 5);
    expect_new(0, UINT64_MAX - 1);
    expect_insert(0, &tea, 7);
    expect_insert(0, &tea, 8);
    expect_insert(0, &milk, 8);
    expect_add(0, &tea, 8);
    expect_add(0, &milk, 8);
    expect_replace(0, &tea, 8);
    expect_replace(0, &milk, 8);
    expect_take_out(0, &tea);
    expect_take_out(0, &milk);
    expect_remove_prefix(0, &tea);
    expect_remove_prefix(0, &milk);
    expect_prefix_snapshot(0, 1, &tea);
    expect_restore_prefix(0, 1, &tea);
    expect_copy(0, 1, true);
    expect_state(1, &milk);
    expect_copy(0, 1, false);
    expect_state(1, &tea);
    expect_new(1, 3);
}

// A key that is longer than a key may be is refused, and changes nothing.
static void run_long(void) {
    const struct key none = key_of(0), tea = key_of(1);
    expect_longest_key(2, 0);
    expect_insert(2, &tea, 7);
    expect_insert(2, &none, 7);
    expect_longest_key(2, MOST_BYTES);
    expect_copy(2, 3, true);
    expect_insert(3, &tea, 7);
    EXPECT(too_long == 2);
    expect_clear(2);
    expect_clear(3);
}

// Makes random calls. The first word is how many, 100,000 without it; with a second one new block
// in that many is refused, and some that are to be longer. Each refusal refuses one call, but those
// within pages and further ones within a visit, and at the end no block is left.
static int compare(int count, char **words, const char *values) {
    unsigned long long calls = count > 1 ? strtoull(words[1], NULL, 10) : 100000;
    for (size_t at = 0; at < TREES; at++) {
        begin_table(at, 0);
    }
    run_out();
    run_long();
    run_broken();
    refuse_one_in(count > 2 ? strtoull(words[2], NULL, 10) : 0);
    for (unsigned long long call = 0; call < calls; call++) {
        make_call(random_below(TREES));
    }
    refuse_one_in(0);
    EXPECT(refused + unheeded == requests_refused() && (refused > 0) == (count > 2));
    EXPECT((unheeded > 0) == (count > 2));
    EXPECT((reallocs_refused() > 0) == (count > 2));
    EXPECT(blocks_held() > 0);
    for (size_t at = 0; at < TREES; at++) {
        expect_clear(at);
    }
    CALL(clear)(NULL);
    EXPECT(blocks_held() == 0);
    printf("%llu calls on %s from C are as the tables say, %llu refused, of them %llu reallocs\n",
           calls, values, refused, reallocs_refused());
    return 0;
}

#endif
