// A versioned ordered map from byte strings to 64-bit numbers, or to byte strings. Keys are in the
// order of their bytes, as memcmp has it, a key before those that it begins. A snapshot or a clone
// is a map of its own, which shares its nodes with the first one: it takes no time for each key.
//
// It is proved that every function returns, never panics, and does what its comment says, except
// where the comment says "tested". Where a comment says that a function takes no memory, it is
// proved that the function can't be refused, and tested that it takes none. Tested are also that
// what is freed is given back, and that a function that only reads stores nothing in its tree: for
// such a function the const of a tree may be cast away.
//
// This is C99, and C++11. Written by ffi/generate.
#ifndef BOLTCOMFREY_H
#define BOLTCOMFREY_H

// The library's release. (rart_version is another thing: the number of a map.)
#define RART_RELEASE "0.3.0"

#include <stdbool.h>
#include <stddef.h>
#include <stdint.h>
#include <string.h>

// The library is built for 64 bits: elsewhere this array has no length that it may have.
typedef char rart_is_built_for_64_bits[sizeof(size_t) == 8 && sizeof(void *) == 8 ? 1 : -1];

// What compilers are told of each call, so that they tell of mistakes: pointers that are null or
// meet, answers that nobody looks at, buffers that are shorter than is said, or not yet written.
#if defined(__GNUC__)
#define RART_NONNULL __attribute__((nonnull))
#define RART_NONNULL_AT(...) __attribute__((nonnull(__VA_ARGS__)))
#define RART_MUST_USE __attribute__((warn_unused_result))
#define RART_ALONE __restrict
#else
#define RART_NONNULL
#define RART_NONNULL_AT(...)
#define RART_MUST_USE
#define RART_ALONE
#endif
#if defined(__GNUC__) && __GNUC__ >= 11
#define RART_READS(...) __attribute__((access(read_only, __VA_ARGS__)))
#define RART_WRITES(...) __attribute__((access(write_only, __VA_ARGS__)))
#define RART_CHANGES(at) __attribute__((access(read_write, at)))
#else
#define RART_READS(...)
#define RART_WRITES(...)
#define RART_CHANGES(at)
#endif

#ifdef __cplusplus
extern "C" {
#endif

// One version. All zeros is the map without a key, its number 0: in C `rart_tree tree = {0};` makes
// one, in C++ `rart_tree tree;`. `rart_clear` frees it. Never copy one by hand: `rart_snapshot` and
// `rart_clone` do. In C++ a copy does not compile.
typedef struct rart_tree {
    void *at;
#ifdef __cplusplus
    rart_tree() : at(nullptr) {}
    rart_tree(const rart_tree &) = delete;
    rart_tree &operator=(const rart_tree &) = delete;
#endif
} rart_tree;

// The same of a map to byte strings.
typedef struct rart_bytes {
    void *at;
#ifdef __cplusplus
    rart_bytes() : at(nullptr) {}
    rart_bytes(const rart_bytes &) = delete;
    rart_bytes &operator=(const rart_bytes &) = delete;
#endif
} rart_bytes;

// Where the key of an entry ends among the bytes of its page, and its value.
typedef struct rart_entry {
    size_t end;
    uint64_t value;
} rart_entry;

// The same of a map to byte strings: where its key ends, and where its value behind it.
typedef struct rart_bytes_entry {
    size_t key_end;
    size_t end;
} rart_bytes_entry;

// What a call answers.
typedef uint8_t rart_answer;
enum {
    // The call was done. Where it answers a value, there was one, and it is written.
    RART_DONE = 0,
    // There was no such key, and no value is written. Of an insertion: the key was new, and is set.
    // Of a page: no pair is there.
    RART_ABSENT = 1,
    // The number would be 2^64 or more. Nothing changed.
    RART_LAST_NUMBER = 2,
    // Memory was refused. No tree changed.
    RART_NO_MEMORY = 3,
    // The buffer is too small for what is read, whose length is written.
    RART_TOO_SMALL = 4,
    // The page has no room for an entry, and a pair is there.
    RART_NO_ENTRIES = 5,
    // The key, or one of bytes that are loaded, is longer than a key may be, or keys may be longer
    // in the tree that is put back. No tree changed.
    RART_TOO_LONG = 6,
    // The tree has a key, and how long one may be is set without any. Nothing changed.
    RART_NOT_EMPTY = 7,
    // The trees are not equal.
    RART_DIFFERENT = 8,
    // The bytes end before the version's end.
    RART_TRUNCATED = 9,
    // The bytes are of a format that this library doesn't read.
    RART_UNSUPPORTED = 10,
    // What begins at a place of the bytes stands in no version's form.
    RART_MALFORMED = 11,
    // The sum at the end is not that of the bytes before it.
    RART_WRONG_SUM = 12,
};

// Whether a change was not refused. What was to be taken out may have been absent, and what was to
// be new may have been there: by RART_DONE and RART_ABSENT the answer says which. It is for changes
// alone: a read that finds nothing answers RART_ABSENT too, and writes no value.
#define RART_OK(answer) ((answer) <= RART_ABSENT)

// What an answer says, in a few words.
static inline const char *rart_answer_text(rart_answer answer) {
    switch (answer) {
    case RART_DONE:
        return "done";
    case RART_ABSENT:
        return "no such key";
    case RART_LAST_NUMBER:
        return "the number can't be raised";
    case RART_NO_MEMORY:
        return "out of memory";
    case RART_TOO_SMALL:
        return "the buffer is too small";
    case RART_NO_ENTRIES:
        return "the page has no room for an entry";
    case RART_TOO_LONG:
        return "the key is too long";
    case RART_NOT_EMPTY:
        return "the tree has a key";
    case RART_DIFFERENT:
        return "the trees differ";
    case RART_TRUNCATED:
        return "the bytes end early";
    case RART_UNSUPPORTED:
        return "the format is another";
    case RART_MALFORMED:
        return "the bytes are no tree's";
    case RART_WRONG_SUM:
        return "the checksum is another";
    default:
        return "no answer";
    }
}

// Of what kind a bound of a page is.
enum {
    // The bound is a key that meets it.
    RART_INCLUDED = 0,
    // The bound is a key that doesn't meet it.
    RART_EXCLUDED = 1,
    // Each key meets the bound. Any greater number says so too.
    RART_UNBOUNDED = 2,
};

enum {
    // How many bytes a key may have at first.
    RART_LONGEST_KEY = 1024,
};

// What a program gives the library of memory: a block, or none where is_given is 0.
typedef struct rattle_block {
    size_t is_given;
    void *at;
} rattle_block;

// What the library asks for memory by: heap.c has it over malloc, and a program that links the
// archive may have its own in the place of heap.c. The shared library has these functions within it,
// and never calls a program's.
// - rattle_alloc gives a block of size bytes, of some where size is 0, at a multiple of align,
//   which is a power of two, 16 at most.
// - rattle_realloc gives such a block in place of another, which it takes back. The first kept bytes
//   of the other stand at its front, or as many of these as it has room for. The other block may be
//   longer than kept, which says how many bytes are in use: a heap that needs the length of a block
//   keeps it itself. Where it gives no block, the other one stays as it is.
// - rattle_dealloc takes a block back, whose length it isn't told.
rattle_block rattle_alloc(size_t size, size_t align);
rattle_block rattle_realloc(void *at, size_t kept, size_t size, size_t align);
void rattle_dealloc(void *at);

// Makes of a prefix the end of the keys that it begins, for the upper bound of a page, and gives
// its length: that bound is RART_EXCLUDED, but RART_UNBOUNDED where the length is 0.
static inline size_t rart_prefix_end(uint8_t *prefix, size_t len) {
    while (len > 0 && prefix[len - 1] == UINT8_MAX) {
        len--;
    }
    if (len > 0) {
        prefix[len - 1]++;
    }
    return len;
}

// What a caller owes to each call:
// - a tree is all zeros, or as a call left it, but where a call with _new makes it; it is copied
//   nowhere, and one that is moved leaves its old place all zeros;
// - no pointer is null, but of bytes or entries that are none (which rests on how the toolchain
//   compiles a call: it is tried with each archive, and no page promises it); rart_clear takes a
//   null tree, and what sets or takes out a key takes null for a value before that isn't wanted;
// - no pointer that a call writes to overlaps another: two trees of it are two, and no key that is
//   handed in lies in the room that the call writes to;
// - a buffer for keys is as long as rart_longest_key, which rart_clear and rart_new_at set back and
//   a copy has from its tree; where it is shorter, the program looks for RART_TOO_SMALL;
// - a loop over pages sets each next bound behind the last key, and has seen all pairs only where it
//   ended by RART_ABSENT: rart_walk does so, and pages are for programs that keep their own buffers
//   (FFI.md has such a loop);
// - trees that come from one tree, or have had pairs of another put back, also through others, stay
//   on one thread, as their nodes count who shares them; trees that have nothing to do with each
//   other may be on two;
// - no call is made in a signal handler, nor in a forked child;
// - rattle_alloc, rattle_realloc and rattle_dealloc do what stands with them above, on each thread
//   that has trees;
// - a thread has 500 bytes of stack for each byte that a key may have, and 16 KiB: at first 516 KiB
//   (measured, not proved).

// Makes copy the same map, its number one greater, and frees what copy was. Keys may be as long in
// it. RART_LAST_NUMBER says that the number can't be raised, RART_NO_MEMORY that memory was
// refused: copy is as before then.
RART_NONNULL RART_MUST_USE RART_CHANGES(1) RART_CHANGES(2)
rart_answer rart_snapshot(rart_tree *RART_ALONE tree, rart_tree *RART_ALONE copy);

// Makes copy the same map, its number too, and frees what copy was. Keys may be as long in it.
// RART_NO_MEMORY says that memory was refused: copy is as before then.
RART_NONNULL RART_MUST_USE RART_CHANGES(1) RART_CHANGES(2)
rart_answer rart_clone(rart_tree *RART_ALONE tree, rart_tree *RART_ALONE copy);

// Frees what the tree leads to, and leaves it without a key, with this number, keys as long as at
// first. RART_NO_MEMORY says that memory was refused: it is as before then.
RART_NONNULL RART_MUST_USE RART_CHANGES(1)
rart_answer rart_new_at(rart_tree *tree, uint64_t number);

// How many bytes a key may have: no key of the tree is longer.
RART_NONNULL RART_MUST_USE RART_CHANGES(1)
size_t rart_longest_key(rart_tree *tree);

// Sets how many bytes a key may have, of a tree without a key; its number stays. At first it is
// 1,024. RART_NOT_EMPTY says that there is a key, RART_NO_MEMORY that memory was refused: nothing
// changed then.
RART_NONNULL RART_MUST_USE RART_CHANGES(1)
rart_answer rart_set_longest_key(rart_tree *tree, size_t longest);

// The version's number. A key that is set or taken out raises it by one, a prefix that is put back
// by the other tree's.
RART_NONNULL RART_MUST_USE RART_CHANGES(1)
uint64_t rart_version(rart_tree *tree);

// How many keys there are.
RART_NONNULL RART_MUST_USE RART_CHANGES(1)
size_t rart_len(rart_tree *tree);

// Whether there is no key.
RART_NONNULL RART_MUST_USE RART_CHANGES(1)
bool rart_is_empty(rart_tree *tree);

// Answers RART_DONE and writes the value of a key, or answers RART_ABSENT. It takes no memory.
RART_NONNULL_AT(1, 4) RART_MUST_USE RART_CHANGES(1) RART_READS(2, 3) RART_WRITES(4)
rart_answer rart_get(
    rart_tree *RART_ALONE tree,
    const uint8_t *RART_ALONE key,
    size_t key_len,
    uint64_t *RART_ALONE value
);

// Answers RART_DONE and writes how long the longest key is that begins the probe, and its value, or
// answers RART_ABSENT. It takes no memory.
RART_NONNULL_AT(1, 4, 5) RART_MUST_USE RART_CHANGES(1) RART_READS(2, 3) RART_WRITES(4)
RART_WRITES(5)
rart_answer rart_longest(
    rart_tree *RART_ALONE tree,
    const uint8_t *RART_ALONE probe,
    size_t probe_len,
    size_t *RART_ALONE len,
    uint64_t *RART_ALONE value
);

// How many keys are in both trees. It takes no memory.
RART_NONNULL RART_MUST_USE RART_CHANGES(1) RART_CHANGES(2)
size_t rart_common(rart_tree *RART_ALONE tree, rart_tree *RART_ALONE other);

// Answers RART_DONE and writes the first key that is not before this one to the front of room, its
// length and its value; behind the key room is as before. Where room is shorter than that key it
// answers RART_TOO_SMALL and writes its length and no value; what room has then is unspecified.
// Where there is none it answers RART_ABSENT and writes nothing. It takes no memory.
RART_NONNULL_AT(1, 6, 7) RART_MUST_USE RART_CHANGES(1) RART_READS(2, 3) RART_WRITES(4, 5)
RART_WRITES(6) RART_WRITES(7)
rart_answer rart_seek(
    rart_tree *RART_ALONE tree,
    const uint8_t *RART_ALONE from,
    size_t from_len,
    uint8_t *RART_ALONE room,
    size_t room_len,
    size_t *RART_ALONE len,
    uint64_t *RART_ALONE value
);

// As rart_seek, of the keys behind this one.
RART_NONNULL_AT(1, 6, 7) RART_MUST_USE RART_CHANGES(1) RART_READS(2, 3) RART_WRITES(4, 5)
RART_WRITES(6) RART_WRITES(7)
rart_answer rart_next(
    rart_tree *RART_ALONE tree,
    const uint8_t *RART_ALONE after,
    size_t after_len,
    uint8_t *RART_ALONE room,
    size_t room_len,
    size_t *RART_ALONE len,
    uint64_t *RART_ALONE value
);

// As rart_seek, of the last key that is not behind this one.
RART_NONNULL_AT(1, 6, 7) RART_MUST_USE RART_CHANGES(1) RART_READS(2, 3) RART_WRITES(4, 5)
RART_WRITES(6) RART_WRITES(7)
rart_answer rart_seek_back(
    rart_tree *RART_ALONE tree,
    const uint8_t *RART_ALONE from,
    size_t from_len,
    uint8_t *RART_ALONE room,
    size_t room_len,
    size_t *RART_ALONE len,
    uint64_t *RART_ALONE value
);

// As rart_seek_back, of the keys before this one.
RART_NONNULL_AT(1, 6, 7) RART_MUST_USE RART_CHANGES(1) RART_READS(2, 3) RART_WRITES(4, 5)
RART_WRITES(6) RART_WRITES(7)
rart_answer rart_prev(
    rart_tree *RART_ALONE tree,
    const uint8_t *RART_ALONE before,
    size_t before_len,
    uint8_t *RART_ALONE room,
    size_t room_len,
    size_t *RART_ALONE len,
    uint64_t *RART_ALONE value
);

// As rart_seek, of the last key of all.
RART_NONNULL_AT(1, 4, 5) RART_MUST_USE RART_CHANGES(1) RART_WRITES(2, 3) RART_WRITES(4)
RART_WRITES(5)
rart_answer rart_last(
    rart_tree *RART_ALONE tree,
    uint8_t *RART_ALONE room,
    size_t room_len,
    size_t *RART_ALONE len,
    uint64_t *RART_ALONE value
);

// Frees what the tree leads to: it has no key then, its number is 0, and keys may be as long as at
// first. That it is all zeros then is tested alone.
RART_NONNULL RART_CHANGES(1)
void rart_clear(rart_tree *tree);

// Sets a key to a value, the number then one greater. Answers RART_DONE and writes the value that
// was replaced, or answers RART_ABSENT where the key is new. RART_TOO_LONG says that the key is
// longer than a key may be, RART_LAST_NUMBER that the number can't be raised, RART_NO_MEMORY that
// memory was refused: nothing changed then.
RART_NONNULL_AT(1, 5) RART_MUST_USE RART_CHANGES(1) RART_READS(2, 3) RART_WRITES(5)
rart_answer rart_insert(
    rart_tree *RART_ALONE tree,
    const uint8_t *RART_ALONE key,
    size_t key_len,
    uint64_t value,
    uint64_t *RART_ALONE replaced
);

// Takes a key out, the number then one greater. Answers RART_DONE and writes its value, or answers
// RART_ABSENT, and then nothing changed. RART_LAST_NUMBER says that the key is there and the number
// can't be raised, RART_NO_MEMORY that it is there and memory was refused: nothing changed then.
RART_NONNULL_AT(1, 4) RART_MUST_USE RART_CHANGES(1) RART_READS(2, 3) RART_WRITES(4)
rart_answer rart_remove(
    rart_tree *RART_ALONE tree,
    const uint8_t *RART_ALONE key,
    size_t key_len,
    uint64_t *RART_ALONE value
);

// Sets a key to a value where it is not there, the number then one greater, and answers
// RART_ABSENT. Where it is there nothing changes, and it answers RART_DONE and writes the value
// that is there. RART_TOO_LONG says that the key is longer than a key may be, RART_LAST_NUMBER that
// it is not there and the number can't be raised, RART_NO_MEMORY that it is not there and memory
// was refused: nothing changed then.
RART_NONNULL_AT(1, 5) RART_MUST_USE RART_CHANGES(1) RART_READS(2, 3) RART_WRITES(5)
rart_answer rart_add(
    rart_tree *RART_ALONE tree,
    const uint8_t *RART_ALONE key,
    size_t key_len,
    uint64_t value,
    uint64_t *RART_ALONE found
);

// Sets a key to a value where it is there, the number then one greater, and answers RART_DONE and
// writes the value that was replaced. Where it is not there nothing changes, and it answers
// RART_ABSENT. RART_LAST_NUMBER says that the key is there and the number can't be raised,
// RART_NO_MEMORY that it is there and memory was refused: nothing changed then.
RART_NONNULL_AT(1, 5) RART_MUST_USE RART_CHANGES(1) RART_READS(2, 3) RART_WRITES(5)
rart_answer rart_replace(
    rart_tree *RART_ALONE tree,
    const uint8_t *RART_ALONE key,
    size_t key_len,
    uint64_t value,
    uint64_t *RART_ALONE replaced
);

// Writes the first pairs within two bounds, as many as there is room for: their keys one behind the
// other to the front of bytes, an entry of each to the front of entries, and how many they are to
// count. What bytes has behind the keys is unspecified; entries is as before there. Answers
// RART_DONE where it has a pair, else count is 0: the next page begins RART_EXCLUDED at a copy of
// the last key, and pages are asked for until none is there, which answers RART_ABSENT.
// RART_NO_ENTRIES says that entries has no room for one that is there, RART_TOO_SMALL that the
// first key is longer than bytes, and writes its length to needed. A bound is of the kind
// RART_INCLUDED, RART_EXCLUDED or RART_UNBOUNDED. Memory that it takes to walk it gives back, and
// where it lacks some it searches from key to key: it is never refused. A program that calls this
// defines RART_PAGES before it includes this header.
RART_NONNULL_AT(1, 12, 13) RART_MUST_USE RART_CHANGES(1) RART_READS(2, 3) RART_READS(5, 6)
RART_WRITES(8, 9) RART_WRITES(10, 11) RART_WRITES(12) RART_WRITES(13)
rart_answer rart_page(
    rart_tree *RART_ALONE tree,
    const uint8_t *RART_ALONE low,
    size_t low_len,
    uint8_t low_kind,
    const uint8_t *RART_ALONE high,
    size_t high_len,
    uint8_t high_kind,
    uint8_t *RART_ALONE bytes,
    size_t bytes_len,
    rart_entry *RART_ALONE entries,
    size_t entries_len,
    size_t *RART_ALONE count,
    size_t *RART_ALONE needed
);

// As rart_page, from the last pair back: the last pairs within two bounds, descending, as many as
// there is room for. The next page has a copy of the key that was written last for its high, which
// is RART_EXCLUDED then. A program that calls this defines RART_PAGES before it includes this
// header.
RART_NONNULL_AT(1, 12, 13) RART_MUST_USE RART_CHANGES(1) RART_READS(2, 3) RART_READS(5, 6)
RART_WRITES(8, 9) RART_WRITES(10, 11) RART_WRITES(12) RART_WRITES(13)
rart_answer rart_page_back(
    rart_tree *RART_ALONE tree,
    const uint8_t *RART_ALONE low,
    size_t low_len,
    uint8_t low_kind,
    const uint8_t *RART_ALONE high,
    size_t high_len,
    uint8_t high_kind,
    uint8_t *RART_ALONE bytes,
    size_t bytes_len,
    rart_entry *RART_ALONE entries,
    size_t entries_len,
    size_t *RART_ALONE count,
    size_t *RART_ALONE needed
);

// Makes copy the same map, its number one greater, and frees what copy was. Keys may be as long in
// it. RART_LAST_NUMBER says that the number can't be raised, RART_NO_MEMORY that memory was
// refused: copy is as before then.
RART_NONNULL RART_MUST_USE RART_CHANGES(1) RART_CHANGES(2)
rart_answer rart_bytes_snapshot(rart_bytes *RART_ALONE tree, rart_bytes *RART_ALONE copy);

// Makes copy the same map, its number too, and frees what copy was. Keys may be as long in it.
// RART_NO_MEMORY says that memory was refused: copy is as before then.
RART_NONNULL RART_MUST_USE RART_CHANGES(1) RART_CHANGES(2)
rart_answer rart_bytes_clone(rart_bytes *RART_ALONE tree, rart_bytes *RART_ALONE copy);

// Frees what the tree leads to, and leaves it without a key, with this number, keys as long as at
// first. RART_NO_MEMORY says that memory was refused: it is as before then.
RART_NONNULL RART_MUST_USE RART_CHANGES(1)
rart_answer rart_bytes_new_at(rart_bytes *tree, uint64_t number);

// How many bytes a key may have: no key of the tree is longer.
RART_NONNULL RART_MUST_USE RART_CHANGES(1)
size_t rart_bytes_longest_key(rart_bytes *tree);

// Sets how many bytes a key may have, of a tree without a key; its number stays. At first it is
// 1,024. RART_NOT_EMPTY says that there is a key, RART_NO_MEMORY that memory was refused: nothing
// changed then.
RART_NONNULL RART_MUST_USE RART_CHANGES(1)
rart_answer rart_bytes_set_longest_key(rart_bytes *tree, size_t longest);

// The version's number. A key that is set or taken out raises it by one, a prefix that is put back
// by the other tree's.
RART_NONNULL RART_MUST_USE RART_CHANGES(1)
uint64_t rart_bytes_version(rart_bytes *tree);

// How many keys there are.
RART_NONNULL RART_MUST_USE RART_CHANGES(1)
size_t rart_bytes_len(rart_bytes *tree);

// Whether there is no key.
RART_NONNULL RART_MUST_USE RART_CHANGES(1)
bool rart_bytes_is_empty(rart_bytes *tree);

// Answers RART_DONE, writes the value of a key to the first bytes of into, and its length to len.
// RART_TOO_SMALL says that into has fewer bytes than the value: len is written then and nothing
// else. Answers RART_ABSENT where there is no such key. It takes no memory.
RART_NONNULL_AT(1, 6) RART_MUST_USE RART_CHANGES(1) RART_READS(2, 3) RART_WRITES(4, 5)
RART_WRITES(6)
rart_answer rart_bytes_get(
    rart_bytes *RART_ALONE tree,
    const uint8_t *RART_ALONE key,
    size_t key_len,
    uint8_t *RART_ALONE into,
    size_t into_len,
    size_t *RART_ALONE len
);

// Of the longest key that begins the probe: answers as rart_bytes_get of that key does, and where
// there is one writes how long it is to key_len, also where into is too small. It takes no memory.
RART_NONNULL_AT(1, 4, 7) RART_MUST_USE RART_CHANGES(1) RART_READS(2, 3) RART_WRITES(4)
RART_WRITES(5, 6) RART_WRITES(7)
rart_answer rart_bytes_longest(
    rart_bytes *RART_ALONE tree,
    const uint8_t *RART_ALONE probe,
    size_t probe_len,
    size_t *RART_ALONE key_len,
    uint8_t *RART_ALONE into,
    size_t into_len,
    size_t *RART_ALONE len
);

// How many keys are in both trees. It takes no memory.
RART_NONNULL RART_MUST_USE RART_CHANGES(1) RART_CHANGES(2)
size_t rart_bytes_common(rart_bytes *RART_ALONE tree, rart_bytes *RART_ALONE other);

// Answers RART_DONE, writes the first key that is not before this one to the front of room, its
// value to the front of into, and the lengths of both; behind them room and into are as before.
// Where the key is longer than room, or the value than into, it answers RART_TOO_SMALL and writes
// both lengths, the key where room has the bytes for it, and no value; what room has else is
// unspecified. Where there is none it answers RART_ABSENT and writes nothing. It takes no memory.
RART_NONNULL_AT(1, 6, 9) RART_MUST_USE RART_CHANGES(1) RART_READS(2, 3) RART_WRITES(4, 5)
RART_WRITES(6) RART_WRITES(7, 8) RART_WRITES(9)
rart_answer rart_bytes_seek(
    rart_bytes *RART_ALONE tree,
    const uint8_t *RART_ALONE from,
    size_t from_len,
    uint8_t *RART_ALONE room,
    size_t room_len,
    size_t *RART_ALONE key_len,
    uint8_t *RART_ALONE into,
    size_t into_len,
    size_t *RART_ALONE len
);

// As rart_bytes_seek, of the keys behind this one.
RART_NONNULL_AT(1, 6, 9) RART_MUST_USE RART_CHANGES(1) RART_READS(2, 3) RART_WRITES(4, 5)
RART_WRITES(6) RART_WRITES(7, 8) RART_WRITES(9)
rart_answer rart_bytes_next(
    rart_bytes *RART_ALONE tree,
    const uint8_t *RART_ALONE after,
    size_t after_len,
    uint8_t *RART_ALONE room,
    size_t room_len,
    size_t *RART_ALONE key_len,
    uint8_t *RART_ALONE into,
    size_t into_len,
    size_t *RART_ALONE len
);

// As rart_bytes_seek, of the last key that is not behind this one.
RART_NONNULL_AT(1, 6, 9) RART_MUST_USE RART_CHANGES(1) RART_READS(2, 3) RART_WRITES(4, 5)
RART_WRITES(6) RART_WRITES(7, 8) RART_WRITES(9)
rart_answer rart_bytes_seek_back(
    rart_bytes *RART_ALONE tree,
    const uint8_t *RART_ALONE from,
    size_t from_len,
    uint8_t *RART_ALONE room,
    size_t room_len,
    size_t *RART_ALONE key_len,
    uint8_t *RART_ALONE into,
    size_t into_len,
    size_t *RART_ALONE len
);

// As rart_bytes_seek_back, of the keys before this one.
RART_NONNULL_AT(1, 6, 9) RART_MUST_USE RART_CHANGES(1) RART_READS(2, 3) RART_WRITES(4, 5)
RART_WRITES(6) RART_WRITES(7, 8) RART_WRITES(9)
rart_answer rart_bytes_prev(
    rart_bytes *RART_ALONE tree,
    const uint8_t *RART_ALONE before,
    size_t before_len,
    uint8_t *RART_ALONE room,
    size_t room_len,
    size_t *RART_ALONE key_len,
    uint8_t *RART_ALONE into,
    size_t into_len,
    size_t *RART_ALONE len
);

// As rart_bytes_seek, of the last key of all.
RART_NONNULL_AT(1, 4, 7) RART_MUST_USE RART_CHANGES(1) RART_WRITES(2, 3) RART_WRITES(4)
RART_WRITES(5, 6) RART_WRITES(7)
rart_answer rart_bytes_last(
    rart_bytes *RART_ALONE tree,
    uint8_t *RART_ALONE room,
    size_t room_len,
    size_t *RART_ALONE key_len,
    uint8_t *RART_ALONE into,
    size_t into_len,
    size_t *RART_ALONE len
);

// Frees what the tree leads to: it has no key then, its number is 0, and keys may be as long as at
// first. That it is all zeros then is tested alone.
RART_NONNULL RART_CHANGES(1)
void rart_bytes_clear(rart_bytes *tree);

// Sets a key to a copy of the value, the number then one greater. Answers RART_DONE where a value
// was replaced, RART_ABSENT where the key is new. RART_TOO_LONG says that the key is longer than a
// key may be, RART_LAST_NUMBER that the number can't be raised, RART_NO_MEMORY that memory was
// refused: nothing changed then.
RART_NONNULL_AT(1) RART_MUST_USE RART_CHANGES(1) RART_READS(2, 3) RART_READS(4, 5)
rart_answer rart_bytes_insert(
    rart_bytes *RART_ALONE tree,
    const uint8_t *RART_ALONE key,
    size_t key_len,
    const uint8_t *RART_ALONE value,
    size_t value_len
);

// Takes a key out, the number then one greater. Answers RART_DONE, or RART_ABSENT where there is no
// such key, and then nothing changed. RART_LAST_NUMBER says that the key is there and the number
// can't be raised, RART_NO_MEMORY that it is there and memory was refused: nothing changed then.
RART_NONNULL_AT(1) RART_MUST_USE RART_CHANGES(1) RART_READS(2, 3)
rart_answer rart_bytes_remove(
    rart_bytes *RART_ALONE tree,
    const uint8_t *RART_ALONE key,
    size_t key_len
);

// Whether both trees have the same keys with the same values, whatever their numbers: answers
// RART_DONE where they have, else RART_DIFFERENT. RART_NO_MEMORY says that memory was refused, and
// tells nothing of the trees.
RART_NONNULL RART_MUST_USE RART_CHANGES(1) RART_CHANGES(2)
rart_answer rart_equals(rart_tree *RART_ALONE tree, rart_tree *RART_ALONE other);

// Makes part the map of the pairs of tree alone whose key other lacks, or has with another value,
// its number that of tree, and frees what part was. Keys may be as long in it as in tree. With the
// trees exchanged it is the other side of what differs. RART_NO_MEMORY says that memory was
// refused: part is as before then. It goes once through both, and takes memory for each pair of
// part.
RART_NONNULL RART_MUST_USE RART_CHANGES(1) RART_CHANGES(2) RART_CHANGES(3)
rart_answer rart_difference(
    rart_tree *RART_ALONE tree,
    rart_tree *RART_ALONE other,
    rart_tree *RART_ALONE part
);

// Makes part the map of the pairs of tree alone whose key other has too, its number that of tree,
// and frees what part was. Keys may be as long in it as in tree. RART_NO_MEMORY says that memory
// was refused: part is as before then. It goes through both only where keys of both can lie, and
// takes memory for each pair of part.
RART_NONNULL RART_MUST_USE RART_CHANGES(1) RART_CHANGES(2) RART_CHANGES(3)
rart_answer rart_intersection(
    rart_tree *RART_ALONE tree,
    rart_tree *RART_ALONE other,
    rart_tree *RART_ALONE part
);

// Sets a key to a copy of the value where it is not there, the number then one greater, and answers
// RART_ABSENT. Where it is there nothing changes, and it answers RART_DONE. RART_TOO_LONG says that
// the key is longer than a key may be, RART_LAST_NUMBER that it is not there and the number can't
// be raised, RART_NO_MEMORY that it is not there and memory was refused: nothing changed then.
RART_NONNULL_AT(1) RART_MUST_USE RART_CHANGES(1) RART_READS(2, 3) RART_READS(4, 5)
rart_answer rart_bytes_add(
    rart_bytes *RART_ALONE tree,
    const uint8_t *RART_ALONE key,
    size_t key_len,
    const uint8_t *RART_ALONE value,
    size_t value_len
);

// Sets a key to a copy of the value where it is there, the number then one greater, and answers
// RART_DONE. Where it is not there nothing changes, and it answers RART_ABSENT. RART_LAST_NUMBER
// says that the key is there and the number can't be raised, RART_NO_MEMORY that it is there and
// memory was refused: nothing changed then.
RART_NONNULL_AT(1) RART_MUST_USE RART_CHANGES(1) RART_READS(2, 3) RART_READS(4, 5)
rart_answer rart_bytes_replace(
    rart_bytes *RART_ALONE tree,
    const uint8_t *RART_ALONE key,
    size_t key_len,
    const uint8_t *RART_ALONE value,
    size_t value_len
);

// Whether both trees have the same keys with the same values, whatever their numbers: answers
// RART_DONE where they have, else RART_DIFFERENT. RART_NO_MEMORY says that memory was refused, and
// tells nothing of the trees.
RART_NONNULL RART_MUST_USE RART_CHANGES(1) RART_CHANGES(2)
rart_answer rart_bytes_equals(rart_bytes *RART_ALONE tree, rart_bytes *RART_ALONE other);

// Makes part the map of the pairs of tree alone whose key other lacks, or has with another value,
// its number that of tree, and frees what part was. Keys may be as long in it as in tree. With the
// trees exchanged it is the other side of what differs. RART_NO_MEMORY says that memory was
// refused: part is as before then. It goes once through both, and takes memory for each pair of
// part.
RART_NONNULL RART_MUST_USE RART_CHANGES(1) RART_CHANGES(2) RART_CHANGES(3)
rart_answer rart_bytes_difference(
    rart_bytes *RART_ALONE tree,
    rart_bytes *RART_ALONE other,
    rart_bytes *RART_ALONE part
);

// Makes part the map of the pairs of tree alone whose key other has too, its number that of tree,
// and frees what part was. Keys may be as long in it as in tree. RART_NO_MEMORY says that memory
// was refused: part is as before then. It goes through both only where keys of both can lie, and
// takes memory for each pair of part.
RART_NONNULL RART_MUST_USE RART_CHANGES(1) RART_CHANGES(2) RART_CHANGES(3)
rart_answer rart_bytes_intersection(
    rart_bytes *RART_ALONE tree,
    rart_bytes *RART_ALONE other,
    rart_bytes *RART_ALONE part
);

// Writes the first pairs within two bounds, as many as there is room for: to the front of bytes
// each key and its value behind it, an entry of each pair to the front of entries, and how many
// they are to count. What bytes has behind them is unspecified; entries is as before there. Answers
// as rart_page, but where RART_TOO_SMALL says that the first key and its value are longer than
// bytes: then it writes both lengths. A program that calls this defines RART_PAGES before it
// includes this header.
RART_NONNULL_AT(1, 12, 13, 14) RART_MUST_USE RART_CHANGES(1) RART_READS(2, 3) RART_READS(5, 6)
RART_WRITES(8, 9) RART_WRITES(10, 11) RART_WRITES(12) RART_WRITES(13) RART_WRITES(14)
rart_answer rart_bytes_page(
    rart_bytes *RART_ALONE tree,
    const uint8_t *RART_ALONE low,
    size_t low_len,
    uint8_t low_kind,
    const uint8_t *RART_ALONE high,
    size_t high_len,
    uint8_t high_kind,
    uint8_t *RART_ALONE bytes,
    size_t bytes_len,
    rart_bytes_entry *RART_ALONE entries,
    size_t entries_len,
    size_t *RART_ALONE count,
    size_t *RART_ALONE key_len,
    size_t *RART_ALONE len
);

// As rart_bytes_page, from the last pair back: the last pairs within two bounds, descending, as
// rart_page_back has them. A program that calls this defines RART_PAGES before it includes this
// header.
RART_NONNULL_AT(1, 12, 13, 14) RART_MUST_USE RART_CHANGES(1) RART_READS(2, 3) RART_READS(5, 6)
RART_WRITES(8, 9) RART_WRITES(10, 11) RART_WRITES(12) RART_WRITES(13) RART_WRITES(14)
rart_answer rart_bytes_page_back(
    rart_bytes *RART_ALONE tree,
    const uint8_t *RART_ALONE low,
    size_t low_len,
    uint8_t low_kind,
    const uint8_t *RART_ALONE high,
    size_t high_len,
    uint8_t high_kind,
    uint8_t *RART_ALONE bytes,
    size_t bytes_len,
    rart_bytes_entry *RART_ALONE entries,
    size_t entries_len,
    size_t *RART_ALONE count,
    size_t *RART_ALONE key_len,
    size_t *RART_ALONE len
);

// Takes out all pairs whose key the prefix begins, the number then one greater. Answers RART_DONE
// and writes how many there were, or answers RART_ABSENT where there is none, and then nothing
// changed. RART_LAST_NUMBER says that there is one and the number can't be raised, RART_NO_MEMORY
// that there is one and memory was refused: nothing changed then. It counts them, so it takes time
// by their number.
RART_NONNULL_AT(1, 4) RART_MUST_USE RART_CHANGES(1) RART_READS(2, 3) RART_WRITES(4)
rart_answer rart_remove_prefix(
    rart_tree *RART_ALONE tree,
    const uint8_t *RART_ALONE prefix,
    size_t prefix_len,
    size_t *RART_ALONE removed
);

// Makes part the map of the pairs alone whose key the prefix begins, its number one greater, and
// frees what part was. Keys may be as long in it. What stands below the prefix both share.
// RART_LAST_NUMBER says that the number can't be raised, RART_NO_MEMORY that memory was refused:
// part is as before then. It counts them, so it takes time by their number.
RART_NONNULL_AT(1, 4) RART_MUST_USE RART_CHANGES(1) RART_READS(2, 3) RART_CHANGES(4)
rart_answer rart_prefix_snapshot(
    rart_tree *RART_ALONE tree,
    const uint8_t *RART_ALONE prefix,
    size_t prefix_len,
    rart_tree *RART_ALONE part
);

// Puts in place of all pairs whose key the prefix begins those that another tree has there, the
// number then the sum of both; the others stay, and so does the other tree. RART_TOO_LONG says that
// keys may be longer in the other tree, RART_LAST_NUMBER that the sum is 2^64 or more,
// RART_NO_MEMORY that memory was refused: nothing changed then. Put back from its own snapshots, a
// tree about doubles its number each time. It counts the pairs that go and come, so it takes time
// by their number.
RART_NONNULL_AT(1, 4) RART_MUST_USE RART_CHANGES(1) RART_READS(2, 3) RART_CHANGES(4)
rart_answer rart_restore_prefix(
    rart_tree *RART_ALONE tree,
    const uint8_t *RART_ALONE prefix,
    size_t prefix_len,
    rart_tree *RART_ALONE from
);

// Takes out all pairs whose key the prefix begins, the number then one greater. Answers RART_DONE
// and writes how many there were, or answers RART_ABSENT where there is none, and then nothing
// changed. RART_LAST_NUMBER says that there is one and the number can't be raised, RART_NO_MEMORY
// that there is one and memory was refused: nothing changed then. It counts them, so it takes time
// by their number.
RART_NONNULL_AT(1, 4) RART_MUST_USE RART_CHANGES(1) RART_READS(2, 3) RART_WRITES(4)
rart_answer rart_bytes_remove_prefix(
    rart_bytes *RART_ALONE tree,
    const uint8_t *RART_ALONE prefix,
    size_t prefix_len,
    size_t *RART_ALONE removed
);

// Makes part the map of the pairs alone whose key the prefix begins, its number one greater, and
// frees what part was. Keys may be as long in it. What stands below the prefix both share.
// RART_LAST_NUMBER says that the number can't be raised, RART_NO_MEMORY that memory was refused:
// part is as before then. It counts them, so it takes time by their number.
RART_NONNULL_AT(1, 4) RART_MUST_USE RART_CHANGES(1) RART_READS(2, 3) RART_CHANGES(4)
rart_answer rart_bytes_prefix_snapshot(
    rart_bytes *RART_ALONE tree,
    const uint8_t *RART_ALONE prefix,
    size_t prefix_len,
    rart_bytes *RART_ALONE part
);

// Puts in place of all pairs whose key the prefix begins those that another tree has there, the
// number then the sum of both; the others stay, and so does the other tree. RART_TOO_LONG says that
// keys may be longer in the other tree, RART_LAST_NUMBER that the sum is 2^64 or more,
// RART_NO_MEMORY that memory was refused: nothing changed then. Put back from its own snapshots, a
// tree about doubles its number each time. It counts the pairs that go and come, so it takes time
// by their number.
RART_NONNULL_AT(1, 4) RART_MUST_USE RART_CHANGES(1) RART_READS(2, 3) RART_CHANGES(4)
rart_answer rart_bytes_restore_prefix(
    rart_bytes *RART_ALONE tree,
    const uint8_t *RART_ALONE prefix,
    size_t prefix_len,
    rart_bytes *RART_ALONE from
);

// Writes to len how many bytes rart_save writes, and answers RART_DONE. It goes through all pairs,
// and takes memory for the way and for one of them: RART_NO_MEMORY says that it was refused, and
// len is as before then.
RART_NONNULL RART_MUST_USE RART_CHANGES(1) RART_WRITES(2)
rart_answer rart_saved_len(rart_tree *RART_ALONE tree, size_t *RART_ALONE len);

// Writes the version as bytes to the front of into, and how many they are to len: its map and its
// number, and a sum of all, in the one form that they have. Answers RART_DONE; the other bytes of
// into are as before. RART_TOO_SMALL says that into has fewer, and len is written too;
// RART_NO_MEMORY that memory was refused, of which it takes what rart_saved_len does. What into has
// after these two answers is unspecified.
RART_NONNULL_AT(1, 4) RART_MUST_USE RART_CHANGES(1) RART_WRITES(2, 3) RART_WRITES(4)
rart_answer rart_save(
    rart_tree *RART_ALONE tree,
    uint8_t *RART_ALONE into,
    size_t into_len,
    size_t *RART_ALONE len
);

// Makes the tree the version whose bytes these are, as rart_save writes them, and frees what it
// was. Keys may be as long as before. Answers RART_DONE; with any other answer it is as before.
// RART_TRUNCATED says that the bytes end early, RART_UNSUPPORTED that their format is another,
// RART_MALFORMED that what begins at bytes[offset] stands in no form, RART_TOO_LONG that the key
// whose form begins there is longer than a key may be, RART_WRONG_SUM that the sum at the end is
// another. RART_NO_MEMORY says that memory was refused, which is asked for as bytes come: no length
// in them is believed. offset is written with RART_MALFORMED and RART_TOO_LONG alone, and is less
// than the length of bytes then. What rart_save wrote has no answers but RART_DONE, RART_TOO_LONG
// and RART_NO_MEMORY; which other one comes of other bytes, and that offset is the byte to look at,
// is tested alone.
RART_NONNULL_AT(1, 4) RART_MUST_USE RART_CHANGES(1) RART_READS(2, 3) RART_WRITES(4)
rart_answer rart_load(
    rart_tree *RART_ALONE tree,
    const uint8_t *RART_ALONE bytes,
    size_t bytes_len,
    size_t *RART_ALONE offset
);

// Writes to len how many bytes rart_bytes_save writes, and answers RART_DONE. It goes through all
// pairs, and takes memory for the way and for one of them: RART_NO_MEMORY says that it was refused,
// and len is as before then.
RART_NONNULL RART_MUST_USE RART_CHANGES(1) RART_WRITES(2)
rart_answer rart_bytes_saved_len(rart_bytes *RART_ALONE tree, size_t *RART_ALONE len);

// Writes the version as bytes to the front of into, and how many they are to len: its map and its
// number, and a sum of all, in the one form that they have. Answers RART_DONE; the other bytes of
// into are as before. RART_TOO_SMALL says that into has fewer, and len is written too;
// RART_NO_MEMORY that memory was refused, of which it takes what rart_bytes_saved_len does. What
// into has after these two answers is unspecified.
RART_NONNULL_AT(1, 4) RART_MUST_USE RART_CHANGES(1) RART_WRITES(2, 3) RART_WRITES(4)
rart_answer rart_bytes_save(
    rart_bytes *RART_ALONE tree,
    uint8_t *RART_ALONE into,
    size_t into_len,
    size_t *RART_ALONE len
);

// Makes the tree the version whose bytes these are, as rart_bytes_save writes them, and frees what
// it was. Keys may be as long as before. Answers RART_DONE; with any other answer it is as before.
// RART_TRUNCATED says that the bytes end early, RART_UNSUPPORTED that their format is another,
// RART_MALFORMED that what begins at bytes[offset] stands in no form, RART_TOO_LONG that the key
// whose form begins there is longer than a key may be, RART_WRONG_SUM that the sum at the end is
// another. RART_NO_MEMORY says that memory was refused, which is asked for as bytes come: no length
// in them is believed. offset is written with RART_MALFORMED and RART_TOO_LONG alone, and is less
// than the length of bytes then. What rart_bytes_save wrote has no answers but RART_DONE,
// RART_TOO_LONG and RART_NO_MEMORY; which other one comes of other bytes, and that offset is the
// byte to look at, is tested alone.
RART_NONNULL_AT(1, 4) RART_MUST_USE RART_CHANGES(1) RART_READS(2, 3) RART_WRITES(4)
rart_answer rart_bytes_load(
    rart_bytes *RART_ALONE tree,
    const uint8_t *RART_ALONE bytes,
    size_t bytes_len,
    size_t *RART_ALONE offset
);

// The calls that take null for a tree that is cleared, or for a value before that isn't wanted: of
// these names the library's own functions, which don't, are written in brackets, as
// (rart_clear)(tree).

static inline void rart_clear_any(rart_tree *tree) {
    if (tree != NULL) {
        (rart_clear)(tree);
    }
}
#define rart_clear(...) rart_clear_any(__VA_ARGS__)

RART_NONNULL_AT(1) RART_MUST_USE RART_CHANGES(1) RART_READS(2, 3) RART_WRITES(5)
static inline rart_answer rart_insert_any(rart_tree *RART_ALONE tree, const uint8_t *RART_ALONE key,
    size_t key_len, uint64_t value, uint64_t *RART_ALONE replaced) {
    uint64_t unwanted;
    return (rart_insert)(tree, key, key_len, value, replaced != NULL ? replaced : &unwanted);
}
#define rart_insert(...) rart_insert_any(__VA_ARGS__)

RART_NONNULL_AT(1) RART_MUST_USE RART_CHANGES(1) RART_READS(2, 3) RART_WRITES(4)
static inline rart_answer rart_remove_any(rart_tree *RART_ALONE tree, const uint8_t *RART_ALONE key,
    size_t key_len, uint64_t *RART_ALONE value) {
    uint64_t unwanted;
    return (rart_remove)(tree, key, key_len, value != NULL ? value : &unwanted);
}
#define rart_remove(...) rart_remove_any(__VA_ARGS__)

RART_NONNULL_AT(1) RART_MUST_USE RART_CHANGES(1) RART_READS(2, 3) RART_WRITES(5)
static inline rart_answer rart_add_any(rart_tree *RART_ALONE tree, const uint8_t *RART_ALONE key,
    size_t key_len, uint64_t value, uint64_t *RART_ALONE found) {
    uint64_t unwanted;
    return (rart_add)(tree, key, key_len, value, found != NULL ? found : &unwanted);
}
#define rart_add(...) rart_add_any(__VA_ARGS__)

RART_NONNULL_AT(1) RART_MUST_USE RART_CHANGES(1) RART_READS(2, 3) RART_WRITES(5)
static inline rart_answer rart_replace_any(rart_tree *RART_ALONE tree,
    const uint8_t *RART_ALONE key, size_t key_len, uint64_t value, uint64_t *RART_ALONE replaced) {
    uint64_t unwanted;
    return (rart_replace)(tree, key, key_len, value, replaced != NULL ? replaced : &unwanted);
}
#define rart_replace(...) rart_replace_any(__VA_ARGS__)

static inline void rart_bytes_clear_any(rart_bytes *tree) {
    if (tree != NULL) {
        (rart_bytes_clear)(tree);
    }
}
#define rart_bytes_clear(...) rart_bytes_clear_any(__VA_ARGS__)

// The calls that make a tree, for a place that holds none: as those without _new, but that what
// stands there isn't looked at. So it need not be all zeros, and a tree that stood there is lost.
// Where such a call is refused, the place is the map without a key.

RART_NONNULL RART_MUST_USE RART_CHANGES(1) RART_WRITES(2)
static inline rart_answer rart_snapshot_new(rart_tree *RART_ALONE tree,
    rart_tree *RART_ALONE copy) {
    rart_tree made;
    made.at = NULL;
    rart_answer answer = rart_snapshot(tree, &made);
    copy->at = made.at;
    return answer;
}

RART_NONNULL RART_MUST_USE RART_CHANGES(1) RART_WRITES(2)
static inline rart_answer rart_clone_new(rart_tree *RART_ALONE tree, rart_tree *RART_ALONE copy) {
    rart_tree made;
    made.at = NULL;
    rart_answer answer = rart_clone(tree, &made);
    copy->at = made.at;
    return answer;
}

RART_NONNULL RART_MUST_USE RART_CHANGES(1) RART_WRITES(2)
static inline rart_answer rart_bytes_snapshot_new(rart_bytes *RART_ALONE tree,
    rart_bytes *RART_ALONE copy) {
    rart_bytes made;
    made.at = NULL;
    rart_answer answer = rart_bytes_snapshot(tree, &made);
    copy->at = made.at;
    return answer;
}

RART_NONNULL RART_MUST_USE RART_CHANGES(1) RART_WRITES(2)
static inline rart_answer rart_bytes_clone_new(rart_bytes *RART_ALONE tree,
    rart_bytes *RART_ALONE copy) {
    rart_bytes made;
    made.at = NULL;
    rart_answer answer = rart_bytes_clone(tree, &made);
    copy->at = made.at;
    return answer;
}

RART_NONNULL RART_MUST_USE RART_CHANGES(1) RART_CHANGES(2) RART_WRITES(3)
static inline rart_answer rart_difference_new(rart_tree *RART_ALONE tree,
    rart_tree *RART_ALONE other, rart_tree *RART_ALONE part) {
    rart_tree made;
    made.at = NULL;
    rart_answer answer = rart_difference(tree, other, &made);
    part->at = made.at;
    return answer;
}

RART_NONNULL RART_MUST_USE RART_CHANGES(1) RART_CHANGES(2) RART_WRITES(3)
static inline rart_answer rart_intersection_new(rart_tree *RART_ALONE tree,
    rart_tree *RART_ALONE other, rart_tree *RART_ALONE part) {
    rart_tree made;
    made.at = NULL;
    rart_answer answer = rart_intersection(tree, other, &made);
    part->at = made.at;
    return answer;
}

RART_NONNULL RART_MUST_USE RART_CHANGES(1) RART_CHANGES(2) RART_WRITES(3)
static inline rart_answer rart_bytes_difference_new(rart_bytes *RART_ALONE tree,
    rart_bytes *RART_ALONE other, rart_bytes *RART_ALONE part) {
    rart_bytes made;
    made.at = NULL;
    rart_answer answer = rart_bytes_difference(tree, other, &made);
    part->at = made.at;
    return answer;
}

RART_NONNULL RART_MUST_USE RART_CHANGES(1) RART_CHANGES(2) RART_WRITES(3)
static inline rart_answer rart_bytes_intersection_new(rart_bytes *RART_ALONE tree,
    rart_bytes *RART_ALONE other, rart_bytes *RART_ALONE part) {
    rart_bytes made;
    made.at = NULL;
    rart_answer answer = rart_bytes_intersection(tree, other, &made);
    part->at = made.at;
    return answer;
}

RART_NONNULL_AT(1, 4) RART_MUST_USE RART_CHANGES(1) RART_READS(2, 3) RART_WRITES(4)
static inline rart_answer rart_prefix_snapshot_new(rart_tree *RART_ALONE tree,
    const uint8_t *RART_ALONE prefix, size_t prefix_len, rart_tree *RART_ALONE part) {
    rart_tree made;
    made.at = NULL;
    rart_answer answer = rart_prefix_snapshot(tree, prefix, prefix_len, &made);
    part->at = made.at;
    return answer;
}

RART_NONNULL_AT(1, 4) RART_MUST_USE RART_CHANGES(1) RART_READS(2, 3) RART_WRITES(4)
static inline rart_answer rart_bytes_prefix_snapshot_new(rart_bytes *RART_ALONE tree,
    const uint8_t *RART_ALONE prefix, size_t prefix_len, rart_bytes *RART_ALONE part) {
    rart_bytes made;
    made.at = NULL;
    rart_answer answer = rart_bytes_prefix_snapshot(tree, prefix, prefix_len, &made);
    part->at = made.at;
    return answer;
}

// The bounds of a walk, the kind of each, and in which order it goes: copies that the walk has of its
// own. Keys and prefixes of up to so many bytes have room.
#ifndef RART_WALK_ROOM
#define RART_WALK_ROOM 2048
#endif
typedef struct rart_walk_bounds {
    size_t low_len, high_len;
    uint8_t low_kind, high_kind;
    bool goes_back;
    uint8_t low[RART_WALK_ROOM], high[RART_WALK_ROOM];
} rart_walk_bounds;

// Sets bounds from low on, or from the first key on where it has no byte, up to high, which isn't
// met, or to the last key where it has no byte. Answers RART_TOO_LONG where one has no room.
static inline rart_answer rart_walk_bound(rart_walk_bounds *bounds, const void *low, size_t low_len,
                                          const void *high, size_t high_len) {
    if (low_len > RART_WALK_ROOM || high_len > RART_WALK_ROOM) {
        return RART_TOO_LONG;
    }
    if (low_len > 0) {
        memcpy(bounds->low, low, low_len);
    }
    if (high_len > 0) {
        memcpy(bounds->high, high, high_len);
    }
    bounds->low_len = low_len;
    bounds->low_kind = RART_INCLUDED;
    bounds->high_len = high_len;
    bounds->high_kind = high_len > 0 ? RART_EXCLUDED : RART_UNBOUNDED;
    bounds->goes_back = false;
    return RART_DONE;
}

// Sets bounds to the keys that a prefix begins.
static inline rart_answer rart_walk_bound_prefix(rart_walk_bounds *bounds, const void *prefix,
                                                 size_t len) {
    rart_answer answer = rart_walk_bound(bounds, prefix, len, prefix, len);
    if (answer == RART_DONE) {
        bounds->high_len = rart_prefix_end(bounds->high, len);
        bounds->high_kind = bounds->high_len > 0 ? RART_EXCLUDED : RART_UNBOUNDED;
    }
    return answer;
}

// Sets the bound that comes next to a key, which was given last.
static inline void rart_walk_bound_past(rart_walk_bounds *bounds, const uint8_t *key, size_t len) {
    memcpy(bounds->goes_back ? bounds->high : bounds->low, key, len);
    if (bounds->goes_back) {
        bounds->high_len = len;
        bounds->high_kind = RART_EXCLUDED;
    } else {
        bounds->low_len = len;
        bounds->low_kind = RART_EXCLUDED;
    }
}

// A walk over pairs of a tree of numbers, by pages:
//
//     rart_walk walk;
//     rart_walk_prefix(&walk, &tree, "te", 2);
//     while (rart_walk_next(&walk)) {
//         use(walk.key, walk.key_len, walk.value);
//     }
//
// The key stands in the walk until the next step. The walk ends in any case, and then answer says
// why: RART_ABSENT that all pairs were given, RART_TOO_LONG that a bound has more bytes than
// RART_WALK_ROOM, RART_TOO_SMALL that the next key has, whose length is needed; a program may define
// RART_WALK_ROOM before it includes this header. It is never refused for memory. The tree may be
// changed meanwhile: each pair that is there all the time is given once, and one that is set or taken
// out meanwhile may be given as it was. A walk may be copied by =; the key of the copy stands in the
// first one until the copy's next step. A walk is tested, and not proved; the pages under it are
// proved.
typedef struct rart_walk {
    const uint8_t *key;
    size_t key_len;
    uint64_t value;
    rart_answer answer;
    size_t needed;
    // how far it has come
    rart_tree *tree;
    size_t at, count, start;
    rart_walk_bounds bounds;
    uint8_t bytes[RART_WALK_ROOM];
    rart_entry entries[64];
} rart_walk;

// Over the pairs from low on, up to high, which isn't met. Without bytes the one is the first key,
// the other the end.
static inline void rart_walk_range(rart_walk *walk, rart_tree *tree, const void *low,
                                   size_t low_len, const void *high, size_t high_len) {
    walk->tree = tree;
    walk->at = walk->count = 0;
    walk->answer = rart_walk_bound(&walk->bounds, low, low_len, high, high_len);
}

// Over the pairs whose key the prefix begins.
static inline void rart_walk_prefix(rart_walk *walk, rart_tree *tree, const void *prefix,
                                    size_t len) {
    walk->tree = tree;
    walk->at = walk->count = 0;
    walk->answer = rart_walk_bound_prefix(&walk->bounds, prefix, len);
}

// Over all pairs.
static inline void rart_walk_all(rart_walk *walk, rart_tree *tree) {
    rart_walk_range(walk, tree, NULL, 0, NULL, 0);
}

// Over the pairs behind a key, which need not be there: a program that keeps the last key of a walk
// goes on with it later.
static inline void rart_walk_after(rart_walk *walk, rart_tree *tree, const void *key,
                                   size_t key_len) {
    rart_walk_range(walk, tree, key, key_len, NULL, 0);
    walk->bounds.low_kind = RART_EXCLUDED;
}

// Has a walk go from the last pair back. One that has given a pair goes on as before.
static inline void rart_walk_back(rart_walk *walk) {
    walk->bounds.goes_back = walk->bounds.goes_back || walk->count == 0;
}

// Goes on to the next pair, and tells whether there is one.
static inline bool rart_walk_next(rart_walk *walk) {
    rart_walk_bounds *bounds = &walk->bounds;
    if (walk->at == walk->count) {
        if (walk->answer != RART_DONE) {
            return false;
        }
        if (walk->count > 0) {
            const uint8_t *last = walk->bytes + (walk->start - walk->key_len);
            rart_walk_bound_past(bounds, last, walk->key_len);
        }
        walk->answer = (bounds->goes_back ? rart_page_back : rart_page)(
            walk->tree, bounds->low, bounds->low_len, bounds->low_kind, bounds->high,
            bounds->high_len, bounds->high_kind, walk->bytes, sizeof walk->bytes, walk->entries,
            sizeof walk->entries / sizeof *walk->entries, &walk->count, &walk->needed);
        walk->at = walk->start = 0;
        if (walk->answer != RART_DONE) {
            walk->count = 0;
            return false;
        }
    }
    const rart_entry *entry = &walk->entries[walk->at++];
    walk->key = walk->bytes + walk->start;
    walk->key_len = entry->end - walk->start;
    walk->value = entry->value;
    walk->start = entry->end;
    return true;
}

// As rart_walk, over a tree of byte strings. The program hands in a room, which has the keys and
// values of a page. RART_TOO_SMALL says that the next key, of needed bytes, and its value, of
// value_needed bytes, are longer than the room: rart_bytes_walk_room gives the walk another one, and
// it goes on with that pair.
typedef struct rart_bytes_walk {
    const uint8_t *key;
    size_t key_len;
    const uint8_t *value;
    size_t value_len;
    rart_answer answer;
    size_t needed, value_needed;
    // how far it has come
    rart_bytes *tree;
    uint8_t *room;
    size_t room_len, at, count, start;
    rart_walk_bounds bounds;
    rart_bytes_entry entries[64];
} rart_bytes_walk;

static inline void rart_bytes_walk_begin(rart_bytes_walk *walk, rart_bytes *tree, void *room,
                                         size_t room_len) {
    walk->tree = tree;
    walk->room = (uint8_t *)room;
    walk->room_len = room_len;
    walk->at = walk->count = 0;
}

static inline void rart_bytes_walk_range(rart_bytes_walk *walk, rart_bytes *tree, void *room,
                                         size_t room_len, const void *low, size_t low_len,
                                         const void *high, size_t high_len) {
    rart_bytes_walk_begin(walk, tree, room, room_len);
    walk->answer = rart_walk_bound(&walk->bounds, low, low_len, high, high_len);
}

static inline void rart_bytes_walk_prefix(rart_bytes_walk *walk, rart_bytes *tree, void *room,
                                          size_t room_len, const void *prefix, size_t len) {
    rart_bytes_walk_begin(walk, tree, room, room_len);
    walk->answer = rart_walk_bound_prefix(&walk->bounds, prefix, len);
}

static inline void rart_bytes_walk_all(rart_bytes_walk *walk, rart_bytes *tree, void *room,
                                       size_t room_len) {
    rart_bytes_walk_range(walk, tree, room, room_len, NULL, 0, NULL, 0);
}

static inline void rart_bytes_walk_after(rart_bytes_walk *walk, rart_bytes *tree, void *room,
                                         size_t room_len, const void *key, size_t key_len) {
    rart_bytes_walk_range(walk, tree, room, room_len, key, key_len, NULL, 0);
    walk->bounds.low_kind = RART_EXCLUDED;
}

static inline void rart_bytes_walk_back(rart_bytes_walk *walk) {
    walk->bounds.goes_back = walk->bounds.goes_back || walk->count == 0;
}

// Gives a walk that has ended for want of room another one, of which it goes on.
static inline void rart_bytes_walk_room(rart_bytes_walk *walk, void *room, size_t room_len) {
    walk->room = (uint8_t *)room;
    walk->room_len = room_len;
    if (walk->answer == RART_TOO_SMALL) {
        walk->answer = RART_DONE;
    }
}

static inline bool rart_bytes_walk_next(rart_bytes_walk *walk) {
    rart_walk_bounds *bounds = &walk->bounds;
    if (walk->at == walk->count) {
        if (walk->answer != RART_DONE) {
            return false;
        }
        if (walk->count > 0 && walk->key_len > RART_WALK_ROOM) {
            walk->answer = RART_TOO_LONG;
            return false;
        }
        if (walk->count > 0) {
            rart_walk_bound_past(bounds, walk->key, walk->key_len);
        }
        walk->answer = (bounds->goes_back ? rart_bytes_page_back : rart_bytes_page)(
            walk->tree, bounds->low, bounds->low_len, bounds->low_kind, bounds->high,
            bounds->high_len, bounds->high_kind, walk->room, walk->room_len, walk->entries,
            sizeof walk->entries / sizeof *walk->entries, &walk->count, &walk->needed,
            &walk->value_needed);
        walk->at = walk->start = 0;
        if (walk->answer != RART_DONE) {
            walk->count = 0;
            return false;
        }
    }
    const rart_bytes_entry *entry = &walk->entries[walk->at++];
    walk->key = walk->room + walk->start;
    walk->key_len = entry->key_end - walk->start;
    walk->value = walk->room + entry->key_end;
    walk->value_len = entry->end - entry->key_end;
    walk->start = entry->end;
    return true;
}

#ifdef __cplusplus
}
#endif

// A loop over pages that doesn't move its bound never ends, and no compiler tells of it: so where
// RART_PAGES isn't defined, a program that calls for a page doesn't compile. A walk always ends.
#if defined(__GNUC__) && !defined(RART_PAGES)
#if defined(__clang__) || __GNUC__ >= 12
#define RART_NO_PAGES                                                                              \
    __attribute__((unavailable("take rart_walk, or define RART_PAGES before boltcomfrey.h is "     \
                               "included for the first time")))
#pragma GCC diagnostic push
#pragma GCC diagnostic ignored "-Wredundant-decls"
RART_NO_PAGES __typeof__(rart_page) rart_page;
RART_NO_PAGES __typeof__(rart_page_back) rart_page_back;
RART_NO_PAGES __typeof__(rart_bytes_page) rart_bytes_page;
RART_NO_PAGES __typeof__(rart_bytes_page_back) rart_bytes_page_back;
#pragma GCC diagnostic pop
#else
#pragma GCC poison rart_page rart_page_back rart_bytes_page rart_bytes_page_back
#endif
#endif

#endif
