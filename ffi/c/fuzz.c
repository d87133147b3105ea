// Files that are no tree's, and some that are: trees are saved, their bytes are changed or made up,
// mostly with a right sum behind them, and loaded. What is loaded has the same bytes again; what is
// refused leaves its tree; and the memory that is asked for is a small multiple of the bytes.
//
//   fuzz FILES
#include "boltcomfrey.h"
#include "expect.h"
#include "random.h"
#include <string.h>

// ---- memory, counted

// What stands before each block: how many bytes it has. (As long as a block is aligned.)
enum { HEAD = 16 };

static size_t held, most_held;

static rattle_block resized(void *at, size_t size, size_t align) {
    size_t old_size = 0;
    if (at != NULL) {
        at = (uint8_t *)at - HEAD;
        memcpy(&old_size, at, sizeof old_size);
    }
    EXPECT(align <= HEAD);
    at = realloc(at, size + HEAD);
    EXPECT(at != NULL);
    memcpy(at, &size, sizeof size);
    held += size - old_size;
    most_held = held > most_held ? held : most_held;
    return (rattle_block){true, (uint8_t *)at + HEAD};
}

rattle_block rattle_alloc(size_t size, size_t align) {
    return resized(NULL, size, align);
}

rattle_block rattle_realloc(void *at, size_t kept, size_t size, size_t align) {
    (void)kept;
    return resized(at, size, align);
}

void rattle_dealloc(void *at) {
    size_t size;
    memcpy(&size, (uint8_t *)at - HEAD, sizeof size);
    held -= size;
    free((uint8_t *)at - HEAD);
}

// ---- the sum (FIPS 180-4)

__extension__ typedef unsigned __int128 wide;

static uint32_t round_constants[64], first_state[8];

// The first 32 bits of the fractions of the cube roots of the first 64 primes, and of the square
// roots of the first eight. (In 128 bits the powers below are exact.)
static void make_constants(void) {
    for (uint32_t prime = 2, count = 0; count < 64; prime++) {
        bool is_prime = true;
        for (uint32_t least = 2; least * least <= prime; least++) {
            is_prime = is_prime && prime % least != 0;
        }
        if (!is_prime) {
            continue;
        }
        wide root = 0, square = 0;
        for (uint64_t bit = (uint64_t)1 << 39; bit > 0; bit >>= 1) {
            wide next = root + bit, other = square + bit;
            root = next * next * next <= (wide)prime << 96 ? next : root;
            square = other * other <= (wide)prime << 64 ? other : square;
        }
        if (count < 8) {
            first_state[count] = (uint32_t)square;
        }
        round_constants[count++] = (uint32_t)root;
    }
}

static uint32_t turned(uint32_t word, unsigned bits) {
    return word >> bits | word << (32 - bits);
}

static void take_block(uint32_t state[8], const uint8_t *block) {
    uint32_t words[64], s[8];
    for (int at = 0; at < 64; at++) {
        if (at < 16) {
            words[at] = (uint32_t)block[4 * at] << 24 | (uint32_t)block[4 * at + 1] << 16 |
                        (uint32_t)block[4 * at + 2] << 8 | block[4 * at + 3];
            continue;
        }
        uint32_t a = words[at - 15], b = words[at - 2];
        words[at] = words[at - 16] + (turned(a, 7) ^ turned(a, 18) ^ a >> 3) + words[at - 7] +
                    (turned(b, 17) ^ turned(b, 19) ^ b >> 10);
    }
    memcpy(s, state, sizeof s);
    for (int at = 0; at < 64; at++) {
        uint32_t one = s[7] + (turned(s[4], 6) ^ turned(s[4], 11) ^ turned(s[4], 25)) +
                       ((s[4] & s[5]) ^ (~s[4] & s[6])) + round_constants[at] + words[at];
        uint32_t two = (turned(s[0], 2) ^ turned(s[0], 13) ^ turned(s[0], 22)) +
                       ((s[0] & s[1]) ^ (s[0] & s[2]) ^ (s[1] & s[2]));
        memmove(s + 1, s, 7 * sizeof *s);
        s[4] += one;
        s[0] = one + two;
    }
    for (int at = 0; at < 8; at++) {
        state[at] += s[at];
    }
}

static void sum_of(const uint8_t *bytes, size_t len, uint8_t sum[32]) {
    uint32_t state[8];
    uint8_t last[128] = {0};
    size_t left = len % 64, end = left < 56 ? 64 : 128;
    memcpy(state, first_state, sizeof state);
    for (size_t at = 0; at + 64 <= len; at += 64) {
        take_block(state, bytes + at);
    }
    memcpy(last, bytes + len - left, left);
    last[left] = 128;
    for (int at = 0; at < 8; at++) {
        last[end - 1 - at] = (uint8_t)((uint64_t)len * 8 >> 8 * at);
    }
    for (size_t at = 0; at < end; at += 64) {
        take_block(state, last + at);
    }
    for (int at = 0; at < 32; at++) {
        sum[at] = (uint8_t)(state[at / 4] >> (24 - at % 4 * 8));
    }
}

// ---- files

enum { MOST_BYTES = 1 << 16, SUM = 32 };

struct file {
    size_t len;
    uint8_t bytes[MOST_BYTES];
};

// Whether there is room for so many bytes more, and for a sum.
static bool has_room(const struct file *file, size_t len) {
    return file->len + len + SUM <= MOST_BYTES;
}

static void put(struct file *file, const uint8_t *bytes, size_t len) {
    if (has_room(file, len)) {
        memcpy(file->bytes + file->len, bytes, len);
        file->len += len;
    }
}

static void put_byte(struct file *file, uint64_t byte) {
    uint8_t one = (uint8_t)byte;
    put(file, &one, 1);
}

// A number, now and then in no shortest form.
static void put_number(struct file *file, uint64_t number) {
    while (number >= 128) {
        put_byte(file, number % 128 + 128);
        number /= 128;
    }
    if (random_below(60) == 0) {
        put_byte(file, number + 128);
        number = 0;
    }
    put_byte(file, number);
}

static void put_sum(struct file *file) {
    if (!has_room(file, 0)) {
        return;
    }
    sum_of(file->bytes, file->len, file->bytes + file->len);
    file->len += SUM;
}

// Of few letters, so that keys often begin one another.
static size_t random_bytes(uint8_t *bytes, size_t most) {
    size_t len = random_below(most + 1);
    for (size_t at = 0; at < len; at++) {
        bytes[at] = random_below(8) == 0 ? (uint8_t)random_below(256) : "\0ab\377"[random_below(4)];
    }
    return len;
}

static uint64_t random_number(void) {
    uint64_t bits = random_below(64);
    return random_below(UINT64_MAX) >> bits;
}

// How long a key may be, mostly.
static size_t random_length(void) {
    static const size_t lengths[] = {2, 4, 12, 12, 12, 40, 300, 1100};
    return lengths[random_below(sizeof lengths / sizeof *lengths)];
}

// How many pairs there are: mostly few.
static size_t random_count(void) {
    return random_below(random_below(8) == 0 ? 400 : 12);
}

// The file of a random tree.
static void save_numbers(struct file *file) {
    rart_tree tree = {0};
    uint8_t key[1100];
    EXPECT(random_below(2) == 0 || rart_new_at(&tree, random_number() / 2) == RART_DONE);
    size_t most = random_length();
    for (size_t left = random_count(); left > 0; left--) {
        size_t len = random_bytes(key, most < 1024 ? most : 1024);
        EXPECT(RART_OK(rart_insert(&tree, key, len, random_number(), NULL)));
    }
    if (rart_save(&tree, file->bytes, MOST_BYTES, &file->len) != RART_DONE) {
        file->len = 0;
    }
    rart_clear(&tree);
}

static void save_strings(struct file *file) {
    rart_bytes tree = {0};
    uint8_t key[1100], value[300];
    EXPECT(random_below(2) == 0 || rart_bytes_new_at(&tree, random_number() / 2) == RART_DONE);
    size_t most = random_length();
    for (size_t left = random_count(); left > 0; left--) {
        size_t len = random_bytes(key, most < 1024 ? most : 1024);
        size_t size = random_bytes(value, random_below(8) == 0 ? 300 : 4);
        EXPECT(RART_OK(rart_bytes_insert(&tree, key, len, value, size)));
    }
    if (rart_bytes_save(&tree, file->bytes, MOST_BYTES, &file->len) != RART_DONE) {
        file->len = 0;
    }
    rart_bytes_clear(&tree);
}

// The file of a tree of which each key begins all longer ones, or of one with as many keys of two
// bytes as a node may have children: the most nodes for their bytes.
static void save_many_nodes(struct file *file) {
    rart_bytes tree = {0};
    uint8_t key[1024] = {0};
    size_t most = random_below(2) == 0 ? 1 + random_below(255) : 0;
    for (size_t left = most > 0 ? most : random_below(1024); left > 0; left--) {
        key[0] = (uint8_t)(most > 0 ? left : 0);
        EXPECT(RART_OK(rart_bytes_insert(&tree, key, most > 0 ? 2 : left, NULL, 0)));
    }
    EXPECT(rart_bytes_save(&tree, file->bytes, MOST_BYTES, &file->len) == RART_DONE);
    rart_bytes_clear(&tree);
}

// A file of random pairs, whose keys ascend at times.
static void make_up(struct file *file) {
    uint8_t key[1100], before[1100], value[300] = {0};
    size_t len = 0, count = random_count(), ascends = random_below(4), kind = random_below(2) + 1;
    file->len = 0;
    put(file, (const uint8_t *)"comfrey\1", 8);
    put_byte(file, kind);
    put_number(file, count + (random_below(8) == 0 ? 0 : random_number() / 2));
    put_number(file, random_below(20) == 0 ? random_number() : count);
    for (size_t most = random_length(), left = count; left > 0; left--) {
        size_t shared = 0, len_before = len;
        memcpy(before, key, len);
        len = random_bytes(key, most);
        if (ascends > 0 && left < count) {
            // (the key before goes on, or ends earlier with a greater byte)
            size_t keeps = random_below(len_before + 1);
            len = keeps + len > sizeof key ? sizeof key - keeps : len;
            memmove(key + keeps, key, len);
            memcpy(key, before, keeps);
            len += keeps;
            if (keeps < len_before && keeps < len && before[keeps] < 255) {
                key[keeps] = (uint8_t)(before[keeps] + 1 + random_below(255 - before[keeps]));
            }
            len = len > sizeof key - 1 ? sizeof key - 1 : len;
        }
        while (shared < len && shared < len_before && key[shared] == before[shared]) {
            shared++;
        }
        shared -= shared > 0 && random_below(60) == 0;
        put_number(file, shared);
        put_number(file, len - shared);
        put(file, key + shared, len - shared);
        size_t size = random_bytes(value, 8);
        if (kind == 2) {
            put_number(file, size);
        }
        put(file, value, kind == 2 ? size : 8);
    }
    put_sum(file);
}

static void cut(struct file *file, size_t at, size_t len) {
    memmove(file->bytes + at, file->bytes + at + len, file->len - at - len);
    file->len -= len;
}

static void insert(struct file *file, size_t at, const uint8_t *bytes, size_t len) {
    if (has_room(file, len)) {
        memmove(file->bytes + at + len, file->bytes + at, file->len - at);
        memcpy(file->bytes + at, bytes, len);
        file->len += len;
    }
}

// Changes a file at one place: a bit, a byte, a part of it cut, made up, or of another file.
static void change(struct file *file, const struct file *other) {
    static const uint8_t ends[] = {0, 1, 127, 128, 129, 255};
    uint8_t bytes[16];
    size_t at = random_below(file->len + 1), left = file->len - at;
    size_t from = random_below(other->len + 1), len = random_below(other->len - from + 1);
    switch (random_below(7)) {
    case 0:
        file->bytes[left > 0 ? at : 0] ^= (uint8_t)(1 << random_below(8));
        break;
    case 1:
        file->bytes[left > 0 ? at : 0] = ends[random_below(sizeof ends)];
        break;
    case 2:
        cut(file, at, random_below((left < 16 ? left : 16) + 1));
        break;
    case 3:
        insert(file, at, bytes, random_bytes(bytes, sizeof bytes));
        break;
    case 4:
        insert(file, at, other->bytes + from, len < 64 ? len : 64);
        break;
    case 5:
        file->len = at;
        put(file, other->bytes + from, other->len - from);
        break;
    default:
        // (the number or the count)
        file->bytes[9 + random_below(4)] += (uint8_t)random_below(3) - 1;
    }
}

// ---- loading

enum { ANSWERS = 13 };

// How often each answer came; the most memory by the bytes of a file, and of which.
static unsigned long long told[ANSWERS];
static double most_by_bytes;

// At most so much memory is asked for: a node and its list for each byte or two, as long as they
// are short, and what each tree takes.
enum { MOST_MULTIPLE = 64, FOR_EACH_TREE = 4096 };

static void expect_memory(size_t len, size_t before) {
    size_t asked = most_held - before;
    EXPECT(asked <= MOST_MULTIPLE * len + FOR_EACH_TREE);
    double by_bytes = len == 0 ? 0 : (double)asked / (double)len;
    most_by_bytes = by_bytes > most_by_bytes ? by_bytes : most_by_bytes;
}

// Counts an answer, and looks at the byte that is told.
static void expect_answer(const struct file *file, rart_answer answer, size_t at) {
    EXPECT(answer == RART_DONE || answer == RART_TOO_LONG ||
           (answer >= RART_TRUNCATED && answer <= RART_WRONG_SUM));
    bool is_told = answer == RART_MALFORMED || answer == RART_TOO_LONG;
    EXPECT(is_told ? at <= file->len : at == SIZE_MAX);
    told[answer]++;
}

static struct file again;

// The tree that the file is loaded into has a key, which stays where the file is refused.
static void load_numbers(const struct file *file) {
    rart_tree tree = {0};
    size_t at = SIZE_MAX, len = 0;
    EXPECT(rart_insert(&tree, (const uint8_t *)"tea", 3, 300, NULL) == RART_ABSENT);
    size_t before = most_held = held;
    rart_answer answer = rart_load(&tree, file->bytes, file->len, &at);
    expect_memory(file->len, before);
    expect_answer(file, answer, at);
    if (answer == RART_DONE) {
        EXPECT(rart_saved_len(&tree, &len) == RART_DONE && len == file->len);
        EXPECT(rart_save(&tree, again.bytes, len - 1, &len) == RART_TOO_SMALL && len == file->len);
        EXPECT(rart_save(&tree, again.bytes, MOST_BYTES, &len) == RART_DONE && len == file->len);
        EXPECT(memcmp(again.bytes, file->bytes, len) == 0);
    } else {
        uint64_t value = 0;
        EXPECT(held == before && rart_version(&tree) == 1 && rart_len(&tree) == 1);
        EXPECT(rart_get(&tree, (const uint8_t *)"tea", 3, &value) == RART_DONE && value == 300);
    }
    rart_clear(&tree);
}

static void load_strings(const struct file *file) {
    rart_bytes tree = {0};
    size_t at = SIZE_MAX, len = 0;
    EXPECT(rart_bytes_insert(&tree, (const uint8_t *)"tea", 3, NULL, 0) == RART_ABSENT);
    size_t before = most_held = held;
    rart_answer answer = rart_bytes_load(&tree, file->bytes, file->len, &at);
    expect_memory(file->len, before);
    expect_answer(file, answer, at);
    if (answer == RART_DONE) {
        EXPECT(rart_bytes_saved_len(&tree, &len) == RART_DONE && len == file->len);
        EXPECT(rart_bytes_save(&tree, again.bytes, MOST_BYTES, &len) == RART_DONE);
        EXPECT(len == file->len && memcmp(again.bytes, file->bytes, len) == 0);
    } else {
        EXPECT(held == before && rart_bytes_version(&tree) == 1 && rart_bytes_len(&tree) == 1);
    }
    rart_bytes_clear(&tree);
}

static struct file one, other;

static void make_file(struct file *file) {
    size_t which = random_below(16);
    if (which == 0) {
        save_many_nodes(file);
    } else if (which < 6) {
        make_up(file);
    } else if (which < 10) {
        save_strings(file);
    } else {
        save_numbers(file);
    }
}

static void try_file(void) {
    // (the file before lends its parts)
    other = one;
    make_file(&one);
    size_t changes = random_below(4);
    bool is_summed = random_below(8) > 0;
    if (changes > 0 && is_summed && one.len >= SUM) {
        one.len -= SUM;
    }
    for (size_t left = changes; left > 0; left--) {
        change(&one, &other);
    }
    if (changes > 0 && is_summed) {
        put_sum(&one);
    }
    load_numbers(&one);
    load_strings(&one);
}

int main(int count, char **words) {
    unsigned long long files = count > 1 ? strtoull(words[1], NULL, 10) : 10000;
    make_constants();
    make_file(&one);
    for (unsigned long long left = files; left > 0; left--) {
        try_file();
    }
    EXPECT(held == 0);
    EXPECT(told[RART_DONE] > files / 20);
    printf("%llu files, each loaded as both kinds:", files);
    for (rart_answer answer = 0; answer < ANSWERS; answer++) {
        if (told[answer] > 0) {
            printf(" %llu %s;", told[answer], rart_answer_text(answer));
        }
    }
    printf(" at most %.1f times their bytes of memory\n", most_by_bytes);
}
