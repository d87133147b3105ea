// Trees as bytes, beside what the tables say that these are. shared.h includes it; a model says what
// the form of a value is.

enum { SUM = 32, MOST_FORM = 4 + MOST_BYTES + MOST_ROOM };

static uint8_t form[KEYS * MOST_FORM], saved[KEYS * MOST_FORM];

// Writes the form of a value, and gives how many bytes it has.
static size_t put_value(uint64_t value, uint8_t *to);

// Writes a number as LEB128, and gives how many bytes it has.
static size_t put_number(uint64_t number, uint8_t *to) {
    size_t len = 0;
    for (; number >= 128; number /= 128) {
        to[len++] = (uint8_t)(number % 128 + 128);
    }
    to[len++] = (uint8_t)number;
    return len;
}

// Writes what a tree has as bytes, but for the sum, and gives how many they are (docs/FORMAT.md).
static size_t put_form(size_t at, uint8_t kind) {
    struct key before = {0};
    size_t len = 9;
    memcpy(form, "comfrey\1", 8);
    form[8] = kind;
    len += put_number(tables[at].number, form + len);
    len += put_number(tables[at].len, form + len);
    for (size_t next = first_from(at, 0); next < KEYS; next = first_from(at, number_behind(next))) {
        struct key key = key_of(next);
        size_t shared = 0;
        while (shared < key.len && shared < before.len && key.bytes[shared] == before.bytes[shared]) {
            shared++;
        }
        len += put_number(shared, form + len);
        len += put_number(key.len - shared, form + len);
        memcpy(form + len, key.bytes + shared, key.len - shared);
        len += key.len - shared;
        len += put_value(tables[at].values[next], form + len);
        before = key;
    }
    return len;
}

static bool has_longer_key(size_t at, size_t longest) {
    bool has_one = false;
    for (size_t next = first_from(at, 0); next < KEYS; next = first_from(at, number_behind(next))) {
        has_one = has_one || key_of(next).len > longest;
    }
    return has_one;
}

// Loads so many bytes, which are those of another tree, and then with one bit changed.
static void expect_load(size_t at, size_t from, size_t len) {
    bool is_long = has_longer_key(from, tables[at].longest);
    size_t place = SIZE_MAX, longest = tables[at].longest;
    rart_answer answer = CALL(load)(&trees[at], saved, len, &place);
    if (!is_refused(answer, is_long ? RART_TOO_LONG : RART_DONE) && !is_long) {
        tables[at] = tables[from];
        tables[at].longest = longest;
    }
    EXPECT(answer == RART_TOO_LONG ? place < len : place == SIZE_MAX);
    saved[random_below(len)] ^= (uint8_t)(1 << random_below(8));
    answer = CALL(load)(&trees[at], saved, len, &place);
    refused += answer == RART_NO_MEMORY;
    EXPECT(answer == RART_NO_MEMORY || answer == RART_TOO_LONG || answer >= RART_TRUNCATED);
}

// Saves a tree to a room that is just long enough, or a byte longer, or too short; and loads it into
// another one, whose keys may be as long as before.
static void expect_save(size_t at, size_t to, uint8_t kind) {
    struct key key = random_key();
    size_t len = put_form(at, kind) + SUM, told = NO_NUMBER;
    bool is_told = !is_refused(CALL(saved_len)(&trees[at], &told), RART_DONE);
    EXPECT(told == (is_told ? len : NO_NUMBER));
    size_t room = random_below(4) == 0 ? random_below(len) : len + random_below(2);
    memset(saved, NO_BYTE, len + 1);
    told = NO_NUMBER;
    rart_answer answer = CALL(save)(&trees[at], saved, room, &told);
    bool is_done = !is_refused(answer, room < len ? RART_TOO_SMALL : RART_DONE);
    EXPECT(told == (is_done ? len : NO_NUMBER));
    EXPECT(room > len || saved[room] == NO_BYTE);
    if (answer == RART_DONE) {
        EXPECT(memcmp(saved, form, len - SUM) == 0 && saved[len] == NO_BYTE);
        expect_load(to, at, len);
    }
    expect_state(at, &key);
    expect_state(to, &key);
}

// Loads so many bytes, which are no tree's. What is told is the answer, and a place or SIZE_MAX.
static void expect_no_tree(size_t at, size_t len, rart_answer wanted, size_t place) {
    const struct key key = key_of(2);
    size_t told = SIZE_MAX;
    EXPECT(CALL(load)(&trees[at], saved, len, &told) == wanted);
    EXPECT(told == place);
    expect_state(at, &key);
}

// Each way in which bytes are no tree's has its own answer. (The key of two bytes stands first,
// behind a head of nine bytes, the number and the count.)
static void run_broken(void) {
    const struct key one = key_of(2), two = key_of(LETTERS + 1);
    size_t len = 0;
    expect_insert(2, &one, 300);
    expect_insert(2, &two, 100);
    expect_longest_key(3, 1);
    EXPECT(CALL(save)(&trees[2], saved, sizeof saved, &len) == RART_DONE);
    expect_no_tree(3, len, RART_TOO_LONG, 11);
    expect_no_tree(2, len - 1, RART_TRUNCATED, SIZE_MAX);
    saved[len - 1] ^= 1;
    expect_no_tree(2, len, RART_WRONG_SUM, SIZE_MAX);
    saved[7] = 2;
    expect_no_tree(2, len, RART_UNSUPPORTED, SIZE_MAX);
    saved[0] = 7;
    expect_no_tree(2, len, RART_MALFORMED, 0);
    expect_clear(2);
    expect_clear(3);
}
