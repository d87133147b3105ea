// A price list with an undo: each change keeps a snapshot of the list before it.
#include "boltcomfrey.h"
#include <stdio.h>
#include <string.h>

enum { MOST_STEPS = 100, MOST_BYTES = 63 };

// The list as it is, and as it was before each step.
struct prices {
    rart_tree now;
    rart_tree before[MOST_STEPS];
    size_t steps;
};

// Sets a price. Where memory is refused, the list and its history are as before.
static bool set_price(struct prices *prices, const char *name, uint64_t price) {
    if (prices->steps == MOST_STEPS) {
        return false;
    }
    rart_tree *before = &prices->before[prices->steps];
    if (rart_clone(&prices->now, before) != RART_DONE) {
        return false;
    }
    if (!RART_OK(rart_insert(&prices->now, (const uint8_t *)name, strlen(name), price, NULL))) {
        rart_clear(before);
        return false;
    }
    prices->steps++;
    return true;
}

// Takes the last step back.
static void undo(struct prices *prices) {
    if (prices->steps > 0) {
        rart_clear(&prices->now);
        prices->now = prices->before[--prices->steps]; // (moved, so the old place is emptied)
        prices->before[prices->steps] = (rart_tree){0};
    }
}

// Shows the prices of names that a prefix begins.
static void show_under(struct prices *prices, const char *prefix) {
    rart_walk walk;
    rart_walk_prefix(&walk, &prices->now, prefix, strlen(prefix));
    while (rart_walk_next(&walk)) {
        printf("%.*s is %llu\n", (int)walk.key_len, (const char *)walk.key,
               (unsigned long long)walk.value);
    }
}

int main(void) {
    struct prices prices = {0};
    if (rart_set_longest_key(&prices.now, MOST_BYTES) != RART_DONE ||
        !set_price(&prices, "tea", 300) || !set_price(&prices, "milk", 100)) {
        return 1;
    }
    show_under(&prices, "");
    undo(&prices);
    show_under(&prices, "t");
    undo(&prices);
    show_under(&prices, "t");
    rart_clear(&prices.now);
    return 0;
}
