// A listing by pages, in buffers of the program's own: the room for keys grows where one has none.
#define RART_PAGES
#include "boltcomfrey.h"
#include <stdio.h>
#include <stdlib.h>

enum { ENTRIES = 4 };

// Prints the entries of a page, and gives where its last key begins.
static size_t print_page(const uint8_t *keys, const rart_entry *entries, size_t count) {
    size_t start = 0, last = 0;
    for (size_t at = 0; at < count; at++) {
        last = start;
        printf("%.*s %llu\n", (int)(entries[at].end - start), (const char *)keys + start,
               (unsigned long long)entries[at].value);
        start = entries[at].end;
    }
    return last;
}

// Prints all entries. RART_ABSENT says that all were seen.
static rart_answer print_all(rart_tree *tree) {
    rart_entry entries[ENTRIES];
    uint8_t *keys = NULL, *last = malloc(rart_longest_key(tree)), kind = RART_UNBOUNDED;
    size_t room = 0, last_len = 0, count, needed;
    rart_answer answer = last != NULL ? RART_DONE : RART_NO_MEMORY;
    while (answer == RART_DONE) {
        answer = rart_page(tree, last, last_len, kind, NULL, 0, RART_UNBOUNDED, keys, room, entries,
                           ENTRIES, &count, &needed);
        if (answer == RART_DONE) {
            // the next page begins behind a copy of the last key
            size_t start = print_page(keys, entries, count);
            last_len = entries[count - 1].end - start;
            memcpy(last, keys + start, last_len);
            kind = RART_EXCLUDED;
        } else if (answer == RART_TOO_SMALL) {
            uint8_t *longer = realloc(keys, needed);
            answer = longer != NULL ? RART_DONE : RART_NO_MEMORY;
            keys = longer != NULL ? longer : keys;
            room = longer != NULL ? needed : room;
        }
    }
    free(keys);
    free(last);
    return answer;
}

int main(void) {
    static const char *const names[] = {"barley", "coffee", "cocoa", "milk", "oats", "rice", "tea"};
    rart_tree prices = {0};
    rart_answer answer = RART_DONE;
    for (size_t at = 0; at < 7 && RART_OK(answer); at++) {
        answer = rart_insert(&prices, (const uint8_t *)names[at], strlen(names[at]), 100 + at, NULL);
    }
    answer = RART_OK(answer) ? print_all(&prices) : answer;
    rart_clear(&prices);
    if (answer != RART_ABSENT) {
        fprintf(stderr, "%s\n", rart_answer_text(answer));
    }
    return answer == RART_ABSENT ? EXIT_SUCCESS : EXIT_FAILURE;
}
