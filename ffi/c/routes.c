// A routing table: a route is tried, and rolled back.
#include "boltcomfrey.h"
#include <stdio.h>

// Says where the longest route leads that is a prefix of the address 10.1.2.3.
static void show(rart_tree *routes, const char *title) {
    static const uint8_t address[] = {10, 1, 2, 3};
    size_t length;
    uint64_t hop;
    if (rart_longest(routes, address, sizeof address, &length, &hop) == RART_DONE) {
        printf("%s: 10.1.2.3 goes to %d\n", title, (int)hop);
    }
}

// Sets a route. Where it is refused, the routes are as before.
static bool set(rart_tree *routes, const uint8_t *route, size_t length, uint64_t hop) {
    rart_answer answer = rart_insert(routes, route, length, hop, NULL);
    if (!RART_OK(answer)) {
        fprintf(stderr, "not set: %s\n", rart_answer_text(answer));
    }
    return RART_OK(answer);
}

int main(void) {
    static const uint8_t site[] = {10}, office[] = {10, 1};
    rart_tree routes = {0}, before = {0};
    bool is_done = set(&routes, site, 1, 1) && set(&routes, office, 2, 2) &&
                   rart_snapshot(&routes, &before) == RART_DONE && set(&routes, office, 2, 7);
    if (is_done) {
        show(&routes, "on trial");
        show(&before, "as before");
        rart_clear(&routes);
        routes = before; // (moved, so the old place is emptied)
        before = (rart_tree){0};
        show(&routes, "rolled back");
    }
    rart_clear(&before);
    rart_clear(&routes);
    return is_done ? 0 : 1;
}
