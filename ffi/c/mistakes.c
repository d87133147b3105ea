// Mistakes that gcc tells: with MISTAKE at 0 this compiles without a warning, and with each other
// number it does not.
#include "boltcomfrey.h"

static const uint8_t tea[3] = {'t', 'e', 'a'};

rart_answer call(rart_tree *tree, uint8_t room[8]) {
    uint64_t value;
    size_t len;
#if MISTAKE == 0
    rart_tree made; // (which holds no tree, and need not be all zeros)
    if (rart_clone_new(tree, &made) == RART_DONE) {
        rart_clear(&made);
    }
    return rart_get(tree, NULL, 0, &value) == RART_DONE
               ? rart_next(tree, tea, sizeof tea, room, 8, &len, &value)
               : rart_seek(tree, NULL, 0, NULL, 0, &len, &value);
#elif MISTAKE == 1 // an answer that nobody looks at
    rart_insert(tree, tea, 3, 350, &value);
    return RART_DONE;
#elif MISTAKE == 2 // a null pointer for the value
    return rart_get(tree, tea, 3, NULL);
#elif MISTAKE == 3 // a key that is said to be longer than it is
    return rart_get(tree, tea, 4, &value);
#elif MISTAKE == 4 // room that is said to be longer than it is
    uint8_t short_room[2];
    return rart_seek(tree, tea, 3, short_room, 3, &len, &value);
#elif MISTAKE == 5 // one tree, given twice
    return rart_common(tree, tree) == 1 ? RART_DONE : RART_ABSENT;
#elif MISTAKE == 6 // a snapshot into its own tree
    return rart_snapshot(tree, tree);
#elif MISTAKE == 7 // a key that lies in the room
    return rart_next(tree, room, 3, room, 8, &len, &value);
#elif MISTAKE == 8 // a copy into a tree that is not all zeros
    rart_tree copy;
    return rart_clone(tree, &copy);
#elif MISTAKE == 9 // a key whose bytes were not written
    uint8_t key[3];
    return rart_get(tree, key, 3, &value);
#elif MISTAKE == 10 // a text in place of bytes
    return rart_get(tree, "tea", 3, &value);
#elif MISTAKE == 11 // a number of 32 bits for the value
    uint32_t price;
    return rart_get(tree, tea, 3, &price);
#elif MISTAKE == 12 // a null pointer for some bytes
    return rart_get(tree, NULL, 3, &value);
#elif MISTAKE == 13 // a null tree
    return rart_get(NULL, tea, 3, &value);
#elif MISTAKE == 14 // a new snapshot in its own tree, which would be lost
    return rart_snapshot_new(tree, tree);
#elif MISTAKE == 15 // a loop over pages that never ends
    size_t count;
    rart_entry entry;
    while (rart_page(tree, NULL, 0, RART_INCLUDED, NULL, 0, RART_UNBOUNDED, room, 8, &entry, 1,
                     &count, &len) == RART_DONE) {
    }
    return RART_DONE;
#endif
}
