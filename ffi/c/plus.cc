// The header in C++: a tree begins as the map without a key, and can't be copied by hand.
#include "boltcomfrey.h"
#include <type_traits>

template <typename Tree> constexpr bool is_never_copied() {
    return !std::is_copy_constructible<Tree>::value && !std::is_copy_assignable<Tree>::value;
}

// As C has it: one pointer.
template <typename Tree> constexpr bool is_as_in_c() {
    return std::is_standard_layout<Tree>::value && sizeof(Tree) == sizeof(void *);
}

static_assert(is_never_copied<rart_tree>() && is_never_copied<rart_bytes>(), "a copy compiles");
static_assert(is_as_in_c<rart_tree>() && is_as_in_c<rart_bytes>(), "C has another struct");

int main() {
    static const uint8_t tea[] = {'t', 'e', 'a'};
    rart_tree prices, yesterday;
    uint64_t was = 0, is = 0;
    bool is_right = RART_OK(rart_insert(&prices, tea, sizeof tea, 300, nullptr)) &&
                    rart_snapshot_new(&prices, &yesterday) == RART_DONE &&
                    RART_OK(rart_insert(&prices, tea, sizeof tea, 350, nullptr)) &&
                    rart_get(&yesterday, tea, sizeof tea, &was) == RART_DONE &&
                    rart_get(&prices, tea, sizeof tea, &is) == RART_DONE && was == 300 && is == 350;
    rart_clear(&prices);
    rart_clear(&yesterday);
    return is_right ? 0 : 1;
}
