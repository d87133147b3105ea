// How the library asks for memory, over the C library.
#include "boltcomfrey.h"
#include <stdlib.h>

// As much as malloc aligns by, and as is ever asked for.
enum { MOST_ALIGN = 16 };

static rattle_block block_of(void *at) {
    rattle_block block = {at != NULL, at};
    return block;
}

// (For no bytes malloc may give null.)
rattle_block rattle_alloc(size_t size, size_t align) {
    return block_of(align > MOST_ALIGN ? NULL : malloc(size > 0 ? size : align));
}

rattle_block rattle_realloc(void *at, size_t kept, size_t size, size_t align) {
    (void)kept;
    return block_of(align > MOST_ALIGN ? NULL : realloc(at, size > 0 ? size : align));
}

void rattle_dealloc(void *at) {
    free(at);
}
