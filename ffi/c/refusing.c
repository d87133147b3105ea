// What stands between heap.c and the C library in the tests, where the linker leads malloc, realloc
// and free here: it counts blocks, and refuses some requests.
#include <stddef.h>

// The linker's names for the C library's functions, and for those that are called in their place.
void *__real_malloc(size_t size);
void *__real_realloc(void *at, size_t size);
void __real_free(void *at);
void *__wrap_malloc(size_t size);
void *__wrap_realloc(void *at, size_t size);
void __wrap_free(void *at);

// Longer blocks are seldom asked for, so more of them are refused.
enum { ONE_REALLOC_IN = 4 };

static unsigned long long one_in, mallocs, reallocs, refused_mallocs, refused_reallocs;
static long long blocks;

void refuse_one_in(unsigned long long so_many) {
    one_in = so_many;
}

unsigned long long requests_refused(void) {
    return refused_mallocs + refused_reallocs;
}

unsigned long long reallocs_refused(void) {
    return refused_reallocs;
}

long long blocks_held(void) {
    return blocks;
}

void *__wrap_malloc(size_t size) {
    if (one_in > 0 && ++mallocs % one_in == 0) {
        refused_mallocs++;
        return NULL;
    }
    blocks++;
    return __real_malloc(size);
}

void *__wrap_realloc(void *at, size_t size) {
    if (one_in > 0 && ++reallocs % ONE_REALLOC_IN == 0) {
        refused_reallocs++;
        return NULL;
    }
    blocks += at == NULL;
    return __real_realloc(at, size);
}

void __wrap_free(void *at) {
    blocks -= at != NULL;
    __real_free(at);
}
