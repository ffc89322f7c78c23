// What the proved code asks of a heap, over the C library's. It is trusted: no proof covers it.
#include <stdbool.h>
#include <stddef.h>
#include <stdlib.h>

struct tried {
    bool ok;
    unsigned char *at;
};

// If there is no memory, `at` leads here, and nothing is read or written there.
static unsigned char nothing;

static struct tried answer(void *at) {
    return at ? (struct tried){true, at} : (struct tried){false, &nothing};
}

// `align` divides 16, and `malloc` aligns a block to each power of two up to 16 that divides its size.
struct tried rattle_alloc(size_t size, size_t align) {
    return answer(malloc(size ? size : align));
}

// The first `kept` bytes stay as they were. Where it fails, the block stays.
struct tried rattle_realloc(void *at, size_t kept, size_t size, size_t align) {
    (void)kept;
    return answer(realloc(at, size ? size : align));
}

void rattle_dealloc(void *at) {
    free(at);
}
