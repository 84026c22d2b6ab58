/* The heap of the library, over malloc, realloc and free: what Rattle's libc/src/heap.rt asks of these three names.
 *
 * A try answers whether there is a block, and a pointer that is never null. Sizes are below 2^63; an alignment is 1, 2,
 * 4, 8 or 16 and divides the size, so that malloc keeps it. A block of no bytes has an address of its own, aligned so
 * too, and is freed as any other. Where rattle_realloc has no block, the old one is as it was; where it has, as many
 * bytes as were kept are the same, as realloc keeps all that fit. */
#include <stdbool.h>
#include <stddef.h>
#include <stdlib.h>

struct tried {
    bool ok;
    void *block;
};

struct tried rattle_alloc(size_t size, size_t alignment);
struct tried rattle_realloc(void *block, size_t kept, size_t size, size_t alignment);
void rattle_dealloc(void *block);

/* What is pointed at where there is no block. */
static union {
    long double aligned;
    char bytes[16];
} nowhere;

static struct tried tried(void *block) {
    struct tried answer;
    answer.ok = block != NULL;
    answer.block = block ? block : &nowhere;
    return answer;
}

struct tried rattle_alloc(size_t size, size_t alignment) { return tried(malloc(size ? size : alignment)); }

struct tried rattle_realloc(void *block, size_t kept, size_t size, size_t alignment) {
    (void)kept;
    return tried(realloc(block, size ? size : alignment));
}

void rattle_dealloc(void *block) { free(block); }
