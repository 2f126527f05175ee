/* The requests for memory of the proved library, by malloc, realloc and free. No proof sees this file: what it has to do is that each
 * function answers whether there is memory and where, aligned for its size, that a block whose request is refused is as it was, and that
 * what is freed was answered before.
 *
 * At least one byte is requested: of none malloc may answer null, and realloc may free the block and answer null, which would be taken
 * for a refusal that left the block as it was. */
#include <stdbool.h>
#include <stddef.h>
#include <stdlib.h>

struct tried {
    bool is_granted;
    void *block;
};

static struct tried tried(void *block) {
    static char none;
    return block ? (struct tried){true, block} : (struct tried){false, &none};
}

struct tried rattle_alloc(size_t size, size_t alignment) {
    (void)alignment; /* at most 16, as malloc aligns */
    return tried(malloc(size ? size : 1));
}

struct tried rattle_realloc(void *block, size_t kept, size_t size, size_t alignment) {
    (void)kept;
    (void)alignment;
    return tried(realloc(block, size ? size : 1));
}

void rattle_dealloc(void *block) { free(block); }
