/* The requests for memory of a library that verifier/test builds: heap.c calls these in the place of malloc, realloc and free. They count
 * the requests and the blocks that are not freed, refuse one request, and move and overwrite each block that grows. They are for one thread. */
#define _GNU_SOURCE
#include <malloc.h>
#include <stdlib.h>
#include <string.h>

static long requests, refused, blocks;

/* Counts anew, and refuses the request with this number, from 1 on, or none for 0. */
void counted_from(long number) {
    requests = 0;
    refused = number;
}

long counted_requests(void) { return requests; }

/* The blocks that are not freed. */
long counted_blocks(void) { return blocks; }

void *counted_malloc(size_t size) {
    if (++requests == refused) return NULL;
    void *block = malloc(size);
    blocks += block != NULL;
    return block;
}

void counted_free(void *block) {
    if (!block) return;
    blocks--;
    memset(block, 0xa5, malloc_usable_size(block));
    free(block);
}

void *counted_realloc(void *block, size_t size) {
    void *moved = counted_malloc(size);
    if (!moved) return NULL;
    size_t kept = malloc_usable_size(block);
    memcpy(moved, block, kept < size ? kept : size);
    counted_free(block);
    return moved;
}
