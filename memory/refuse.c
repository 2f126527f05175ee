/* Refuses one of a program's requests for memory, or lets one of its reads or writes fail, and counts them all. It is built as a
 * library, and preloaded (LD_PRELOAD).
 *
 * REFUSE_AT   the number of the request for memory that is refused
 * READ_AT     the number of the read of standard input that fails
 * WRITE_AT    the number of the write to standard output that fails
 * COUNTS_TO   the file descriptor that the numbers of all requests, reads and writes are written to when the program ends
 *
 * All are counted from 1; with 0, or no such variable, nothing is refused or fails.
 *
 * A request is a call of malloc, calloc, realloc or the aligned calls. The functions here stand before those of the C library, which
 * does what isn't refused. They are for a program of one thread: the counts take no lock.
 *
 * The C library's functions are looked up at the first request, or before `main`. While that goes on, a request of dlsym itself has
 * nowhere to go: it is answered with "no memory" and isn't counted. That is safe, since dlsym requests memory only for the text of an
 * error, and does without it.
 */
#define _GNU_SOURCE
#include <dlfcn.h>
#include <errno.h>
#include <stdio.h>
#include <stdlib.h>
#include <unistd.h>

static void *(*next_malloc)(size_t);
static void *(*next_calloc)(size_t, size_t);
static void *(*next_realloc)(void *, size_t);
static void *(*next_aligned_alloc)(size_t, size_t);
static int (*next_posix_memalign)(void **, size_t, size_t);
static ssize_t (*next_read)(int, void *, size_t);
static ssize_t (*next_write)(int, const void *, size_t);

static enum { BEFORE, STARTING, COUNTING } state;

/* How many calls there were, and which one of them isn't done. */
struct calls { unsigned long seen, stopped; };
static struct calls requests, reads, writes;
static int counts_to = -1;

static unsigned long number(const char *name) {
    const char *text = getenv(name);
    return text ? strtoul(text, NULL, 10) : 0;
}

__attribute__((constructor)) static void start(void) {
    if (state != BEFORE) return;
    state = STARTING;
    next_malloc = dlsym(RTLD_NEXT, "malloc");
    next_calloc = dlsym(RTLD_NEXT, "calloc");
    next_realloc = dlsym(RTLD_NEXT, "realloc");
    next_aligned_alloc = dlsym(RTLD_NEXT, "aligned_alloc");
    next_posix_memalign = dlsym(RTLD_NEXT, "posix_memalign");
    next_read = dlsym(RTLD_NEXT, "read");
    next_write = dlsym(RTLD_NEXT, "write");
    requests.stopped = number("REFUSE_AT");
    reads.stopped = number("READ_AT");
    writes.stopped = number("WRITE_AT");
    if (getenv("COUNTS_TO")) counts_to = (int)number("COUNTS_TO");
    state = COUNTING;
}

/* Counts a call, and says whether it is the one that isn't done. */
static int is_stopped(struct calls *calls, int error) {
    start();
    if (state == COUNTING && ++calls->seen != calls->stopped) return 0;
    errno = error;
    return 1;
}

void *malloc(size_t size) { return is_stopped(&requests, ENOMEM) ? NULL : next_malloc(size); }

void *calloc(size_t count, size_t size) { return is_stopped(&requests, ENOMEM) ? NULL : next_calloc(count, size); }

void *realloc(void *block, size_t size) { return is_stopped(&requests, ENOMEM) ? NULL : next_realloc(block, size); }

void *aligned_alloc(size_t alignment, size_t size) {
    return is_stopped(&requests, ENOMEM) ? NULL : next_aligned_alloc(alignment, size);
}

int posix_memalign(void **block, size_t alignment, size_t size) {
    return is_stopped(&requests, ENOMEM) ? ENOMEM : next_posix_memalign(block, alignment, size);
}

ssize_t read(int file, void *buffer, size_t size) {
    return file == STDIN_FILENO && is_stopped(&reads, EIO) ? -1 : next_read(file, buffer, size);
}

ssize_t write(int file, const void *buffer, size_t size) {
    return file == STDOUT_FILENO && is_stopped(&writes, EIO) ? -1 : next_write(file, buffer, size);
}

__attribute__((destructor)) static void report(void) {
    if (counts_to >= 0) dprintf(counts_to, "%lu %lu %lu\n", requests.seen, reads.seen, writes.seen);
}
