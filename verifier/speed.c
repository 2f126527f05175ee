/* Measures the check of one element: reads lines of a root, a proof, a location and an element, bytes as hexadecimal digits, checks all of
 * them in as many rounds as its argument says, and prints the nanoseconds of thread time that one check took in the fastest round.
 *
 * The lines are of a Mountain Range that is folded forward. The status is 1 where a proof is not accepted.
 */
#define _POSIX_C_SOURCE 200809L

#include "merkle_verifier.h"

#include <stdio.h>
#include <stdlib.h>
#include <string.h>
#include <time.h>

enum { MOST_CASES = 1000, MOST_BYTES = 4096, MOST_LINE = 16384 };

struct bytes {
    uint8_t at[MOST_BYTES];
    size_t length;
};

struct one {
    struct bytes root, proof, element;
    uint64_t location;
};

static struct one cases[MOST_CASES];

static void read_bytes(const char *word, struct bytes *bytes) {
    bytes->length = strlen(word) / 2;
    if (bytes->length > MOST_BYTES) exit(2);
    for (size_t i = 0; i < bytes->length; i++) {
        unsigned byte = 0;
        if (sscanf(word + 2 * i, "%2x", &byte) != 1) exit(2);
        bytes->at[i] = (uint8_t)byte;
    }
}

static size_t read_cases(void) {
    static char line[MOST_LINE];
    size_t count = 0;
    while (count < MOST_CASES && fgets(line, sizeof line, stdin)) {
        struct one *one = &cases[count++];
        char *root = strtok(line, " \n"), *proof = strtok(NULL, " \n"), *location = strtok(NULL, " \n"), *element = strtok(NULL, " \n");
        if (!element) exit(2);
        read_bytes(root, &one->root);
        read_bytes(proof, &one->proof);
        read_bytes(element, &one->element);
        one->location = strtoull(location, NULL, 10);
    }
    return count;
}

static long long nanoseconds(void) {
    struct timespec now;
    if (clock_gettime(CLOCK_THREAD_CPUTIME_ID, &now)) exit(2);
    return now.tv_sec * 1000000000LL + now.tv_nsec;
}

int main(int count_of_words, char **words) {
    int rounds = count_of_words > 1 ? atoi(words[1]) : 1;
    size_t count = read_cases();
    long long least = -1;
    for (int round = 0; round < rounds; round++) {
        long long begin = nanoseconds();
        for (size_t i = 0; i < count; i++) {
            const struct one *one = &cases[i];
            if (merkle_verify_element(false, false, one->root.at, one->root.length, one->proof.at, one->proof.length, one->location,
                                      one->element.at, one->element.length) != MERKLE_ACCEPTED)
                return 1;
        }
        long long took = nanoseconds() - begin;
        if (least < 0 || took < least) least = took;
    }
    printf("%lld\n", count ? least / (long long)count : 0);
    return 0;
}
