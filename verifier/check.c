/* Checks proofs that are given as lines, by the proved library: an example of its calls, and what the tests run.
 *
 *     cc -o check check.c $(PKG_CONFIG_PATH=PREFIX/lib/pkgconfig pkg-config --cflags --libs merkle_verifier) -Wl,-rpath,PREFIX/lib
 *
 * A line is one of these, with bytes as lower case hexadecimal digits, `-` for none:
 *
 *     element FAMILY BAGGING ROOT PROOF LOCATION ELEMENT
 *     range FAMILY BAGGING ROOT PROOF START ELEMENT..
 *     scattered FAMILY BAGGING ROOT PROOF LOCATION:ELEMENT..
 *     growth FAMILY BAGGING OLD_LEAVES OLD_INACTIVE OLD_ROOT PINS ROOT PROOF ELEMENT..
 *     verify_leaf_digest FAMILY BAGGING ROOT PROOF LOCATION DIGEST
 *     range_digests FAMILY BAGGING ROOT PROOF START DIGEST..
 *     scattered_digests FAMILY BAGGING ROOT PROOF LOCATION:DIGEST..
 *     growth_digests FAMILY BAGGING OLD_LEAVES OLD_INACTIVE OLD_ROOT PINS ROOT PROOF DIGEST..
 *     leaf_digest FAMILY LOCATION ELEMENT
 *     read FAMILY PROOF
 *
 * FAMILY is mmr or mmb, BAGGING forward or backward. It answers each by a line: the name of the answer, for `leaf_digest` the digest too, and
 * for `read` the two numbers. ELEMENT may end with /LENGTH, which is given in the place of its length, or with /-, so that none is given, and
 * LOCATION may be left out: so lines can tell of lengths that do not add up. What is no such line ends the program with the status 2.
 */
#include "merkle_verifier.h"

#include <errno.h>
#include <inttypes.h>
#include <stdio.h>
#include <stdlib.h>
#include <string.h>

struct bytes {
    uint8_t *at;
    size_t length;
};

/* The elements or leaf digests of a line, in one buffer, with their lengths and locations. */
struct elements {
    struct bytes joined;
    size_t *lengths;
    size_t count;
    uint64_t *locations;
    size_t location_count;
};

static void give_up(const char *why) {
    fprintf(stderr, "check: %s\n", why);
    exit(2);
}

/* Memory for some items; null for none. */
static void *room_for(size_t count, size_t size) {
    void *room = count ? calloc(count, size) : NULL;
    if (count && !room) give_up("no memory");
    return room;
}

static unsigned digit(char c) {
    if (c >= '0' && c <= '9') return (unsigned)(c - '0');
    if (c >= 'a' && c <= 'f') return (unsigned)(c - 'a') + 10;
    give_up("a word is not hexadecimal");
    return 0;
}

static uint64_t number(const char *word) {
    char *end;
    errno = 0;
    uint64_t value = strtoull(word, &end, 10);
    if (*word < '0' || *word > '9' || *end || errno) give_up("a word is not a number of 64 bits");
    return value;
}

static bool is(const char *word, const char *other) { return strcmp(word, other) == 0; }

/* Which of two words a word is. */
static bool is_second(const char *word, const char *first, const char *second) {
    if (!is(word, first) && !is(word, second)) give_up("a family or a bagging is unknown");
    return is(word, second);
}

/* How many bytes a word spells. */
static size_t spelled(const char *word) {
    size_t digits = strlen(word);
    if (is(word, "-")) return 0;
    if (digits == 0 || digits % 2 != 0) give_up("a word has an odd number of digits");
    return digits / 2;
}

static void put_bytes(const char *word, size_t count, uint8_t *out) {
    for (size_t i = 0; i < count; i++) out[i] = (uint8_t)(digit(word[2 * i]) * 16 + digit(word[2 * i + 1]));
}

/* The bytes that a word spells, in memory of their own; of no bytes the address is null. */
static struct bytes to_bytes(const char *word) {
    size_t length = spelled(word);
    struct bytes bytes = {room_for(length, 1), length};
    put_bytes(word, length, bytes.at);
    return bytes;
}

/* Cuts what follows a sign off a word; null if the sign is not there. */
static char *cut(char *word, char sign) {
    char *at = strchr(word, sign);
    if (at) *at++ = 0;
    return at;
}

static struct elements to_elements(char **words, size_t count, bool are_located) {
    struct elements elements = {.lengths = room_for(count, sizeof(size_t)), .locations = room_for(count, sizeof(uint64_t))};
    for (size_t i = 0; i < count; i++) {
        char *element = are_located ? cut(words[i], ':') : words[i];
        if (!element) give_up("an element has no location");
        if (are_located && *words[i]) elements.locations[elements.location_count++] = number(words[i]);
        words[i] = element;
        char *length = cut(element, '/');
        size_t size = spelled(element);
        if (!length) elements.lengths[elements.count++] = size;
        else if (!is(length, "-")) elements.lengths[elements.count++] = (size_t)number(length);
        elements.joined.length += size;
    }
    elements.joined.at = room_for(elements.joined.length, 1);
    uint8_t *to = elements.joined.at;
    for (size_t i = 0; i < count; i++) {
        size_t size = spelled(words[i]);
        put_bytes(words[i], size, to);
        if (size) to += size;
    }
    return elements;
}

static const char *name(uint32_t answer) {
    switch (answer) {
    case MERKLE_ACCEPTED: return "accepted";
    case MERKLE_REJECTED: return "rejected";
    case MERKLE_MALFORMED: return "malformed";
    case MERKLE_NOT_A_DIGEST: return "not_a_digest";
    case MERKLE_WRONG_LENGTHS: return "wrong_lengths";
    case MERKLE_OUT_OF_MEMORY: return "out_of_memory";
    case MERKLE_UNSUPPORTED: return "unsupported";
    default: return "unknown";
    }
}

static const char *reason(uint32_t answer) {
    switch (answer) {
    case MERKLE_READ: return "read";
    case MERKLE_END_OF_BUFFER: return "end_of_buffer";
    case MERKLE_INVALID_VARINT: return "invalid_varint";
    case MERKLE_INVALID: return "invalid";
    case MERKLE_TRAILING: return "trailing";
    default: return answer == MERKLE_OUT_OF_MEMORY || answer == MERKLE_UNSUPPORTED ? name(answer) : "unknown";
    }
}

static void read_proof(char **words) {
    struct bytes proof = to_bytes(words[2]);
    const uint64_t unwritten = UINT64_MAX;
    uint64_t leaves = unwritten, inactive_peaks = unwritten;
    uint32_t answer = merkle_read_proof(is_second(words[1], "mmr", "mmb"), proof.at, proof.length, &leaves, &inactive_peaks);
    if (answer == MERKLE_READ) {
        printf("read %" PRIu64 " %" PRIu64 "\n", leaves, inactive_peaks);
    } else {
        if (leaves != unwritten || inactive_peaks != unwritten) give_up("numbers were written of a proof that is not read");
        printf("%s\n", reason(answer));
    }
    free(proof.at);
}

static void hash_leaf(char **words) {
    struct bytes element = to_bytes(words[3]);
    uint8_t digest[MERKLE_DIGEST_SIZE], unwritten[MERKLE_DIGEST_SIZE];
    memset(digest, 0xa5, sizeof digest);
    memset(unwritten, 0xa5, sizeof unwritten);
    uint32_t answer = merkle_leaf_digest(is_second(words[1], "mmr", "mmb"), number(words[2]), element.at, element.length, digest);
    if (answer == MERKLE_HASHED) {
        printf("hashed ");
        for (size_t i = 0; i < sizeof digest; i++) printf("%02x", digest[i]);
        printf("\n");
    } else {
        if (memcmp(digest, unwritten, sizeof digest) != 0) give_up("a digest was written of a leaf that is not hashed");
        printf("%s\n", answer == MERKLE_NO_LOCATION ? "no_location" : answer == MERKLE_UNSUPPORTED ? name(answer) : "unknown");
    }
    free(element.at);
}

static uint32_t checked_growth(bool is_belt, bool is_backward, char **words, bool are_digests, const struct elements *added) {
    struct bytes old = to_bytes(words[5]), pins = to_bytes(words[6]), root = to_bytes(words[7]), proof = to_bytes(words[8]);
    struct bytes all = added->joined;
    uint64_t leaves = number(words[3]), inactive_peaks = number(words[4]);
    uint32_t answer;
    if (are_digests)
        answer = merkle_verify_growth_digests(is_belt, is_backward, leaves, inactive_peaks, old.at, old.length, pins.at, pins.length, root.at,
                                              root.length, proof.at, proof.length, all.at, all.length);
    else
        answer = merkle_verify_growth(is_belt, is_backward, leaves, inactive_peaks, old.at, old.length, pins.at, pins.length, root.at,
                                      root.length, proof.at, proof.length, all.at, all.length, added->lengths, added->count);
    free(old.at);
    free(pins.at);
    free(root.at);
    free(proof.at);
    return answer;
}

static uint32_t checked(bool is_belt, bool is_backward, char **words, const struct elements *elements) {
    struct bytes root = to_bytes(words[3]), proof = to_bytes(words[4]), all = elements->joined;
    uint32_t answer;
    if (is(words[0], "element"))
        answer = merkle_verify_element(is_belt, is_backward, root.at, root.length, proof.at, proof.length, number(words[5]), all.at,
                                       all.length);
    else if (is(words[0], "verify_leaf_digest"))
        answer = merkle_verify_leaf_digest(is_belt, is_backward, root.at, root.length, proof.at, proof.length, number(words[5]), all.at,
                                           all.length);
    else if (is(words[0], "range"))
        answer = merkle_verify_range(is_belt, is_backward, root.at, root.length, proof.at, proof.length, number(words[5]), all.at,
                                     all.length, elements->lengths, elements->count);
    else if (is(words[0], "range_digests"))
        answer = merkle_verify_range_digests(is_belt, is_backward, root.at, root.length, proof.at, proof.length, number(words[5]), all.at,
                                             all.length);
    else if (is(words[0], "scattered"))
        answer = merkle_verify_scattered(is_belt, is_backward, root.at, root.length, proof.at, proof.length, elements->locations,
                                         elements->location_count, all.at, all.length, elements->lengths, elements->count);
    else
        answer = merkle_verify_scattered_digests(is_belt, is_backward, root.at, root.length, proof.at, proof.length, elements->locations,
                                                 elements->location_count, all.at, all.length);
    free(root.at);
    free(proof.at);
    return answer;
}

static void answer_words(char **words, size_t count) {
    const char *kind = count ? words[0] : "";
    if (count == 3 && is(kind, "read")) {
        read_proof(words);
        return;
    }
    if (count == 4 && is(kind, "leaf_digest")) {
        hash_leaf(words);
        return;
    }
    bool is_one = is(kind, "element") || is(kind, "verify_leaf_digest"), is_range = is(kind, "range") || is(kind, "range_digests");
    bool is_growth = is(kind, "growth") || is(kind, "growth_digests"), is_scattered = is(kind, "scattered") || is(kind, "scattered_digests");
    size_t before = is_growth ? 9 : is_scattered ? 5 : 6;
    if (!(is_one || is_range || is_growth || is_scattered) || count < before || (is_one && count != 7)) give_up("a line is none of these");
    bool is_belt = is_second(words[1], "mmr", "mmb"), is_backward = is_second(words[2], "forward", "backward");
    struct elements elements = to_elements(words + before, count - before, is_scattered);
    bool are_digests = is(kind, "growth_digests");
    printf("%s\n", name(is_growth ? checked_growth(is_belt, is_backward, words, are_digests, &elements)
                                  : checked(is_belt, is_backward, words, &elements)));
    free(elements.joined.at);
    free(elements.lengths);
    free(elements.locations);
}

static void answer_line(char *line) {
    size_t most = strlen(line) / 2 + 1, count = 0;
    char **words = room_for(most, sizeof(char *));
    for (char *word = strtok(line, " \n"); word; word = strtok(NULL, " \n")) words[count++] = word;
    answer_words(words, count);
    free(words);
}

int main(void) {
    char *line = NULL;
    size_t room = 0;
    if (merkle_version() != MERKLE_VERSION) give_up("the library has another version than the header");
    while (getline(&line, &room, stdin) > 0) answer_line(line);
    free(line);
    if (!feof(stdin) || ferror(stdin) || fflush(stdout) != 0 || ferror(stdout)) give_up("no memory");
    return 0;
}
