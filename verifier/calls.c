/* The public calls, over those that are proved, which run on no processor without SSE4.2 and take no null pointer. No proof sees this file:
 * what it has to do is to pass on what it is given, in this order, and to answer what is answered. */
#include "merkle_verifier.h"

#if !defined(__linux__) || !defined(__x86_64__)
#error "the proved library is for Linux on x86-64"
#endif

/* The exports of crates/merkle_verifier/src/lib.rt have the types of the public calls. */
__typeof__(merkle_verify_element) merkle_proved_verify_element;
__typeof__(merkle_verify_range) merkle_proved_verify_range;
__typeof__(merkle_verify_scattered) merkle_proved_verify_scattered;
__typeof__(merkle_verify_growth) merkle_proved_verify_growth;
__typeof__(merkle_verify_leaf_digest) merkle_proved_verify_leaf_digest;
__typeof__(merkle_verify_range_digests) merkle_proved_verify_range_digests;
__typeof__(merkle_verify_scattered_digests) merkle_proved_verify_scattered_digests;
__typeof__(merkle_verify_growth_digests) merkle_proved_verify_growth_digests;
__typeof__(merkle_leaf_digest) merkle_proved_leaf_digest;
__typeof__(merkle_read_proof) merkle_proved_read_proof;

uint32_t merkle_version(void) { return MERKLE_VERSION; }

/* These are what x86-64-v2 adds, but for two that each processor with them has too. */
bool merkle_is_supported(void) {
    return __builtin_cpu_supports("sse3") && __builtin_cpu_supports("ssse3") && __builtin_cpu_supports("sse4.1") &&
           __builtin_cpu_supports("sse4.2") && __builtin_cpu_supports("popcnt");
}

/* Where an array is: where it has no items, at a word of its own, since a slice is never at null, nor misaligned. */
static const void *at(const void *array, size_t length) {
    static const uint64_t word = 0;
    return length ? array : &word;
}

uint32_t merkle_verify_element(bool is_belt, bool is_backward, const uint8_t *root, size_t root_length, const uint8_t *proof,
                               size_t proof_length, uint64_t location, const uint8_t *element, size_t element_length) {
    if (!merkle_is_supported()) return MERKLE_UNSUPPORTED;
    return merkle_proved_verify_element(is_belt, is_backward, at(root, root_length), root_length, at(proof, proof_length), proof_length,
                                        location, at(element, element_length), element_length);
}

uint32_t merkle_verify_range(bool is_belt, bool is_backward, const uint8_t *root, size_t root_length, const uint8_t *proof,
                             size_t proof_length, uint64_t start, const uint8_t *elements, size_t elements_length, const size_t *lengths,
                             size_t count) {
    if (!merkle_is_supported()) return MERKLE_UNSUPPORTED;
    return merkle_proved_verify_range(is_belt, is_backward, at(root, root_length), root_length, at(proof, proof_length), proof_length,
                                      start, at(elements, elements_length), elements_length, at(lengths, count), count);
}

uint32_t merkle_verify_scattered(bool is_belt, bool is_backward, const uint8_t *root, size_t root_length, const uint8_t *proof,
                                 size_t proof_length, const uint64_t *locations, size_t location_count, const uint8_t *elements,
                                 size_t elements_length, const size_t *lengths, size_t count) {
    if (!merkle_is_supported()) return MERKLE_UNSUPPORTED;
    return merkle_proved_verify_scattered(is_belt, is_backward, at(root, root_length), root_length, at(proof, proof_length), proof_length,
                                          at(locations, location_count), location_count, at(elements, elements_length), elements_length,
                                          at(lengths, count), count);
}

uint32_t merkle_verify_growth(bool is_belt, bool is_backward, uint64_t old_leaves, uint64_t old_inactive_peaks, const uint8_t *old_root,
                              size_t old_root_length, const uint8_t *pins, size_t pins_length, const uint8_t *root, size_t root_length,
                              const uint8_t *proof, size_t proof_length, const uint8_t *elements, size_t elements_length,
                              const size_t *lengths, size_t count) {
    if (!merkle_is_supported()) return MERKLE_UNSUPPORTED;
    return merkle_proved_verify_growth(is_belt, is_backward, old_leaves, old_inactive_peaks, at(old_root, old_root_length),
                                       old_root_length, at(pins, pins_length), pins_length, at(root, root_length), root_length,
                                       at(proof, proof_length), proof_length, at(elements, elements_length), elements_length,
                                       at(lengths, count), count);
}

uint32_t merkle_verify_leaf_digest(bool is_belt, bool is_backward, const uint8_t *root, size_t root_length, const uint8_t *proof,
                                   size_t proof_length, uint64_t location, const uint8_t *digest, size_t digest_length) {
    if (!merkle_is_supported()) return MERKLE_UNSUPPORTED;
    return merkle_proved_verify_leaf_digest(is_belt, is_backward, at(root, root_length), root_length, at(proof, proof_length), proof_length,
                                            location, at(digest, digest_length), digest_length);
}

uint32_t merkle_verify_range_digests(bool is_belt, bool is_backward, const uint8_t *root, size_t root_length, const uint8_t *proof,
                                     size_t proof_length, uint64_t start, const uint8_t *digests, size_t digests_length) {
    if (!merkle_is_supported()) return MERKLE_UNSUPPORTED;
    return merkle_proved_verify_range_digests(is_belt, is_backward, at(root, root_length), root_length, at(proof, proof_length), proof_length,
                                              start, at(digests, digests_length), digests_length);
}

uint32_t merkle_verify_scattered_digests(bool is_belt, bool is_backward, const uint8_t *root, size_t root_length, const uint8_t *proof,
                                         size_t proof_length, const uint64_t *locations, size_t location_count, const uint8_t *digests,
                                         size_t digests_length) {
    if (!merkle_is_supported()) return MERKLE_UNSUPPORTED;
    return merkle_proved_verify_scattered_digests(is_belt, is_backward, at(root, root_length), root_length, at(proof, proof_length),
                                                  proof_length, at(locations, location_count), location_count,
                                                  at(digests, digests_length), digests_length);
}

uint32_t merkle_verify_growth_digests(bool is_belt, bool is_backward, uint64_t old_leaves, uint64_t old_inactive_peaks,
                                      const uint8_t *old_root, size_t old_root_length, const uint8_t *pins, size_t pins_length,
                                      const uint8_t *root, size_t root_length, const uint8_t *proof, size_t proof_length,
                                      const uint8_t *digests, size_t digests_length) {
    if (!merkle_is_supported()) return MERKLE_UNSUPPORTED;
    return merkle_proved_verify_growth_digests(is_belt, is_backward, old_leaves, old_inactive_peaks, at(old_root, old_root_length),
                                               old_root_length, at(pins, pins_length), pins_length, at(root, root_length), root_length,
                                               at(proof, proof_length), proof_length, at(digests, digests_length), digests_length);
}

uint32_t merkle_leaf_digest(bool is_belt, uint64_t location, const uint8_t *element, size_t element_length,
                            uint8_t digest[MERKLE_DIGEST_SIZE]) {
    if (!merkle_is_supported()) return MERKLE_UNSUPPORTED;
    return merkle_proved_leaf_digest(is_belt, location, at(element, element_length), element_length, digest);
}

uint32_t merkle_read_proof(bool is_belt, const uint8_t *proof, size_t proof_length, uint64_t *leaves, uint64_t *inactive_peaks) {
    if (!merkle_is_supported()) return MERKLE_UNSUPPORTED;
    return merkle_proved_read_proof(is_belt, at(proof, proof_length), proof_length, leaves, inactive_peaks);
}
