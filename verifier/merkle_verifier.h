/* Checks of Merkle proofs with SHA-256, proved: where memory is granted, the answer is MERKLE_ACCEPTED exactly for the proofs that
 * Ruvtsake's checks accept.
 *
 * Answers. Each call answers a number: 0 is accepted, read or hashed, and every other number is not, so a check is asked in this form, and
 * never as a truth value:
 *
 *     if (merkle_verify_element(..) == MERKLE_ACCEPTED)
 *
 * Where several numbers apply, it is that of the first thing that is wrong: the processor; the root, then of growth the old root and the
 * pins; the lengths, or the leaf digests and then how many there are; the bytes of the proof; and then what the check itself says.
 * MERKLE_OUT_OF_MEMORY can come in the place of each after the first.
 *
 * A proof shows that elements are leaves of the list behind a root. Its bytes are those that `Proof::write` of the library and the
 * program `merkle` write (docs/FORMATS.md). Two flags say what the root was made with: `is_belt` is false for a Merkle Mountain Range
 * and true for a Mountain Belt; `is_backward` is false for forward and true for backward folding of the peaks. From a language without
 * `bool` a flag is a byte, 0 or 1, and no other.
 *
 * Leaf digests. Each check of elements has one beside it for those who keep the digests of leaves in the place of the elements. They are
 * given as bytes, 32 each, one after another. A leaf's digest is what merkle_leaf_digest writes. These checks hash nodes and peaks alone, so
 * the caller vouches for what was hashed to a digest.
 *
 * Pointers. What is given as a pointer and a length is read only, and may be anything. The length of bytes is in bytes, that of other
 * arrays in their items. Where the length is 0 the pointer may be null; else it is aligned for its type. What is written through a pointer
 * is at no place that the call reads or writes otherwise. Pointers are not kept.
 *
 * Memory and threads. A call keeps no memory and has no state, so any number of threads may call at once. It is called neither from a
 * signal handler nor from the forked child of a process with threads. It requests memory by malloc and realloc, and frees it; where a
 * request is refused, it answers MERKLE_OUT_OF_MEMORY.
 *
 * Bytes from strangers. Time and memory grow linearly with the bytes of the proof, the elements and the digests, and have no other limit.
 * The honest proof of one element has at most 30 + 32 * 122 bytes, and that of n elements, one after another or scattered, at most
 * 30 + 32 * 122 * n: whoever reads proofs from others refuses longer ones unread.
 *
 * Platform. Linux on x86-64, with SSE4.2 (x86-64-v2: most processors from 2011 on, but virtual ones may lack it), and 32 KB of stack. On
 * another processor the calls answer MERKLE_UNSUPPORTED.
 */
#ifndef MERKLE_VERIFIER_H
#define MERKLE_VERIFIER_H

#include <stdbool.h>
#include <stddef.h>
#include <stdint.h>

#ifdef __cplusplus
extern "C" {
#endif

/* The version of this interface: another one where a program that was built for this one would call or read the answers wrongly. */
#define MERKLE_VERSION 1

/* The bytes of a digest. */
#define MERKLE_DIGEST_SIZE 32

#if defined(__GNUC__)
#define MERKLE_CALL __attribute__((warn_unused_result))
#else
#define MERKLE_CALL
#endif

enum merkle_answer {
    MERKLE_ACCEPTED = 0,       /* the proof is accepted */
    MERKLE_REJECTED = 1,       /* the proof is not accepted */
    MERKLE_MALFORMED = 2,      /* the bytes of the proof encode none, or others follow: merkle_read_proof tells why */
    MERKLE_NOT_A_DIGEST = 3,   /* a root or a leaf digest has not 32 bytes, or pins or leaf digests have not 32 bytes each */
    MERKLE_WRONG_LENGTHS = 4,  /* the lengths of the elements do not add up to that of their buffer, or they, or the leaf digests, are not
                                * as many as the locations */
    MERKLE_OUT_OF_MEMORY = 5,  /* a request for memory was refused: nothing is known of the proof */
    MERKLE_UNSUPPORTED = 6     /* the processor lacks instructions that the library needs: nothing is known of the proof */
};

/* What merkle_read_proof answers, beside MERKLE_OUT_OF_MEMORY and MERKLE_UNSUPPORTED. */
enum merkle_reading {
    MERKLE_READ = 0,             /* the bytes encode a proof, which may be accepted or not */
    MERKLE_END_OF_BUFFER = 16,   /* they end too early */
    MERKLE_INVALID_VARINT = 17,  /* one of the three numbers is not in its shortest form, or exceeds 64 bits */
    MERKLE_INVALID = 18,         /* the leaf count exceeds that of the family */
    MERKLE_TRAILING = 20         /* bytes follow those of the proof */
};

/* What merkle_leaf_digest answers, beside MERKLE_UNSUPPORTED. */
enum merkle_hashing {
    MERKLE_HASHED = 0,       /* the digest is written */
    MERKLE_NO_LOCATION = 32  /* no leaf of the family has that location */
};

/* Whether `element` is the leaf at `location`, from 0 on, of the list behind `root`.
 *
 * MERKLE_ACCEPTED means for each list of leaf digests with this root: the proof is the honest one of that leaf, or else the check and the
 * list hash two different inputs to the same digest at the same place. The honest proof of a list is never answered MERKLE_REJECTED. */
MERKLE_CALL uint32_t merkle_verify_element(bool is_belt, bool is_backward, const uint8_t *root, size_t root_length, const uint8_t *proof,
                                           size_t proof_length, uint64_t location, const uint8_t *element, size_t element_length);

/* Whether the elements are the leaves from `start` on, one after another, of the list behind `root`.
 *
 * `elements` has their bytes, one after another, `elements_length` in all, and `lengths` the length of each of the `count`. Without
 * elements the answer is MERKLE_ACCEPTED for the proof of the empty list alone. */
MERKLE_CALL uint32_t merkle_verify_range(bool is_belt, bool is_backward, const uint8_t *root, size_t root_length, const uint8_t *proof,
                                         size_t proof_length, uint64_t start, const uint8_t *elements, size_t elements_length,
                                         const size_t *lengths, size_t count);

/* Whether the elements, each at its location, are leaves of the list behind `root`. The locations ascend, each once.
 *
 * The proof is one of scattered leaves, as `multi_proof` makes it. There are as many `locations` as `lengths`. Without elements the answer
 * is MERKLE_ACCEPTED for the proof of the empty list alone. */
MERKLE_CALL uint32_t merkle_verify_scattered(bool is_belt, bool is_backward, const uint8_t *root, size_t root_length, const uint8_t *proof,
                                             size_t proof_length, const uint64_t *locations, size_t location_count,
                                             const uint8_t *elements, size_t elements_length, const size_t *lengths, size_t count);

/* Whether the list behind `root` begins with the `old_leaves` leaves behind `old_root`, followed by the elements.
 *
 * `old_root` is the root that is trusted, for `old_inactive_peaks` inactive peaks. `pins` has the digests of the peaks over its leaves,
 * oldest first, 32 bytes each. The proof is that of the elements from `old_leaves` on in the new list.
 *
 * MERKLE_ACCEPTED means for each list of leaf digests with the new root: its first `old_leaves` leaves have the old root, and the elements
 * follow; or else there are two different inputs with the same digest as above. Other leaves may follow the elements: they are all that
 * was added exactly if the leaf count of the proof, which merkle_read_proof writes, is `old_leaves` + `count`.
 *
 * There is at least one element: without any the answer is MERKLE_REJECTED, but where both lists are empty. So a client that asks again
 * and again compares the roots first, and calls where they differ. */
MERKLE_CALL uint32_t merkle_verify_growth(bool is_belt, bool is_backward, uint64_t old_leaves, uint64_t old_inactive_peaks,
                                          const uint8_t *old_root, size_t old_root_length, const uint8_t *pins, size_t pins_length,
                                          const uint8_t *root, size_t root_length, const uint8_t *proof, size_t proof_length,
                                          const uint8_t *elements, size_t elements_length, const size_t *lengths, size_t count);

/* Whether `digest` is that of the leaf at `location` of the list behind `root`.
 *
 * This and the three checks below answer what those above answer of elements with these digests, with MERKLE_NOT_A_DIGEST in the place of
 * MERKLE_WRONG_LENGTHS where the digests have not 32 bytes each. What MERKLE_ACCEPTED means is the same, of the digests. */
MERKLE_CALL uint32_t merkle_verify_leaf_digest(bool is_belt, bool is_backward, const uint8_t *root, size_t root_length, const uint8_t *proof,
                                               size_t proof_length, uint64_t location, const uint8_t *digest, size_t digest_length);

/* Whether the digests are those of the leaves from `start` on, one after another, of the list behind `root`. */
MERKLE_CALL uint32_t merkle_verify_range_digests(bool is_belt, bool is_backward, const uint8_t *root, size_t root_length,
                                                 const uint8_t *proof, size_t proof_length, uint64_t start, const uint8_t *digests,
                                                 size_t digests_length);

/* Whether the digests are those of leaves, each at its location, of the list behind `root`. The locations ascend, each once, and there are
 * as many as digests. */
MERKLE_CALL uint32_t merkle_verify_scattered_digests(bool is_belt, bool is_backward, const uint8_t *root, size_t root_length,
                                                     const uint8_t *proof, size_t proof_length, const uint64_t *locations,
                                                     size_t location_count, const uint8_t *digests, size_t digests_length);

/* Whether the list behind `root` begins with the `old_leaves` leaves behind `old_root`, followed by leaves with these digests. */
MERKLE_CALL uint32_t merkle_verify_growth_digests(bool is_belt, bool is_backward, uint64_t old_leaves, uint64_t old_inactive_peaks,
                                                  const uint8_t *old_root, size_t old_root_length, const uint8_t *pins, size_t pins_length,
                                                  const uint8_t *root, size_t root_length, const uint8_t *proof, size_t proof_length,
                                                  const uint8_t *digests, size_t digests_length);

/* Writes the digest of the leaf at `location`, from 0 on, with this element, and answers MERKLE_HASHED; or answers MERKLE_NO_LOCATION where
 * no leaf of the family has that location, and writes nothing. It is the same with both ways of folding.
 *
 * `digest` is a place of 32 bytes, and not null. */
MERKLE_CALL uint32_t merkle_leaf_digest(bool is_belt, uint64_t location, const uint8_t *element, size_t element_length,
                                        uint8_t digest[MERKLE_DIGEST_SIZE]);

/* Writes the leaf count and the number of inactive peaks that the bytes of a proof name, and answers MERKLE_READ; or answers why the bytes
 * encode no proof, and writes nothing. Nothing is checked against a root: what a proof names is the list's once a check has accepted it.
 *
 * `leaves` and `inactive_peaks` are two different places, and not null. */
MERKLE_CALL uint32_t merkle_read_proof(bool is_belt, const uint8_t *proof, size_t proof_length, uint64_t *leaves,
                                       uint64_t *inactive_peaks);

/* The version of the library that is called: MERKLE_VERSION where it is the one of this header. */
MERKLE_CALL uint32_t merkle_version(void);

/* Whether the processor has the instructions that the library needs. Where it has not, each call above answers MERKLE_UNSUPPORTED. */
MERKLE_CALL bool merkle_is_supported(void);

#ifdef __cplusplus
}
#endif

#endif
