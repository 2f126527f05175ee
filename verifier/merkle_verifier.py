"""Checks of Merkle proofs with SHA-256, by the proved library libmerkle_verifier.so.

    from merkle_verifier import Family, Folding, Verifier

    verifier = Verifier("verifier/out/lib/libmerkle_verifier.so", Family.MMR, Folding.FORWARD)
    if verifier.element(root, proof, 1, b"bob"):
        ...     # the second leaf behind the root is `bob`

A Verifier is for one family and one folding of the peaks: those that the roots were made with. Any number of threads may use one. Roots,
proofs, pins, elements and digests are bytes, bytearrays or memoryviews, with what docs/FORMATS.md says; where several are given, any
iterable. Who keeps the digests of leaves, as leaf_digest hashes them, and not the elements, has each check over digests too.

Each check returns True for a proof that is accepted: it is the honest one of each list with that root, or else the check and the list hash
two different inputs to the same digest. It returns False for one that is rejected. Where there is nothing to check it raises

    Malformed       the bytes of the proof encode none; its `reason` is a Reason
    NotADigest      a root, a pin or a leaf digest has not 32 bytes
    WrongLengths    the library was given lengths of elements that do not add up, or more or fewer locations than digests, which this module
                    never does
    NoLocation      no leaf of the family has the location that is to be hashed
    OutOfMemory     a request for memory was refused
    Unsupported     the processor lacks SSE4.2

all of them MerkleError; TypeError where an argument is of another type, and OverflowError where a number is not from 0 to 2**64 - 1.
"""
import ctypes
import enum
import operator
import typing

VERSION = 1
DIGEST_SIZE = 32
NO_LOCATION = 32  # what the library answers where no leaf of the family has a location

_BYTES = (ctypes.c_char_p, ctypes.c_size_t)
_FLAGS = (ctypes.c_bool, ctypes.c_bool)
_SIZES = (ctypes.POINTER(ctypes.c_size_t), ctypes.c_size_t)
_WORDS = (ctypes.POINTER(ctypes.c_uint64), ctypes.c_size_t)
_DIGEST = ctypes.c_uint8 * DIGEST_SIZE
_CALLS = {
    "merkle_verify_element": (*_FLAGS, *_BYTES, *_BYTES, ctypes.c_uint64, *_BYTES),
    "merkle_verify_range": (*_FLAGS, *_BYTES, *_BYTES, ctypes.c_uint64, *_BYTES, *_SIZES),
    "merkle_verify_scattered": (*_FLAGS, *_BYTES, *_BYTES, *_WORDS, *_BYTES, *_SIZES),
    "merkle_verify_growth": (*_FLAGS, ctypes.c_uint64, ctypes.c_uint64, *_BYTES, *_BYTES, *_BYTES, *_BYTES, *_BYTES, *_SIZES),
    "merkle_verify_leaf_digest": (*_FLAGS, *_BYTES, *_BYTES, ctypes.c_uint64, *_BYTES),
    "merkle_verify_range_digests": (*_FLAGS, *_BYTES, *_BYTES, ctypes.c_uint64, *_BYTES),
    "merkle_verify_scattered_digests": (*_FLAGS, *_BYTES, *_BYTES, *_WORDS, *_BYTES),
    "merkle_verify_growth_digests": (*_FLAGS, ctypes.c_uint64, ctypes.c_uint64, *_BYTES, *_BYTES, *_BYTES, *_BYTES, *_BYTES),
    "merkle_leaf_digest": (ctypes.c_bool, ctypes.c_uint64, *_BYTES, ctypes.POINTER(_DIGEST)),
    "merkle_read_proof": (ctypes.c_bool, *_BYTES, ctypes.POINTER(ctypes.c_uint64), ctypes.POINTER(ctypes.c_uint64)),
    "merkle_version": (),
}


class Family(enum.Enum):
    """The family of the list behind a root."""

    MMR = "Merkle Mountain Range"
    MMB = "Mountain Belt"


class Folding(enum.Enum):
    """How the peaks are folded to a root."""

    FORWARD = "forward"
    BACKWARD = "backward"


class Answer(enum.Enum):
    """The numbers that the library's checks answer; merkle_verifier.h says when."""

    ACCEPTED = 0
    REJECTED = 1
    MALFORMED = 2
    NOT_A_DIGEST = 3
    WRONG_LENGTHS = 4
    OUT_OF_MEMORY = 5
    UNSUPPORTED = 6


class Reason(enum.Enum):
    """Why bytes encode no proof."""

    END_OF_BUFFER = 16   # they end too early
    INVALID_VARINT = 17  # one of the three numbers is not in its shortest form, or exceeds 64 bits
    INVALID = 18         # the leaf count exceeds that of the family
    TRAILING = 20        # bytes follow those of the proof


class MerkleError(Exception):
    """A proof is not checked."""


class Malformed(MerkleError):
    """The bytes of a proof encode none, for this `reason`."""

    def __init__(self, reason):
        super().__init__(f"the bytes encode no proof: {reason.name}")
        self.reason = reason


class NotADigest(MerkleError):
    """A root, a pin or a leaf digest has not 32 bytes."""


class WrongLengths(MerkleError):
    """The lengths of the elements do not add up to that of their buffer, or they, or the digests, are not as many as the locations."""


class NoLocation(MerkleError):
    """No leaf of the family has that location."""


class OutOfMemory(MerkleError, MemoryError):
    """A request for memory was refused."""


class Unsupported(MerkleError):
    """The processor lacks instructions that the library needs."""


class Counts(typing.NamedTuple):
    """What the bytes of a proof name."""

    leaves: int
    inactive_peaks: int


class Verifier:
    """The checks for one family and one folding, by the library at a path."""

    def __init__(self, library, family, folding):
        if not isinstance(family, Family) or not isinstance(folding, Folding):
            raise TypeError("a Verifier is made for a Family and a Folding")
        self._flags, self._library = (family is Family.MMB, folding is Folding.BACKWARD), ctypes.CDLL(library)
        for name, types in _CALLS.items():
            getattr(self._library, name).argtypes = types
            getattr(self._library, name).restype = ctypes.c_uint32
        if (version := self._library.merkle_version()) != VERSION:
            raise OSError(f"{library} has version {version} of the interface, and not {VERSION}")

    def element(self, root, proof, location, element):
        """Whether `element` is the leaf at `location`, from 0 on, of the list behind `root`."""
        root, proof = _bytes(root), _bytes(proof)
        answer = self._library.merkle_verify_element(*self._flags, *root, *proof, _number(location), *_bytes(element))
        return self._accepted(answer, proof)

    def range(self, root, proof, start, elements):
        """Whether `elements` are the leaves from `start` on, one after another, of the list behind `root`."""
        root, proof = _bytes(root), _bytes(proof)
        return self._accepted(self._library.merkle_verify_range(*self._flags, *root, *proof, _number(start), *_joined(elements)), proof)

    def scattered(self, root, proof, located):
        """Whether the elements are leaves of the list behind `root`; `located` has pairs of a location and an element, ascending."""
        root, proof, located = _bytes(root), _bytes(proof), [(location, element) for location, element in located]
        locations = _array(ctypes.c_uint64, [location for location, _ in located])
        elements = _joined(element for _, element in located)
        return self._accepted(self._library.merkle_verify_scattered(*self._flags, *root, *proof, *locations, *elements), proof)

    def growth(self, old_leaves, old_inactive_peaks, old_root, pins, root, proof, elements):
        """Whether the list behind `root` begins with the `old_leaves` leaves behind `old_root`, followed by `elements`.

        `old_root` was made for `old_inactive_peaks` inactive peaks; `pins` are the digests of the peaks over the old leaves, oldest first.
        Others may follow the elements: these are all that was added exactly if `read(proof).leaves` is `old_leaves` and their count.
        There is at least one element: who asks again and again compares the roots first.
        """
        old = _number(old_leaves), _number(old_inactive_peaks), *_bytes(old_root), *_digests(pins)
        root, proof = _bytes(root), _bytes(proof)
        return self._accepted(self._library.merkle_verify_growth(*self._flags, *old, *root, *proof, *_joined(elements)), proof)

    def leaf_digest(self, location, element):
        """The digest of the leaf at `location`, from 0 on, with this element: what the checks below are given."""
        digest = _DIGEST()
        answer = self._library.merkle_leaf_digest(self._flags[0], _number(location), *_bytes(element), ctypes.byref(digest))
        if answer != 0:
            raise self._refusal(answer)
        return bytes(digest)

    def verify_leaf_digest(self, root, proof, location, digest):
        """Whether `digest` is that of the leaf at `location` of the list behind `root`."""
        root, proof = _bytes(root), _bytes(proof)
        answer = self._library.merkle_verify_leaf_digest(*self._flags, *root, *proof, _number(location), *_bytes(digest))
        return self._accepted(answer, proof)

    def range_digests(self, root, proof, start, digests):
        """Whether `digests` are those of the leaves from `start` on, one after another, of the list behind `root`."""
        root, proof = _bytes(root), _bytes(proof)
        answer = self._library.merkle_verify_range_digests(*self._flags, *root, *proof, _number(start), *_digests(digests))
        return self._accepted(answer, proof)

    def scattered_digests(self, root, proof, located):
        """Whether the digests are those of leaves of the list behind `root`; `located` has pairs of a location and a digest, ascending."""
        root, proof, located = _bytes(root), _bytes(proof), [(location, digest) for location, digest in located]
        locations = _array(ctypes.c_uint64, [location for location, _ in located])
        digests = _digests(digest for _, digest in located)
        return self._accepted(self._library.merkle_verify_scattered_digests(*self._flags, *root, *proof, *locations, *digests), proof)

    def growth_digests(self, old_leaves, old_inactive_peaks, old_root, pins, root, proof, digests):
        """Whether the list behind `root` begins with the `old_leaves` leaves behind `old_root`, followed by leaves with these digests.

        All else is as `growth` says.
        """
        old = _number(old_leaves), _number(old_inactive_peaks), *_bytes(old_root), *_digests(pins)
        root, proof = _bytes(root), _bytes(proof)
        return self._accepted(self._library.merkle_verify_growth_digests(*self._flags, *old, *root, *proof, *_digests(digests)), proof)

    def read(self, proof):
        """The leaf count and the number of inactive peaks that a proof's bytes name; nothing is checked against a root."""
        answer, counts = self._read(_bytes(proof))
        if answer != 0:
            raise self._refusal(answer)
        return counts

    def _read(self, proof):
        """What the library answers to the bytes of a proof, and what it writes."""
        leaves, inactive = ctypes.c_uint64(), ctypes.c_uint64()
        answer = self._library.merkle_read_proof(self._flags[0], *proof, ctypes.byref(leaves), ctypes.byref(inactive))
        return answer, Counts(leaves.value, inactive.value)

    def _accepted(self, answer, proof):
        """What a check returns, by the library's answer; raises where the proof is not checked."""
        if answer == Answer.MALFORMED.value:
            answer, _ = self._read(proof)
            raise self._refusal(answer)
        if answer not in (Answer.ACCEPTED.value, Answer.REJECTED.value):
            raise self._refusal(answer)
        return answer == Answer.ACCEPTED.value

    @staticmethod
    def _refusal(answer):
        """The error for an answer."""
        if answer in [reason.value for reason in Reason]:
            return Malformed(Reason(answer))
        if answer == Answer.NOT_A_DIGEST.value:
            return NotADigest(f"a root, a pin or a leaf digest has not {DIGEST_SIZE} bytes")
        if answer == Answer.WRONG_LENGTHS.value:
            return WrongLengths("the lengths of the elements do not add up")
        if answer == NO_LOCATION:
            return NoLocation("no leaf of the family has that location")
        if answer == Answer.OUT_OF_MEMORY.value:
            return OutOfMemory("a request for memory was refused")
        if answer == Answer.UNSUPPORTED.value:
            return Unsupported("the processor lacks SSE4.2")
        return MerkleError(f"the library answers {answer}")


def _number(value):
    """A number that fits 64 bits: ctypes would cut off the others."""
    value = operator.index(value)
    if not 0 <= value < 2**64:
        raise OverflowError(f"{value} is not from 0 to 2**64 - 1")
    return value


def _copied(value):
    """Bytes, with a copy of those that are not bytes themselves."""
    return value if isinstance(value, bytes) else bytes(memoryview(value))


def _bytes(value):
    value = _copied(value)
    return value, len(value)


def _array(kind, values):
    values = [_number(value) for value in values]
    return (kind * max(len(values), 1))(*values), len(values)


def _joined(elements):
    """The elements in one buffer, with their lengths."""
    elements = [_copied(element) for element in elements]
    return *_bytes(b"".join(elements)), *_array(ctypes.c_size_t, map(len, elements))


def _digests(digests):
    """Pins, or leaf digests, in one buffer."""
    digests = [_copied(digest) for digest in digests]
    if any(len(digest) != DIGEST_SIZE for digest in digests):
        raise NotADigest(f"a pin or a leaf digest has not {DIGEST_SIZE} bytes")
    return _bytes(b"".join(digests))
