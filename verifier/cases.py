"""The calls that verifier/test makes, and what each has to answer."""
import ctypes

import merkle_verifier
from model import BAGGINGS, FAMILIES, List, TallList, digest, number, spelled, varint

# Of elements: with the 8 bytes of the position before them they end around the ends of blocks of SHA-256.
SIZES = [0, 1, 2, 46, 47, 48, 55, 56, 57, 63, 64, 65, 111, 112, 119, 120, 121, 175, 176, 255, 256, 300]
MOST = 2**64 - 1

# The checks, and beside each the one over leaf digests.
OVER_DIGESTS = {"element": "verify_leaf_digest", "range": "range_digests", "scattered": "scattered_digests", "growth": "growth_digests"}


def hexed(value):
    return value.hex() or "-"


class Case:
    """A call: its kind, the family and the bagging, the arguments as the Python module takes them, and its answer.

    Of `read` this is `read` with the two numbers or the name of a reason, of `leaf_digest` it is `hashed` with the digest or the name of an
    answer, and of the others the name of an answer. `lengths` are given in the place of those of the elements, by the names of the library:
    the Python module has no such call. Nor has it one of digests that are `bare`: of any lengths, or with "" for a location that is left out."""

    def __init__(self, answer, kind, family, bagging, *arguments, lengths=None, bare=False):
        self.answer, self.kind, self.family, self.bagging = answer, kind, family, bagging
        self.arguments, self.lengths, self.is_bare = arguments, lengths, bare or lengths is not None

    def proof(self):
        """Which of the arguments is the proof."""
        return {"read": 0, "growth": 5, "growth_digests": 5}.get(self.kind, 1)

    def but(self, answer, proof):
        """The same with another proof."""
        at = self.proof()
        return Case(answer, self.kind, self.family, self.bagging, *self.arguments[:at], proof, *self.arguments[at + 1 :])

    def told(self, verifiers):
        """What the Python module answers."""
        verifier = verifiers[self.family, self.bagging]
        try:
            answer = self.joined(verifier) if self.is_bare else getattr(verifier, self.kind)(*self.arguments)
        except merkle_verifier.Malformed as error:
            return error.reason.name.lower() if self.kind == "read" else "malformed"
        except merkle_verifier.MerkleError as error:
            return ERRORS.get(type(error), repr(error))
        if self.kind == "leaf_digest":
            return f"hashed {answer.hex()}"
        return "read %d %d" % answer if self.kind == "read" else "accepted" if answer is True else "rejected" if answer is False else repr(answer)

    def joined(self, verifier):
        """What the library answers to the elements with other lengths, or to digests that are bare."""
        *before, given = self.arguments
        parts = [one[1] if isinstance(one, tuple) else one for one in given]
        words = [word for one in before for word in given_to_c(b"".join(one) if isinstance(one, list) else one)]
        if self.kind.startswith("scattered"):
            words += merkle_verifier._array(ctypes.c_uint64, [location for location, _ in given if location != ""])
        words += given_to_c(b"".join(parts))
        if self.lengths is not None:
            words += merkle_verifier._array(ctypes.c_size_t, self.lengths)
        answer = getattr(verifier._library, f"merkle_verify_{self.kind}")(*verifier._flags, *words)
        return verifier._accepted(answer, given_to_c(self.arguments[self.proof()]))

    def line(self):
        """The line of check.c."""
        *before, given = self.arguments
        words = [hexed(b"".join(one)) if isinstance(one, list) else hexed(one) if isinstance(one, bytes) else str(one) for one in before]
        if not isinstance(given, list):
            bagging = [] if self.kind in ("read", "leaf_digest") else [self.bagging]
            return " ".join([self.kind, self.family, *bagging, *words, hexed(given)])
        located = [one if isinstance(one, tuple) else (None, one) for one in given]
        count = max(len(located), len(self.lengths or []))
        located += [("" if self.kind == "scattered" else None, b"")] * (count - len(located))
        lengths = [""] * count if self.lengths is None else [f"/{length}" for length in self.lengths] + ["/-"] * (count - len(self.lengths))
        words += [("" if place is None else f"{place}:") + hexed(element) + length for (place, element), length in zip(located, lengths)]
        return " ".join([self.kind, self.family, self.bagging, *words])


ERRORS = {merkle_verifier.NotADigest: "not_a_digest", merkle_verifier.WrongLengths: "wrong_lengths", merkle_verifier.NoLocation: "no_location",
          merkle_verifier.OutOfMemory: "out_of_memory", merkle_verifier.Unsupported: "unsupported"}


def given_to_c(value):
    return (value,) if isinstance(value, int) else (value, len(value))


def some_elements(chance, count):
    """Elements of 0 to 300 bytes, of which each third has one of the sizes above."""
    return [chance.randbytes(chance.randrange(24) if i % 3 else SIZES[i // 3 % len(SIZES)]) for i in range(count)]


def others(name, names):
    return names[1 - names.index(name)]


def changed(kind, part):
    """Another element, or another digest where the call is over digests."""
    return digest(part) if kind in OVER_DIGESTS.values() else part + b"\1"


def false_ones(kind, family, bagging, root, proof, *rest):
    """An accepted call with another root, bagging or family, with roots of other sizes, and with a proof that is none."""
    yield Case("rejected", kind, family, bagging, digest(root), proof, *rest)
    yield Case("rejected", kind, family, others(bagging, BAGGINGS), root, proof, *rest)
    yield Case("rejected", kind, others(family, FAMILIES), bagging, root, proof, *rest)
    yield Case("malformed", kind, family, bagging, root, proof + b"\0", *rest)
    yield Case("malformed", kind, family, bagging, root, proof[:-1], *rest)
    yield Case("malformed", kind, family, bagging, root, b"", *rest)
    for other in (root[:31], root + b"\0", b"", root + root):
        yield Case("not_a_digest", kind, family, bagging, other, proof, *rest)
        yield Case("not_a_digest", kind, family, bagging, other, b"", *rest)


def wrong_lengths(kind, family, bagging, *arguments):
    """An accepted call with lengths that do not add up, or are too few or too many; with others that add up it is rejected."""
    *before, given = arguments
    own = [len(one[1] if isinstance(one, tuple) else one) for one in given]
    total = sum(own)
    wrong = [[MOST], [MOST, total + 1], [2**63, 2**63 + total], [*own[:-1], own[-1] + 1], [*own, 1], [own[0] + 1, *own[1:]], [total + 1]]
    wrong += [own[:-1]] if kind == "scattered" or own[-1] else []
    wrong += [[*own, 0]] if kind == "scattered" else []
    for lengths in wrong:
        yield Case("wrong_lengths", kind, family, bagging, *arguments, lengths=lengths)
    at = 5 if kind == "growth" else 1
    malformed = [*before[:at], b"", *before[at + 1 :]]
    yield Case("wrong_lengths", kind, family, bagging, *malformed, given, lengths=wrong[0])
    yield Case("not_a_digest", kind, family, bagging, *before[: at - 1], b"", *before[at:], given, lengths=wrong[0])
    yield Case("accepted", kind, family, bagging, *arguments, lengths=own)
    if len(own) > 1 and own[0] != own[1]:
        yield Case("rejected", kind, family, bagging, *arguments, lengths=[own[1], own[0], *own[2:]])


def false_digests(kind, family, bagging, *arguments):
    """An accepted call over some digests with bytes that are those of none, and of scattered leaves with more or fewer locations."""
    *before, given = arguments
    at = 5 if kind == "growth_digests" else 1
    malformed = [*before[:at], b"", *before[at + 1 :]]
    if kind == "verify_leaf_digest":
        for other in (given[:31], given + b"\0", given + given, b""):
            yield Case("not_a_digest", kind, family, bagging, *before, other)
            yield Case("not_a_digest", kind, family, bagging, *malformed, other)
        return
    located = kind == "scattered_digests"
    place, last = given[-1] if located else (None, given[-1])
    for other in (last[:31], last + b"\0", b"\0"):
        one = (place, other) if located else other
        yield Case("not_a_digest", kind, family, bagging, *before, [*given[:-1], one])
        yield Case("not_a_digest", kind, family, bagging, *malformed, [*given[:-1], one], bare=True)
    yield Case("accepted", kind, family, bagging, *arguments, bare=True)
    if located:
        for other in ([*given[:-1], ("", last)], [*given, (place + 1, b"")], [*given, ("", last)], [("", one) for _, one in given]):
            yield Case("wrong_lengths", kind, family, bagging, *before, other, bare=True)
            yield Case("wrong_lengths", kind, family, bagging, *malformed, other, bare=True)
        yield Case("not_a_digest", kind, family, bagging, *before, [*given[:-1], ("", last[:31])], bare=True)
        yield Case("not_a_digest", kind, family, bagging, before[0][:31], *before[1:], [*given[:-1], ("", last)], bare=True)


def accepted_digests(kind, family, bagging, *arguments):
    """An accepted call over some digests, and false ones."""
    yield Case("accepted", kind, family, bagging, *arguments)
    yield from false_digests(kind, family, bagging, *arguments)


def range_cases(family, bagging, root, proof, start, proved, kinds=("range", "element")):
    """An accepted range, and false ones; of one element as an element too. With other kinds it is one of digests."""
    kind, of_one = kinds
    false = [*proved[:-1], changed(kind, proved[-1])]
    yield Case("accepted", kind, family, bagging, root, proof, start, proved)
    yield Case("rejected", kind, family, bagging, root, proof, start + 1, proved)
    yield Case("rejected", kind, family, bagging, root, proof, start + 2**32, proved)
    yield Case("rejected", kind, family, bagging, root, proof, start, false)
    yield Case("rejected", kind, family, bagging, root, proof, start, [])
    yield from false_ones(kind, family, bagging, root, proof, start, proved)
    if len(proved) == 1:
        yield Case("accepted", of_one, family, bagging, root, proof, start, proved[0])
        yield Case("rejected", of_one, family, bagging, root, proof, start, false[0])
        yield Case("rejected", of_one, family, bagging, root, proof, start + 2**32, proved[0])
        yield from false_ones(of_one, family, bagging, root, proof, start, proved[0])


def range_digests_cases(family, bagging, root, proof, start, digests):
    """The same over the digests of the leaves."""
    yield from range_cases(family, bagging, root, proof, start, digests, ("range_digests", "verify_leaf_digest"))
    yield from false_digests("range_digests", family, bagging, root, proof, start, digests)
    if len(digests) == 1:
        yield from false_digests("verify_leaf_digest", family, bagging, root, proof, start, digests[0])


def scattered_cases(family, bagging, root, proof, located, kind="scattered"):
    """Accepted scattered leaves, and false ones."""
    yield Case("accepted", kind, family, bagging, root, proof, located)
    yield Case("rejected", kind, family, bagging, root, proof, located + located[-1:])
    yield Case("rejected", kind, family, bagging, root, proof, [(location, changed(kind, part)) for location, part in located])
    yield Case("rejected", kind, family, bagging, root, proof, [*located[:-1], (located[-1][0] + 2**32, located[-1][1])])
    yield Case("rejected", kind, family, bagging, root, proof, [])
    if len(located) > 1:
        yield Case("rejected", kind, family, bagging, root, proof, located[::-1])
        yield Case("rejected", kind, family, bagging, root, proof, [located[1], located[0], *located[2:]])
        yield Case("rejected", kind, family, bagging, root, proof, located[1:])
    yield from false_ones(kind, family, bagging, root, proof, located)


def scattered_digests_cases(family, bagging, root, proof, located):
    """The same over the digests of the leaves."""
    yield from scattered_cases(family, bagging, root, proof, located, "scattered_digests")
    yield from false_digests("scattered_digests", family, bagging, root, proof, located)


def growth_cases(family, bagging, old, before, old_root, pins, root, proof, added, kind="growth"):
    """An accepted growth, and false ones."""
    def case(answer, **other):
        call = dict(old=old, before=before, old_root=old_root, pins=pins, root=root, proof=proof, added=added) | other
        return Case(answer, kind, family, bagging, *call.values())

    yield case("accepted")
    yield from (case("rejected", old=old + more) for more in (1, 2**32))
    yield from (case("rejected", before=before + more) for more in (1, 256, 2**32, 2**63))
    yield case("rejected", old_root=digest(old_root))
    yield case("rejected", root=digest(root))
    yield case("rejected", added=[*added[:-1], changed(kind, added[-1])])
    yield case("rejected", added=[])
    for other in (old_root[:31], old_root + b"\0", b""):
        yield case("not_a_digest", old_root=other, proof=b"")
    for other in (root[:31], root + b"\0", b""):
        yield case("not_a_digest", root=other, proof=b"")
    yield case("not_a_digest", pins=[*pins, b"\0"])
    yield case("malformed", proof=proof[:-1])
    yield case("malformed", proof=proof + b"\0")
    yield case("rejected", pins=[*pins, old_root])
    if pins:
        yield case("rejected", pins=pins[1:])
        yield case("rejected", pins=[digest(pins[0]), *pins[1:]])
        yield case("not_a_digest", pins=[*pins[:-1], pins[-1][:31]], proof=b"")
    if len(pins) > 1:
        yield case("rejected", pins=pins[::-1])


def growth_digests_cases(family, bagging, *call):
    """The same over the digests of the leaves that follow."""
    yield from growth_cases(family, bagging, *call, "growth_digests")
    yield from false_digests("growth_digests", family, bagging, *call)


def empty_lists(family, bagging):
    """Calls without elements: all are accepted of the empty list alone."""
    root, none = List(family, []).root(bagging, 0, 0), spelled(0, 0, [])
    for other, proof, answer in ((root, none, "accepted"), (digest(root), none, "rejected"), (root, spelled(0, 1, []), "rejected"),
                                 (root, spelled(1, 0, []), "rejected"), (root, spelled(0, 0, [root]), "rejected")):
        for kind in ("", "_digests"):
            yield Case(answer, f"range{kind}", family, bagging, other, proof, 0, [])
            yield Case(answer, f"scattered{kind}", family, bagging, other, proof, [])
            yield Case(answer, f"growth{kind}", family, bagging, 0, 0, root, [], other, proof, [])
        yield Case("rejected", "element", family, bagging, other, proof, 0, b"")
        yield Case("rejected", "verify_leaf_digest", family, bagging, other, proof, 0, root)
    one = List(family, [b""])
    only = one.root(bagging, 1, 0)
    for kind in ("", "_digests"):
        yield Case("rejected", f"range{kind}", family, bagging, root, none, 1, [])
        yield Case("rejected", f"growth{kind}", family, bagging, 1, 0, only, one.pins(1), only, spelled(1, 0, []), [])
    yield Case("wrong_lengths", "range", family, bagging, root, none, 0, [], lengths=[1])
    yield Case("not_a_digest", "range_digests", family, bagging, root, none, 0, [b"\0"], bare=True)
    yield Case("wrong_lengths", "scattered_digests", family, bagging, root, none, [(0, b"")], bare=True)


def hashings(family, bagging, chance):
    """Leaves that are hashed, and locations that no leaf has."""
    most, of = 2**62 + (30 if family == "mmb" else 0), TallList(family, 0, {})
    places = [*range(9), 126, 127, 128, 2**31, 2**32, 2**32 + 1, 2**61, 2**62 - 1, most - 1]
    places += [chance.randrange(most) for _ in range(len(SIZES) - len(places))]
    for place, size in zip(places, SIZES):
        element = chance.randbytes(size)
        yield Case(f"hashed {digest(number(of.position(place, 0)), element).hex()}", "leaf_digest", family, bagging, place, element)
    for place in (most, most + 1, 2**63, MOST):
        yield from (Case("no_location", "leaf_digest", family, bagging, place, element) for element in (b"", b"ann"))


def readings(family, bagging):
    """Proofs that are read, and each reason why bytes are none."""
    most = 2**62 + (30 if family == "mmb" else 0)
    for leaves in (0, 1, 127, 128, 16383, 16384, 2**32, 2**62, most):
        for inactive in (0, 1, 127, 128, 2**32, MOST):
            yield Case(f"read {leaves} {inactive}", "read", family, bagging, spelled(leaves, inactive, []))
    two = spelled(5, 1, [digest(b""), digest(b"\0")])
    yield Case("read 5 1", "read", family, bagging, two)
    for cut in range(len(two)):
        yield Case("end_of_buffer", "read", family, bagging, two[:cut])
    for more in (b"\0", b"\x80", two, bytes(32)):
        yield Case("trailing", "read", family, bagging, two + more)
    for count in (3, 2**32, 2**58, 2**59, MOST):
        yield Case("end_of_buffer", "read", family, bagging, varint(5) + varint(1) + varint(count) + bytes(64))
    for leaves in (most + 1, 2**63, MOST):
        yield Case("invalid", "read", family, bagging, spelled(leaves, 0, []))
    for overlong in (b"\x80\0", b"\xff\0", b"\x80" * 9 + b"\0", b"\xff" * 9 + b"\2", b"\xff" * 10, b"\x80" * 9 + b"\2"):
        for before in (b"", varint(5), varint(5) + varint(1)):
            yield Case("invalid_varint", "read", family, bagging, before + overlong + bytes(64))
    yield Case("trailing", "read", family, bagging, spelled(most, MOST, []) + b"\0")


def tall_lists(family, bagging, chance):
    """Accepted proofs of lists of 2^33 to 2^62 leaves, and false ones: they use all the 64 bits of each number."""
    for leaves in (2**33, 2**33 + 2**31 - 5, 2**40 - 1, 2**48 + 12345, 2**61 - 1, 2**62 - 1, 2**62):
        old = chance.randrange(2**32, leaves - 2)
        places = sorted({old, old + 1, *(chance.randrange(2**32, leaves) for _ in range(3))})
        elements = dict(zip(places, some_elements(chance, len(places))))
        of = TallList(family, leaves, elements, old)
        inactive, before = chance.randrange(len(of.peaks(leaves)) + 1), chance.randrange(len(of.peaks(old)) + 1)
        root, two = of.root(bagging, leaves, inactive), [elements[old], elements[old + 1]]
        digests = {place: of.hash(place, 0) for place in places}
        for start, proved in ((old, two), (places[-1], [elements[places[-1]]])):
            proof = of.range(bagging, inactive, start, len(proved))
            yield from range_cases(family, bagging, root, proof, start, proved)
            yield from range_digests_cases(family, bagging, root, proof, start, [digests[start + i] for i in range(len(proved))])
            yield from (Case(f"hashed {digests[start + i].hex()}", "leaf_digest", family, bagging, start + i, one) for i, one in enumerate(proved))
            yield Case(f"read {leaves} {inactive}", "read", family, bagging, proof)
        proof = of.scattered(inactive, places)
        yield from scattered_cases(family, bagging, root, proof, list(elements.items()))
        yield from scattered_digests_cases(family, bagging, root, proof, list(digests.items()))
        call = old, before, of.root(bagging, old, before), of.pins(old), root, of.range(bagging, inactive, old, 2)
        yield from growth_cases(family, bagging, *call, two)
        yield from growth_digests_cases(family, bagging, *call, [digests[old], digests[old + 1]])


def long_lists(family, bagging, chance):
    """A list of 300 leaves: proofs with many elements, and of many digests; some of its proofs with lengths that are wrong."""
    elements = some_elements(chance, 300)
    of, grown = TallList(family, 300, dict(enumerate(elements))), TallList(family, 300, dict(enumerate(elements)), 41)
    root, digests = of.root(bagging, 300, 2), [of.hash(place, 0) for place in range(300)]
    for start, count in ((0, 300), (1, 299), (127, 130), (299, 1), (5, 3)):
        proof = of.range(bagging, 2, start, count)
        yield Case("accepted", "range", family, bagging, root, proof, start, elements[start : start + count])
        yield Case("read 300 2", "read", family, bagging, proof)
        yield from wrong_lengths("range", family, bagging, root, proof, start, elements[start : start + count])
        yield from accepted_digests("range_digests", family, bagging, root, proof, start, digests[start : start + count])
    for places in (range(0, 300, 2), range(0, 300, 9), range(298, 300), range(300)):
        located = [(place, elements[place]) for place in places]
        yield Case("accepted", "scattered", family, bagging, root, of.scattered(2, places), located)
        yield from wrong_lengths("scattered", family, bagging, root, of.scattered(2, places), located)
        at = [(place, digests[place]) for place in places]
        yield from accepted_digests("scattered_digests", family, bagging, root, of.scattered(2, places), at)
    call = 41, 1, grown.root(bagging, 41, 1), grown.pins(41), root, grown.range(bagging, 2, 41, 259), elements[41:]
    yield Case("accepted", "growth", family, bagging, *call)
    part = 41, 1, grown.root(bagging, 41, 1), grown.pins(41), root, grown.range(bagging, 2, 41, 7), elements[41:48]
    yield Case("accepted", "growth", family, bagging, *part)
    yield from wrong_lengths("growth", family, bagging, *part)
    yield from accepted_digests("growth_digests", family, bagging, *call[:-1], digests[41:])
    yield from accepted_digests("growth_digests", family, bagging, *part[:-1], digests[41:48])


def borders(chance):
    """All cases that need no list of the program."""
    for family in FAMILIES:
        for bagging in BAGGINGS:
            yield from empty_lists(family, bagging)
            yield from hashings(family, bagging, chance)
            yield from readings(family, bagging)
            yield from tall_lists(family, bagging, chance)
            yield from long_lists(family, bagging, chance)
