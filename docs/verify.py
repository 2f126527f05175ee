#!/usr/bin/env python3
"""Verifies proofs of ranges, written from docs/FORMATS.md alone.

    docs/verify.py < SESSION

reads a session of the program `merkle`, of which it takes the lines `new` and `check`, and answers each `check` as the program does: `yes`,
`no` or `error` with a name. The hash is SHA-256, or the toy hash after `new .. xor8`. It is an example for verifiers in other languages; no
proof covers it, and `sweep/run` compares it with the program.
"""
import functools
import hashlib
import re
import sys

MAX_LEAVES = {"mmr": 2**62, "mmb": 2**62 + 30}


class Refused(Exception):
    """The name of an error."""


def sha256(*parts):
    return hashlib.sha256(b"".join(parts)).digest()


def xor8(*parts):
    """The toy hash: the exclusive or of all bytes."""
    return bytes([functools.reduce(lambda one, other: one ^ other, b"".join(parts), 0)])


class Scheme:
    """A family, a bagging, and a hash with the number of bytes of its digests."""

    def __init__(self, family, bagging, toy=False):
        self.family, self.bagging, self.hash, self.digest_bytes = family, bagging, xor8 if toy else sha256, 1 if toy else 32


def number(value):
    return value.to_bytes(8, "big")


def read_number(data, name="", most=2**64 - 1):
    """The number that the bytes begin with, and the bytes after it."""
    value = 0
    for at, byte in enumerate(data):
        if at == 9 and byte != 1 or at > 0 and byte == 0:
            raise Refused("InvalidVarint")
        value |= (byte & 127) << 7 * at
        if byte < 128:
            if value > most:
                raise Refused(name)
            return value, data[at + 1 :]
    raise Refused("EndOfBuffer")


def read_proof(scheme, data, max_digests):
    """The leaf count, the number of inactive peaks and the digests of the proof that the bytes begin with, and the bytes after it."""
    leaves, data = read_number(data, "Invalid", MAX_LEAVES[scheme.family])
    inactive, data = read_number(data)
    count, data = read_number(data, "TooMany", max_digests)
    each = scheme.digest_bytes
    if len(data) < each * count:
        raise Refused("EndOfBuffer")
    return leaves, inactive, [data[each * i : each * i + each] for i in range(count)], data[each * count :]


def size(family, leaves):
    """The size in nodes of so many leaves, which is the position of the next leaf."""
    peaks = leaves.bit_count() if family == "mmr" else (leaves + 1).bit_length() - 1
    return 2 * leaves - peaks


def position(family, first, height):
    """The position of the node of this height whose leaves begin at `first`."""
    if family == "mmr":
        return size(family, first) + 2 ** (height + 1) - 2
    return size(family, first) if height == 0 else size(family, first + 3 * 2 ** (height - 1) - 2) + 1


def birth(family, first, height):
    """The least leaf count that has this node."""
    if family == "mmr" or height == 0:
        return first + 2**height
    return first + 2**height + 2 ** (height - 1) - 1


def peaks(family, leaves):
    """The peaks of so many leaves, oldest first, each by its first leaf and its height: from the left, the largest nodes that exist."""
    found, first = [], 0
    while first < leaves:
        height = max(h for h in range(63) if first % 2**h == 0 and first + 2**h <= leaves and birth(family, first, h) <= leaves)
        found.append((first, height))
        first += 2**height
    return found


def fold(scheme, digests):
    """The digests folded from the oldest on."""
    return functools.reduce(scheme.hash, digests)


def fold_back(scheme, digests):
    """The digests folded from the newest on."""
    return functools.reduce(lambda folded, digest: scheme.hash(digest, folded), reversed(digests))


def node(scheme, first, height, start, elements, siblings):
    """The digest of a node that overlaps the range, from the elements and the siblings, which are taken in order."""
    at = number(position(scheme.family, first, height))
    if height == 0:
        return scheme.hash(at, elements[first - start])
    half, end = 2 ** (height - 1), start + len(elements)
    children = [siblings.pop(0) if left + half <= start or end <= left else node(scheme, left, height - 1, start, elements, siblings)
                for left in (first, first + half)]
    return scheme.hash(at, *children)


def root(scheme, leaves, inactive, digests, start, elements):
    """The root that a proof of the elements from `start` on leads to, or None."""
    tag, bagging = bytes([scheme.family == "mmb", scheme.bagging == "backward"]), scheme.bagging
    if not elements:
        return scheme.hash(tag, number(0)) if (start, leaves, inactive, digests) == (0, 0, 0, []) else None
    end, all_peaks, digests = start + len(elements), peaks(scheme.family, leaves), list(digests)
    if end > leaves or inactive > len(all_peaks):
        return None
    before = [p for p in all_peaks if p[0] + 2 ** p[1] <= start]
    after = [p for p in all_peaks if p[0] >= end]
    over = all_peaks[len(before) : len(all_peaks) - len(after)]
    folded = len(before) if bagging == "forward" else min(inactive, len(before))
    single = len(after) if bagging == "forward" else min(len(after), max(0, inactive - len(before) - len(over)))
    try:
        prefix = [digests.pop(0)] if folded else []
        oldest = [digests.pop(0) for _ in before[folded:]]
        newer = [digests.pop(0) for _ in after[:single]]
        suffix = [digests.pop(0)] if after[single:] else []
        middle = [node(scheme, first, height, start, elements, digests) for first, height in over]
    except IndexError:
        return None
    if digests:
        return None
    known = prefix + oldest + middle + newer  # the peaks, oldest first: the folded ones as one digest at each end
    cut = len(known) if bagging == "forward" else max(inactive, 1) - max(folded - 1, 0)
    later = known[cut:] + suffix
    whole = fold(scheme, [fold(scheme, known[:cut]), fold_back(scheme, later)] if later else known)
    return scheme.hash(tag, number(leaves), number(inactive) if inactive else b"", whole)


def check(scheme, start, inactive, expected, proof, elements):
    """Whether a proof of the elements from `start` on has this number of inactive peaks and leads to the expected root."""
    leaves, named, digests, rest = read_proof(scheme, proof, 122 * len(elements))
    if rest:
        raise Refused("Trailing")
    return named == inactive and root(scheme, leaves, named, digests, start, elements) == expected


def read_decimal(word):
    """The number below 2 ^ 64 that a word of decimal digits without leading zeros is."""
    if not re.fullmatch("0|[1-9][0-9]{0,19}", word) or int(word) >= 2**64:
        raise Refused("Syntax")
    return int(word)


def read_hex(word):
    """The bytes that a word of pairs of hexadecimal digits is."""
    if not re.fullmatch("([0-9A-Fa-f]{2})+", word):
        raise Refused("Syntax")
    return bytes.fromhex(word)


def answer(scheme, words):
    """The answer to the words of a line `check A K ROOT PROOF HEX..`."""
    if len(words) < 5:
        raise Refused("Syntax")
    start, inactive, expected, proof = read_decimal(words[1]), read_decimal(words[2]), read_hex(words[3]), read_hex(words[4])
    elements = [b"" if word == "-" else read_hex(word) for word in words[5:]]
    if scheme is None:
        raise Refused("NoStructure")
    if len(expected) != scheme.digest_bytes:
        raise Refused("Syntax")
    return "yes" if check(scheme, start, inactive, expected, proof, elements) else "no"


def answers(lines):
    """The answers to the lines `check` of a session."""
    scheme = None
    for line in lines:
        words = line.split(" ")
        if re.fullmatch("new (mmr|mmb) (forward|backward)( xor8)?", line):
            scheme = Scheme(words[1], words[2], len(words) == 4)
        elif words[0] == "check":
            try:
                yield answer(scheme, words)
            except Refused as refused:
                yield f"error {refused}"


if __name__ == "__main__":
    for told in answers(sys.stdin.buffer.read().decode("latin-1").removesuffix("\n").split("\n")):
        print(told)
