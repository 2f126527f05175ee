"""Models of the lists behind roots, from the formats alone: their nodes, roots and proofs, with SHA-256."""
import hashlib

FAMILIES, BAGGINGS = ("mmr", "mmb"), ("forward", "backward")


def digest(*parts):
    return hashlib.sha256(b"".join(parts)).digest()


def number(value):
    """8 bytes, the most significant first."""
    return value.to_bytes(8, "big")


def varint(value):
    """Groups of 7 bits, the lowest first, and the top bit set where another follows."""
    out = b""
    while value > 127:
        out += bytes([value % 128 + 128])
        value //= 128
    return out + bytes([value])


def spelled(leaves, inactive, digests):
    return varint(leaves) + varint(inactive) + varint(len(digests)) + b"".join(digests)


def folded(hashes):
    """The digest that peaks are folded to, from the oldest on."""
    fold = hashes[0]
    for peak in hashes[1:]:
        fold = digest(fold, peak)
    return fold


def folded_back(hashes):
    """The digest that peaks are folded to, from the newest on."""
    fold = hashes[-1]
    for peak in reversed(hashes[:-1]):
        fold = digest(peak, fold)
    return fold


def root_of(family, bagging, leaves, inactive, hashes):
    """The root over peaks with these digests."""
    tag = bytes([FAMILIES.index(family), BAGGINGS.index(bagging)])
    if not hashes:
        return digest(tag, number(0))
    cut = len(hashes) if bagging == "forward" else max(inactive, 1)
    fold = folded(hashes[:cut])
    if hashes[cut:]:
        fold = digest(fold, folded_back(hashes[cut:]))
    return digest(tag, number(leaves), number(inactive) if inactive else b"", fold)


class Node:
    def __init__(self, position, height, first, hash, children=()):
        self.position, self.height, self.first, self.hash, self.children = position, height, first, hash, children

    def holds(self, location):
        return self.first <= location < self.first + 2**self.height


class List:
    """A list of elements, with the peaks after each leaf. The Range merges the newest peaks while two have equal height; the Belt merges
    the newest pair of equal height, if there is one, once a leaf."""

    def __init__(self, family, elements):
        self.family, self.elements, self.size, self.peaks_after, self.leaf_digests = family, elements, 0, [[]], []
        for location, element in enumerate(elements):
            peaks = list(self.peaks_after[-1])
            peaks.append(self.node(0, location, element))
            self.leaf_digests.append(peaks[-1].hash)
            while pairs := [i for i in range(len(peaks) - 1) if peaks[i].height == peaks[i + 1].height]:
                i = pairs[-1]
                left, right = peaks[i : i + 2]
                peaks[i : i + 2] = [self.node(left.height + 1, left.first, left.hash + right.hash, (left, right))]
                if family == "mmb":
                    break
            self.peaks_after.append(peaks)

    def node(self, height, first, content, children=()):
        self.size += 1
        return Node(self.size - 1, height, first, digest(number(self.size - 1), content), children)

    def pins(self, leaves):
        return [peak.hash for peak in self.peaks_after[leaves]]

    def root(self, bagging, leaves, inactive):
        return root_of(self.family, bagging, leaves, inactive, self.pins(leaves))

    def scattered(self, leaves, inactive, locations):
        """The bytes of the proof of the leaves at some locations: the nodes that one-leaf proofs read, ascending, each once."""
        read = {}
        for location in locations:
            for node in self.peaks_after[leaves]:
                if not node.holds(location):
                    read[node.position] = node.hash
                while node.holds(location) and node.children:
                    left, right = node.children
                    node, sibling = (left, right) if left.holds(location) else (right, left)
                    read[sibling.position] = sibling.hash
        return spelled(leaves, inactive, [read[position] for position in sorted(read)])


class TallList:
    """A list of up to 2^62 leaves, of which some elements are known and each other node has a digest of its own; FORMATS has the formulas.

    `elements` are the known ones by their locations. The digests of the peaks over the first `old` leaves are no parents' either, so that
    they can be pins. What has such a node or a known leaf below it is hashed, and the rest is not, however tall."""

    def __init__(self, family, leaves, elements, old=0):
        self.family, self.leaves, self.elements, self.hashes, self.known_peaks = family, leaves, elements, {}, {}
        self.old_peaks = self.peaks(old)

    def peaks(self, leaves):
        """The first leaf and the height of each peak, oldest first."""
        if leaves not in self.known_peaks:
            peaks, first = [], 0
            for height in range(62, -1, -1):
                while first % 2**height == 0 and self.born(first, height) <= leaves:
                    peaks.append((first, height))
                    first += 2**height
            self.known_peaks[leaves] = peaks
        return self.known_peaks[leaves]

    def born(self, first, height):
        """The least leaf count that has a node."""
        late = 2 ** (height - 1) - 1 if self.family == "mmb" and height else 0
        return first + 2**height + late

    def size(self, leaves):
        return 2 * leaves - len(self.peaks(leaves))

    def position(self, first, height):
        if self.family == "mmr":
            return self.size(first) + 2 ** (height + 1) - 2
        return self.size(first + 3 * 2 ** (height - 1) - 2) + 1 if height else self.size(first)

    def hash(self, first, height):
        if (first, height) not in self.hashes:
            self.hashes[first, height] = self.hashed(first, height)
        return self.hashes[first, height]

    def hashed(self, first, height):
        after = first + 2**height
        if height == 0 and first in self.elements:
            return digest(number(self.position(first, 0)), self.elements[first])
        is_known = any(first <= location < after for location in self.elements)
        is_above = any(first <= old and old + 2**h <= after and h < height for old, h in self.old_peaks)
        if not is_known and not is_above:
            return digest(b"a node", number(first), number(height))
        children = self.hash(first, height - 1), self.hash(first + 2 ** (height - 1), height - 1)
        return digest(number(self.position(first, height)), *children)

    def pins(self, leaves):
        return [self.hash(*peak) for peak in self.peaks(leaves)]

    def root(self, bagging, leaves, inactive):
        return root_of(self.family, bagging, leaves, inactive, self.pins(leaves))

    def range(self, bagging, inactive, start, count):
        """The bytes of the proof of some leaves, one after another."""
        end, peaks = start + count, self.peaks(self.leaves)
        before = [self.hash(*peak) for peak in peaks if peak[0] + 2 ** peak[1] <= start]
        after = [self.hash(*peak) for peak in peaks if peak[0] >= end]
        prefix = len(before) if bagging == "forward" else min(inactive, len(before))
        single = len(after) if bagging == "forward" else max(0, inactive - (len(peaks) - len(after)))
        parts = [folded(before[:prefix])] if prefix else []
        parts += before[prefix:] + after[:single]
        parts += [folded_back(after[single:])] if after[single:] else []
        for first, height in peaks:
            if first < end and start < first + 2**height:
                parts += self.outside(first, height, start, end)
        return spelled(self.leaves, inactive, parts)

    def outside(self, first, height, start, end):
        """The digests of the greatest nodes below one that are outside a range, left to right."""
        if first >= end or first + 2**height <= start:
            return [self.hash(first, height)]
        if start <= first and first + 2**height <= end:
            return []
        half = 2 ** (height - 1)
        return self.outside(first, height - 1, start, end) + self.outside(first + half, height - 1, start, end)

    def scattered(self, inactive, locations):
        """The bytes of the proof of the leaves at some locations."""
        read = {}
        for location in locations:
            for first, height in self.peaks(self.leaves):
                if not first <= location < first + 2**height:
                    read[self.position(first, height)] = self.hash(first, height)
                    continue
                while height:
                    height -= 1
                    other, first = (first, first + 2**height) if location >= first + 2**height else (first + 2**height, first)
                    read[self.position(other, height)] = self.hash(other, height)
        return spelled(self.leaves, inactive, [read[position] for position in sorted(read)])
