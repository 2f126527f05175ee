"""Damages components of structures by SHA-256, one digest at a time, and looks at whether the search for a damaged node tells where, and
whether a structure is restored of them.

The structures have 1 to 12 leaves, are in both families and with both baggings, and are pruned to each boundary. What is expected comes from
verifier/model.py: the damaged node itself is named, if it is held with both its children, or else its parent; without a parent none is, and
the root is another one. Only components without a damaged digest are restored with the root of the list; else the refusal is by the node that
is named, or by the root where none is.
"""
import os
import sys

sys.dont_write_bytecode = True
sys.path.insert(0, os.path.join(os.path.dirname(os.path.abspath(__file__)), "..", "verifier"))

from model import BAGGINGS, FAMILIES, List, root_of

MOST_LEAVES = 12


def nodes_below(nodes):
    """Each of the nodes and those below them, by position."""
    found = {}
    for node in nodes:
        found[node.position] = node
        found.update(nodes_below(node.children))
    return found


def named(nodes, damaged):
    """The position that is named where one of the held nodes is damaged, or None where no parent of held children tells."""
    parents = [node for node in nodes.values() if node.children and all(child.position in nodes for child in node.children)]
    return min((node.position for node in parents if damaged in (node.position, *(child.position for child in node.children))), default=None)


def flipped(digest):
    """A digest with another last bit."""
    return digest[:-1] + bytes([digest[-1] ^ 1])


def words(digests):
    """A list of digests as a word of a line."""
    return ",".join(digest.hex() for digest in digests) or "-"


def lines_of(forest, bagging, leaves, boundary):
    """Lines that search and restore the components of a structure, whole and with each digest damaged, and the answers that are expected."""
    start = sum(2 ** (peak.height + 1) - 1 for peak in forest.peaks_after[boundary])
    pins = [peak.position for peak in forest.peaks_after[boundary]]
    every = nodes_below(forest.peaks_after[leaves])
    held = {position: every[position] for position in (*pins, *range(start, len(every)))}
    inactive = len(forest.peaks_after[leaves]) // 2
    root = forest.root(bagging, leaves, inactive).hex()
    for damaged in (None, *held):
        digests = {position: flipped(node.hash) if position == damaged else node.hash for position, node in held.items()}
        nodes = words(digests[position] for position in range(start, len(every)))
        parts = f"{boundary} {nodes} {words(digests[pin] for pin in pins)}"
        position = None if damaged is None else named(held, damaged)
        yield f"parts m {parts}", "ok"
        yield "first_damaged m", "none" if position is None else str(position)
        hashes = [digests[peak.position] for peak in forest.peaks_after[leaves]]
        now = root_of(forest.family, bagging, leaves, inactive, hashes).hex()
        told = "RootMismatch" if position is None else f"DamagedNode {position}"
        yield f"restore r {parts} {inactive} {root}", "ok" if damaged is None else told
        yield f"root m {inactive}", "missed" if damaged is not None and position is None and now == root else now


def judged(answers):
    """How many structures were searched, whole or with a damaged digest, and what is wrong with the answers of `rows`."""
    count, wrong = 0, []
    for family in FAMILIES:
        forest = List(family, [bytes([location]) for location in range(MOST_LEAVES)])
        for bagging in BAGGINGS:
            begin = [f"new {family} {bagging} sha256"]
            cases = [case for leaves in range(1, MOST_LEAVES + 1) for boundary in range(leaves + 1) for case in lines_of(forest, bagging, leaves, boundary)]
            found = answers("rows", begin + [line for line, _ in cases])[1:]
            count += sum(line == "first_damaged m" for line, _ in cases)
            wrong += [f"WRONG {begin[0]}: {line[:60]} .. is answered {answer} in place of {wanted}"
                      for (line, wanted), answer in zip(cases, found) if answer != wanted]
    return count, wrong
