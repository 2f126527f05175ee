"""Reads the data files, and makes a case of each line whose requests for memory are refused.

A file is made of blocks with an empty line after each, of which each stands for itself:
    refuse NAME..              the calls whose requests are refused; without this line all are
    quiet NAME..               in its place: the calls that have to make no request; of `rows` none beside the program's own, which are those of
                               the same line with a word that is an error before the library requests memory
    new mmr|mmb forward xor8   the block is run for each choice
    {root m 0}                 what the program answers to that line at that place, so that proofs and roots needn't be written out
    02^1100                    that byte 1,100 times
    $E 01,02                   from here on the word $E is that text
    CALL -> no                 what the line answers with ample memory; without it a refused line has to succeed
"""
import itertools
import os
import re
import sys

from judge import Case, REFUSED
from programs import ample, requests

PROGRAMS = {".rows": "rows", ".lines": "merkle"}

# Calls of `rows` that use up their draft, so that a refusal may lose it; that give a name; that change something; that do so and have
# a number to tell; that only read.
TAKING = """add add_all add_digest add_digests add_list add_numbers update update_digest update_digests update_list forget merkleize
    merkleize_counted""".split()
NAMING = TAKING + "fork child from_mem copy parts from_components restore store".split()
CHANGING = NAMING + "prune prune_all apply".split()
TELLING = ["merkleize_counted"]
READING = "bounds size leaves node nodes peaks root same pending base suffix_peaks".split()

# What `merkle` keeps in its pending batch, which a refusal loses.
PENDING = ("add", "update", "commit")

# A word of a call, by its index, and what makes it an error before the library requests memory: the rest are the program's own requests.
MOST = str(2 ** 64 - 1)
EARLY_WORDS = {
    "fork child from_mem copy": (2, "?"),
    "parts from_components restore read_range read_root": (2, MOST),
    "components first_damaged": (1, "?"),
    "leaf_digests slice_range slice_multi": (1, MOST),
    "read_history": (2, "0"),
    "slice_history": (3, "0"),
    "check check_leaf check_pinned check_digests check_leaf_digest check_pinned_digests reconstruct extract store": (4, MOST),
    "read_config": (2, "0"),
    "plan plan+build plan_leaf plan_leaf+build positions positions_leaf groups multi_positions check_multi check_multi_digests read_proof read_hex":
        (1, "0"),
    "node_digests": (2, "-"),
    "audit_apply": (2, "?"),
    "audit_range audit_multi": (6, "?"),
    "audit_pair": (10, "?"),
}
EARLY = {name: early for names, early in EARLY_WORDS.items() for name in names.split()}

# An answer that no refused call may give with ample memory, unless its line says so.
ERROR = re.compile("no$|unknown|syntax|differ|changed|[A-Z]|error")


def call_of(program, line):
    """The name that a line is counted by."""
    words = line.split(" ")
    if program != "rows":
        return f"{program}:{words[0]}"
    is_built = (words[0], len(words)) in (("plan", 6), ("plan_leaf", 5))
    return words[0] + ("+build" if is_built else "")


def rows_of(path):
    """The lines of a file, each as its number, its text and the answer that it says; None for an empty one."""
    texts = {}
    with open(path, encoding="utf8") as lines:
        for number, line in enumerate(itertools.chain(lines, [""]), 1):
            text = line.rstrip("\n")
            if text.startswith("$"):
                name, _, texts[name] = text.partition(" ")
            elif not text:
                yield None
            elif not text.startswith("#"):
                text = re.sub(r"\$\w+", lambda found: texts[found[0]], text)
                text = re.sub(r"([0-9a-f]{2})\^(\d+)", lambda found: found[1] * int(found[2]), text)
                text, _, answer = text.partition(" -> ")
                yield number, text, answer


def blocks(path):
    """Each block of a file, once for each choice of its first line: whether its calls are `refuse`d or `quiet`, their names, and its rows."""
    block = []
    for row in rows_of(path):
        if row:
            block.append(row)
        elif block:
            how, *names = block[0][1].split(" ")
            if how in ("refuse", "quiet"):
                del block[0]
            else:
                how, names = "refuse", None
            number, first, answer = block[0]
            for words in itertools.product(*(word.split("|") for word in first.split(" "))):
                yield how, names, [(number, " ".join(words), answer)] + block[1:]
            block = []


def tasks(path, wanted):
    """The program, the file, the rows of the block and the index among them, for each line of a call that is `refuse`d, or `quiet`."""
    program = PROGRAMS[os.path.splitext(path)[1]]
    for how, names, rows in blocks(path):
        for at, (_, text, _) in enumerate(rows):
            if how == wanted and (not names or text.split(" ")[0] in names or call_of(program, text) in names):
                yield program, path, rows, at


def filled(program, rows):
    """The lines of rows, with the answers that stand in braces."""
    lines = ()
    for _, text, _ in rows:
        before = lines
        lines += (re.sub(r"\{([^}]*)\}", lambda found: ample(program, before + (found[1],))[-1], text),)
    return lines


def check_answers(program, path, rows, lines, at):
    """Ends the run where a line doesn't answer, with ample memory, as its row says."""
    found = ample(program, lines)
    for i, (number, _, answer) in enumerate(rows):
        if found[i] != answer if answer else i == at and ERROR.match(found[i]):
            sys.exit(f"memory/run: WRONG {path}, nothing refused: line {number} {lines[i][:60]!r} answers {found[i][:60]!r}")


def loud(task):
    """What is wrong with a line that has to make no request, if something is."""
    program, path, rows, at = task
    lines = filled(program, rows)
    check_answers(program, path, rows, lines, at)
    none = lines[:at] + (early_line(program, lines[at]),) if program == "rows" else lines[:at]
    count = requests(program, lines[:at + 1]) - requests(program, none)
    return [f"WRONG {path}: line {rows[at][0]} {lines[at][:60]!r} makes {count} requests"] if count else []


def early_line(program, line):
    """The line of a call of `rows` with a word that is an error before the library requests memory."""
    words = line.split(" ")
    index, early = EARLY.get(call_of(program, line), (1, "?"))
    return " ".join(words[:index] + [early] + words[index + 1:])


def before_pending(lines, found, at):
    """The lines before a call of `merkle`, without those that the pending batch is of."""
    begin = max(i + 1 for i in range(at) if lines[i].split(" ")[0] in ("new", "commit") and found[i].startswith("ok"))
    return lines[:begin] + tuple(line for line in lines[begin:at] if line.split(" ")[0] not in PENDING)


def left_behind(program, lines, at):
    """The lines before the call, as it may leave them behind where it is refused."""
    name = lines[at].split(" ")[0]
    if program == "merkle":
        is_pending = name in PENDING
        return {"unchanged": before_pending(lines, ample(program, lines), at) if is_pending else lines[:at]}
    left = {"unchanged": lines[:at]}
    if name in TAKING:
        left["lost"] = lines[:at] + (f"merkleize {lines[at].split(' ')[1]} ?",)
    if name in CHANGING:
        left["done"] = lines[:at + 1]
    return left


def own_requests(program, lines, at, before):
    """How many requests for a call of `rows`, which come after so many, the program makes for its words and its answer, about."""
    name, answer, bare = call_of(program, lines[at]), ample(program, lines)[at], early_line(program, lines[at])
    own = requests(program, lines[:at] + (bare,)) - before + (name in NAMING) + name.startswith("write_")
    if ample(program, lines[:at] + (bare,))[at] != "no":
        own += 1 + max(1, len(answer).bit_length() - 3) + len(re.findall(r"\b[0-9a-f]+\b", answer))
    return own


def find_case(program, path, rows, at):
    """The case of a line, and how many of its requests are the program's own, about.

    After the call come up to four lines that read, the call again, what follows it in its block, and the whole block again.
    """
    lines = filled(program, rows)
    check_answers(program, path, rows, lines, at)
    before, last = requests(program, lines[:at]), requests(program, lines[:at + 1])
    reading, written, own = (), (), 0
    if program == "rows":
        reading = tuple(line for line in lines[at + 1:] if line.split(" ")[0] in READING)[:4]
        texts = 4 if lines[at].split(" ")[0] in TELLING else 2
        written = (requests(program, lines[:at] + ("#" * len(lines[at]),)), *range(last - texts + 1, last + 1))
        own = own_requests(program, lines, at, before)
    rest = reading + (lines[at],) + lines[at + 1:] + lines
    found = ample(program, lines)[:at] + [REFUSED[program]]
    after = {how: found + ample(program, left + rest)[len(left):] for how, left in left_behind(program, lines, at).items()}
    sent = lines[:at + 1] + rest
    return Case(program, os.path.basename(path), rows[at][0], sent, at, before + 1, last, written, ample(program, sent), after), own
