"""Judges what a program answered when one request for memory was refused.

Right is one of three ends:
    ended      the program ended with status 1 and its text for no memory; it wrote the answers so far, and whole lines
    refused    the call answers OutOfMemory, and all other answers are those of ample memory as if the call hadn't been there; where it
               takes a draft or a pending batch, also as if that were lost
    absorbed   all answers are those of ample memory
"""
import collections
import os

REFUSED = {"rows": "OutOfMemory", "merkle": "error OutOfMemory"}
ENDED = {"rows": "Error: Kind(OutOfMemory)\n", "merkle": "merkle: out of memory\n"}

# What a run wrote, its exit status, its error text, and how many requests it made.
Output = collections.namedtuple("Output", "text status error requests")

# A call whose requests are refused: the program, the data file and the line in it; the lines that are run, and the index of the call
# among them; the numbers of its requests; the answers of ample memory; and those after a refusal, by what it leaves behind. `written`
# are the numbers of the requests for the text that `rows` writes, whose refusal doesn't keep the call from being done.
Case = collections.namedtuple("Case", "program file line lines at first last written ample after")


def answers(program, lines, text):
    """The answers in what is written for the lines, and what is broken in it."""
    *written, rest = text.split("\n")
    broken = []
    if program == "rows":
        broken = [answer for line, answer in zip(lines, written) if not answer.startswith(line + " -> ")]
    if rest or broken or len(written) > len(lines):
        return [], f"writes a broken line {(rest or (broken + written)[0])[:60]!r}"
    if program == "rows":
        written = [answer[len(line) + len(" -> "):] for line, answer in zip(lines, written)]
    return written, ""


def ample_answers(program, lines, out):
    """The answers of a run in which nothing is refused, and what is wrong with it."""
    found, broken = answers(program, lines, out.text)
    if broken or out.status or out.error or len(found) != len(lines):
        return found, f"WRONG, nothing refused: status {out.status}, {len(found)} answers to {len(lines)} lines; {broken} {out.error[:60]!r}"
    for line, answer in zip(lines, found):
        if answer.endswith("OutOfMemory"):
            return found, f"WRONG, nothing refused: line {line[:60]!r} answers OutOfMemory"
    return found, ""


def apart(found, wanted):
    """Two answers, each from a little before where they differ."""
    begin = max(0, len(os.path.commonprefix([found, wanted])) - 8)
    return tuple(("..." if begin else "") + repr(text[begin:begin + 40]) for text in (found, wanted))


def first_difference(found, wanted):
    return next(i for i in range(len(found)) if found[i] != wanted[i])


def judge(case, number, out):
    """The end of the run in which the request of that number is refused; or what is wrong, after `WRONG`."""
    def wrong(text):
        return f"WRONG {case.file}, request {number}, line {case.line} {case.lines[case.at][:60]!r}: {text}"

    found, broken = answers(case.program, case.lines, out.text)
    if out.requests < number or broken:
        return wrong(broken or f"the program ended with status {out.status} after {out.requests} requests")
    if out.status:
        # `merkle` may not have written all that it answered.
        count = case.at if case.program == "rows" else min(len(found), case.at)
        if out.status == 1 and out.error == ENDED[case.program] and found == case.ample[:count]:
            return "ended"
        return wrong(f"ended with status {out.status}, {out.error[:60]!r}, after {len(found)} answers")
    if out.error:
        return wrong(f"writes {out.error[:60]!r} to standard error, and goes on")
    if len(found) != len(case.lines):
        return wrong(f"{len(found)} answers in place of {len(case.lines)}")
    if found == case.ample:
        return "absorbed"
    allowed = [case.after[left] for left in case.after if left != "done" or number in case.written]
    if found in allowed:
        return "refused"
    wanted = max(allowed + [case.ample], key=lambda other: first_difference(found, other))
    at = first_difference(found, wanted)
    then = "" if at == case.at else f"then line {case.lines[at][:60]!r} "
    return wrong("{}answers {} in place of {}".format(then, *apart(found[at], wanted[at])))


PRUNE = Case(
    "rows", "-", 1, ("new", "prune m 2", "nodes m", "prune m 2", "nodes m"), 1, 10, 19, (11, 18, 19), ["ok", "ok", "B", "ok", "B"],
    {"unchanged": ["ok", "OutOfMemory", "A", "ok", "B"], "done": ["ok", "OutOfMemory", "B", "ok", "B"]},
)
CHECK = Case(
    "rows", "-", 1, ("new", "check", "check"), 1, 10, 19, (11, 18, 19), ["ok", "yes", "yes"],
    {"unchanged": ["ok", "OutOfMemory", "yes"]},
)
ADD = Case(
    "merkle", "-", 1, ("new", "add 01", "add 02", "commit"), 2, 10, 19, (), ["ok", "ok 0", "ok 1", "ok 2 3"],
    {"unchanged": ["ok", "ok 0", "error OutOfMemory", "ok 0 0"]},
)
NO_MEMORY = ENDED["rows"]

# What is wanted for the refused request 12, what the case shows, the case, its answers, and, where they aren't those of a run that ends
# well, the error text and the status, and the number of requests.
TOLD = [
    ("refused", "refused and unchanged", PRUNE, "ok|OutOfMemory|A|ok|B"),
    ("absorbed", "as if nothing were refused", PRUNE, "ok|ok|B|ok|B"),
    ("refused", "the answer's text is refused", PRUNE._replace(written=(12,)), "ok|OutOfMemory|B|ok|B"),
    ("ended", "no memory for the line", PRUNE, "ok", NO_MEMORY, 1),
    ("ended", "no memory for the line", ADD, "ok|ok 0", ENDED["merkle"], 1),
    ("refused", "the batch is lost", ADD, "ok|ok 0|error OutOfMemory|ok 0 0"),
    ("WRONG", "a check turned to no", CHECK, "ok|no|yes"),
    ("WRONG", "a check turned to a root mismatch", CHECK, "ok|RootMismatch|yes"),
    ("WRONG", "a word turned to no word", CHECK, "ok|syntax|yes"),
    ("WRONG", "a structure changed after a refusal", PRUNE, "ok|OutOfMemory|B|ok|B"),
    ("WRONG", "half changed", PRUNE, "ok|OutOfMemory|C|ok|B"),
    ("WRONG", "changed by the second call", PRUNE, "ok|OutOfMemory|A|ok|C"),
    ("WRONG", "ok without a change", PRUNE, "ok|ok|A|ok|B"),
    ("WRONG", "the second call still fails", PRUNE, "ok|OutOfMemory|A|OutOfMemory|A"),
    ("WRONG", "it answers otherwise", CHECK, "ok|OutOfMemory|no"),
    ("WRONG", "OutOfMemory of another line", PRUNE, "ok|ok|OutOfMemory|ok|B"),
    ("WRONG", "OutOfMemory and no such request", CHECK, "ok|OutOfMemory|yes", "", 0, 11),
    ("WRONG", "a line lost at the end", PRUNE, "", NO_MEMORY, 1),
    ("WRONG", "a line too many", PRUNE, "ok|ok", NO_MEMORY, 1),
    ("WRONG", "another answer before the end", PRUNE, "no", NO_MEMORY, 1),
    ("WRONG", "no reason for the end", PRUNE, "ok", "", 1),
    ("WRONG", "killed", PRUNE, "ok", NO_MEMORY, -11),
    ("WRONG", "an error text, and no end", PRUNE, "ok|OutOfMemory|A|ok|B", "heap corrupted\n", 0),
    ("WRONG", "lines missing", PRUNE, "ok|OutOfMemory|A"),
    ("WRONG", "the batch is kept", ADD, "ok|ok 0|error OutOfMemory|ok 1 1"),
    ("WRONG", "its end is no answer", ADD, "ok|ok 1", ENDED["merkle"], 1),
]


def self_test():
    """Whether the judge takes what is right, and nothing that is wrong: what it says otherwise."""
    said = []
    for wanted, what, case, found, *rest in TOLD:
        error, status, requests = rest + ["", 0, 99][len(rest):]
        lines = case.lines if case.program == "rows" else [""] * len(case.lines)
        arrow = " -> " if case.program == "rows" else ""
        text = "".join(f"{line}{arrow}{answer}\n" for line, answer in zip(lines, found.split("|"))) if found else ""
        said.append((wanted, what, judge(case, 12, Output(text, status, error, requests))))
    for text in ("new -> ok\nprune m 3 -> OutOfMemory\n", "new -> ok\nprune m 2 -> OutOfMem"):
        said.append(("WRONG", "a broken line", judge(PRUNE, 12, Output(text, 1, NO_MEMORY, 99))))
    refused = ample_answers("rows", ("new",), Output("new -> OutOfMemory\n", 0, "", 9))[1]
    said.append(("WRONG", "OutOfMemory, and nothing refused", refused))
    return [f"WRONG judge: {what}: {text}" for wanted, what, text in said if not text.startswith(wanted)], len(said)
