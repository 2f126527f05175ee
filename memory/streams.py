"""Lets each read and each write of the program `merkle` fail, one a run, and gives it input and output that fail by themselves."""
import os
import subprocess
import tempfile

from cases import blocks, filled
from programs import PATHS, SECONDS, start

READ_FAILED = "merkle: read failed\n"
WRITE_FAILED = "merkle: write failed\n"


def wrong_end(done, error, ample):
    """What is wrong with the end of a run whose read or write failed, if something is."""
    if done.returncode != 1 or done.stderr.decode() != error:
        return f"status {done.returncode}, {done.stderr.decode()[:60]!r}"
    if not ample.startswith(done.stdout or b""):
        return f"writes {done.stdout[-60:]!r}"
    return ""


def failing(lines):
    """How many reads and writes failed in the runs of some lines, and what was wrong."""
    done, counts = start("merkle", lines)
    if len(counts) != 3 or 0 in counts[1:]:
        return 0, [f"WRONG: of the lines that begin with {lines[:2]!r} these requests, reads and writes were seen: {counts}"]
    _, reads, writes = counts
    failures = [("READ_AT", number, READ_FAILED) for number in range(1, reads + 1)]
    failures += [("WRITE_AT", number, WRITE_FAILED) for number in range(1, writes + 1)]
    wrong = []
    for name, number, error in failures:
        text = wrong_end(start("merkle", lines, **{name: number})[0], error, done.stdout)
        if text:
            wrong.append(f"WRONG {name} {number} of the lines that begin with {lines[:2]!r}: {text}")
    return len(failures), wrong


def merkle(given, taken):
    return subprocess.run([PATHS["merkle"]], stdin=given, stdout=taken, stderr=subprocess.PIPE, timeout=SECONDS)


def broken(lines):
    """What is wrong with runs whose input is a folder, or whose output is full or closed."""
    wrong = []
    folder = os.open("/", os.O_RDONLY)
    text = wrong_end(merkle(folder, subprocess.DEVNULL), READ_FAILED, b"")
    os.close(folder)
    if text:
        wrong.append(f"WRONG input from a folder: {text}")
    for name in ("full", "closed"):
        if name == "full":
            taken = os.open("/dev/full", os.O_WRONLY)
        else:
            unread, taken = os.pipe()
            os.close(unread)
        with tempfile.TemporaryFile() as given:
            given.write("".join(line + "\n" for line in lines).encode())
            given.seek(0)
            text = wrong_end(merkle(given, taken), WRITE_FAILED, b"")
        os.close(taken)
        if text:
            wrong.append(f"WRONG output that is {name}: {text}")
    return 3, wrong


def streams(path):
    """The numbers of failures, and what was wrong, for each session of a file, and for broken input and output."""
    sessions = [filled("merkle", rows) for _, _, rows in blocks(path)]
    return [failing(lines) for lines in sessions] + [broken(sessions[0])]
