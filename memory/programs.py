"""Runs the programs with a refused request for memory, or with a read or a write that fails."""
import functools
import os
import subprocess
import sys
import tempfile

from judge import Output, ample_answers

HERE = os.path.dirname(os.path.abspath(__file__))
SECONDS = 60

# The path of the library that refuses, and those of the programs by their names; set in each process by `set_up`.
PATHS = {}


def set_up(paths):
    PATHS.update(paths)


def build(folder):
    """The library that refuses, built from its source."""
    library = os.path.join(folder, "refuse.so")
    subprocess.run(["cc", "-O2", "-shared", "-fPIC", "-o", library, os.path.join(HERE, "refuse.c"), "-ldl"], check=True)
    return library


def start(program, lines, **settings):
    """What a program does with the lines: the finished process, and the numbers of its requests, reads and writes."""
    counts, counts_to = os.pipe()
    env = dict(os.environ, LD_PRELOAD=PATHS["library"], COUNTS_TO=str(counts_to), **{name: str(value) for name, value in settings.items()})
    with tempfile.TemporaryFile() as data:
        data.write("".join(line + "\n" for line in lines).encode())
        data.seek(0)
        try:
            done = subprocess.run([PATHS[program]], stdin=data, capture_output=True, env=env, pass_fds=[counts_to], timeout=SECONDS)
        except subprocess.TimeoutExpired:
            sys.exit(f"memory/run: WRONG, no end after {SECONDS} s: {settings} of {program}, after the lines {lines[-20:]!r}")
    os.close(counts_to)
    with os.fdopen(counts) as told:
        return done, [int(count) for count in told.read().split()]


def run(program, lines, number=0):
    """What a program writes for the lines if the request of that number is refused."""
    done, counts = start(program, lines, REFUSE_AT=number)
    return Output(done.stdout.decode(), done.returncode, done.stderr.decode(), counts[0] if counts else -1)


def requests(program, lines):
    """How many requests a program makes for the lines."""
    return run(program, lines).requests


@functools.lru_cache(maxsize=256)
def ample(program, lines):
    """The answers without a refusal."""
    found, wrong = ample_answers(program, lines, run(program, lines))
    return sys.exit("memory/run: " + wrong) if wrong else found
