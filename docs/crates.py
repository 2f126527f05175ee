"""What crates.txt says: the crates of this repository by floors, each with the libraries that it stands on.

What kind a crate is follows from its folder and its floor. A *theory crate* has no code but its laws, and a name that ends in `_theory`. The
others are libraries, but for those of the floors PROGRAMS and TESTS.
"""
import re
import textwrap
from pathlib import Path

TOP = Path(__file__).resolve().parent.parent
PAGE = TOP / "docs" / "ARCHITECTURE.md"
USERS = ("merkle_core", "merkle_audit")  # what users depend on
PROGRAMS = ("The C library", "Programs")  # the floors of what is run, or linked to other languages
TESTS = "Tests and benchmarks"


def floors():
    """The lines of crates below each heading, by headings."""
    parts = [part.strip().split("\n") for part in (TOP / "crates.txt").read_text().split("\n\n")]
    return {lines[0].removeprefix("# "): [line for line in lines[1:] if not line.startswith("#")] for lines in parts}


def name_of(line):
    return line.split(":")[0].split()[0]


FLOORS = {heading: [name_of(line) for line in lines] for heading, lines in floors().items() if lines}
LINES = {name_of(line): line for lines in floors().values() for line in lines}
NEEDS = {name: line.split(":")[1].split() for name, line in LINES.items()}


def needed(*names):
    """These crates and all of this repository that they stand on, in the order of crates.txt."""
    found, left = set(), list(names)
    while left:
        name = left.pop()
        if name in NEEDS and name not in found:
            found.add(name)
            left += NEEDS[name]
    return [name for name in NEEDS if name in found]


def sources(name):
    """The sources of a crate, but for its laws."""
    return [path for path in sorted((TOP / "crates" / name / "src").rglob("*.rt")) if path.stem != "laws"]


def is_theory(name):
    """Whether a crate has no code but its laws."""
    return not any(re.search(r"^ *(?:pub )?(?:fn|struct|enum|trait|impl)\b", path.read_text(), re.M) for path in sources(name))


def is_program(name):
    """Whether a crate is run, or linked to other languages."""
    return any(name in FLOORS.get(floor, ()) for floor in PROGRAMS)


def libraries():
    """The crates with code that users depend on, and those that these stand on."""
    return [name for name in needed(*USERS) if not is_theory(name)]


def right_below(name):
    """The crates of this repository that a crate stands on, but for those that it stands on by another one too."""
    below = [one for one in NEEDS[name] if one in NEEDS]
    return [one for one in below if not any(one in needed(other) for other in below if other != one)]


def chain():
    """The longest chain of crates of this repository, each of which stands on the next one."""
    longest = {}
    for name in NEEDS:
        longest[name] = [name, *max((longest[below] for below in NEEDS[name] if below in NEEDS), key=len, default=[])]
    return max(longest.values(), key=len)


def faults():
    """What is wrong with crates.txt, or else the crates that docs/ARCHITECTURE.md lacks."""
    folders = {path.name for path in (TOP / "crates").iterdir() if (path / "src").is_dir()}
    found = [f"crates.txt has no floor '{floor}'" for floor in (*PROGRAMS, TESTS) if floor not in FLOORS]
    found += [f"crates.txt has no line below a heading of {name}" for name in sorted(folders - set(NEEDS))]
    found += [f"crates.txt has {name}, of which there is no folder" for name in NEEDS if name not in folders]
    found += [f"crates.txt has {name} twice" for name in NEEDS if sum(names.count(name) for names in FLOORS.values()) > 1]
    found += [fault for at, name in enumerate(NEEDS) for fault in faults_of(name, list(NEEDS)[: at])]
    return found or faults_of_page()


def faults_of(name, before):
    """What is wrong with the place of a crate, after these."""
    found = [f"{name} stands before {below} in crates.txt" for below in NEEDS[name] if below in NEEDS and below not in before]
    if is_theory(name) != name.endswith("_theory"):
        found.append(f"{name} has no code, but for laws, and isn't named so" if is_theory(name) else f"{name} has code, against its name")
    tests = FLOORS.get(TESTS, ())
    found += [f"{name} stands on {below}, which is for tests" for below in NEEDS[name] if below in tests and name not in tests]
    is_used = name in needed(*USERS) or is_theory(name) or is_program(name) or name in tests
    return found + ([] if is_used else [f"{name} is a library by its floor, but none of {', '.join(USERS)} stands on it"])


def faults_of_page():
    """The crates without a row of their own on docs/ARCHITECTURE.md."""
    listed = " ".join(re.findall(r"^\| (\w+(?:, \w+)*) \|", PAGE.read_text(), re.M)).replace(",", "").split()
    return [f"docs/ARCHITECTURE.md has {listed.count(name)} rows of {name}" for name in NEEDS if listed.count(name) != 1]


def drawing():
    """The floors, the highest first: each crate beside those right below it. Then the longest chain."""
    out = []
    for floor, names in reversed(FLOORS.items()):
        out += [floor, *(f"    {name:24}{', '.join(right_below(name))}".rstrip() for name in reversed(names)), ""]
    told = f"The longest chain has {len(chain())} crates: {', '.join(chain())}."
    return "```\n" + "\n".join(out).rstrip("\n") + "\n```\n\n" + "\n".join(textwrap.wrap(told, 140))


def page():
    """docs/ARCHITECTURE.md, with the drawing in the place of its own."""
    text, count = re.subn(r"^```\n.*?^```\n\nThe longest chain .*?\.$", lambda _: drawing(), PAGE.read_text(), count=1, flags=re.M | re.S)
    if not count:
        raise SystemExit("docs/definitions: docs/ARCHITECTURE.md has no drawing of the crates with the longest chain below it")
    return text
