"""Compares what no proof sees at the border of the C library: the header with the proved exports, and the names in the built files."""
import ctypes
import os
import re
import subprocess

import merkle_verifier

HERE = os.path.dirname(os.path.abspath(__file__))
SOURCES = os.path.join(HERE, "..", "crates", "merkle_verifier", "src")
PUBLIC = ["merkle_is_supported", "merkle_leaf_digest", "merkle_read_proof", "merkle_verify_element", "merkle_verify_growth",
          "merkle_verify_growth_digests", "merkle_verify_leaf_digest", "merkle_verify_range", "merkle_verify_range_digests",
          "merkle_verify_scattered", "merkle_verify_scattered_digests", "merkle_version"]
NUMBERS = {"bool": "bool", "u64": "uint64_t", "usize": "size_t", "u32": "uint32_t"}
ITEMS = {"u8": "uint8_t", "u64": "uint64_t", "usize": "size_t"}
COUNTS = {"lengths": "count", "locations": "location_count"}
IN_PYTHON = {"bool": ctypes.c_bool, "uint64_t": ctypes.c_uint64, "size_t": ctypes.c_size_t, "const uint8_t *": ctypes.c_char_p,
             "const size_t *": ctypes.POINTER(ctypes.c_size_t), "const uint64_t *": ctypes.POINTER(ctypes.c_uint64),
             "uint64_t *": ctypes.POINTER(ctypes.c_uint64), "uint8_t [MERKLE_DIGEST_SIZE]": ctypes.POINTER(merkle_verifier._DIGEST)}


def text_of(*path):
    with open(os.path.join(*path)) as file:
        return file.read()


def in_c(name, kind):
    """The parameters of C for one of Rattle."""
    if kind == "Global":
        return []
    if kind in NUMBERS:
        return [f"{NUMBERS[kind]} {name}"]
    if kind == f"&mut [u8; {merkle_verifier.DIGEST_SIZE}]":
        return [f"uint8_t {name}[MERKLE_DIGEST_SIZE]"]
    if kind.startswith("&mut "):
        return [f"{NUMBERS[kind[5:]]} *{name}"]
    return [f"const {ITEMS[kind[2:-1]]} *{name}", f"size_t {COUNTS.get(name, name + '_length')}"]


def exports():
    """The prototypes in C of the exports of lib.rt, by their public names."""
    found = re.findall(r'#\[unsafe\(no_mangle\)\]\npub extern "C" fn merkle_proved_(\w+)\((.*?)\) -> (\w+)', text_of(SOURCES, "lib.rt"), re.S)
    parameters = {name: re.findall(r"(\w+): ([^,]+?),?\s*(?=\w+: |$)", given) for name, given, _ in found}
    return {f"merkle_{name}": (NUMBERS[result], [part for one in parameters[name] for part in in_c(*one)]) for name, _, result in found}


def prototypes(text):
    """The prototypes or definitions of the public calls in a text of C."""
    text = re.sub(r"/\*.*?\*/|^#.*?$", "", text, flags=re.S | re.M)
    found = re.findall(r"^(?:MERKLE_CALL )?(\w+) (merkle_\w+)\(([^)]*)\) ?[;{]", text, re.M)
    return {name: (result, [re.sub(r"\s+", " ", part).strip() for part in given.split(",")]) for result, name, given in found}


def numbers_of(text, pattern):
    return {name: int(value) for name, value in re.findall(pattern, text, re.M)}


def compared(what, one, other):
    return [] if one == other else [f"{what}: {one} and {other}"]


def sources():
    """What is wrong with the header, calls.c and the Python module, beside the exports and their numbers."""
    header, wrong = text_of(HERE, "merkle_verifier.h"), []
    declared, defined, proved = prototypes(header), prototypes(text_of(HERE, "calls.c")), exports()
    wrong += compared("the calls", sorted(declared), PUBLIC) + compared("calls.c", defined, declared)
    for name in sorted(proved.keys() | {name for name in PUBLIC if name not in ("merkle_version", "merkle_is_supported")}):
        wrong += compared(f"header and export of {name}", declared.get(name), proved.get(name))
    for name, types in merkle_verifier._CALLS.items():
        given = [part for part in declared[name][1] if part != "void"]
        kinds = [re.sub(r"\w+(\[\w+\])?$", r"\1", part).strip() for part in given]
        wrong += compared(f"the module's {name} and the header's", list(types), [IN_PYTHON.get(kind, kind) for kind in kinds])
    answers = numbers_of(text_of(SOURCES, "answer.rt"), r"^pub\(crate\) const (\w+): u32 = (\d+);$")
    named = numbers_of(header, r"^ +MERKLE_(\w+) = (\d+)")
    wrong += compared("numbers in the header and in answer.rt", named, {**answers, "UNSUPPORTED": 6})
    python = {one.name: one.value for one in [*merkle_verifier.Answer, *merkle_verifier.Reason]}
    written = {"READ": 0, "HASHED": 0, "NO_LOCATION": merkle_verifier.NO_LOCATION}
    wrong += compared("numbers in the header and in merkle_verifier.py", named, {**python, **written})
    version = numbers_of(header, r"^#define MERKLE_(VERSION|DIGEST_SIZE) (\d+)$")
    return wrong + compared("versions", version, {"VERSION": merkle_verifier.VERSION, "DIGEST_SIZE": merkle_verifier.DIGEST_SIZE})


def files(prefix):
    """What is wrong with the built library: its exports, and what it may write beside the heap."""
    shared = subprocess.run(["nm", "-D", "--defined-only", f"{prefix}/lib/libmerkle_verifier.so"], capture_output=True, text=True, check=True).stdout
    exported = sorted(line.split()[-1].split("@")[0] for line in shared.split("\n") if line)
    wrong = compared("exports of the shared library", exported, PUBLIC)
    named = re.findall(r"^.*:([^:\n]+):[0-9a-f]* ([A-Za-z]) (\S+)$", subprocess.run(
        ["nm", "-A", "--defined-only", f"{prefix}/lib/libmerkle_verifier.a"], capture_output=True, text=True, check=True).stdout, re.M)
    written = [f"{name} of {member}" for member, kind, name in named if kind in "BbCcDdGgSs"]
    if not named or len(written) != 1 or not re.search(r"\bnone\b.* of heap.o", written[0]):
        wrong.append(f"the archive has {len(named)} names, and can write to {', '.join(written)}")
    return wrong
