"""Reads the public calls of the libraries as users name them, for docs/CALLS.md; docs/definitions calls it."""
import re
from pathlib import Path

import crates

TOP = Path(__file__).resolve().parent.parent
ITEM = re.compile(r"^pub (?:const (?=fn))?(struct|enum|trait|type|fn|const) (\w+)", re.M)
WORDS = """# The calls

Each public call of merkle_core and merkle_audit as users name it, and those of the program that are of use elsewhere (`run`, `read_hex`,
`write_hex`): what it answers, its errors, and where it stands; with the fields, variants and constants of the types. The contract of a call
is beside it there, and `docs/definitions --read Mem::root` prints it with the definitions that it names. The calls of the C library are in
[VERIFIER.md](VERIFIER.md). Written by `docs/definitions`.

Words that the calls use:

- **Position, location.** A *location* is the number of a leaf, from 0 on; a *position* that of a node, in the order in which nodes are
  created. The leaf count of a list is given as the location after its last leaf.
- **Inactive peaks.** A root may tell that the oldest k peaks are *inactive*: that no leaf below them is part of the current state, as in a
  log of updates whose oldest entries are all overwritten. k is hashed into the root, and a proof names it. If you don't need that, give 0
  everywhere. `inactive_peaks(leaves, floor)` of a family is the number of peaks whose leaves are all below the location `floor`.
- **Forward, backward.** How the peaks are folded to one digest: forward all from the oldest on; backward the inactive ones from the oldest
  on, and then the active ones from the newest on. Forward, a proof has one digest for all peaks before its range, and one for each peak
  after it. Backward, it has one digest for all active peaks after its range, one for the inactive ones before it, and one for each active
  peak before it. So forward suits proofs of new leaves; backward suits proofs of old ones, and structures whose old peaks are inactive. In
  a Mountain Belt of 999,999,999 leaves without inactive peaks, the proof of the oldest leaf has 57 digests forward and 30 backward, that
  of the newest leaf 1 forward and 28 backward. A hasher has one of the two, and both sides of a proof take the same.
- **Pins.** The digests of the peaks of a leaf count, oldest first: what a pruned structure keeps of the leaves before its boundary, and
  what shows that an old list begins a new one (`verify_proof_and_pinned_nodes`). `nodes_to_pin` has their positions.
- **Limit.** `Proof::read` takes the greatest number of digests that it will make room for: `MAX_PROOF_DIGESTS_PER_ELEMENT` times the number
  of elements, at least one, for ranges and for scattered elements alike.
- **granted!** Write `granted!(call)` in place of `call?` where the error is an `Error`: `?` has no proof where an error holds a
  `&'static str`, as one variant of `Error` does. Your own error type then needs `impl From<&Error<F>>`, from a reference. Where `?` stands
  instead, the compiler asks for ``implement `From<Error<Family>>` for ..``, by value. Don't: `rt try` runs that, and then `rt check` says
  `the borrow checker does not cover this function yet`.
"""


def plain(doc):
    """The first paragraph of a doc comment, on one line, without its links."""
    return re.sub(r"\[([^]]*)\](\([^)]*\))?", r"\1", " ".join(doc.split("\n\n")[0].split("\n")))


def first_sentence(doc):
    """The first sentence of a doc comment, on one line."""
    return re.split(r"(?<=[.:]) (?=[A-Z`\[])", plain(doc))[0].rstrip(":")


def errors(doc):
    """What a doc comment lists as errors, in order, each once: names, and `those of` another call or of a type."""
    found = re.search(r"^# Errors\n(.*?)(?=^# |\Z)", doc, re.M | re.S)
    listed, names = [], r"^(?:- )?(`[A-Z]\w+`(?:(?:, | or | and )`\w+`)*)"
    calls = r"(?:[Tt]hose|the error) of\s+\[`(?:\w+::)?(\w+)`\]|(the error that the type documents)"
    for one in re.finditer(f"{names}|{calls}", found[1] if found else "", re.M):
        listed += re.findall(r"`(\w+)`", one[1]) if one[1] else [f"those of `{one[2]}`" if one[2] else "those that the type documents"]
    return list(dict.fromkeys(listed))


def doc_above(text, at):
    """The doc comment right above a place, without its marks."""
    lines = []
    for line in reversed(text[:at].rstrip("\n").split("\n")):
        if line.lstrip().startswith("///"):
            lines.append(line.lstrip()[3:].removeprefix(" "))
        elif not line.lstrip().startswith("#["):
            break
    return "\n".join(reversed(lines))


def doc_of(text, at):
    """The doc comment above the line of a place."""
    return doc_above(text, text.rfind("\n", 0, at) + 1)


def one_line(text):
    """Code on one line."""
    line = re.sub(r"\s+", " ", text).replace("( ", "(").replace(", )", ")").replace(",)", ")")
    return re.sub(r"^(pub |final )*", "", line.strip())


def signature(text, at):
    """The signature that begins at a place, on one line, without its contract."""
    depth, end, head = 0, at, re.compile(r"\s*(?:\b(?:where|requires|ensures)\b|\{|;)")
    while depth or not head.match(text, end):
        depth += (text[end] in "([") - (text[end] in ")]")
        end += 1
    return one_line(text[at:end])


def declaration(text, at):
    """The declaration of an item: up to its semicolon, or its block."""
    head = re.compile(r"[^{;]*").match(text, at)
    return text[at : head.end() + 1] if text[head.end()] == ";" else text[at : text.index("\n}", at) + 2]


class Source:
    """A source file of a crate, with the items that others can name."""

    def __init__(self, crate, module):
        self.crate, self.path = crate, TOP / "crates" / crate / "src" / f"{module}.rt"
        self.text = self.path.read_text()

    def line(self, at):
        return f"[{self.path.name}:{self.text.count(chr(10), 0, at) + 1}](../{self.path.relative_to(TOP)}#L{self.text.count(chr(10), 0, at) + 1})"

    def uses(self):
        """What `pub use` brings: crate, module and name of each item."""
        for found in re.finditer(r"^pub use ([\w:]+?)::(\{[^}]*\}|\w+);", self.text, re.M):
            crate, _, module = found[1].partition("::")
            for name in re.findall(r"\w+", found[2]):
                yield (self.crate if crate == "crate" else crate, module, name)

    def items(self):
        """The items that the file defines, or hands out of another one: kind, name, source and place."""
        for found in ITEM.finditer(self.text):
            yield found[1], found[2], self, found.start()
        for crate, module, name in self.uses():
            if module:
                yield from (item for item in Source(crate, module).items() if item[1] == name)


def blocks(source, kind, name):
    """The blocks that have the calls of a type or a trait: source and place of each, and what stands in it. A file that has a type of that
    name itself speaks of its own."""
    for path in sorted(source.path.parent.glob("*.rt")):
        other = path if path == source.path else Source(source.crate, path.stem)
        if other is not path and any(item[1] == name and item[2] is other for item in other.items()):
            continue
        own = source if other is path else other
        heads = rf"^pub trait {name}\b" if kind == "trait" else rf"^impl(?:<[^{{]*?>)? {name}\b(?![^{{]* for )"
        for found in re.finditer(heads + r"[^{]*\{\n(.*?)^\}", own.text, re.M | re.S):
            yield own, found.start(1), found[1]


def methods(source, kind, name):
    """The calls of a type or a trait: source and place of each."""
    public = r"^    (?:pub |final |const )*fn \w+" if kind == "trait" else r"^    pub (?:const )?fn \w+"
    for own, start, block in blocks(source, kind, name):
        for call in re.finditer(public, block, re.M):
            yield own, start + call.start() + 4


def table(head, rows):
    """The lines of a table, if it has rows."""
    return [f"| {' | '.join(head)} |", "|" + "---|" * len(head), *rows, ""] if rows else []


def cell(text):
    return text.replace("|", "\\|")


def row(source, at):
    doc = doc_of(source.text, at)
    return f"| `{cell(signature(source.text, at))}` | {first_sentence(doc)} | {', '.join(errors(doc))} | {source.line(at)} |"


def parts(text):
    """The public fields of a struct, or the variants of an enum, with what their doc comments say of them."""
    is_enum = re.match(r"pub enum", text)
    one = r"^    ([A-Z]\w*(?:\([^\n]*\))?)(?: \{(.*?)^    \})?,$" if is_enum else r"^    pub (\w+: [^\n]*?),$"
    for found in re.finditer(one, text, re.M | re.S):
        fields = re.finditer(r"^        (\w+: [^\n]*),$", found[2], re.M) if is_enum and found[2] else ()
        said = ((field[1], first_sentence(doc_above(found[2], field.start())).rstrip(".")) for field in fields)
        inner = [f"`{field}`: {doc[:1].lower()}{doc[1:]}" for field, doc in said]
        yield f"| `{cell(found[1])}` | {cell(plain(doc_above(text, found.start())))}{' Fields: ' * bool(inner)}{'; '.join(inner)} |"


def constants(source, kind, name):
    """The constants of a trait, or those that a type has by traits, with their values."""
    if kind == "trait":
        for own, _, block in blocks(source, kind, name):
            for found in re.finditer(r"^    const (\w+: [^=;]*);", block, re.M):
                yield f"| `{found[1]}` | | {cell(plain(doc_above(block, found.start())))} |"
    for found in re.finditer(rf"^impl(?:<[^{{]*?>)? [\w:<> ,]+ for {name}\b[^{{]*\{{\n(.*?)^\}}", source.text, re.M | re.S):
        for const in re.finditer(r"^    const (\w+: [^=]*) = (.*);$", found[1], re.M):
            named = re.search(rf"^const {re.escape(const[2])}: [^=]* = ([^;]*);", source.text, re.M)
            doc = plain(doc_above(source.text, named.start())) if named else said_by_traits().get(const[1].split(":")[0], "")
            yield f"| `{const[1]}` | `{named[1] if named else const[2]}` | {cell(doc)} |"


def said_by_traits():
    """What the constants of traits are, by their names."""
    texts = [path.read_text() for crate in sorted(crates.libraries()) for path in crates.sources(crate)]
    return {found[1]: plain(doc_above(text, found.start())) for text in texts for found in re.finditer(r"^    const (\w+): [^=;]*;", text, re.M)}


def head(kind, name, where, at):
    """What an item is, in one paragraph."""
    doc, code = plain(doc_of(where.text, at)) if kind == "const" else first_sentence(doc_of(where.text, at)), ""
    if kind in ("type", "const"):
        code = f" `{cell(one_line(declaration(where.text, at)).rstrip(';'))}`,"
    return f"`{name}`, {kind},{code} {where.line(at)}: {doc}"


def section(path, source, shown):
    """The page of one module; what another module has already is named with that module."""
    out, free, calls = [f"## {path}", ""], [], ("Call", "Answers", "Errors", "Where")
    for kind, name, where, at in source.items():
        if shown.setdefault((where.path, name), path) != path:
            out += [f"`{name}`: as in {shown[where.path, name]}", ""]
            continue
        if kind == "fn":
            free.append(row(where, at))
            continue
        out += [head(kind, name, where, at), ""]
        if kind in ("struct", "enum"):
            out += table(("Variant" if kind == "enum" else "Field", "What it says"), list(parts(declaration(where.text, at))))
        if kind != "const":
            out += table(("Constant", "Value", "What it is"), list(constants(where, kind, name)))
            out += table(calls, [row(*call) for call in methods(where, kind, name)])
    return out + table(calls, free)


def modules():
    """The modules that users name, in the order of the page: each with its source."""
    core = Source("merkle_core", "lib")
    own = [("merkle_core", name) for name in re.findall(r"^pub mod (\w+);", core.text, re.M) if name != "laws"]
    passed = own + [(crate, name) for crate, module, name in core.uses() if not module]
    return {f"merkle_core::{name}": Source(crate, name) for crate, name in sorted(passed, key=lambda one: one[1])} | {
        "merkle_audit": Source("merkle_audit", "lib"), "merkle_lines::run": Source("merkle_lines", "run"),
        "merkle_lines::hex_words": Source("merkle_commands", "hex_words")}


def page():
    """The text of docs/CALLS.md."""
    out, shown = WORDS.split("\n"), {}
    for path, source in modules().items():  # an item belongs to the module whose file has it, if that is a module of users
        shown.update({(where.path, name): path for _, name, where, _ in source.items() if where.path == source.path})
    for path, source in modules().items():
        try:
            out += section(path, source, shown)
        except (IndexError, ValueError) as error:
            raise SystemExit(f"docs/definitions: {source.path.relative_to(TOP)}, or a file that it hands items out of, ends within an item") from error
    return "\n".join(out).rstrip("\n") + "\n"


def listed_calls():
    """The calls of the page: the name of their type or module, their own name, their signature and what their doc comment lists as errors."""
    seen = set()
    for path, source in modules().items():
        for kind, name, where, at in source.items():
            if (where.path, name) in seen:
                continue
            seen.add((where.path, name))
            owner = path.split("::")[-1] if kind == "fn" else name
            for own, call in [(where, at)] if kind == "fn" else methods(where, kind, name) if kind != "const" else ():
                shown = signature(own.text, call)
                yield owner, re.search(r"fn (\w+)", shown)[1], shown, errors(doc_of(own.text, call))
            for found in re.finditer(rf"^impl(?:<[^{{]*?>)? TryFrom<[^{{]*> for {name}\b", where.text, re.M):
                yield name, "try_from", "-> Result<Self, Error<F>>", errors(doc_above(where.text, found.start()))


def errors_page(text):
    """docs/ERRORS.md with its table of `Error` in the order of the variants, and the calls that return each, by the doc comments."""
    calls, source = list(listed_calls()), Source("merkle_base", "error")
    variants = re.findall(r"^    ([A-Z]\w*)", declaration(source.text, source.text.index("pub enum Error<F>")), re.M)
    by_name = {name: names for _, name, _, names in calls}

    def returned(names):
        for name in names:
            call = re.fullmatch(r"those of `(\w+)`", name)
            if call and call[1] not in by_name:
                raise SystemExit(f"docs/definitions: a doc comment names the errors of {call[1]}, which is on no page")
            yield from returned(by_name[call[1]]) if call else [name]

    found = {variant: {} for variant in variants}
    for owner, name, shown, names in calls:
        if re.search(r"-> Result<.*, (?:Error(?:<.*>)?)>$", shown):
            for variant in dict.fromkeys(returned(names)):
                if variant not in found:
                    raise SystemExit(f"docs/definitions: {owner}::{name} documents an error {variant}, which Error has not")
                found[variant].setdefault(owner, []).append(name)
    start, end = text.index("| Error | Returned by |"), text.index("\n\n", text.index("| Error | Returned by |"))
    lines = text[start:end].split("\n")
    cells = {re.search(r"\w+", line)[0]: re.split(r"(?<!\\) \| ", line.strip("| ")) for line in lines[2:]}
    if set(cells) != set(variants):
        raise SystemExit(f"docs/definitions: docs/ERRORS.md has rows of {sorted(set(cells) - set(variants))}, and none of {sorted(set(variants) - set(cells))}")
    rows = []
    for variant in variants:
        owners = dict(found[variant])
        shown = "; ".join(f"`{owner}`: {', '.join(f'`{name}`' for name in dict.fromkeys(names))}" for owner, names in owners.items())
        if variant == "OutOfMemory":
            shown = "each call that takes memory; its row in [CALLS.md](CALLS.md) names it"
        rows.append("| " + " | ".join([cells[variant][0], shown or "no call of these crates", *cells[variant][2:]]) + " |")
    return text[:start] + "\n".join(lines[:2] + rows) + text[end:]
