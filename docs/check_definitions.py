#!/usr/bin/env python3
"""Check that DEFINITIONS.md lists every public definition of crates/cb_model/specs, or write that list.

    python3 docs/check_definitions.py          says what differs; its status is 1 where something does
    python3 docs/check_definitions.py --write  writes the list anew from the files

The list is the last part of DEFINITIONS.md, from its heading on: the files in the order of specs/Lib.antt, and of each
its public definitions in order, with the comment that stands right above. A definition without a comment of its own
(one of several that are defined together) keeps what the list says of it.

The prose before the list is checked too. Of each heading that names files the files have to be there, and each name in
backquotes that is written as a type is, with capitals inside, has to be defined in cb_model or in cb_laws, be a field's
type there, or be a file of cb_rows.
"""

import pathlib
import re
import sys

ROOT = pathlib.Path(__file__).resolve().parent.parent
MODEL = ROOT / "crates" / "cb_model"
PAGE = ROOT / "docs" / "DEFINITIONS.md"
HEADING = "## Every name, by file"
ABOVE = "Each with the line that stands above it in `crates/cb_model/specs`."
TOGETHER = "the same of lists, defined with the one above"

DEFINITION = re.compile(r"^ *(?:abbrev pub|pub data|pub record|pub) +([A-Za-z][A-Za-z0-9_]*)[^=]*$")
RUST_ITEM = re.compile(r"^ *pub (?:enum|struct|trait) ([A-Za-z]+)|^ {4}([A-Z][A-Za-z]+)(?:[,({ ]|$)", re.M)
CONSTRUCTOR = re.compile(r"^ +([A-Za-z][A-Za-z0-9_]*) :", re.M)
LISTED = re.compile(r"^- `([^`]+)`: (.*)$")
NAME = re.compile(r"`([A-Z][A-Za-z]*)`")


def modules():
    """The files of specs/ in their order."""
    lines = (MODEL / "specs" / "Lib.antt").read_text().split("\n")
    return [line.split()[2] for line in lines if line.startswith("pub mod ")]


def definitions(path):
    """The public definitions of a file in order, each with the comment right above it, if there is one."""
    found = []
    comment = []
    together = False
    record = False
    for line in path.read_text().split("\n"):
        stripped = line.strip()
        if stripped.startswith("-- "):
            comment.append(stripped[3:])
            continue
        if stripped in ("mutual", "abbrev mutual"):
            together = True
            continue
        if stripped and not line.startswith(" "):
            together = False
            record = False
        name = DEFINITION.match(line)
        field = record or (line.startswith(" ") and not together)
        if name and not field:
            found.append((name.group(1), " ".join(comment)))
            comment = []
        elif name is None or field:
            comment = []
        if re.match(r"^ *pub record ", line):
            record = True
    return found


def listed(text):
    """What the list says, by file and name."""
    part = text[text.index(HEADING):] if HEADING in text else ""
    said = {}
    file = None
    for line in part.split("\n"):
        if line.startswith("### `"):
            file = line[5:-1]
        entry = LISTED.match(line)
        if entry and file:
            said[(file, entry.group(1))] = entry.group(2)
    return said


def the_list(said):
    """The list as it has to be, where `said` is what stands for definitions without a comment."""
    lines = [HEADING, "", ABOVE]
    for file in modules():
        lines += ["", f"### `{file}`", ""]
        for name, comment in definitions(MODEL / "specs" / f"{file}.antt"):
            text = comment.removesuffix(".") or said.get((file, name)) or TOGETHER
            lines.append(f"- `{name}`: {text}")
    return "\n".join(lines) + "\n"


def known_names():
    """Names that the prose may use: definitions, constructors and types of cb_model and cb_laws, and files of specs."""
    names = set()
    for crate in ("cb_model", "cb_laws", "cb_rows"):
        folder = ROOT / "crates" / crate
        for path in sorted((folder / "specs").glob("*.antt")):
            names.add(path.stem)
            text = path.read_text()
            names.update(CONSTRUCTOR.findall(text))
            names.update(m.group(1) for line in text.split("\n") if (m := DEFINITION.match(line)))
        for path in sorted((folder / "src").glob("*.rt")):
            for item, variant in RUST_ITEM.findall(path.read_text()):
                names.add(item or variant)
    return names


def unknown_names(prose):
    """Names in the prose that nothing has."""
    known = known_names()
    return sorted({name for name in NAME.findall(prose) if name not in known and len(name) > 1})


def main():
    text = PAGE.read_text()
    prose = text[: text.index(HEADING)] if HEADING in text else text + "\n"
    wanted = prose + the_list(listed(text))
    faults = [f"no such name: {name}" for name in unknown_names(prose)]
    if "--write" in sys.argv[1:]:
        PAGE.write_text(wanted)
    elif wanted != text:
        have, want = set(text.split("\n")), set(wanted.split("\n"))
        faults += [f"missing: {line}" for line in sorted(want - have)]
        faults += [f"too much: {line}" for line in sorted(have - want)]
        if have == want:
            faults.append("the list stands in another order")
    for fault in faults:
        print(fault)
    return 1 if faults else 0


if __name__ == "__main__":
    sys.exit(main())
