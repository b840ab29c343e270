#!/usr/bin/env python3
"""Runs the sessions of MANUAL.md and CASES.md with the program and says where what it prints isn't what stands there.

The words are the path of the built program; without one it is built first, with the kit. The sessions of each text run
in copies of the folders examples/ and tools/, side by side.
"""
import os
import pathlib
import shutil
import subprocess
import sys
import tempfile

DOCS = pathlib.Path(__file__).resolve().parent
CRATE = DOCS.parent / "crates" / "chipbool"
FOLDERS = ("examples", "tools")
TEXTS = ("MANUAL.md", "CASES.md")


def sessions(text):
    """The commands in order, each with the lines of its here-document and the lines that it prints."""
    found, within = [], False
    for line in text.splitlines():
        if not line.startswith("    "):
            within = False
        elif line.startswith("    $ "):
            found.append((line[6:], [], []))
            within = True
        elif within and line.startswith("    > "):
            found[-1][1].append(line[6:])
        elif within:
            found[-1][2].append(line[4:])
    return found


def printed(command, here, folder, program):
    """The lines that a command prints in the folder, with the program by its name."""
    if here:
        command = command + " <<'END'\n" + "\n".join(here) + "\nEND\n"
    shell = 'chipbool() { "$PROGRAM" "$@"; }\n' + command
    environment = dict(os.environ, PROGRAM=str(program), CHIPBOOL=str(program))
    run = subprocess.run(["bash", "-c", shell], cwd=folder, env=environment, capture_output=True)
    return run.stdout.decode().splitlines()


def differing(name, program):
    """How many commands a text has, and how many of them print otherwise than it says; these are written."""
    wrong, commands = 0, sessions((DOCS / name).read_text())
    with tempfile.TemporaryDirectory() as folder:
        for beside in FOLDERS:
            shutil.copytree(DOCS.parent / beside, pathlib.Path(folder) / beside)
        for command, here, wanted in commands:
            got = printed(command, here, pathlib.Path(folder) / "examples", program)
            if got != wanted:
                wrong += 1
                print(f"$ {command}\nwanted {wanted}\n   got {got}")
    print(f"{name}: {len(commands)} commands, {wrong} not as it says")
    return len(commands), wrong


def main():
    program = pathlib.Path(sys.argv[1]).resolve() if sys.argv[1:] else CRATE / "out" / "chipbool"
    if not sys.argv[1:]:
        subprocess.run(["rt", "run", "--", "check"], cwd=CRATE, capture_output=True)
    told = [differing(name, program) for name in TEXTS]
    return 0 if all(many and not wrong for many, wrong in told) else 1


sys.exit(main())
