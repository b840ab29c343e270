#!/usr/bin/env python3
"""Tries blif.py on small netlists and says where it does otherwise than what stands here, which was worked out by hand.

The words are the path of the built program; without one it is built first, with the kit. Where Yosys is installed, a
design is made to BLIF before and after its optimisation, and the two are compared.
"""
import os
import pathlib
import shutil
import subprocess
import sys
import tempfile

TOOLS = pathlib.Path(__file__).resolve().parent
CRATE = TOOLS.parent / "crates" / "chipbool"

# a model m with inputs a, b, c and the output y, by its cover: the instances that are written
COVERS = [
    ("and", "a b y", "11 1", "and([A,B],[Y])"),
    ("nand by its 0s", "a b y", "11 0", "nand([A,B],[Y])"),
    ("or", "a b c y", "1-- 1|-1- 1|--1 1", "or([A,B,C],[Y])"),
    ("nor", "a b y", "00 1", "nor([A,B],[Y])"),
    ("xor", "a b y", "10 1|01 1", "xor([A,B],[Y])"),
    ("xnor by its 0s", "a b y", "10 0|01 0", "xnor([A,B],[Y])"),
    ("buf", "a y", "1 1", "buf([A],[Y])"),
    ("not", "a y", "0 1", "not([A],[Y])"),
    ("not by its 0s", "a y", "1 0", "not([A],[Y])"),
    ("mux", "a b c y", "01- 1|1-1 1", "mux([A,B,C],[Y])"),
    ("mux, select last", "b c a y", "1-0 1|-11 1", "mux([A,B,C],[Y])"),
    ("constant 1", "y", "1", "one([],[Y])"),
    ("constant 0 by no row", "y", "", "zero([],[Y])"),
    ("constant 0", "y", "0", "zero([],[Y])"),
    ("no row of two inputs", "a b y", "", "zero([],[Y])"),
    ("both values of an input", "a y", "1 1|0 1", "one([],[Y])"),
    ("two products", "a b c y", "10- 1|--0 1", "not([B],[G0]),and([A,G0],[G1]),not([C],[G2]),or([G1,G2],[Y])"),
    ("one product", "a b y", "10 1", "not([B],[G0]),and([A,G0],[G1]),buf([G1],[Y])"),
    ("its 0s", "a b y", "10 0", "not([B],[G0]),and([A,G0],[G1]),buf([G1],[G2]),not([G2],[Y])"),
]

# the lines of a file, and what is said of it
WRONG = [
    (".model m\n.latch a b\n.end", "line 2: .latch isn't taken"),
    (".inputs a\n", "line 1: .inputs stands in no model"),
    ("# nothing\n", "line 1: no model"),
    (".model m\n.end\n.model m\n.end", "line 3: .model wants a name that no other model has"),
    (".model m\n.inputs a a\n.end", "line 1: port a stands twice"),
    (".model m\n.inputs a\n.outputs y\n.end", "line 1: net y isn't driven"),
    (".model m\n.inputs a\n.outputs y\n.names a \\\n b y\n11 1\n.end", "line 4: net b isn't driven"),
    (".model m\n.inputs a\n.outputs a\n.names a\n1\n.end", "line 4: net a is driven twice"),
    (".model m\n.outputs y\n1 1\n.names y\n1\n.end", "line 3: a row that belongs to no .names"),
    (".model m\n.inputs a b\n.outputs y\n.names a b y\n1 1\n.end", "line 5: not a row of 2 inputs and an output"),
    (".model m\n.inputs a b\n.outputs y\n.names a b y\n1x 1\n.end", "line 5: not a row of 2 inputs and an output"),
    (".model m\n.inputs a b\n.outputs y\n.names a b y\n11 1\n00 0\n.end", "line 6: rows of both phases in one cover"),
    (".model m\n.outputs y\n.subckt n o=y\n.end", "line 3: there is no model n"),
    (".model m\n.outputs y\n.subckt n q=y\n.end\n.model n\n.outputs o\n.names o\n1\n.end", "line 3: n has no port q"),
    (".model m\n.outputs y\n.subckt n o=y\n.end\n.model n\n.inputs i\n.outputs o\n.names i o\n1 1\n.end", "line 3: input i of n isn't connected"),
    (".model m\n.outputs y\n.subckt n o\n.end", "line 3: o isn't PORT=NET for a port of its own"),
    (".model m\n.outputs y\n.subckt m y=y\n.end", "line 1: m is part of itself, or uses a model that is"),
    (".model m\n.inputs a \\", "line 2: the file ends in a continued line"),
]

ADDER = """.model add
.inputs a[0] b[0] cin
.outputs s[0] cout
.subckt half x=a[0] y=b[0] s=$t c=c1
.subckt half x=$t y=cin s=s[0] c=c2
.names c1 c2 cout
1- 1
-1 1
.end
.model half
.inputs x y
.outputs s c
.names x y s
10 1
01 1
.names x y c
11 1
.end
"""
FLAT = """.model flat
.inputs cin b[0] a[0]
.outputs cout s[0]
.names a[0] b[0] cin s[0]
100 1
010 1
001 1
111 1
.names a[0] b[0] cin cout
00- 0
0-0 0
-00 0
.end
"""
THROUGH = ".model through\n.inputs a b\n.outputs a n\n.names b n\n0 1\n.end\n"
WIDE = ".model wide\n.inputs " + " ".join(f"i{k}" for k in range(20)) + "\n.outputs y\n.names " + " ".join(
    f"i{k}" for k in range(20)) + " y\n" + "1" * 20 + " {}\n.end\n"

# two files, the model if one is named, the line and the status
PAIRS = [
    (ADDER, FLAT, None, "same add flat\n", 0),
    (FLAT, ADDER, None, "same flat add\n", 0),
    (ADDER, FLAT.replace("111 1", "110 1"), None, "differs add flat at a[0]=1 b[0]=1 cin=0: output s[0] is 0, wanted 1\n", 1),
    (ADDER, ADDER, "half", "same half half\n", 0),
    (THROUGH, THROUGH, None, "same through through\n", 0),
    (WIDE.format(1), WIDE.format(1), None, "same wide wide\n", 0),
    (WIDE.format(1), WIDE.format(0), None, "differs wide wide at " + " ".join(f"i{k}=0" for k in range(20)) + ": output y is 0, wanted 1\n", 1),
    (ADDER, FLAT.replace("cin", "carry"), None, "B: input cin is missing", 11),
    (ADDER, FLAT, "half", "B: there is no model half", 11),
]

YOSYS = "module top(input [3:0] a, b, input s, output [3:0] y); assign y = s ? a + b : a - b; endmodule\n"


class Tries:
    """Runs the converter in a folder, and counts what comes otherwise."""

    def __init__(self, folder, program):
        self.folder, self.program, self.many, self.wrong = folder, program, 0, 0

    def run(self, *words, program=None):
        environment = dict(os.environ, CHIPBOOL=str(program or self.program))
        run = subprocess.run([sys.executable, TOOLS / "blif.py", *words], cwd=self.folder, env=environment, capture_output=True, text=True)
        return run.returncode, run.stdout, run.stderr

    def file(self, name, text):
        (pathlib.Path(self.folder) / name).write_text(text)

    def expect(self, what, got, wanted):
        self.many += 1
        if got != wanted:
            self.wrong += 1
            print(f"{what}\nwanted {wanted}\n   got {got}")


def convert(tries):
    for what, nets, rows, parts in COVERS:
        rows = "".join(row + "\n" for row in rows.split("|") if row)
        tries.file("m", f".model m\n.inputs a b c\n.outputs y\n.names {nets}\n{rows}.end\n")
        text = tries.run("convert", "m")[1].split("[\n", 1)[-1].replace("\n  ", "").strip()
        tries.expect(what, text, f"{parts}]).")
    for text, said in WRONG:
        tries.file("m", text)
        tries.expect(text, tries.run("convert", "m"), (11, "", f"blif.py: m: {said}\n"))
    tries.file("m", ".model and\n.inputs a[1] A_1_ 3\n.outputs y\n.names a[1] A_1_ 3 y\n111 1\n.end\n")
    tries.expect("names", tries.run("convert", "m")[1], "% and_ is and\n% A_1_ is a[1]\n% A_1__ is A_1_\n% N3 is 3\n% Y is y\n"
                 "module(and_, [A_1_,A_1__,N3], [Y], [\n  and([A_1_,A_1__,N3],[Y])]).\n")
    tries.expect("no file", tries.run("convert", "none"), (11, "", "blif.py: none: No such file or directory\n"))
    tries.expect("use", tries.run()[0], 10)


def same(tries):
    for a, b, model, line, status in PAIRS:
        tries.file("A", a)
        tries.file("B", b)
        got = tries.run("same", "A", "B", *([model] if model else []))
        wanted = (status, line, "") if status < 10 else (status, "", f"blif.py: {line}\n")
        tries.expect(f"{a}{b}", got, wanted)
    tries.expect("no program", tries.run("same", "A", "A", program="./none")[0], 12)
    tries.expect("nothing is left", sorted(os.listdir(tries.folder)), ["A", "B", "m"])


def by_yosys(tries):
    tries.file("top.v", YOSYS)
    tries.file("wrong.v", YOSYS.replace("a - b", "b - a"))
    for source, steps, out in (("top", "techmap", "plain"), ("top", "techmap; opt; abc -g AND,XOR,MUX", "small"), ("wrong", "techmap", "wrong")):
        script = f"read_verilog {source}.v; hierarchy -top top; proc; opt; {steps}; clean; write_blif {out}.blif"
        subprocess.run(["yosys", "-q", "-p", script], cwd=tries.folder, check=True, capture_output=True)
    tries.expect("yosys", tries.run("same", "plain.blif", "small.blif"), (0, "same top top\n", ""))
    line = "differs top top at a[0]=0 a[1]=0 a[2]=0 a[3]=0 b[0]=0 b[1]=0 b[2]=1 b[3]=0 s=0: output y[3] is 1, wanted 0\n"
    tries.expect("yosys, wrong", tries.run("same", "plain.blif", "wrong.blif"), (1, line, ""))


def main():
    program = pathlib.Path(sys.argv[1]).resolve() if sys.argv[1:] else CRATE / "out" / "chipbool"
    if not sys.argv[1:]:
        subprocess.run(["rt", "run", "--", "check"], cwd=CRATE, capture_output=True)
    with tempfile.TemporaryDirectory() as folder:
        tries = Tries(folder, program)
        convert(tries)
        same(tries)
        if shutil.which("yosys"):
            by_yosys(tries)
    print(f"{tries.many} tries, {tries.wrong} otherwise than here")
    return 1 if tries.wrong or not tries.many else 0


sys.exit(main())
