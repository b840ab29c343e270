#!/usr/bin/env python3
"""Turns combinational netlists in BLIF (Berkeley Logic Interchange Format, 1992) into facts of modules.

    blif.py convert FILE          writes the facts of all models of FILE, each behind those that it uses
    blif.py same A B [MODEL]      compares a model of A with that of B by `chipbool same`, ports paired by name

Without MODEL it is the first model of each file. The program is `chipbool` on the path, or what the variable CHIPBOOL
names. `same` ends with the program's status, 0 to 5; wrong use ends with 10, a file that can't be taken with 11, a
program that can't be run with 12. It takes .model, .inputs, .outputs, .names, .subckt and .end; all else is refused.
"""
import collections
import itertools
import os
import re
import subprocess
import sys
import tempfile

USE, FILE, PROGRAM = 10, 11, 12
KINDS = {"zero", "one", "buf", "not", "and", "nand", "or", "nor", "xor", "xnor", "mux"}
MOST = 8  # the most inputs of a gate
Cover = collections.namedtuple("Cover", "line inputs output rows")
Instance = collections.namedtuple("Instance", "line model pins")
Model = collections.namedtuple("Model", "name line inputs outputs parts")


class Refused(Exception):
    """What can't be done; the first argument is the status."""


def refuse_if(wrong, path, line, text):
    if wrong:
        raise Refused(FILE, f"{path}: line {line}: {text}")


# ---- reading


def words_by_line(text, path):
    """The words of each logical line, with the number of its first line."""
    start, words = 0, []
    for number, line in enumerate(text.split("\n"), 1):
        line = line.split("#", 1)[0].rstrip()
        start = start or number
        words += line.removesuffix("\\").split()
        if not line.endswith("\\"):
            if words:
                yield start, words
            start, words = 0, []
    refuse_if(words, path, start, "the file ends in a continued line")


def read(path):
    """The models of a file by name, in the order of the text."""
    try:
        with open(path, encoding="utf-8", errors="surrogateescape") as file:
            text = file.read()
    except OSError as error:
        raise Refused(FILE, f"{path}: {error.strerror}") from None
    models, model, cover = {}, None, None
    for line, (first, *rest) in words_by_line(text, path):
        if not first.startswith("."):
            refuse_if(cover is None, path, line, "a row that belongs to no .names")
            cover.rows.append(row_of([first, *rest], len(cover.inputs), path, line))
            refuse_if(cover.rows[-1][1] != cover.rows[0][1], path, line, "rows of both phases in one cover")
            continue
        cover = None
        known = first in (".model", ".inputs", ".outputs", ".names", ".subckt", ".end")
        refuse_if(not known, path, line, f"{first} isn't taken")
        refuse_if(first != ".model" and model is None, path, line, f"{first} stands in no model")
        if first == ".model":
            refuse_if(len(rest) != 1 or rest[0] in models, path, line, ".model wants a name that no other model has")
            model = models[rest[0]] = Model(rest[0], line, [], [], [])
        elif first == ".inputs":
            model.inputs.extend(rest)
        elif first == ".outputs":
            model.outputs.extend(rest)
        elif first == ".end":
            model = None
        else:
            refuse_if(not rest, path, line, f"{first} wants a name")
            if first == ".names":
                cover = Cover(line, rest[:-1], rest[-1], [])
            model.parts.append(cover or Instance(line, rest[0], pins_of(rest[1:], path, line)))
    refuse_if(not models, path, 1, "no model")
    for model in models.values():
        check(model, models, path)
    return models


def row_of(words, width, path, line):
    """A row of a cover: what each input is to be, and the output."""
    pattern, good = (words[0] if width else ""), len(words) == (2 if width else 1)
    good = good and len(pattern) == width and set(pattern) <= set("01-") and words[-1] in ("0", "1")
    refuse_if(not good, path, line, f"not a row of {width} inputs and an output")
    return pattern, words[-1]


def pins_of(words, path, line):
    """The net of each port that is connected."""
    pins = {}
    for word in words:
        port, sign, net = word.partition("=")
        refuse_if(not (port and net) or port in pins, path, line, f"{word} isn't PORT=NET for a port of its own")
        pins[port] = net
    return pins


def check(model, models, path):
    """Each port stands once, each net that is used is driven once, and each instance is of a model that there is."""
    for port, many in collections.Counter(model.inputs).items() | collections.Counter(model.outputs).items():
        refuse_if(many > 1, path, model.line, f"port {port} stands twice")
    driven, used = set(model.inputs), [(net, model.line) for net in model.outputs]
    for part in model.parts:
        if isinstance(part, Cover):
            ins, outs = part.inputs, [part.output]
        else:
            refuse_if(part.model not in models, path, part.line, f"there is no model {part.model}")
            below = models[part.model]
            for port in part.pins:
                refuse_if(port not in below.inputs + below.outputs, path, part.line, f"{part.model} has no port {port}")
            for port in below.inputs:
                refuse_if(port not in part.pins, path, part.line, f"input {port} of {part.model} isn't connected")
            ins, outs = [part.pins[port] for port in below.inputs], [part.pins[port] for port in driving(below, part)]
        for net in outs:
            refuse_if(net in driven, path, part.line, f"net {net} is driven twice")
            driven.add(net)
        used += [(net, part.line) for net in ins]
    for net, line in used:
        refuse_if(net not in driven, path, line, f"net {net} isn't driven")


def driving(below, part):
    """The ports of an instance that drive a net: an output that is an input as well has that input's net."""
    return [port for port in below.outputs if port in part.pins and port not in below.inputs]


def in_order(models, path):
    """The models, each behind those that it uses."""
    done, left = [], dict(models)
    while left:
        ready = [m for m in left.values() if not any(isinstance(p, Instance) and p.model in left for p in m.parts)]
        first = next(iter(left.values()))
        refuse_if(not ready, path, first.line, f"{first.name} is part of itself, or uses a model that is")
        done += ready
        for model in ready:
            del left[model.name]
    return done


# ---- writing


def known_gate(cover):
    """A gate of the language that does what the cover does, with its inputs in order; or none."""
    width = len(cover.inputs)
    if width > MOST:
        return None
    inputs = list(itertools.product([0, 1], repeat=width))
    table = [value_of(cover, bits) for bits in inputs]
    kinds = {"zero": lambda b: 0, "one": lambda b: 1, "buf": lambda b: b[0], "not": lambda b: 1 - b[0]}
    if width > 1:
        kinds |= {"and": all, "nand": lambda b: not all(b), "or": any, "nor": lambda b: not any(b)}
        kinds |= {"xor": lambda b: sum(b) % 2, "xnor": lambda b: 1 - sum(b) % 2}
    for kind, does in kinds.items():
        if (kind in ("zero", "one") or width > 0) and (width == 1 or kind not in ("buf", "not")):
            if [int(does(bits)) for bits in inputs] == table:
                return kind, [] if kind in ("zero", "one") else cover.inputs
    for s, a, b in itertools.permutations(range(3)) if width == 3 else []:
        if [bits[b] if bits[s] else bits[a] for bits in inputs] == table:
            return "mux", [cover.inputs[s], cover.inputs[a], cover.inputs[b]]
    return None


def value_of(cover, bits):
    hit = any(all(c == "-" or int(c) == b for c, b in zip(row, bits)) for row, _ in cover.rows)
    return int(hit == (cover.rows[0][1] == "1")) if cover.rows else 0


def word_for(name, used, first):
    """A word of letters, digits and `_` that nothing else has yet, and that begins with a letter of this case."""
    word = re.sub(r"[^A-Za-z0-9_]", "_", name)
    word = (word[0].upper() if first.isupper() else word[0].lower()) + word[1:]
    word = word if word[0].isalpha() else first + word
    while word in used:
        word += "_"
    used.add(word)
    return word


class Fact:
    """The fact of a model: its nets as variables, its covers as gates."""

    def __init__(self, model, models, atoms):
        self.model, self.atoms = model, atoms
        self.used, self.nets, self.inverted, self.parts = set(), {}, {}, []
        for net in model.inputs + model.outputs:
            self.net(net)
        for part in model.parts:
            if isinstance(part, Cover):
                self.cover(part)
            else:
                below = models[part.model]
                outs = [self.net(part.pins[p]) if p in driving(below, part) else "_" for p in below.outputs]
                self.gate(atoms[part.model], [self.net(part.pins[p]) for p in below.inputs], *outs)

    def net(self, name):
        if name not in self.nets:
            self.nets[name] = word_for(name, self.used, "N")
        return self.nets[name]

    def new(self):
        return word_for(f"G{len(self.parts)}", self.used, "G")

    def gate(self, kind, ins, *outs):
        self.parts.append(f"{kind}([{','.join(ins)}],[{','.join(outs)}])")

    def tree(self, kind, ins, out):
        """A tree of gates of one kind; of one input it is that net."""
        while len(ins) > MOST:
            groups, ins = [ins[k:k + MOST] for k in range(0, len(ins), MOST)], []
            for group in groups:
                ins.append(group[0] if len(group) == 1 else self.new())
                if len(group) > 1:
                    self.gate(kind, group, ins[-1])
        self.gate(kind if len(ins) > 1 else "buf", ins, out)

    def literal(self, net, sign):
        if sign == "1":
            return self.net(net)
        if net not in self.inverted:
            self.inverted[net] = self.new()
            self.gate("not", [self.net(net)], self.inverted[net])
        return self.inverted[net]

    def cover(self, cover):
        found = known_gate(cover)
        if found:
            return self.gate(found[0], [self.net(net) for net in found[1]], self.net(cover.output))
        products = []
        for row, _ in cover.rows:
            literals = [self.literal(net, sign) for net, sign in zip(cover.inputs, row) if sign != "-"]
            products.append(literals[0] if len(literals) == 1 else self.new())
            if not literals:
                self.gate("one", [], products[-1])
            elif len(literals) > 1:
                self.tree("and", literals, products[-1])
        if not products:
            return self.gate("zero", [], self.net(cover.output))
        if cover.rows[0][1] == "1":
            return self.tree("or", products, self.net(cover.output))
        off = self.new()
        self.tree("or", products, off)
        return self.gate("not", [off], self.net(cover.output))

    def table(self):
        """What its words stand for."""
        words = [(self.atoms[self.model.name], self.model.name), *((word, net) for net, word in self.nets.items())]
        return "".join(f"% {word} is {name}\n" for word, name in words if name not in (word, None))

    def text(self):
        ins, outs = (",".join(self.nets[net] for net in ports) for ports in (self.model.inputs, self.model.outputs))
        parts = ",\n  ".join(self.parts)
        return f"module({self.atoms[self.model.name]}, [{ins}], [{outs}], [\n  {parts}]).\n"


def facts(models, path, used, before=""):
    """The facts of a file's models and the atom of each; `before` begins the atoms."""
    atoms = {name: word_for(before + name, used, "m") for name in models}
    return [Fact(model, models, atoms) for model in in_order(models, path)], atoms


def text_of(all_facts):
    text = "".join(fact.table() for fact in all_facts) + "".join(fact.text() for fact in all_facts)
    return text.encode("ascii", "backslashreplace")


# ---- the commands


def convert(path):
    sys.stdout.buffer.write(text_of(facts(read(path), path, set(KINDS))[0]))
    return 0


def same(path_a, path_b, name=None):
    sides = [(path, read(path)) for path in (path_a, path_b)]
    for path, models in sides:
        if name is not None and name not in models:
            raise Refused(FILE, f"{path}: there is no model {name}")
    one, two = (models[name] if name else next(iter(models.values())) for _, models in sides)
    for what, ours, theirs in (("input", one.inputs, two.inputs), ("output", one.outputs, two.outputs)):
        for path, here, there in ((path_b, theirs, ours), (path_a, ours, theirs)):
            for port in there:
                if port not in here:
                    raise Refused(FILE, f"{path}: {what} {port} is missing")
    used = set(KINDS)
    (facts_a, atoms_a), (facts_b, atoms_b) = (facts(m, p, used, b) for (p, m), b in zip(sides, ("a_", "b_")))
    atoms_b[None] = word_for("b_in_the_order_of_a", used, "m")
    pins = {port: port for port in two.inputs + two.outputs}
    paired = Fact(Model(None, 0, one.inputs, one.outputs, [Instance(0, two.name, pins)]), sides[1][1], atoms_b)
    program = os.environ.get("CHIPBOOL", "chipbool")
    with tempfile.TemporaryDirectory() as folder:
        file = os.path.join(folder, "netlists.cb")
        with open(file, "wb") as out:
            out.write(text_of(facts_a + facts_b + [paired]))
        try:
            words = [program, "same", file, atoms_a[one.name], atoms_b[None], "max"]
            run = subprocess.run(words, capture_output=True, text=True)
        except OSError as error:
            raise Refused(PROGRAM, f"{program}: {error.strerror}") from None
    sys.stderr.write(run.stderr)
    sys.stdout.write(told(run.stdout, one, two))
    return run.returncode if 0 <= run.returncode <= 5 else PROGRAM


def told(line, one, two):
    """The program's line with the netlists' own names."""
    if line.startswith("same "):
        return f"same {one.name} {two.name}\n"
    found = re.fullmatch(r"differs \S+ \S+?( at .*)?: output (\d+) is ([01]), wanted ([01])\n", line)
    if not found:
        return line
    ports = [f"{port}={bit}" for port, bit in zip(one.inputs, re.findall("=([01])", found[1] or ""))]
    where = f"{one.name} {two.name}" + (" at " + " ".join(ports) if ports else "")
    return f"differs {where}: output {one.outputs[int(found[2]) - 1]} is {found[3]}, wanted {found[4]}\n"


def main(words):
    try:
        if words[:1] == ["convert"] and len(words) == 2:
            return convert(words[1])
        if words[:1] == ["same"] and len(words) in (3, 4):
            return same(*words[1:])
        raise Refused(USE, "use: blif.py convert FILE, or blif.py same A B [MODEL]")
    except Refused as refused:
        status, text = refused.args
        print(f"blif.py: {text.encode('ascii', 'backslashreplace').decode()}", file=sys.stderr)
        return status


if __name__ == "__main__":
    sys.exit(main(sys.argv[1:]))
