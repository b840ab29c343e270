#!/usr/bin/env python3
"""Everyday circuits with their ports bus after bus (in `select_adder` the two buses take turns), each with a specification
or with a second module that does the same.

circuits.py list                         the names and sizes of the table, a line each
circuits.py NAME SIZE FOLDER [wrong]     writes in the folder
    c.cb          the file of modules for chipbool
    words         the words of chipbool behind FILE's place: verify FILE M max, or same FILE M1 M2 max
    one.blif      the flattened circuit, for ABC
    two.blif      what it is compared with
    nets          both, for nets.c: `inputs N`, then for each side `gates G`, a line `KIND IN IN ..` for each gate, whose
                  output is the next net, and a line `outputs NET NET ..`
With `wrong` one gate of the circuit is another one.
"""
import pathlib
import sys

SIZES = [
    ("ripple_adder", (16, 32, 64, 128)),
    ("lookahead_adder", (16, 32, 64)),
    ("prefix_adder", (16, 32, 64)),
    ("select_adder", (16, 32, 64)),
    ("incrementer", (16, 32, 64)),
    ("comparator", (32, 64, 128)),
    ("multiplexer", (16, 64, 256)),
    ("priority", (32, 64, 128)),
    ("alu_slice", (8, 16, 32)),
    ("alu", (8, 16, 32)),
    ("shifter", (16, 32, 64)),
    ("register_file", (8, 16, 32)),
    ("multiplier", (4, 6, 8, 9)),
    ("chain", (1000, 10000, 100000)),
]
GATES = {"zero", "one", "buf", "not", "and", "or", "xor", "nand", "nor", "xnor", "mux"}


class Module:
    """A module: its ports, and its instances in the order of the text, each after those whose outputs it takes."""

    def __init__(self, name, inputs):
        self.name, self.inputs, self.outputs, self.parts, self.fresh = name, list(inputs), [], [], 0

    def add(self, part, ins, outs=None):
        """An instance of a gate by its name, or of a module; gives its output, or the list of them."""
        count = 1 if isinstance(part, str) else len(part.outputs)
        if outs is None:
            outs = [f"N{self.fresh + k}" for k in range(count)]
            self.fresh += count
        self.parts.append((part, list(ins), list(outs)))
        return outs[0] if count == 1 else outs

    def uses(self, found):
        """The modules used, each once, those used by others first."""
        for part, _, _ in self.parts:
            if not isinstance(part, str) and part not in found:
                part.uses(found)
        found.append(self)
        return found

    def text(self):
        parts = []
        for part, ins, outs in self.parts:
            name = part if isinstance(part, str) else part.name
            parts.append(f"{name}([{','.join(ins)}],[{','.join(outs)}])")
        ports = f"[{','.join(self.inputs)}],[{','.join(self.outputs)}]"
        return f"module({self.name},{ports},\n [{(',' + chr(10) + '  ').join(parts)}]).\n"


class Flat:
    """A circuit of gates alone: net k below the number of inputs is an input, the others are outputs of gates."""

    def __init__(self, inputs):
        self.inputs, self.gates, self.outputs = inputs, [], []

    def gate(self, kind, ins):
        self.gates.append((kind, ins))
        return self.inputs + len(self.gates) - 1

    def module(self, module, ins):
        """The nets of the outputs of the module over these nets, with its gates put behind those that are there."""
        nets = dict(zip(module.inputs, ins))
        for part, pins, outs in module.parts:
            taken = [nets[pin] for pin in pins]
            if isinstance(part, str):
                nets[outs[0]] = self.gate(part, taken)
            else:
                nets.update(zip(outs, self.module(part, taken)))
        return [nets[out] for out in module.outputs]

    def expression(self, expression, names):
        """The net of an expression: a name, or an operator with its operands; a chain is folded from its first."""
        if isinstance(expression, str):
            return names[expression]
        kind, operands = expression
        nets = [self.expression(operand, names) for operand in operands]
        if kind == "not":
            return self.gate("not", nets)
        net = nets[0]
        for other in nets[1:]:
            net = self.gate(kind, [net, other])
        return net


def written(expression, loose=0):
    """The text of an expression; `loose` is how tight an operator must bind here to stand without parentheses."""
    if isinstance(expression, str):
        return expression
    kind, operands = expression
    sign, tight = {"or": ("+", 1), "xor": ("#", 2), "and": ("*", 3), "not": ("~", 4)}[kind]
    if kind == "not":
        return "~" + written(operands[0], 4)
    text = sign.join(written(operand, tight + 1) for operand in operands)
    return f"({text})" if tight < loose else text


def bus(letter, width):
    return [f"{letter}{k}" for k in range(width)]


def half_adder():
    half = Module("half_adder", ["A", "B"])
    half.outputs = [half.add("xor", "AB"), half.add("and", "AB")]
    return half


def full_adder(half):
    full = Module("full_adder", ["A", "B", "C"])
    total, both = full.add(half, "AB")
    total, passed = full.add(half, [total, "C"])
    full.outputs = [total, full.add("or", [both, passed])]
    return full


def ripple(width, ports=None):
    full = full_adder(half_adder())
    module = Module("ripple", ports or bus("A", width) + bus("B", width) + ["C"])
    carry, sums = "C", []
    for k in range(width):
        total, carry = module.add(full, [f"A{k}", f"B{k}", carry])
        sums.append(total)
    module.outputs = sums + [carry]
    return module


def sums(width):
    """The specification of an adder."""
    carry, found = "C", []
    for k in range(width):
        a, b = f"A{k}", f"B{k}"
        found.append(("xor", [a, b, carry]))
        carry = ("or", [("and", [a, b]), ("and", [("or", [a, b]), carry])])
    return found + [carry]


def lookahead(width):
    """Blocks of four bits, each of which finds its carries at once; the blocks' carries ripple."""
    half, block = half_adder(), Module("block", bus("P", 4) + bus("G", 4) + ["C"])
    block.outputs = []
    for k in range(4):
        terms = [f"G{k}"] + [block.add("and", [f"P{i}" for i in range(k, j, -1)] + [f"G{j}"]) for j in range(k - 1, -1, -1)]
        terms.append(block.add("and", [f"P{i}" for i in range(k, -1, -1)] + ["C"]))
        block.outputs.append(block.add("or", terms))
    module = Module("lookahead", bus("A", width) + bus("B", width) + ["C"])
    pairs = [module.add(half, [f"A{k}", f"B{k}"]) for k in range(width)]
    carry, found = "C", []
    for low in range(0, width, 4):
        four = pairs[low:low + 4]
        carries = module.add(block, [p for p, _ in four] + [g for _, g in four] + [carry])
        found += [module.add("xor", [p, c]) for (p, _), c in zip(four, [carry] + carries[:3])]
        carry = carries[3]
    module.outputs = found + [carry]
    return module


def prefix(width):
    """Each carry from pairs of generate and propagate over doubled distances (Kogge and Stone 1973)."""
    half = half_adder()
    join = Module("join", ["P", "G", "Q", "H"])
    join.outputs = [join.add("and", "PQ"), join.add("or", ["G", join.add("and", "PH")])]
    module = Module("prefix", bus("A", width) + bus("B", width) + ["C"])
    pairs = [module.add(half, [f"A{k}", f"B{k}"]) for k in range(width)]
    spans, distance = list(pairs), 1
    while distance < width:
        spans = [module.add(join, spans[k] + spans[k - distance]) if k >= distance else spans[k] for k in range(width)]
        distance *= 2
    carries = ["C"] + [module.add("or", [g, module.add("and", [p, "C"])]) for p, g in spans]
    module.outputs = [module.add("xor", [p, c]) for (p, _), c in zip(pairs, carries)] + [carries[width]]
    return module


def select(width):
    """Blocks of four bits, each added with both carries that can come, of which the carry that comes chooses."""
    half = half_adder()
    full = full_adder(half)
    block = Module("block", bus("A", 4) + bus("B", 4) + ["C"])
    ways = []
    for constant in ("zero", "one"):
        carry, line = block.add(constant, []), []
        for k in range(4):
            total, carry = block.add(full, [f"A{k}", f"B{k}", carry])
            line.append(total)
        ways.append(line + [carry])
    block.outputs = [block.add("mux", ["C", *pair]) for pair in zip(*ways)]
    ports = [f"{letter}{k}" for k in range(width) for letter in "AB"] + ["C"]
    module, carry, found = Module("select", ports), "C", []
    for low in range(0, width, 4):
        four = range(low, low + 4)
        *line, carry = module.add(block, [f"A{k}" for k in four] + [f"B{k}" for k in four] + [carry])
        found += line
    module.outputs = found + [carry]
    return module, ripple(width, ports)


def incrementer(width):
    half = half_adder()
    module, found = Module("incrementer", bus("A", width)), []
    carry = module.add("one", [])
    for k in range(width):
        total, carry = module.add(half, [f"A{k}", carry])
        found.append(total)
    module.outputs = found + [carry]
    ones = [bus("A", k) for k in range(width + 1)]
    wanted = [("not", ["A0"])] + [("xor", [f"A{k}", ("and", ones[k])]) for k in range(1, width)]
    return module, wanted + [("and", ones[width])]


def priority(size):
    """The number of the greatest place that is 1, and whether there is one: place after place, and by halves."""
    ports = bus("D", size)
    one, two = Module("priority", ports), Module("halves", ports)
    found, zero, single = "D0", one.add("zero", []), one.add("one", [])
    bits = [zero] * log(size)
    for k in range(1, size):
        here = [single if k >> b & 1 else zero for b in range(log(size))]
        bits = [one.add("mux", [f"D{k}", bit, own]) for bit, own in zip(bits, here)]
        found = one.add("or", [found, f"D{k}"])
    one.outputs = bits + [found]
    parts = [([], place) for place in ports]
    while len(parts) > 1:
        pairs, parts = list(zip(parts[::2], parts[1::2])), []
        for (low, some), (high, other) in pairs:
            bits = [two.add("mux", [other, *pair]) for pair in zip(low, high)]
            parts.append((bits + [two.add("buf", [other])], two.add("or", [some, other])))
    two.outputs = parts[0][0] + [parts[0][1]]
    return one, two


def comparator(width):
    cell = Module("cell", ["A", "B", "L"])
    less = cell.add("and", [cell.add("not", "A"), "B"])
    cell.outputs = [cell.add("or", [less, cell.add("and", [cell.add("xnor", "AB"), "L"])])]
    module = Module("comparator", bus("A", width) + bus("B", width))
    net, wanted = module.add("zero", []), None
    for k in range(width):
        a, b = f"A{k}", f"B{k}"
        net = module.add(cell, [a, b, net])
        here = ("and", [("not", [a]), b])
        wanted = here if wanted is None else ("or", [here, ("and", [("not", [("xor", [a, b])]), wanted])])
    module.outputs = [net]
    return module, [wanted]


def chosen(module, data, selects):
    """A tree of `mux` over 2^k nets, the select of the least bit first."""
    for select in selects:
        data = [module.add("mux", [select, data[k], data[k + 1]]) for k in range(0, len(data), 2)]
    return data[0]


def product(names, number, more):
    """The product that is 1 where the names have the bits of the number, the least bit first."""
    bits = [name if number >> k & 1 else ("not", [name]) for k, name in enumerate(names)]
    return ("and", bits + more)


def log(size):
    return size.bit_length() - 1


def multiplexer(size):
    selects = bus("S", log(size))
    module = Module("multiplexer", bus("D", size) + selects)
    module.outputs = [chosen(module, bus("D", size), selects)]
    return module, [("or", [product(selects, k, [f"D{k}"]) for k in range(size)])]


def alu(width):
    """Of two buses the sum, the difference, the product bit by bit or the sum bit by bit, by two selects that stand last."""
    full, ports = full_adder(half_adder()), bus("A", width) + bus("B", width) + ["F0", "F1"]
    one, two = Module("alu", ports), Module("four", ports)
    carry, one.outputs = "F0", []
    for k in range(width):
        a, b = f"A{k}", f"B{k}"
        total, carry = one.add(full, [a, one.add("xor", [b, "F0"]), carry])
        logic = one.add("mux", ["F0", one.add("and", [a, b]), one.add("or", [a, b])])
        one.outputs.append(one.add("mux", ["F1", total, logic]))
    up, down, two.outputs = two.add("zero", []), two.add("one", []), []
    for k in range(width):
        a, b = f"A{k}", f"B{k}"
        total, up = two.add(full, [a, b, up])
        less, down = two.add(full, [a, two.add("not", [b]), down])
        four = [total, less, two.add("and", [a, b]), two.add("or", [a, b])]
        two.outputs.append(chosen(two, four, ["F0", "F1"]))
    return one, two


def alu_with_flag(width):
    """The sum, the difference, the product bit by bit, the sum bit by bit, the exclusive sum, and whether the first bus is
    less, by three selects that stand last; behind the bits a flag that all of them are 0. In the second module each function
    has gates of its own, and products of the selects choose."""
    full, ports = full_adder(half_adder()), bus("A", width) + bus("B", width) + ["F0", "F1", "F2"]
    one, two = Module("alu", ports), Module("six", ports)
    carry, totals, zero = "F0", [], one.add("zero", [])
    for k in range(width):
        total, carry = one.add(full, [f"A{k}", one.add("xor", [f"B{k}", "F0"]), carry])
        totals.append(total)
    less = one.add("not", [carry])
    for k in range(width):
        pins = [f"A{k}", f"B{k}"]
        both, some, odd = [one.add(kind, pins) for kind in ("and", "or", "xor")]
        low = one.add("mux", ["F1", totals[k], one.add("mux", ["F0", both, some])])
        last = less if k == 0 else zero
        high = one.add("mux", ["F1", one.add("mux", ["F0", odd, last]), zero])
        one.outputs.append(one.add("mux", ["F2", low, high]))
    some = one.outputs
    while len(some) > 8:
        some = [one.add("or", some[k:k + 8]) for k in range(0, len(some), 8)]
    one.outputs.append(one.add("nor", some))
    up, down, sums_of, rests = two.add("zero", []), two.add("one", []), [], []
    for k in range(width):
        total, up = two.add(full, [f"A{k}", f"B{k}", up])
        rest, down = two.add(full, [f"A{k}", two.add("not", [f"B{k}"]), down])
        sums_of.append(total)
        rests.append(rest)
    off = [two.add("not", [f"F{k}"]) for k in range(3)]
    chooses = [two.add("and", [f"F{b}" if f >> b & 1 else off[b] for b in range(3)]) for f in range(6)]
    for k in range(width):
        pins = [f"A{k}", f"B{k}"]
        values = [sums_of[k], rests[k]] + [two.add(kind, pins) for kind in ("and", "or", "xor")]
        values += [two.add("not", [down])] if k == 0 else []
        two.outputs.append(two.add("or", [two.add("and", list(pair)) for pair in zip(chooses, values)]))
    some = two.outputs[0]
    for out in two.outputs[1:]:
        some = two.add("or", [some, out])
    two.outputs.append(two.add("not", [some]))
    return one, two


def shifter(size):
    """Turns a bus by a number of places; the second module goes through the number's bits the other way."""
    selects = bus("S", log(size))

    def turned(name, places):
        module = Module(name, bus("D", size) + selects)
        nets = bus("D", size)
        for k in places:
            nets = [module.add("mux", [f"S{k}", nets[i], nets[i - 2 ** k]]) for i in range(size)]
        module.outputs = nets
        return module

    return turned("shifter", range(log(size))), turned("other_way", reversed(range(log(size))))


def register_file(words):
    """Reads a word of eight bits; the address stands behind the words."""
    address = bus("R", log(words))
    ports = [f"W{w}_{b}" for w in range(words) for b in range(8)] + address
    module = Module("register_file", ports)
    module.outputs = [chosen(module, [f"W{w}_{b}" for w in range(words)], address) for b in range(8)]
    return module, [("or", [product(address, w, [f"W{w}_{b}"]) for w in range(words)]) for b in range(8)]


def multiplier(width):
    """Row by row with carries that ripple, and column by column with carries that are saved."""
    half = half_adder()
    full, ports = full_adder(half), bus("A", width) + bus("B", width)
    rows, columns = Module("rows", ports), Module("columns", ports)
    total = [rows.add("and", [f"A{k}", "B0"]) for k in range(width)] + [rows.add("zero", [])]
    rows.outputs = [total[0]]
    for j in range(1, width):
        carry, line = None, []
        for k in range(width):
            bit = rows.add("and", [f"A{k}", f"B{j}"])
            pins = [total[k + 1], bit]
            found, carry = rows.add(half, pins) if carry is None else rows.add(full, pins + [carry])
            line.append(found)
        total = line + [carry]
        rows.outputs.append(total[0])
    rows.outputs += total[1:]
    weights = [[columns.add("and", [f"A{k}", f"B{c - k}"]) for k in range(width) if 0 <= c - k < width] for c in range(2 * width)]
    columns.outputs = []
    for c in range(2 * width):
        column = weights[c]
        while len(column) > 1:
            taken, column = column[:3], column[3:]
            found, carry = columns.add(full if len(taken) == 3 else half, taken)
            column.append(found)
            if c + 1 < 2 * width:
                weights[c + 1].append(carry)
        columns.outputs.append(column[0] if column else columns.add("zero", []))
    return rows, columns


def chain(size):
    """So many gates one after another, in modules of ten of the one before; a power of ten. A link of ten gates is X # A # B."""
    module = Module("link0", ["X", "A", "B"])
    net = "X"
    for other in "AB":
        both = module.add("nand", [net, other])
        net = module.add("nand", [module.add("nand", [net, both]), module.add("nand", [both, other])])
    module.outputs = [module.add("not", [module.add("not", [net])])]
    count, level = 10, 0
    while count < size:
        count, level = count * 10, level + 1
        above = Module(f"link{level}", ["X", "A", "B"])
        net = "X"
        for _ in range(10):
            net = above.add(module, [net, "A", "B"])
        above.outputs, module = [net], above
    return module, ["X" if level else ("xor", ["X", "A", "B"])]


def case(name, size):
    """The module and the expressions or the module that it is compared with."""
    if name == "ripple_adder":
        return ripple(size), sums(size)
    if name == "lookahead_adder":
        return lookahead(size), ripple(size)
    if name == "prefix_adder":
        return prefix(size), ripple(size)
    makers = {"select_adder": select, "incrementer": incrementer, "comparator": comparator, "multiplexer": multiplexer,
              "priority": priority, "alu_slice": alu, "alu": alu_with_flag, "shifter": shifter,
              "register_file": register_file, "multiplier": multiplier, "chain": chain}
    return makers[name](size)


def spoilt(module):
    """One gate in the middle of the module is another: of its own gates, or of an instance's that is made anew for it."""
    middle = len(module.parts) // 2
    part, ins, outs = module.parts[middle]
    if isinstance(part, str):
        other = {"and": "or", "or": "and", "xor": "xnor", "xnor": "xor", "not": "buf", "buf": "not", "zero": "one",
                 "one": "zero", "nand": "nor", "nor": "nand", "mux": "mux"}[part]
        ins = [ins[0], ins[2], ins[1]] if part == "mux" else ins
        module.parts[middle] = (other, ins, outs)
        return
    bad = Module(part.name + "_bad", part.inputs)
    bad.parts, bad.outputs = list(part.parts), part.outputs
    spoilt(bad)
    module.parts[middle] = (bad, ins, outs)


def blif(flat, model):
    """The text of a circuit for ABC. A wide gate of parity is a chain."""
    nets = [f"i{k}" for k in range(flat.inputs)] + [f"n{k}" for k in range(len(flat.gates))]
    lines = [f".model {model}", ".inputs " + " ".join(nets[:flat.inputs]),
             ".outputs " + " ".join(f"o{k}" for k in range(len(flat.outputs)))]
    for k, (kind, ins) in enumerate(flat.gates):
        names, out = [nets[net] for net in ins], f"n{k}"
        if kind in ("xor", "xnor"):
            net = names[0]
            for j, other in enumerate(names[1:]):
                last = j == len(names) - 2
                rows = ["00 1", "11 1"] if last and kind == "xnor" else ["01 1", "10 1"]
                lines += [f".names {net} {other} {out if last else f'{out}_{j}'}"] + rows
                net = f"{out}_{j}"
            continue
        wide = len(names)
        rows = {"zero": [], "one": ["1"], "buf": ["1 1"], "not": ["0 1"], "and": ["1" * wide + " 1"], "nand": ["1" * wide + " 0"],
                "or": ["0" * wide + " 0"], "nor": ["0" * wide + " 1"], "mux": ["01- 1", "1-1 1"]}[kind]
        lines += [" ".join([".names"] + names + [out])] + rows
    for k, net in enumerate(flat.outputs):
        lines += [f".names {nets[net]} o{k}", "1 1"]
    return "\n".join(lines + [".end", ""])


def nets_text(flat):
    lines = [f"gates {len(flat.gates)}"] + [" ".join([kind] + [str(net) for net in ins]) for kind, ins in flat.gates]
    return "\n".join(lines + [" ".join(["outputs"] + [str(net) for net in flat.outputs]), ""])


def flattened(module, wanted):
    one, two = Flat(len(module.inputs)), Flat(len(module.inputs))
    inputs = list(range(one.inputs))
    one.outputs = one.module(module, inputs)
    if isinstance(wanted, Module):
        two.outputs = two.module(wanted, inputs)
    else:
        names = dict(zip(module.inputs, inputs))
        two.outputs = [two.expression(expression, names) for expression in wanted]
    return one, two


def write(name, size, folder, wrong):
    module, wanted = case(name, size)
    if wrong:
        spoilt(module)
    used, texts = module.uses([]), []
    if isinstance(wanted, Module):
        used += [m for m in wanted.uses([]) if m.name not in {u.name for u in used}]
    texts = [m.text() for m in used]
    if isinstance(wanted, Module):
        words = f"same FILE {module.name} {wanted.name} max"
    else:
        words = f"verify FILE {module.name} max"
        texts.append(f"spec({module.name},[{','.join(module.inputs)}],\n [{(',' + chr(10) + '  ').join(written(e) for e in wanted)}]).\n")
    one, two = flattened(module, wanted)
    folder = pathlib.Path(folder)
    folder.mkdir(parents=True, exist_ok=True)
    (folder / "c.cb").write_text("".join(texts))
    (folder / "words").write_text(words + "\n")
    (folder / "one.blif").write_text(blif(one, "one"))
    (folder / "two.blif").write_text(blif(two, "two"))
    (folder / "nets").write_text(f"inputs {one.inputs}\n" + nets_text(one) + nets_text(two))
    print(f"{len(module.inputs)} inputs, {len(module.outputs)} outputs, {len(one.gates)} gates")


def main(words):
    if words[:1] == ["list"]:
        for name, sizes in SIZES:
            for size in sizes:
                print(name, size)
        return 0
    if len(words) < 3:
        print(__doc__)
        return 2
    write(words[0], int(words[1]), words[2], words[3:] == ["wrong"])
    return 0


if __name__ == "__main__":
    sys.exit(main(sys.argv[1:]))
