"""Pairs of functions over slots, and a machine for them that is written from what lines of memory mean, not from crell's sources.

A value is a number, ("ptr", block, offset), UNDEF or POISON; a byte is a number, ("part", block, offset, place), UNDEF or POISON. A function is
one block of lines and the operand that it returns, an integer; so a run shows one result or is undefined behaviour (WRONG).
A line is a tuple: ("alloca", register, type, alignment), ("store", type, value, address, alignment), ("load", register, type, address, alignment),
("element", register, type, address, index, inbounds), ("cast", register, address, type) or ("bin", register, operator, type, left, right).
Operands are registers ("%x"), globals ("@g"), numbers, "undef" and "null".
"""
from itertools import product

UNDEF, POISON, WRONG = "undef", "poison", "wrong"
SIZES = {"i2": 1, "i8": 1, "i16": 2, "i8*": 8}
ALIGNS = {"i2": 1, "i8": 1, "i16": 2, "i8*": 8}
WIDTHS = {"i2": 2, "i8": 8, "i16": 16}
GLOBALS = {"@g": ("i16", 513), "@h": ("i8", 2)}
OPERATORS = ("add", "xor", "and", "sub")


def bytes_of(ty, value):
    if value in (UNDEF, POISON):
        return [value] * SIZES[ty]
    if isinstance(value, tuple) and value[0] == "bare":
        value = value[1]
    if isinstance(value, tuple):
        return [("part", value[1], value[2], place) for place in range(SIZES[ty])]
    return [(value >> (8 * place)) & 255 for place in range(SIZES[ty])]


def value_of(ty, parts):
    if POISON in parts:
        return POISON
    if UNDEF in parts:
        return UNDEF
    if ty == "i8*":
        first = parts[0]
        whole = isinstance(first, tuple) and all(part == ("part", first[1], first[2], place) for place, part in enumerate(parts))
        if whole:
            return ("ptr", first[1], first[2])
        number = sum(part << (8 * place) for place, part in enumerate(parts)) if not any(isinstance(part, tuple) for part in parts) else None
        return UNDEF if number is None else ("bare", number)
    if any(isinstance(part, tuple) for part in parts):
        return UNDEF
    number = sum(part << (8 * place) for place, part in enumerate(parts))
    return number if number < 2 ** WIDTHS[ty] else UNDEF


class Machine:
    def __init__(self, arguments, inputs):
        """Arguments by register, and the bytes of each input block, at alignment 4."""
        self.blocks = [(ALIGNS[ty], bytes_of(ty, value)) for ty, value in GLOBALS.values()] + [(4, list(block)) for block in inputs]
        self.registers = dict(arguments)

    def value(self, operand):
        if isinstance(operand, int) or operand == UNDEF:
            return operand
        if operand in GLOBALS:
            return ("ptr", list(GLOBALS).index(operand), 0)
        if operand == "null":
            return ("bare", 0)
        return self.registers.get(operand, POISON)

    def place(self, ty, address, align):
        at = self.value(address)
        if not (isinstance(at, tuple) and at[0] == "ptr"):
            return None
        of, parts = self.blocks[at[1]]
        if of % align or at[2] < 0 or at[2] % align or at[2] + SIZES[ty] > len(parts):
            return None
        return at

    def step(self, line):
        kind = line[0]
        if kind == "alloca":
            self.blocks.append((line[3] or ALIGNS[line[2]], [UNDEF] * SIZES[line[2]]))
            self.registers[line[1]] = ("ptr", len(self.blocks) - 1, 0)
        elif kind == "store":
            at = self.place(line[1], line[3], line[4] or ALIGNS[line[1]])
            if at is None:
                return False
            self.blocks[at[1]][1][at[2]:at[2] + SIZES[line[1]]] = bytes_of(line[1], self.value(line[2]))
        elif kind == "load":
            at = self.place(line[2], line[3], line[4] or ALIGNS[line[2]])
            if at is None:
                return False
            self.registers[line[1]] = value_of(line[2], self.blocks[at[1]][1][at[2]:at[2] + SIZES[line[2]]])
        elif kind == "element":
            self.registers[line[1]] = self.element(*line[2:])
        elif kind == "cast":
            self.registers[line[1]] = self.value(line[2])
        else:
            self.registers[line[1]] = self.binary(*line[2:])
        return True

    def element(self, ty, address, index, inbounds):
        base = self.value(address)
        if not isinstance(base, tuple):
            return base
        moved = base[:-1] + (base[-1] + index * SIZES[ty],)
        if base[0] == "bare":
            return POISON if inbounds and index else ("bare", moved[1] % 2 ** 64)
        size = len(self.blocks[base[1]][1])
        return POISON if inbounds and not (0 <= base[2] <= size and 0 <= moved[2] <= size) else moved

    def binary(self, operator, ty, left, right):
        a, b = self.value(left), self.value(right)
        if POISON in (a, b):
            return POISON
        if UNDEF in (a, b):
            return UNDEF
        return {"add": a + b, "sub": a - b, "xor": a ^ b, "and": a & b}[operator] % 2 ** WIDTHS[ty]

    def run(self, lines, result):
        for line in lines:
            if not self.step(line):
                return WRONG
        shown = self.value(result)
        return WRONG if shown == POISON else shown


def inputs():
    """Values of %a and %b, and where %m and %n point: into one block at one place or at two, or into two blocks."""
    base = len(GLOBALS)
    bytes_in = ([1, 2, 3, 0], [UNDEF, 1, 0, 2])
    for a, b in product(range(4), repeat=2):
        for places in (((0, 0), (0, 0)), ((0, 0), (0, 1)), ((0, 1), (0, 0)), ((0, 0), (1, 0)), ((1, 2), (0, 2))):
            pointers = [("ptr", base + block, offset) for block, offset in places]
            yield {"%a": a, "%b": b, "%m": pointers[0], "%n": pointers[1]}, bytes_in
    yield {"%a": 1, "%b": 2, "%m": ("bare", 0), "%n": ("ptr", 0, 0)}, bytes_in


def counterexample(source, target):
    """An input on which the target shows what the source can't, with both results; None where there is none."""
    for arguments, blocks in inputs():
        old = Machine(arguments, blocks).run(*source)
        if old == WRONG:
            continue
        new = Machine(arguments, blocks).run(*target)
        if new == WRONG or (old != UNDEF and new != old):
            return arguments, old, new
    return None


# ---- texts

def pointer_text(ty, address):
    return f"{ty}* {address}"


def align_text(align):
    return f", align {align}" if align else ""


def load_text(ty, address, align):
    return f"load {ty}, {pointer_text(ty, address)}, align {align or ALIGNS[ty]}"


def line_text(line, types):
    kind = line[0]
    if kind == "alloca":
        return f"{line[1]} = alloca {line[2]}{align_text(line[3])}"
    if kind == "store":
        return f"store {line[1]} {line[2]}, {pointer_text(line[1], line[3])}{align_text(line[4])}"
    if kind == "load":
        return f"{line[1]} = load {line[2]}, {pointer_text(line[2], line[3])}{align_text(line[4])}"
    if kind == "element":
        return f"{line[1]} = getelementptr {'inbounds ' if line[5] else ''}{line[2]}, {pointer_text(line[2], line[3])}, i64 {line[4]}"
    if kind == "cast":
        return f"{line[1]} = bitcast {types[line[2]]} {line[2]} to {line[3]}*"
    return f"{line[1]} = {line[2]} {line[3]} {line[4]}, {line[5]}"


def types_of(lines):
    """The type of each register and global."""
    types = {"%a": "i2", "%b": "i2", "%m": "i8*", "%n": "i8*", **{name: ty + "*" for name, (ty, _) in GLOBALS.items()}}
    for line in lines:
        if line[0] in ("alloca", "element"):
            types[line[1]] = line[2] + "*"
        elif line[0] == "load":
            types[line[1]] = line[2]
        elif line[0] == "cast":
            types[line[1]] = line[3] + "*"
        elif line[0] == "bin":
            types[line[1]] = line[3]
    return types


def module_text(lines, result, types):
    rows = [f"{name} = global {ty} {value}" for name, (ty, value) in GLOBALS.items()]
    returned = types.get(result, "i8") if isinstance(result, str) else "i8"
    rows.append(f"define {returned} @f(i2 %a, i2 %b, i8* %m, i8* %n) {{")
    rows += ["  " + line_text(line, types) for line in lines]
    return "\n".join(rows + [f"  ret {returned} {result}", "}", ""])
