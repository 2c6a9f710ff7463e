#!/usr/bin/env python3
"""Writes values.txt beside this script: what the operations on integers give, over small widths, whole.

A row is a line of words between blanks. The last one is what must come: a number (read unsigned), undef, poison, or trap where the
operation is undefined behaviour; of refines it is 1 or 0. FLAGS is -, or flags with a comma between; A and B are numbers, undef or poison.

    add .. xor       FLAGS WIDTH A B   widths 1 to 4, each set of flags that the operator may have
    icmp PREDICATE   WIDTH A B         widths 1 to 4
    zext .. bitcast  FROM TO A         widths 1 to 4, where it converts
    select           WIDTH C A B       widths 1 and 2; C is a condition
    refines          A B               width 2: whether B may stand where A stood

Sources: LangRef 3.7 (Binary Operations, Bitwise Binary Operations, Conversion Operations, icmp, select, Undefined Values, Poison Values)
and, of refines, Crellvm (PLDI 2018). Undef is coarser than LLVM's (docs/DECISIONS.md): an undef operand gives undef, or poison under a flag.
"""
import itertools
import operator
import pathlib

UNDEF, POISON, TRAP = "undef", "poison", "trap"
WIDTHS = (1, 2, 3, 4)
WRAPPING, ROUNDING, FREE = ("-", "nuw", "nsw", "nuw,nsw"), ("-", "exact"), ("-",)
FLAGS = {
    "add": WRAPPING, "sub": WRAPPING, "mul": WRAPPING, "shl": WRAPPING,
    "udiv": ROUNDING, "sdiv": ROUNDING, "lshr": ROUNDING, "ashr": ROUNDING,
    "urem": FREE, "srem": FREE, "and": FREE, "or": FREE, "xor": FREE,
}
DIVISIONS, SIGNED_DIVISIONS, SHIFTS = ("udiv", "sdiv", "urem", "srem"), ("sdiv", "srem"), ("shl", "lshr", "ashr")
COMPARED = {"eq": operator.eq, "ne": operator.ne, "gt": operator.gt, "ge": operator.ge, "lt": operator.lt, "le": operator.le}
PREDICATES = ("eq", "ne", "ugt", "uge", "ult", "ule", "sgt", "sge", "slt", "sle")


def values(width):
    return [*range(2**width), UNDEF, POISON]


def signed(width, number):
    """The number in two's complement: its highest bit counts negative."""
    highest = 2 ** (width - 1)
    return number % highest - (highest if number >= highest else 0)


def quotient(x, y):
    """Rounded towards zero."""
    size = abs(x) // abs(y)
    return -size if (x < 0) != (y < 0) else size


def remainder(x, y):
    """Zero, or of the dividend's sign."""
    size = abs(x) % abs(y)
    return -size if x < 0 else size


# Of the numbers read unsigned, or in two's complement; the places of a shift are read unsigned always.
UNSIGNED = {
    "add": operator.add, "sub": operator.sub, "mul": operator.mul, "shl": lambda x, k: x * 2**k,
    "udiv": quotient, "urem": remainder, "lshr": lambda x, k: x // 2**k,
    "and": operator.and_, "or": operator.or_, "xor": operator.xor,
}
SIGNED = {
    "add": operator.add, "sub": operator.sub, "mul": operator.mul, "shl": lambda x, k: x * 2**k,
    "sdiv": quotient, "srem": remainder, "ashr": lambda x, k: x >> k,
}


def in_full(op, table, width, a, b):
    """The result before it is cut to the width."""
    if table is UNSIGNED:
        return UNSIGNED[op](a, b)
    return SIGNED[op](signed(width, a), b if op in SHIFTS else signed(width, b))


def is_broken(flag, op, width, a, b):
    """nuw, nsw: the result in full has no place in the width. exact: a remainder is left, or a one bit is shifted out."""
    if flag == "nuw":
        return not 0 <= in_full(op, UNSIGNED, width, a, b) < 2**width
    if flag == "nsw":
        return not -(2 ** (width - 1)) <= in_full(op, SIGNED, width, a, b) < 2 ** (width - 1)
    if op in SHIFTS:
        return any(a >> place & 1 for place in range(b))
    if op == "udiv":
        return a % b != 0
    return signed(width, a) % signed(width, b) != 0


def may_be(number, value):
    return value in (number, UNDEF, POISON)


def binary(op, flags, width, a, b):
    if op in DIVISIONS and may_be(0, b):
        return TRAP
    if op in SIGNED_DIVISIONS and may_be(2**width - 1, b) and may_be(2 ** (width - 1), a):
        return TRAP
    if POISON in (a, b):
        return POISON
    if UNDEF in (a, b) or (op in SHIFTS and b >= width):
        return UNDEF if flags == "-" else POISON
    if flags != "-" and any(is_broken(flag, op, width, a, b) for flag in flags.split(",")):
        return POISON
    return in_full(op, UNSIGNED if op in UNSIGNED else SIGNED, width, a, b) % 2**width


def icmp(predicate, width, a, b):
    if POISON in (a, b):
        return POISON
    if UNDEF in (a, b):
        return UNDEF
    if predicate.startswith("s"):
        a, b = signed(width, a), signed(width, b)
    return int(COMPARED[predicate[-2:]](a, b))


def converts(op, few, many):
    return {"zext": few < many, "sext": few < many, "trunc": few > many, "bitcast": few == many}[op]


def cast(op, few, many, a):
    if a in (UNDEF, POISON):
        return a
    return (signed(few, a) if op == "sext" else a) % 2**many


def select(condition, a, b):
    if condition == UNDEF:
        return POISON if POISON in (a, b) else UNDEF
    return {1: a, 0: b, POISON: POISON}[condition]


def refines(a, b):
    """Poison may become anything, undef anything but poison, a number that number alone."""
    return int(a == POISON or (a == UNDEF and b != POISON) or a == b)


def pairs(width):
    return itertools.product(values(width), repeat=2)


def rows():
    for width in WIDTHS:
        for op, flag_sets in FLAGS.items():
            for flags, (a, b) in itertools.product(flag_sets, pairs(width)):
                yield op, flags, width, a, b, binary(op, flags, width, a, b)
        for predicate, (a, b) in itertools.product(PREDICATES, pairs(width)):
            yield "icmp", predicate, width, a, b, icmp(predicate, width, a, b)
    for op, few, many in itertools.product(("zext", "sext", "trunc", "bitcast"), WIDTHS, WIDTHS):
        if converts(op, few, many):
            for a in values(few):
                yield op, few, many, a, cast(op, few, many, a)
    for width in (1, 2):
        for condition, (a, b) in itertools.product(values(1), pairs(width)):
            yield "select", width, condition, a, b, select(condition, a, b)
    for a, b in pairs(2):
        yield "refines", a, b, refines(a, b)


def main():
    lines = [" ".join(map(str, row)) + "\n" for row in rows()]
    pathlib.Path(__file__).with_name("values.txt").write_text("".join(lines))
    print(len(lines), "rows")


main()
