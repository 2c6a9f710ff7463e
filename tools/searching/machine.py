"""The machine of the search, written from what the operations and terminators mean, not from crell's sources.

A value is a number, UNDEF or POISON. A run shows turns, one for each terminator that is executed, and at its end a result or undefined
behaviour (wrong). So each list that it can show is some turns, and maybe a result or wrong behind them. Lists are compared by their number
of turns: what one side shows with k turns the other has to show with k turns too, or it has to be wrong after k turns or fewer. Between two
turns there are finitely many lines, so no bound on steps is needed, and all lists of so many turns are there.
"""
from functools import lru_cache
from itertools import product

from .functions import DIVISIONS, labels_of

UNDEF, POISON, TRAP = "undef", "poison", "trap"
MOST_TURNS = 40
MOST_STATES = 400


def signed(number, width):
    return number - 2 ** width if number >= 2 ** (width - 1) else number


def fits_signed(number, width):
    return -(2 ** (width - 1)) <= number < 2 ** (width - 1)


@lru_cache(maxsize=None)
def binary(operator, flags, width, a, b):
    least, minus_one = 2 ** (width - 1), 2 ** width - 1
    if operator in DIVISIONS:
        if b in (0, UNDEF, POISON):
            return TRAP
        if operator in ("sdiv", "srem") and b == minus_one and a in (least, UNDEF, POISON):
            return TRAP
    if POISON in (a, b):
        return POISON
    if UNDEF in (a, b):
        return POISON if flags else UNDEF
    if operator in ("shl", "lshr", "ashr") and b >= width:
        return POISON if flags else UNDEF
    x, y = signed(a, width), signed(b, width)
    if operator in ("add", "sub", "mul", "shl"):
        shift = 2 ** b if operator == "shl" else 1
        unsigned_result, signed_result = {"add": (a + b, x + y), "sub": (a - b, x - y), "mul": (a * b, x * y),
                                          "shl": (a * shift, x * shift)}[operator]
        if "nuw" in flags and not 0 <= unsigned_result < 2 ** width:
            return POISON
        if "nsw" in flags and not fits_signed(signed_result, width):
            return POISON
        return unsigned_result % 2 ** width
    if operator == "udiv":
        return POISON if flags and a % b else a // b
    if operator == "urem":
        return a % b
    if operator == "sdiv":
        quotient = abs(x) // abs(y) * (1 if (x < 0) == (y < 0) else -1)
        return POISON if flags and quotient * y != x else quotient % 2 ** width
    if operator == "srem":
        rest = abs(x) % abs(y)
        return (-rest if x < 0 else rest) % 2 ** width
    if operator in ("lshr", "ashr"):
        if flags and a % 2 ** b:
            return POISON
        return a >> b if operator == "lshr" else (x >> b) % 2 ** width
    return {"and": a & b, "or": a | b, "xor": a ^ b}[operator]


@lru_cache(maxsize=None)
def compare(predicate, width, a, b):
    if POISON in (a, b):
        return POISON
    if UNDEF in (a, b):
        return UNDEF
    if predicate[0] == "s":
        a, b = signed(a, width), signed(b, width)
    kind = predicate if predicate in ("eq", "ne") else predicate[1:]
    return int({"eq": a == b, "ne": a != b, "gt": a > b, "ge": a >= b, "lt": a < b, "le": a <= b}[kind])


def select(condition, a, b):
    if condition == POISON:
        return POISON
    if condition == UNDEF:
        return POISON if POISON in (a, b) else UNDEF
    return a if condition == 1 else b


def convert(operator, width, a, new):
    if a in (POISON, UNDEF):
        return a
    if operator == "sext":
        return signed(a, width) % 2 ** new
    return a % 2 ** new


def outcome(expr, value):
    """The value of an expression, or TRAP, where operands are read by the function given."""
    kind = expr[0]
    if kind == "bin":
        return binary(expr[1], expr[2], expr[3], value(expr[4]), value(expr[5]))
    if kind == "icmp":
        return compare(expr[1], expr[2], value(expr[3]), value(expr[4]))
    if kind == "select":
        return select(value(expr[2]), value(expr[3]), value(expr[4]))
    if kind == "cast":
        return convert(expr[1], expr[2], value(expr[3]), expr[4])
    return value(expr[2])


class Machine:
    """One function. A state is the block that is entered and all registers, those of its phis set."""

    def __init__(self, function):
        self.function = function
        self.blocks = {}
        for block in function.blocks:
            self.blocks.setdefault(block.name, block)
        self.known = {}

    def start(self, arguments):
        registers = {name: value for (name, _), value in zip(self.function.params, arguments)}
        return (self.function.blocks[0].name, frozenset(registers.items()))

    def after(self, state):
        """What happens from the state up to its block's terminator: a list of ("wrong", turns), ("result", value) and ("goes", state)."""
        if state not in self.known:
            self.known[state] = self.run_block(self.blocks[state[0]], dict(state[1]))
        return self.known[state]

    def run_block(self, block, registers):
        def value(operand):
            if isinstance(operand, int) or operand == UNDEF:
                return operand
            return registers.get(operand, POISON)

        for register, expr in block.lines:
            result = outcome(expr, value)
            if result == TRAP:
                return [("wrong", 0)]
            registers[register] = result
        term = block.term
        if term[0] == "ret":
            return self.returned(term, value)
        if term[0] == "unreachable":
            return [("wrong", 0)]
        if term[0] == "br":
            return [self.entered(term[1], block.name, registers, value)]
        chosen = value(term[1] if term[0] == "cond" else term[2])
        if chosen == POISON:
            return [("wrong", 0)]
        if chosen == UNDEF:
            labels = dict.fromkeys(labels_of(term))
        elif term[0] == "cond":
            labels = [term[2] if chosen == 1 else term[3]]
        else:
            labels = [dict(reversed(term[4])).get(chosen, term[3])]
        return [self.entered(label, block.name, registers, value) for label in labels]

    @staticmethod
    def returned(term, value):
        if len(term) == 1:
            return [("result", "void")]
        shown = value(term[2])
        if shown == POISON:
            return [("wrong", 1)]
        return [("result", number) for number in (range(2 ** term[1]) if shown == UNDEF else [shown])]

    def entered(self, label, left, registers, value):
        new = dict(registers)
        for register, _, entries in self.blocks[label].phis:
            new[register] = next((value(operand) for operand, source in entries if source == left), POISON)
        return ("goes", (label, frozenset(new.items())))


class Shown:
    """What a function can show on an input, by the number of turns; found out as far as it is asked."""

    def __init__(self, machine, arguments):
        self.machine = machine
        self.states = [frozenset([machine.start(arguments)])]
        self.wrong = [False, False]
        self.results = [set()]
        self.done = 0

    def run_to(self, turns):
        """All that happens before the terminator that would make one turn more than these."""
        while self.done <= turns:
            k = self.done
            following, results = set(), set()
            self.wrong.append(False)
            for state in self.states[k]:
                for what, which in self.machine.after(state):
                    if what == "wrong":
                        self.wrong[k + which] = True
                    elif what == "result":
                        results.add(which)
                    else:
                        following.add(which)
            self.states.append(frozenset(following))
            self.results.append(results)
            self.done += 1

    def is_wrong_within(self, turns):
        return any(self.wrong[:turns + 1])


def unmatched_list(source, target, arguments):
    """The first list, by its turns, that the target can show and the source can't; None where there is none; "many" where there are too
    many states or turns to say."""
    seen, k = set(), 0
    while True:
        source.run_to(k + 1)
        target.run_to(k)
        if source.is_wrong_within(k):
            return None
        if target.wrong[k]:
            return ["turn"] * k + ["wrong"]
        if not source.is_wrong_within(k + 1):
            for result in target.results[k + 1]:
                if result not in source.results[k + 1]:
                    return ["turn"] * (k + 1) + [f"result {result}"]
            if target.wrong[k + 1]:
                return ["turn"] * (k + 1) + ["wrong"]
            if target.states[k + 1] and not source.states[k + 1]:
                return ["turn"] * (k + 1)
        if not target.states[k + 1]:
            return None
        both = (source.states[k + 1], target.states[k + 1])
        if both in seen:
            return None
        seen.add(both)
        k += 1
        if k > MOST_TURNS or len(both[0]) + len(both[1]) > MOST_STATES:
            return "many"


def counterexample(source, target):
    """An input with a list that the target can show and the source can't; None where the target refines the source; "many" where it isn't
    known."""
    machines, answer = (Machine(source), Machine(target)), None
    for arguments in product(*(range(2 ** width) for _, width in source.params)):
        found = unmatched_list(*(Shown(machine, arguments) for machine in machines), arguments)
        if found == "many":
            answer = "many"
        elif found:
            return arguments, found
    return answer
