"""A pair of functions that differ, line by line, with the hint that says why; and what the ways of making such pairs share."""
from .functions import can_trap, dominators, expression_text, is_register, operands_of, predecessors, width_of, with_operands
from .generate import replace, some_expression
from .machine import POISON, TRAP, UNDEF, outcome


def plain(width, operand):
    return ("val", width, operand)


def text(fact):
    return ["ge", expression_text(fact[0]), expression_text(fact[1])]


def rule(name, to, *premises, side="src"):
    return {"rule": name, "side": side, "from": [text(p) for p in premises], "to": text(to)}


def trans(first, second, side="src"):
    """The step, and the fact that it gives."""
    fact = (first[0], second[1])
    return rule("trans", fact, first, second, side=side), fact


def aged(operand):
    return "old " + operand if is_register(operand) else operand


class Row:
    """An aligned line: what stands on each side, and the steps before and behind it."""

    def __init__(self, source, target):
        self.source, self.target, self.before, self.behind = source, target, [], []


class Pair:
    """Two functions that differ in lines, operands and phis, and the hint."""

    def __init__(self, function):
        self.old, self.new = function.copy(), function.copy()
        self.rows = {b.name: [Row(line, line) for line in b.lines] for b in function.blocks}
        self.first = {b.name: [] for b in function.blocks}
        self.last = {b.name: [] for b in function.blocks}
        self.edges = {b.name: {} for b in function.blocks}
        self.src = {b.name: [] for b in function.blocks}
        self.tgt = {b.name: [] for b in function.blocks}
        self.diff = {b.name: [] for b in function.blocks}
        self.over = dominators(function)
        self.entry = function.blocks[0].name
        self.touched = set()
        self.ghosts = 0

    def below(self, block):
        """The blocks that are entered only behind the block."""
        return [name for name in self.over if block in self.over[name] and name != block]

    def place(self, register):
        for name, rows in self.rows.items():
            for row in rows:
                if (row.source or row.target)[0] == register:
                    return name, row
        return None

    def claim(self, side, blocks, fact):
        for block in blocks:
            if block != self.entry and text(fact) not in side[block]:
                side[block].append(text(fact))

    def differ(self, register, except_in=()):
        self.touched.add(register)
        for block in self.diff:
            if block not in except_in and register not in self.diff[block]:
                self.diff[block].append(register)

    def ghost(self):
        self.ghosts += 1
        return f"%g{self.ghosts}"

    def on_edge(self, left, entered, steps):
        self.edges[left].setdefault(entered, []).extend(steps)

    def side(self, which):
        function = (self.old if which == "source" else self.new).copy()
        for block in function.blocks:
            block.lines = [getattr(row, which) for row in self.rows[block.name] if getattr(row, which)]
        return function

    def in_target(self, register, operand):
        """Puts the operand at each use of the register in the target."""
        for rows in self.rows.values():
            for row in rows:
                if row.target:
                    name, expr = row.target
                    row.target = (name, with_operands(expr, [operand if o == register else o for o, _ in operands_of(expr)]))
        for block in self.new.blocks:
            block.lines = []
        replace(self.new, register, operand)

    def hint(self):
        blocks = []
        for name, rows in self.rows.items():
            steps = [dict(step, at=0) for step in self.first[name]]
            for k, row in enumerate(rows):
                steps += [dict(step, at=k) for step in row.before] + [dict(step, at=k + 1) for step in row.behind]
            steps += [dict(step, at=len(rows)) for step in self.last[name]]
            letters = "".join("b" if row.source and row.target else "s" if row.source else "t" for row in rows)
            entry = {"at": "%" + name, "lines": letters, "steps": steps}
            for member, facts in (("src", self.src), ("tgt", self.tgt), ("diff", self.diff)):
                if facts[name] and (name != self.entry or member == "diff"):
                    entry[member] = list(facts[name])
            if self.edges[name]:
                entry["edges"] = [{"to": "%" + to, "steps": list(steps)} for to, steps in self.edges[name].items()]
            blocks.append(entry)
        return {"format": 1, "functions": {"@f": {"blocks": blocks}}}


def settle(rng, pair, register, operand):
    """Behind the proof that the register's line may be the operand: uses change, and the target's line goes, stays or becomes another."""
    pair.in_target(register, operand)
    _, row = pair.place(register)
    roll = rng.random()
    if roll < 0.6:
        row.target = None
        pair.differ(register)
    elif roll < 0.8:
        other = some_expression(rng, [], width_of(row.source[1]), traps=False)
        if not can_trap(other):
            row.target = (register, other)
            pair.differ(register)


def settle_phi(rng, pair, block, register, operand):
    pair.in_target(register, operand)
    if rng.random() < 0.7:
        target = next(b for b in pair.new.blocks if b.name == block)
        target.phis = [phi for phi in target.phis if phi[0] != register]
        pair.differ(register)


def slips(rng):
    """Whether a way makes a mistake here, which its hint repeats. Right pairs are made by numbers that never slip."""
    return rng.random() < getattr(rng, "slip", 0)


def may_become(rng, expr):
    """A number, or undef, that an expression over numbers may become."""
    value, width = outcome(expr, lambda operand: operand), width_of(expr)
    if value in (TRAP, POISON, UNDEF) or slips(rng):
        return rng.choice([rng.randrange(2 ** width), "undef"])
    return value


def some_reached(rng, function, least=1):
    """A block that is reached and lies behind so many more."""
    over = dominators(function)
    fitting = [name for name in over if len(over[name]) >= least]
    return rng.choice(fitting) if fitting else None


def some_line(rng, function, block):
    return rng.randrange(len(next(b for b in function.blocks if b.name == block).lines) + 1)


def loops(function):
    """Blocks with the block that enters them from outside and one from inside, each at least one."""
    over, into = dominators(function), predecessors(function)
    found = []
    for name in over:
        inside = [p for p in into[name] if p in over and name in over[p]]
        if inside and all(p in over for p in into[name]) and len(inside) < len(into[name]):
            found.append((name, sorted(set(into[name]) - set(inside)), sorted(set(inside))))
    return found
