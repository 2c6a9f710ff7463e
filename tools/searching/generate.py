"""Makes small well-formed functions, and puts further lines and uses into them."""
from .functions import (BINARY, CASTS, DIVISIONS, FLAGS, PREDICATES, Block, Function, definitions, dominators, is_defined_at, is_register,
                        operands_of, predecessors, term_operand, with_operands, with_term_operand)

END = 10 ** 6


def available(function, block, line, over=None):
    """The registers, with their widths, that are defined before the line of the block; in a block that isn't reached its own and parameters."""
    over = over or dominators(function)
    reach = over if block in over else {block: {block}}
    return [(name, width) for name, (width, place) in definitions(function).items() if is_defined_at(place, block, line, reach)]


def some_operand(rng, registers, width):
    fitting = [name for name, other in registers if other == width]
    roll = rng.random()
    if fitting and roll < 0.86:
        return rng.choice(fitting)
    if roll < 0.97:
        return rng.choice([0, 1, 2 ** width - 1, rng.randrange(2 ** width)]) % 2 ** width
    return "undef"


def some_flags(rng, operator):
    return tuple(flag for flag in FLAGS.get(operator, ()) if rng.random() < 0.22)


def some_expression(rng, registers, width, traps=True):
    """An expression of that width over the registers; divisions only where it may trap."""
    roll = rng.random()
    if width == 1 and roll < 0.45:
        inner = rng.choice((1, 2, 3))
        return ("icmp", rng.choice(PREDICATES), inner, some_operand(rng, registers, inner), some_operand(rng, registers, inner))
    if roll < 0.72:
        operator = rng.choice([o for o in BINARY if o not in DIVISIONS])
        if traps and rng.random() < 0.12:
            operator = rng.choice(DIVISIONS)
        right = 0 if rng.random() < 0.15 else some_operand(rng, registers, width)
        if operator in DIVISIONS and (right in (0, "undef") or rng.random() < 0.5):
            right = rng.randrange(1, 2 ** width)
        return ("bin", operator, some_flags(rng, operator), width, some_operand(rng, registers, width), right)
    if roll < 0.86:
        return ("select", width, some_operand(rng, registers, 1), some_operand(rng, registers, width), some_operand(rng, registers, width))
    fitting = [(c, w) for c in CASTS for w in (1, 2, 3) if {"zext": w < width, "sext": w < width, "trunc": w > width, "bitcast": w == width}[c]]
    cast, inner = rng.choice(fitting)
    return ("cast", cast, inner, some_operand(rng, registers, inner), width)


def fresh(function, stem):
    taken, k = definitions(function), 0
    names = {"%" + block.name for block in function.blocks}
    while f"%{stem}{k}" in taken or f"%{stem}{k}" in names:
        k += 1
    return f"%{stem}{k}"


def some_term(rng, function, labels, width, last):
    """A terminator without its operand: that is filled in when lines are there."""
    roll = rng.random()
    if not labels or last or roll < 0.12:
        return ("ret", width, "undef") if width else ("ret",)
    if roll < 0.40:
        return ("br", rng.choice(labels))
    if roll < 0.82:
        return ("cond", "undef", rng.choice(labels), rng.choice(labels))
    if roll < 0.95:
        inner = rng.choice((1, 2, 3))
        numbers = rng.sample(range(2 ** inner), rng.randrange(1, min(3, 2 ** inner) + 1))
        return ("switch", inner, "undef", rng.choice(labels), tuple((n, rng.choice(labels)) for n in sorted(numbers)))
    return ("unreachable",)


def loop_graph(rng, width):
    """The blocks of a loop that counts, without further lines."""
    blocks = [Block(name) for name in ("entry", "head", "body", "done")]
    blocks[0].term = ("br", "head") if rng.random() < 0.7 else ("cond", "undef", "head", "done")
    blocks[1].term = ("cond", "undef", "body", "done") if rng.random() < 0.8 else ("switch", 2, "undef", "body", ((1, "done"), (2, "body")))
    blocks[2].term = ("br", "head") if rng.random() < 0.8 else ("cond", "undef", "head", "done")
    blocks[3].term = ("ret", width, "undef") if width else ("ret",)
    return blocks


def some_function(rng):
    width = rng.choice((1, 2, 2, 2, 3, None)) if rng.random() < 0.3 else rng.choice((1, 2, 2, 3))
    params = [(name, rng.choice((1, 2, 2, 3))) for name in ("%a", "%b")[:rng.choice((1, 2, 2))]]
    function = Function(params, width, [])
    if rng.random() < 0.45:
        function.blocks = loop_graph(rng, width)
    else:
        count = rng.choice((1, 1, 2, 3, 4))
        names = ["entry", "b1", "b2", "b3"][:count]
        function.blocks = [Block(name) for name in names]
        for k, block in enumerate(function.blocks):
            ahead = names[k + 1:] * 2 + names[1:]
            block.term = some_term(rng, function, ahead, width, k == count - 1 and rng.random() < 0.85)
    fill(rng, function)
    enliven(rng, function)
    return function


def fill(rng, function):
    """Puts phis, lines and the operands of terminators into blocks that have none; the entries of phis last, when all registers are there."""
    over, into = dominators(function), predecessors(function)
    order = sorted(function.blocks, key=lambda block: len(over.get(block.name, [0] * 9)))
    for block in order:
        if into[block.name]:
            for _ in range(rng.choice((0, 0, 1, 1, 2))):
                width = rng.choice((1, 2, 2, 3))
                block.phis.append((fresh(function, "p"), width, [(0, label) for label in into[block.name]]))
        for _ in range(rng.choice((0, 1, 1, 2, 3))):
            registers = available(function, block.name, END, over)
            block.lines.append((fresh(function, "x"), some_expression(rng, registers, rng.choice((1, 2, 2, 3)))))
        needed = term_operand(block.term)
        if needed:
            registers = available(function, block.name, END, over)
            if needed[1] == 1 and block.term[0] == "cond" and not any(width == 1 for _, width in registers):
                block.lines.append((fresh(function, "c"), some_expression(rng, registers, 1)))
                registers = available(function, block.name, END, over)
            block.term = with_term_operand(block.term, likely(rng, registers, needed[1]))
    for block in function.blocks:
        block.phis = [(register, width, some_entries(rng, function, block.name, width, over)) for register, width, _ in block.phis]


def likely(rng, registers, width):
    """An operand for a terminator: a late register where there is one."""
    fitting = [name for name, other in registers if other == width]
    return rng.choice(fitting[-3:]) if fitting and rng.random() < 0.8 else some_operand(rng, registers, width)


def some_entries(rng, function, block, width, over=None):
    """Entries for a phi of the block: one for each edge, equal ones for edges from one block."""
    chosen, entries = {}, []
    for label in predecessors(function)[block]:
        if label not in chosen:
            chosen[label] = some_operand(rng, available(function, label, END, over), width)
        entries.append((chosen[label], label))
    return entries


def enliven(rng, function):
    """Puts registers that aren't used in place of numbers and of registers that are used elsewhere too."""
    known, over = definitions(function), dominators(function)
    for register, (width, place) in reversed(known.items()):
        operands = [operand for operand, *_ in uses(function)]
        if register in operands or place[0] and place[0] not in over:
            continue
        fitting = [how for operand, w, block, line, how in uses(function)
                   if w == width and block in over and is_defined_at(place, block, line, over)
                   and (not is_register(operand) or operands.count(operand) > 1)]
        if fitting:
            put(function, rng.choice(fitting), register)


# Places of uses

def uses(function):
    """All places of operands, as (operand, width, block, line, how): line END for terminators and phis' entries, whose block is the one left."""
    found = []
    for block in function.blocks:
        for p, (_, width, entries) in enumerate(block.phis):
            for operand, label in entries:
                found.append((operand, width, label, END, ("phi", block.name, p, label)))
        for k, (_, expr) in enumerate(block.lines):
            for n, (operand, width) in enumerate(operands_of(expr)):
                found.append((operand, width, block.name, k, ("line", block.name, k, n)))
        needed = term_operand(block.term)
        if needed:
            found.append((needed[0], needed[1], block.name, END, ("term", block.name)))
    return found


def put(function, how, operand):
    """Puts the operand at the place of a use."""
    block = next(block for block in function.blocks if block.name == how[1])
    if how[0] == "phi":
        register, width, entries = block.phis[how[2]]
        block.phis[how[2]] = (register, width, [(operand if label == how[3] else old, label) for old, label in entries])
    elif how[0] == "line":
        register, expr = block.lines[how[2]]
        operands = [old for old, _ in operands_of(expr)]
        operands[how[3]] = operand
        block.lines[how[2]] = (register, with_operands(expr, operands))
    else:
        block.term = with_term_operand(block.term, operand)


def use(rng, function, register, kept=(), behind=None, most=2):
    """Puts the register at some places where it is defined, or that lie behind the place given; not into lines and phis of the kept registers."""
    over, known = dominators(function), definitions(function)
    width, place = known[register]
    place = behind or place
    fitting = [how for _, w, block, line, how in uses(function)
               if w == width and block in over and is_defined_at(place, block, line, over)]
    lines = {block.name: block for block in function.blocks}
    fitting = [how for how in fitting if how[0] == "term" or
               (lines[how[1]].phis if how[0] == "phi" else lines[how[1]].lines)[how[2]][0] not in (register, *kept)]
    rng.shuffle(fitting)
    late = [how for how in fitting if how[0] != "line"]
    for how in (late[:1] + fitting)[:most]:
        put(function, how, register)


def insert(function, block, line, register, expr):
    """Puts a line into the block."""
    next(b for b in function.blocks if b.name == block).lines.insert(line, (register, expr))


def replace(function, register, operand):
    """Puts the operand at each use of the register."""
    for old, _, _, _, how in uses(function):
        if old == register:
            put(function, how, operand)
