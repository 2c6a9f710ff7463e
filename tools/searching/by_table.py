"""The way that uses the forty rules of the table, each as often as the others."""
from .functions import (BINARY, FLAGS, PREDICATES, can_trap, definitions, dominators, expression_text, is_register, operands_of, width_of,
                        with_operands)
from .generate import available, fresh, insert, put, some_operand, use, uses
from .mutants import NEAR
from .pairs import plain, rule, settle, slips, some_line, some_reached, trans
from .rules import FORMS, NAMES, letters_in, part, some_letters


class Instance:
    """A rule with what its premise, its left and its right side are, and how its hint names the premise."""

    def __init__(self, form, letters, z):
        self.rule, self.z, self.side = form.rule, z, "src"
        self.premise, self.left, self.right = (part(text, letters) for text in form[1:4])
        self.line = self.premise
        self.named = "known" if self.premise else "none"

    def state(self):
        return self.premise, self.left, self.right, self.line, self.named

    def given(self):
        """The facts that the hint names as premises."""
        fact = (plain(width_of(self.premise), self.z), self.premise) if self.premise else (self.left, self.left)
        return {"known": [fact], "none": [], "round": [fact[::-1]], "twice": [fact] * 2}[self.named]


def converted(rng, operand, width, wanted):
    return ("cast", "trunc" if width > wanted else rng.choice(("zext", "sext")), width, operand, wanted)


def another_operator(rng, expr):
    """The expression with another operator, predicate or conversion, often the one that is nearly the same."""
    if expr[0] == "icmp":
        return expr[:1] + (rng.choice(PREDICATES),) + expr[2:]
    if expr[0] == "cast":
        return expr[:1] + (NEAR.get(expr[1], expr[1]),) + expr[2:]
    if expr[0] != "bin":
        return expr
    operator = NEAR[expr[1]] if expr[1] in NEAR and rng.random() < 0.5 else rng.choice(BINARY)
    return ("bin", operator, tuple(flag for flag in expr[2] if flag in FLAGS.get(operator, ()))) + expr[3:]


def more_flags(rng, expr):
    if expr[0] != "bin":
        return expr
    return expr[:2] + (tuple(flag for flag in FLAGS.get(expr[1], ()) if flag in expr[2] or rng.random() < 0.7),) + expr[3:]


def other_operands(rng, expr, registers):
    """The expression with its operands exchanged, or one of them another."""
    operands = operands_of(expr)
    k = rng.randrange(len(operands))
    if len(operands) > 1 and operands[-1][1] == operands[-2][1] and rng.random() < 0.5:
        return with_operands(expr, [o for o, _ in operands[:-2] + operands[:-3:-1]])
    width = operands[k][1]
    other = some_operand(rng, registers, width)
    if isinstance(operands[k][0], int) and rng.random() < 0.7:
        other = (operands[k][0] + rng.choice((-1, 1))) % 2 ** width
    return with_operands(expr, [other if n == k else o for n, (o, _) in enumerate(operands)])


def spoil(rng, made, registers):
    """A mistake is made; what has no effect on this instance is tried again."""
    before = made.state()
    for _ in range(9):
        mistake(rng, made, registers)
        if made.state() != before:
            return


def mistake(rng, made, registers):
    """A change of one of the three expressions, of what the premise's line is, or of how the hint names the premise."""
    how = rng.randrange(8)
    if how < 5:
        where = rng.choice(("premise", "left", "right", "right") if made.premise else ("left", "right", "right"))
        old = getattr(made, where)
        change = rng.choice((another_operator, more_flags, other_operands))
        setattr(made, where, other_operands(rng, old, registers) if change is other_operands else change(rng, old))
        made.line = made.premise
    elif how == 5:
        if made.right[0] != "val":
            made.left, made.right = made.right, made.left
    elif made.premise and how == 6:
        made.line = rng.choice((another_operator(rng, made.premise), other_operands(rng, made.premise, registers)))
    else:
        made.named = rng.choice(("none", "round", "twice"))


class Spot:
    """A place in a function where lines are put in, one behind the other, and the registers that they set."""

    def __init__(self, function, block, line):
        self.function, self.block, self.line, self.made = function, block, line, set()

    def put(self, register, expr):
        insert(self.function, self.block, self.line, register, expr)
        self.made.add(register)
        self.line += 1

    def registers(self):
        return available(self.function, self.block, self.line)

    def operand(self, rng, width):
        """An operand of that width, often a parameter; where there is none, mostly a register that another is converted to."""
        registers, params = self.registers(), self.function.params
        fitting = [name for name, w in params if w == width]
        if rng.random() < 0.06:
            return "undef"
        if fitting and rng.random() < 0.6:
            return rng.choice(fitting)
        if any(w == width for _, w in registers) or rng.random() < 0.1:
            return some_operand(rng, registers, width)
        name, narrow = rng.choice([one for one in registers if one in params or rng.random() < 0.5])
        register = fresh(self.function, "v")
        self.put(register, converted(rng, name, narrow, width))
        return register


def some_instance(rng, spot):
    """An instance of some rule, whose lines before its own are put in at the spot."""
    form, wrong = rng.choice(FORMS[rng.choice(NAMES)]), slips(rng) or slips(rng)
    by_numbers = wrong and (form.condition or "H" in form.right) and rng.random() < 0.6
    drawn = some_letters(rng, form, by_numbers)
    if drawn is None:
        return None
    widths, letters = drawn
    needed = letters_in(" ".join(form[1:4]))
    letters.update({letter: spot.operand(rng, widths["s"]) for letter in "xy" if letter in needed})
    letters["z"] = "%none"
    if form.premise:
        letters["z"] = fresh(spot.function, "z")
    elif "z" in needed:
        letters["z"] = spot.operand(rng, 1)
    made = Instance(form, letters, letters["z"])
    if wrong:
        for _ in range(rng.choice((0, 0, 1) if by_numbers else (1, 1, 2))):
            spoil(rng, made, spot.registers())
    if made.line:
        spot.put(made.z, made.line)
    return made


def show(rng, function, register, block, line, kept):
    """Puts the register to use: it is returned where that can be, through a conversion to the function's width, or it comes to some places.
    Of a wide one what is cut from it is used, from either end."""
    over, width = dominators(function), definitions(function)[register][0]
    ends = [one for one in function.blocks if block in over.get(one.name, ()) and one.term[0] == "ret" and len(one.term) > 1]
    returned = rng.choice(ends) if ends and rng.random() < 0.75 else None
    wanted = function.width if returned else min(width, 3)
    block, line = (returned.name, len(returned.lines)) if returned else (block, line)
    if width > wanted and rng.random() < 0.5:
        high = fresh(function, "w")
        insert(function, block, line, high, ("bin", "lshr", (), width, register, width - wanted))
        register, line = high, line + 1
    if width != wanted:
        cut = fresh(function, "w")
        insert(function, block, line, cut, converted(rng, register, width, wanted))
        register = cut
    kept |= {name for name in definitions(function) if name.startswith("%w")}
    if returned:
        put(function, ("term", block), register)
    else:
        use(rng, function, register, kept)


def by_table(rng, function, kept):
    """A line is replaced by what a rule of the table says of it: by an operand, or by another expression, which may stand before it too."""
    over = dominators(function)
    ends = [block.name for block in function.blocks if block.name in over and block.term[0] == "ret" and len(block.term) > 1]
    later = rng.choice(sorted(over[rng.choice(ends)])) if ends and rng.random() < 0.8 else some_reached(rng, function)
    early = rng.choice([later, *sorted(over[later])])
    spot, twin = Spot(function, early, some_line(rng, function, early)), None
    made = some_instance(rng, spot)
    if made is None:
        return None
    if made.right[0] != "val" and not can_trap(made.right) and rng.random() < 0.3:
        twin = fresh(function, "r")
        spot.put(twin, made.right)
    line = spot.line if early == later else some_line(rng, function, later)
    y = fresh(function, "y")
    insert(function, later, line, y, made.left)
    kept |= {y, *spot.made}
    show(rng, function, y, later, line + 1, kept)
    made.side = rng.choice(("src", "src", "tgt"))
    return lambda pair: replace_line(rng, pair, made, (early, later), y, twin)


def replace_line(rng, pair, made, blocks, y, twin):
    """The line of y becomes the right side, or y the operand that the right side is, or the register whose line has it."""
    width, whole = width_of(made.left), made.right[0] != "val" and twin is None
    result = twin or made.right[-1]
    read = {o for expr in (made.premise, made.left, made.right) if expr for o, _ in operands_of(expr)} | {made.z, result}
    if pair.touched & read:
        return False
    _, row = pair.place(y)
    if made.side == "tgt" and (row.target is None or made.line and pair.place(made.z)[1].target != (made.z, made.line)):
        return False
    if made.side == "tgt" and can_trap(made.left):
        made.side = "src"
    facts = pair.src if made.side == "src" else pair.tgt
    for fact in made.given() if made.premise else ():
        pair.claim(facts, pair.below(blocks[0]), fact)
    goes, now = (made.left, made.right), plain(width, y)
    row.behind.append(rule(made.rule, goes, *made.given(), side=made.side))
    if whole:
        in_place(pair, made, row, now)
    else:
        if twin:
            back = (made.right, plain(width, twin))
            pair.claim(facts, pair.below(blocks[0]), back)
            step, goes = trans(goes, back, made.side)
            row.behind.append(step)
        by_operand(rng, pair, made, row, now, goes, pair.below(blocks[1]))
        settle(rng, pair, y, result)
    drop_premise(rng, pair, made)
    return True


def in_place(pair, made, row, now):
    """The target's line is the right side, and the register is the same by it, or by the left side where the target says why."""
    row.target = (now[2], made.right)
    if made.side == "src":
        row.behind += [trans((now, made.left), (made.left, made.right))[0], {"same": now[2], "by": expression_text(made.right)}]
    else:
        row.behind += [trans((made.left, made.right), (made.right, now), "tgt")[0], {"same": now[2], "by": expression_text(made.left)}]


def by_operand(rng, pair, made, row, now, goes, below):
    """That the register may be the operand, in the source; or in the target, by a ghost that is the left side."""
    if made.side == "src":
        step, fact = trans((now, made.left), goes)
        row.behind.append(step)
        pair.claim(pair.src, below, fact)
        return
    name = pair.ghost()
    ghost = plain(now[1], "ghost " + name)
    row.behind.append({"ghost": name, "is": expression_text(made.left)})
    for known, other, side, facts in (((now, made.left), (made.left, ghost), "src", pair.src), ((ghost, made.left), goes, "tgt", pair.tgt)):
        step, fact = trans(known, other, side)
        row.behind.append(step)
        pair.claim(facts, below, fact)


def drop_premise(rng, pair, made):
    """The premise's line goes in the target, where nothing needs it any more."""
    if made.line and made.side == "src" and rng.random() < 0.5 and is_register(made.z):
        _, row = pair.place(made.z)
        if not any(operand == made.z for operand, *_ in uses(pair.side("target"))):
            row.target = None
            pair.differ(made.z)
