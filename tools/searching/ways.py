"""The ways in which pairs are made that are right, each with the hint that says why.

Each way has two parts: a seed, which puts lines into the source so that there is something to do, and an edit, which does it to the target
and writes down facts and steps. All seeds come before all edits. An edit answers False where it doesn't fit behind another.
"""
from .by_table import by_table
from .functions import (BINARY, DIVISIONS, FLAGS, Block, can_trap, definitions, dominators, expression_text, is_register, is_well_formed,
                        operands_of, predecessors, width_of, with_operands)
from .generate import available, fresh, insert, put, some_entries, some_expression, some_function, some_operand, use, uses
from .pairs import Pair, Row, aged, loops, may_become, plain, rule, settle, settle_phi, slips, some_line, some_reached, trans

ZERO_RIGHT = ("add", "sub", "or", "xor", "shl", "lshr", "ashr")


# The ways. Each takes a generator of numbers, the function and the registers whose lines stay as they are, and gives an edit, or None.


def algebra(rng, function, kept):
    """A line that is folded, or adds zero, is replaced."""
    block, width = some_reached(rng, function), rng.choice((1, 2, 2, 3))
    line, y = some_line(rng, function, block), fresh(function, "y")
    zero = rng.random() < 0.6
    if zero:
        operator = rng.choice(BINARY if slips(rng) else ZERO_RIGHT)
        flags = tuple(flag for flag in FLAGS.get(operator, ()) if rng.random() < 0.4)
        expr = ("bin", operator, flags, width, some_operand(rng, available(function, block, line), width),
                int(slips(rng)))
    else:
        expr = some_expression(rng, [], width)
        expr = with_operands(expr, [rng.randrange(2 ** w) if o == "undef" else o for o, w in operands_of(expr)])
    insert(function, block, line, y, expr)
    kept.add(y)
    use(rng, function, y, kept)

    def edit(pair):
        result = expr[4] if zero else may_become(rng, expr)
        if result in pair.touched:
            return False
        _, row = pair.place(y)
        known = (plain(width, y), expr)
        proved = (expr, plain(width, result))
        row.behind.append(rule("zero_right" if zero else "fold", proved))
        step, fact = trans(known, proved)
        row.behind.append(step)
        if result == "undef" and rng.random() < 0.7:
            number = plain(width, rng.randrange(2 ** width))
            row.behind.append(rule("undef_const", (plain(width, "undef"), number)))
            step, fact = trans(fact, (plain(width, "undef"), number))
            row.behind.append(step)
        pair.claim(pair.src, pair.below(block), fact)
        settle(rng, pair, y, fact[1][2])
        return True
    return edit


def fold_twice(rng, function, kept):
    """A line over numbers, and one over its register, are both folded."""
    block, width = some_reached(rng, function), rng.choice((1, 2, 3))
    line, y = some_line(rng, function, block), fresh(function, "y")
    first = ("bin", rng.choice(("add", "sub", "mul", "and", "or", "xor")), (), width, rng.randrange(2 ** width), rng.randrange(2 ** width))
    insert(function, block, line, y, first)
    z = fresh(function, "y")
    second = some_expression(rng, [], rng.choice((1, width)))
    places = [n for n, (_, w) in enumerate(operands_of(second)) if w == width]
    if not places:
        return None
    at = rng.choice(places)
    second = with_operands(second, [y if n == at else rng.randrange(2 ** w) for n, (_, w) in enumerate(operands_of(second))])
    insert(function, block, line + 1, z, second)
    kept |= {y, z}
    use(rng, function, y, kept, most=1)
    use(rng, function, z, kept)

    def edit(pair):
        _, row = pair.place(y)
        n = may_become(rng, first)
        row.behind.append(rule("fold", (first, plain(width, n))))
        step, number = trans((plain(width, y), first), (first, plain(width, n)))
        row.behind.append(step)
        _, row = pair.place(z)
        folded = with_operands(second, [n if k == at else o for k, (o, _) in enumerate(operands_of(second))])
        result, w = may_become(rng, folded), width_of(second)
        row.behind += [rule("subst", (second, folded), number), rule("fold", (folded, plain(w, result)))]
        step, over = trans((plain(w, z), second), (second, folded))
        row.behind.append(step)
        step, fact = trans(over, (folded, plain(w, result)))
        row.behind.append(step)
        pair.claim(pair.src, pair.below(block), number)
        pair.claim(pair.src, pair.below(block), fact)
        settle(rng, pair, z, result)
        if rng.random() < 0.7:
            settle(rng, pair, y, n)
        return True
    return edit


def common(rng, function, kept):
    """A line that stands twice is taken from the first place, with fewer flags there."""
    block = some_reached(rng, function)
    line, z = some_line(rng, function, block), fresh(function, "z")
    expr = some_expression(rng, available(function, block, line), rng.choice((1, 2, 2, 3)))
    insert(function, block, line, z, expr)
    over = dominators(function)
    later = rng.choice([name for name in over if block in over[name]])
    at = line + 1 + rng.randrange(1 + len(next(b for b in function.blocks if b.name == block).lines) - line - 1) \
        if later == block else some_line(rng, function, later)
    y, more = fresh(function, "y"), expr
    if expr[0] == "bin":
        more = expr[:2] + (tuple(f for f in FLAGS.get(expr[1], ()) if f in expr[2] and not slips(rng) or rng.random() < 0.4),) + expr[3:]
    if slips(rng):
        more = slipped(rng, more, available(function, later, at))
    insert(function, later, at, y, more)
    kept |= {y, z}
    use(rng, function, y, kept)

    def edit(pair):
        if z in pair.touched:
            return False
        width = width_of(expr)
        back, known = (expr, plain(width, z)), (plain(width, y), more)
        pair.claim(pair.src, pair.below(block), back)
        _, row = pair.place(y)
        if more != expr:
            row.behind.append(rule("drop_flags", (more, expr)))
            step, known = trans(known, (more, expr))
            row.behind.append(step)
        step, fact = trans(known, back)
        row.behind.append(step)
        pair.claim(pair.src, pair.below(later), fact)
        settle(rng, pair, y, z)
        return True
    return edit


def slipped(rng, expr, registers):
    """The expression with another operand, or its operands the other way round."""
    operands = operands_of(expr)
    if expr[0] in ("bin", "icmp") and rng.random() < 0.4:
        return with_operands(expr, [operands[1][0], operands[0][0]])
    k = rng.randrange(len(operands))
    return with_operands(expr, [some_operand(rng, registers, w) if n == k else o for n, (o, w) in enumerate(operands)])


def dead(rng, function, kept):
    """A line of one side alone."""
    block, width = some_reached(rng, function), rng.choice((1, 2, 3))
    line, y = some_line(rng, function, block), fresh(function, "d")
    expr = some_expression(rng, available(function, block, line), width)
    insert(function, block, line, y, expr)
    kept.add(y)

    def edit(pair):
        _, row = pair.place(y)
        if any(use[0] == y for use in uses(pair.old) + uses(pair.new)):
            return False
        if rng.random() < 0.5 or can_trap(expr) and not slips(rng):
            row.target = None
        else:
            row.source = None
        pair.differ(y)
        return True
    return edit


def moved(rng, function, kept):
    """A line that can't trap is moved to a block before it, or behind it; its register is the same from there on."""
    later = some_reached(rng, function, 2)
    if later is None:
        return None
    early = rng.choice([name for name in dominators(function)[later] if name != later])
    width, y = rng.choice((1, 2, 2, 3)), fresh(function, "h")
    up, with_ghost = rng.random() < 0.6, rng.random() < 0.5
    line = some_line(rng, function, early)
    registers = available(function, early, line)
    wrong = slips(rng)
    expr = some_expression(rng, registers, width, traps=wrong)
    if can_trap(expr) and not wrong:
        return None
    if up:
        insert(function, later, some_line(rng, function, later), y, expr)
        use(rng, function, y, kept)
    else:
        insert(function, early, line, y, expr)
        use(rng, function, y, kept, behind=(later, -1))
    kept.add(y)

    def edit(pair):
        if pair.touched & {o for o, _ in operands_of(expr)}:
            return False
        block, row = pair.place(y)
        if row.target is None or row.target[1] != expr:
            return False
        moved_row = Row(None, row.target)
        row.target = None
        if up:
            needed = {o for o, _ in operands_of(expr)}
            least = max([k + 1 for k, r in enumerate(pair.rows[early]) if (r.source or r.target)[0] in needed] + [0])
            pair.rows[early].insert(rng.randrange(least, len(pair.rows[early]) + 1), moved_row)
            first, here = moved_row, row
        else:
            pair.rows[later].insert(0, moved_row)
            first, here = row, moved_row
        now = plain(width, y)
        pair.differ(y, except_in=pair.below(later))
        between = pair.below(early)
        side, other = (pair.tgt, pair.src) if up else (pair.src, pair.tgt)
        names = ("tgt", "src") if up else ("src", "tgt")
        along = (expr, now) if up else (now, expr)
        if not with_ghost:
            pair.claim(side, between, along)
            here.behind.append({"same": y, "by": expression_text(expr)})
            return True
        name = pair.ghost()
        ghost = plain(width, "ghost " + name)
        first.behind.append({"ghost": name, "is": expression_text(expr)})
        if up:
            step, kept_fact = trans((ghost, expr), (expr, now), names[0])
            first.behind.append(step)
            pair.claim(side, between, kept_fact)
            pair.claim(other, between, (expr, ghost))
            step, _ = trans((now, expr), (expr, ghost), names[1])
        else:
            step, kept_fact = trans((now, expr), (expr, ghost), names[0])
            first.behind.append(step)
            pair.claim(side, between, kept_fact)
            pair.claim(other, between, (ghost, expr))
            step, _ = trans((ghost, expr), (expr, now), names[1])
        here.behind += [step, {"same": y, "by": expression_text(ghost)}]
        return True
    return edit


def some_phi(rng, function, kept, width=None):
    """A phi of a block all of whose predecessors are reached: the block, the register, the width; a new one, or one that is there."""
    over, into = dominators(function), predecessors(function)
    fitting = [b for b in function.blocks if b.name in over and into[b.name] and all(p in over for p in into[b.name])]
    if not fitting:
        return None
    block = rng.choice(fitting)
    if not block.phis or rng.random() < 0.5:
        width = rng.choice((1, 2, 2, 3))
        block.phis.append((fresh(function, "p"), width, some_entries(rng, function, block.name, width)))
    register, width, _ = rng.choice(block.phis)
    kept.add(register)
    return block, register, width


def entries_of(pair, block, register):
    source = next(b for b in pair.old.blocks if b.name == block)
    return next(dict((label, operand) for operand, label in reversed(entries)) for r, _, entries in source.phis if r == register)


def with_one_changed(rng, entries, width):
    """The entries of a phi, those of one block with another operand."""
    changed = rng.choice(entries)[1]
    other = rng.choice([o for o, _ in entries] + [rng.randrange(2 ** width), "undef"])
    return [(other if label == changed else operand, label) for operand, label in entries]


def twin_phi(rng, function, kept):
    """Of two phis with the same operands one goes."""
    found = some_phi(rng, function, kept)
    if not found:
        return None
    block, i, width = found
    j = fresh(function, "j")
    entries = next(entries for r, _, entries in block.phis if r == i)
    if slips(rng):
        entries = some_entries(rng, function, block.name, width) if rng.random() < 0.5 else with_one_changed(rng, entries, width)
    block.phis.insert(rng.randrange(len(block.phis) + 1), (j, width, list(entries)))
    kept.add(j)
    use(rng, function, j, kept)
    name = block.name

    def edit(pair):
        if i in pair.touched:
            return False
        fact = (plain(width, j), plain(width, i))
        for label, operand in entries_of(pair, name, j).items():
            between = plain(width, aged(operand))
            pair.on_edge(label, name, [trans((fact[0], between), (between, fact[1]))[0]])
        pair.claim(pair.src, [name] + pair.below(name), fact)
        settle_phi(rng, pair, name, j, i)
        return True
    return edit


def single_phi(rng, function, kept):
    """A phi whose operands are all one number, undef or register is that."""
    over, into = dominators(function), predecessors(function)
    fitting = [b for b in function.blocks if b.name in over and into[b.name] and all(p in over for p in into[b.name])]
    if not fitting:
        return None
    block, width = rng.choice(fitting), rng.choice((1, 2, 2, 3))
    above = [name for name in over[block.name] if name != block.name]
    known = definitions(function)
    registers = [(r, w) for r, (w, place) in known.items() if place[0] is None or place[0] in above]
    operand, x = some_operand(rng, registers, width), fresh(function, "s")
    entries = [(operand, label) for label in into[block.name]]
    block.phis.append((x, width, with_one_changed(rng, entries, width) if slips(rng) else entries))
    kept.add(x)
    use(rng, function, x, kept)
    name = block.name
    number = rng.randrange(2 ** width)

    def edit(pair):
        if operand in pair.touched:
            return False
        now, old, result = plain(width, x), plain(width, aged(operand)), operand
        for label in sorted(set(entries_of(pair, name, x))):
            if operand == "undef":
                goes = (old, plain(width, number))
                pair.on_edge(label, name, [rule("undef_const", goes), trans((now, old), goes)[0]])
                result = number
            elif is_register(operand):
                ghost = pair.ghost()
                between = plain(width, "ghost " + ghost)
                pair.last[label].append({"ghost": ghost, "is": expression_text(plain(width, operand))})
                first, fact = trans((now, old), (old, between))
                pair.on_edge(label, name, [first, trans(fact, (between, plain(width, operand)))[0]])
        pair.claim(pair.src, [name] + pair.below(name), (now, plain(width, result)))
        settle_phi(rng, pair, name, x, result)
        return True
    return edit


def loop_number(rng, function, kept):
    """A phi that begins with a number and is it again after each turn, is that number."""
    found = loops(function)
    if not found:
        return None
    name, outside, inside = rng.choice(found)
    block = next(b for b in function.blocks if b.name == name)
    width, k = rng.choice((1, 2, 2, 3)), fresh(function, "k")
    again, number = k + "n", rng.randrange(2 ** width)
    expr = ("bin", rng.choice(BINARY if slips(rng) else ZERO_RIGHT), (), width, k, int(slips(rng)))
    insert(function, name, some_line(rng, function, name), again, expr)
    into = predecessors(function)[name]
    begin = rng.randrange(2 ** width) if slips(rng) else number
    block.phis.append((k, width, [(again if label in inside else begin, label) for label in into]))
    kept |= {k, again}
    use(rng, function, k, kept)

    def edit(pair):
        now, then, value = plain(width, k), plain(width, again), plain(width, number)
        pair.claim(pair.src, [name] + pair.below(name), (now, value))
        _, row = pair.place(again)
        step, fact = trans((then, expr), (expr, now))
        row.behind += [rule("zero_right", (expr, now)), step]
        step, fact = trans(fact, (now, value))
        row.behind.append(step)
        pair.claim(pair.src, pair.below(name), fact)
        old = plain(width, "old " + again)
        for label in inside:
            pair.on_edge(label, name, [trans((now, old), (old, value))[0]])
        settle_phi(rng, pair, name, k, number)
        return True
    return edit


def twin_loop(rng, function, kept):
    """Two phis that begin alike and change alike in each turn are one."""
    found = loops(function)
    if not found:
        return None
    name, outside, inside = rng.choice(found)
    block = next(b for b in function.blocks if b.name == name)
    width, i = rng.choice((1, 2, 2, 3)), fresh(function, "i")
    j, ni, nj = i + "j", i + "n", i + "jn"
    operator = rng.choice(("add", "sub", "mul", "xor", "shl", "or", "and"))
    fewer = tuple(f for f in FLAGS.get(operator, ()) if rng.random() < 0.2)
    more = tuple(f for f in FLAGS.get(operator, ()) if f in fewer or rng.random() < 0.3)
    line = some_line(rng, function, name)
    other = some_operand(rng, available(function, name, line), width)
    first, second = ("bin", operator, fewer, width, i, other), ("bin", operator, more, width, j, other)
    if slips(rng):
        second = second[:1] + (rng.choice(("add", "sub", "mul", "xor")), ()) + second[3:]
    elif slips(rng):
        second = second[:5] + (some_operand(rng, available(function, name, line), width),)
    insert(function, name, line, ni, first)
    insert(function, name, line + 1, nj, second)
    over = dominators(function)
    registers = [(r, w) for r, (w, place) in definitions(function).items() if place[0] is None or place[0] in over[name] - {name}]
    begin, into = some_operand(rng, registers, width), predecessors(function)[name]
    entries = [[(next_one if label in inside else begin, label) for label in into] for next_one in (ni, nj)]
    block.phis += [(i, width, entries[0]), (j, width, entries[1])]
    if slips(rng):
        block.phis[-1] = (j, width, with_one_changed(rng, entries[1], width))
    kept |= {i, j, ni, nj}
    use(rng, function, j, kept)
    use(rng, function, rng.choice((ni, nj)), kept, most=1)

    def edit(pair):
        if i in pair.touched or ni in pair.touched:
            return False
        as_i, as_j, as_ni, as_nj = (plain(width, r) for r in (i, j, ni, nj))
        pair.claim(pair.src, [name] + pair.below(name), (as_j, as_i))
        _, row = pair.place(nj)
        changed = with_operands(second, [i, other])
        row.behind.append(rule("subst", (second, changed), (as_j, as_i)))
        step, fact = trans((as_nj, second), (second, changed))
        row.behind.append(step)
        if more != fewer:
            row.behind.append(rule("drop_flags", (changed, first)))
            step, fact = trans(fact, (changed, first))
            row.behind.append(step)
        step, fact = trans(fact, (first, as_ni))
        row.behind.append(step)
        pair.claim(pair.src, pair.below(name), fact)
        for label in outside:
            between = plain(width, aged(begin))
            pair.on_edge(label, name, [trans((as_j, between), (between, as_i))[0]])
        old_i, old_j = plain(width, "old " + ni), plain(width, "old " + nj)
        for label in inside:
            step, fact = trans((as_j, old_j), (old_j, old_i))
            pair.on_edge(label, name, [step, trans(fact, (old_i, as_i))[0]])
        settle_phi(rng, pair, name, j, i)
        if rng.random() < 0.7:
            settle(rng, pair, nj, ni)
        return True
    return edit


def swapping_loop(rng, function, kept):
    """Two phis that begin alike and change places in each turn are one."""
    found = loops(function)
    if not found:
        return None
    name, outside, inside = rng.choice(found)
    block = next(b for b in function.blocks if b.name == name)
    width, a = rng.choice((1, 2, 2, 3)), fresh(function, "w")
    b = a + "b"
    over, into = dominators(function), predecessors(function)[name]
    registers = [(r, w) for r, (w, place) in definitions(function).items() if place[0] is None or place[0] in over[name] - {name}]
    begin = some_operand(rng, registers, width)
    other = some_operand(rng, registers, width) if slips(rng) else begin
    nexts = ((b, begin), (rng.choice((b, rng.randrange(2 ** width))) if slips(rng) else a, other))
    entries = [[(again if label in inside else first, label) for label in into] for again, first in nexts]
    block.phis += [(a, width, entries[0]), (b, width, entries[1])]
    kept |= {a, b}
    use(rng, function, b, kept)

    def edit(pair):
        if {a, b, begin} & pair.touched:
            return False
        as_a, as_b = plain(width, a), plain(width, b)
        for left, right in ((as_b, as_a), (as_a, as_b)):
            if left == as_a and slips(rng):
                break
            pair.claim(pair.src, [name] + pair.below(name), (left, right))
            for label in outside:
                between = plain(width, aged(begin))
                pair.on_edge(label, name, [trans((left, between), (between, right))[0]])
            old_left, old_right = plain(width, aged(left[2])), plain(width, aged(right[2]))
            for label in inside if not slips(rng) else ():
                step, fact = trans((left, old_right), (old_right, old_left))
                pair.on_edge(label, name, [step, trans(fact, (old_left, right))[0]])
        settle_phi(rng, pair, name, b, a)
        return True
    return edit


def two_widths(rng, function, kept):
    """A register that nobody needs has another width in the target."""
    block, y = some_reached(rng, function), fresh(function, "t")
    line = some_line(rng, function, block)
    registers = available(function, block, line)
    first, second = rng.sample((1, 2, 3), 2)
    insert(function, block, line, y, some_expression(rng, registers, first))
    kept.add(y)

    def edit(pair):
        _, row = pair.place(y)
        other = some_expression(rng, registers, second, traps=False)
        if any(use[0] == y for use in uses(pair.old) + uses(pair.new)) or can_trap(other) or can_trap(row.source[1]):
            return False
        row.target = (y, other)
        pair.differ(y)
        return True
    return edit


def wide(rng, function, kept):
    """A line over wide numbers is folded; what is used is cut from it."""
    block, width, narrow = some_reached(rng, function), rng.choice((7, 8, 31, 32, 33, 63, 64)), rng.choice((1, 2, 3))
    line, y = some_line(rng, function, block), fresh(function, "y")
    ends = (0, 1, 2, 2 ** width - 1, 2 ** (width - 1), 2 ** (width - 1) - 1, width, width - 1, 2 ** (width // 2))
    operator = rng.choice(BINARY)
    flags = tuple(flag for flag in FLAGS.get(operator, ()) if rng.random() < 0.3)
    expr = ("bin", operator, flags, width, *(rng.choice(ends + (rng.randrange(2 ** width),)) for _ in range(2)))
    insert(function, block, line, y, expr)
    z = fresh(function, "z")
    insert(function, block, line + 1, z, ("cast", "trunc", width, y, narrow))
    kept |= {y, z}
    use(rng, function, z, kept)

    def edit(pair):
        result = may_become(rng, expr)
        _, row = pair.place(y)
        row.behind.append(rule("fold", (expr, plain(width, result))))
        step, fact = trans((plain(width, y), expr), (expr, plain(width, result)))
        row.behind.append(step)
        pair.claim(pair.src, pair.below(block), fact)
        pair.in_target(y, result)
        row.target = None
        pair.differ(y)
        return True
    return edit


def undef_number(rng, function, kept):
    """Undef at some places becomes a number."""
    over = dominators(function)
    fitting = [(w, how) for o, w, block, _, how in uses(function) if block in over and (how[0] == "term" or rng.random() < 0.4)
               and not (how[0] == "line" and next(b for b in function.blocks if b.name == how[1]).lines[how[2]][0] in kept)]
    fitting = [(w, how) for w, how in fitting if how[0] != "phi" or
               next(b for b in function.blocks if b.name == how[1]).phis[how[2]][0] not in kept]
    if not fitting:
        return None
    width, how = rng.choice(fitting)
    if not slips(rng):
        put(function, how, "undef")
    block = next(b for b in function.blocks if b.name == how[1])
    register = block.lines[how[2]][0] if how[0] == "line" else block.phis[how[2]][0] if how[0] == "phi" else None
    kept.add(register)
    number = rng.randrange(2 ** width)

    def edit(pair):
        step = rule("undef_const", (plain(width, "undef"), plain(width, number)), side=rng.choice(("src", "tgt")))
        if how[0] == "line":
            _, row = pair.place(register)
            if row.target is None:
                return False
            operands = [o for o, _ in operands_of(row.target[1])]
            if (operands[how[3]] != "undef" or can_trap(row.target[1])) and not slips(rng):
                return False
            operands[how[3]] = number
            row.target = (register, with_operands(row.target[1], operands))
            row.before.append(step)
            return True
        target = next(b for b in pair.new.blocks if b.name == how[1])
        if not slips(rng) and not all(("undef", how) in [(o, where) for o, _, _, _, where in uses(f)] for f in (pair.old, pair.new)):
            return False
        if how[0] == "phi":
            places = [p for p, phi in enumerate(target.phis) if phi[0] == register]
            if places:
                put(pair.new, ("phi", how[1], places[0], how[3]), number)
        else:
            put(pair.new, how, number)
        pair.last[how[3] if how[0] == "phi" else how[1]].append(step)
        return True
    return edit


def swapped_phis(rng, function, kept):
    """The phis of a block stand in another order."""
    for _ in range(2):
        some_phi(rng, function, kept)

    def edit(pair):
        for block in pair.new.blocks:
            rng.shuffle(block.phis)
        return True
    return edit


def fewer_flags(rng, function, kept):
    """Lines of the target lack flags."""
    block, width = some_reached(rng, function), rng.choice((1, 2, 2, 3))
    line, y = some_line(rng, function, block), fresh(function, "f")
    operator = rng.choice(sorted(FLAGS))
    flags = tuple(flag for flag in FLAGS[operator] if rng.random() < 0.6)
    registers = available(function, block, line)
    right = rng.randrange(1, 2 ** width) if operator in DIVISIONS else some_operand(rng, registers, width)
    insert(function, block, line, y, ("bin", operator, flags, width, some_operand(rng, registers, width), right))
    use(rng, function, y, kept)

    def edit(pair):
        for rows in pair.rows.values():
            for row in rows:
                if row.target and row.target[1][0] == "bin" and row.target[0] not in kept:
                    register, expr = row.target
                    flags = FLAGS.get(expr[1], ()) if slips(rng) else expr[2]
                    row.target = (register, expr[:2] + (tuple(f for f in flags if rng.random() < 0.4),) + expr[3:])
        return True
    return edit


def unreached(rng, function, kept):
    """Blocks that no path reaches are changed."""
    name = "lost"
    if any(block.name == name for block in function.blocks):
        return None
    width = function.width
    lines = [(fresh(function, "u"), some_expression(rng, [], width or 2))]
    term = ("ret", width, lines[0][0]) if width else ("ret",)
    function.blocks.append(Block(name, [], lines, term))

    def edit(pair):
        if name in pair.over:
            return False
        row = pair.rows[name][0]
        row.target = (row.target[0], some_expression(rng, [], width or 2))
        return True
    return edit


WAYS = (algebra, algebra, fold_twice, common, common, dead, moved, moved, twin_phi, single_phi, loop_number, twin_loop, swapping_loop,
        undef_number, two_widths, wide, swapped_phis, fewer_flags, fewer_flags, unreached, *[by_table] * 12)


def some_pair(rng):
    """A source, a target, their hint, and the names of the ways by which they were made."""
    while True:
        found = try_pair(rng)
        if is_well_formed(found[0]) and is_well_formed(found[1]):
            return found


def try_pair(rng):
    """The same, where one way may have put a use of a register before its line that another has moved."""
    function, kept, edits, names = some_function(rng), set(), [], []
    for way in rng.choices(WAYS, k=rng.choice((1, 1, 1, 2, 2, 3))):
        edit = way(rng, function, kept)
        if edit:
            edits.append((way.__name__, edit))
    pair = Pair(function)
    for name, edit in edits:
        if edit(pair):
            names.append(name)
    return pair.side("source"), pair.side("target"), pair.hint(), names
