"""Changes a pair and its hint a little, so that most of what comes is nearly right."""
import copy
import re

from .functions import (BINARY, CASTS, DIVISIONS, FLAGS, PREDICATES, definitions, expression_text, function_text, is_register,
                        is_well_formed, labels_of, read_function, term_text, width_of)
from .generate import available, some_expression, some_operand
from .pairs import aged, plain, rule, text, trans
from .rules import NAMES, concluded, rules_for

WORDS = sorted({*BINARY, *CASTS, *PREDICATES, "nuw", "nsw", "exact", "undef"}, key=len, reverse=True)
TOKEN = re.compile(r"(?<![\w%.])(?:" + "|".join(WORDS) + r")(?![\w.])|%[a-z][a-z0-9.]*|(?<![\w%.])\d+(?![\w.])")
NEAR = {"lshr": "ashr", "ashr": "lshr", "udiv": "sdiv", "sdiv": "udiv", "urem": "srem", "srem": "urem", "add": "sub", "sub": "add", "or": "xor",
        "xor": "or", "zext": "sext", "sext": "zext", "eq": "ne", "ne": "eq", "ugt": "uge", "uge": "ugt", "ult": "ule", "ule": "ult",
        "sgt": "sge", "sge": "sgt", "slt": "sle", "sle": "slt"}
RULES = ("refl", "trans", "undef_const", "subst", "drop_flags", "fold", *NAMES)


class Case:
    """The texts of a source and of a target, as lists of lines, and a hint."""

    def __init__(self, source, target, hint):
        self.source, self.target, self.hint = source, target, hint

    def copy(self):
        return Case(list(self.source), list(self.target), copy.deepcopy(self.hint))

    def blocks(self):
        return next(iter(self.hint["functions"].values()), {"blocks": []})["blocks"]


def widths(function):
    return {register: width for register, (width, _) in definitions(function).items()}


def other_token(rng, token, known):
    """Another word of the token's sort; known are registers with their widths."""
    if token in NEAR and rng.random() < 0.4:
        return NEAR[token]
    if token in PREDICATES and token not in ("eq", "ne") and rng.random() < 0.5:
        return ("u" if token[0] == "s" else "s") + token[1:]
    if token in BINARY:
        if rng.random() < 0.3:
            return f"{token} {rng.choice(FLAGS.get(token, ('',)))}".strip()
        return rng.choice(BINARY)
    if token in PREDICATES:
        return rng.choice(PREDICATES)
    if token in CASTS:
        return rng.choice(CASTS)
    if token in ("nuw", "nsw", "exact"):
        return rng.choice(("", "nuw", "nsw") if token != "exact" else ("",))
    alike = [r for r in known if known[r] == known.get(token)]
    roll = rng.random()
    if token.isdigit() and roll < 0.6:
        return str(max(0, int(token) + rng.choice((-1, 1, 2))))
    if alike and roll < 0.75:
        return rng.choice(alike)
    if known and roll < 0.9:
        return rng.choice(list(known))
    return rng.choice(("undef", "0", "1", "2", "3"))


def map_texts(hint, change):
    """Changes each text of an expression, and each register, of the hint."""
    def facts(list_of):
        return [[fact[0]] + [change(part) for part in fact[1:]] for fact in list_of]

    for function in hint["functions"].values():
        for block in function["blocks"]:
            for member in ("src", "tgt"):
                if member in block:
                    block[member] = facts(block[member])
            if "diff" in block:
                block["diff"] = [change(register) for register in block["diff"]]
            for step in all_steps(block):
                for member in ("is", "by", "same", "ghost"):
                    if member in step:
                        step[member] = change(step[member])
                if "rule" in step:
                    step["from"], step["to"] = facts(step["from"]), facts([step["to"]])[0]


def all_steps(block):
    return list(block.get("steps", [])) + [step for edge in block.get("edges", []) for step in edge["steps"]]


def body(lines):
    return [k for k, line in enumerate(lines) if line.startswith("  ")]


def lines_that_matter(lines):
    """Terminators, and the lines on whose registers they rest."""
    found, live = set(), set()
    while True:
        more = [k for k in body(lines) if k not in found and (" = " not in lines[k] or lines[k].split(" = ")[0].strip() in live)]
        if not more:
            return sorted(found)
        found.update(more)
        for k in more:
            live.update(re.findall(r"%[a-z][a-z0-9.]*", lines[k].split(" = ")[-1]))


# Changes of the texts. Each takes numbers, the case, and the functions that its texts are; False where there is nothing to change.

def one_token(rng, case, functions):
    """One word of a line changes: of one side, or of both where the lines are the same."""
    which = rng.choice(("source", "target", "target"))
    lines, function = getattr(case, which), functions[which == "target"]
    known = widths(function)
    at = rng.choice(body(lines))
    if rng.random() < 0.85:
        at = rng.choice(lines_that_matter(lines))
    start = lines[at].find("=") + 1
    found = [m for m in TOKEN.finditer(lines[at]) if m.start() >= start and (m.group()[0] != "%" or m.group() in known)]
    if not found:
        return False
    match = rng.choice(found)
    new = lines[at][:match.start()] + other_token(rng, match.group(), known) + lines[at][match.end():]
    new = "  " + " ".join(new.split())
    both = rng.random() < 0.2
    for side in (case.source, case.target):
        for k in body(side):
            if side[k] == lines[at] and side is not lines and both:
                side[k] = new
    lines[at] = new
    return True


def every_token(rng, case, functions):
    """A word is changed wherever it stands in the hint, and in one, both or neither of the texts."""
    found = []
    map_texts(copy.deepcopy(case.hint), lambda part: found.extend(TOKEN.findall(part)) or part)
    for lines in (case.source, case.target):
        for k in body(lines):
            found += TOKEN.findall(lines[k])
    if not found:
        return False
    old = rng.choice(found)
    new = other_token(rng, old, widths(functions[0]))
    if rng.random() < 0.3 and old.startswith("%") and new.startswith("%"):
        new = rng.choice(("old ", "ghost ")) + new

    def change(part):
        return " ".join(TOKEN.sub(lambda m: new if m.group() == old else m.group(), part).split())

    sides = rng.choice(((), (case.source,), (case.target,), (case.target,), (case.source, case.target)))
    for lines in sides:
        for k in body(lines):
            head, equal, rest = lines[k].partition("=")
            lines[k] = head + equal + " " + change(rest) if equal else "  " + change(lines[k])
    if rng.random() < 0.8:
        map_texts(case.hint, change)
    return True


def swapped(rng, case, functions):
    """The parts of a line that stand between commas change places; a switch's or a branch's labels too."""
    which = rng.choice(("source", "target"))
    lines = getattr(case, which)
    both = rng.random() < 0.4
    at = rng.choice(body(lines))
    line = lines[at]
    labels = re.findall(r"label (%\w+)", line)
    entries = re.findall(r"\[ (\S+), (%\w+) \]", line)
    if len(labels) > 1:
        a, b = rng.sample(range(len(labels)), 2)
        labels[a], labels[b] = labels[b], labels[a]
        new = re.sub(r"label %\w+", lambda _: "label " + labels.pop(0), line)
    elif len(entries) > 1:
        a, b = rng.sample(range(len(entries)), 2)
        entries[a], entries[b] = (entries[b][0], entries[a][1]), (entries[a][0], entries[b][1])
        new = line.split("[")[0] + ", ".join(f"[ {o}, {label} ]" for o, label in entries)
    else:
        match = re.fullmatch(r"(.* i\d+ )(\S+), (\S+)", line)
        if not match:
            return False
        new = f"{match.group(1)}{match.group(3)}, {match.group(2)}"
    for side in (case.source, case.target):
        for k in body(side):
            if side is lines and k == at or both and side[k] == line:
                side[k] = new
    return True


def line_goes(rng, case, functions):
    """A line of the target or of the source goes, and its letter with it."""
    which = rng.randrange(2)
    block = rng.choice(functions[which].blocks)
    entry = next((b for b in case.blocks() if b["at"] == "%" + block.name), None)
    if entry is None or "lines" not in entry:
        return False
    own, other = ("s", "t") if which == 0 else ("t", "s")
    places = [k for k, letter in enumerate(entry["lines"]) if letter in "b" + own]
    if len(places) != len(block.lines) or not places:
        return False
    n = rng.randrange(len(places))
    letters = list(entry["lines"])
    letters[places[n]] = other if letters[places[n]] == "b" else ""
    entry["lines"] = "".join(letters)
    if rng.random() < 0.7:
        entry.setdefault("diff", []).append(block.lines[n][0])
        for later in case.blocks():
            later.setdefault("diff", []).append(block.lines[n][0])
    lines = (case.source, case.target)[which]
    wanted = f"  {block.lines[n][0]} = "
    lines[:] = [line for line in lines if not line.startswith(wanted) or line.startswith(wanted + "phi")]
    return True


def line_comes(rng, case, functions):
    """A line comes to one side alone, often one that can trap, and its register may differ everywhere."""
    which = rng.choice((0, 1, 1))
    function = functions[which]
    block = rng.choice(function.blocks)
    entry = next((b for b in case.blocks() if b["at"] == "%" + block.name), None)
    if entry is None or "lines" not in entry or len(entry["lines"].replace("ts"[which], "")) != len(block.lines):
        return False
    line, register = rng.randrange(len(block.lines) + 1), "%n9"
    registers = available(function, block.name, line)
    width = rng.choice((1, 2, 3))
    expr = some_expression(rng, registers, width)
    if rng.random() < 0.6:
        divisor = rng.choice([0, 1, 2 ** width - 1, "undef", some_operand(rng, registers, width)])
        expr = ("bin", rng.choice(DIVISIONS), (), width, some_operand(rng, registers, width), divisor)
    places = [k for k, letter in enumerate(entry["lines"] + "b") if letter != "ts"[which]]
    entry["lines"] = entry["lines"][:places[line]] + "st"[which] + entry["lines"][places[line]:]
    for later in case.blocks():
        later.setdefault("diff", []).append(register)
    lines = (case.source, case.target)[which]
    starts = lines.index(block.name + ":") + 1 + len(block.phis)
    lines.insert(starts + line, f"  {register} = {expression_text(expr)}")
    return True


def term_changes(rng, case, functions):
    """A terminator of one side becomes another: a label, a case more or less, a branch in place of a switch, or none."""
    which = rng.choice((0, 1, 1))
    function, lines = functions[which], (case.source, case.target)[which]
    block, how = rng.choice(function.blocks), rng.randrange(5)
    term = block.term
    labels = [b.name for b in function.blocks[1:]]
    if not labels:
        return False
    if how == 0 and term[0] in ("cond", "switch"):
        new = ("br", rng.choice(labels_of(term)))
    elif how == 1 and term[0] == "br":
        new = ("cond", rng.choice((0, 1, "undef")), term[1], rng.choice(labels))
    elif how == 2 and term[0] == "switch":
        cases, number = list(term[4]), rng.randrange(2 ** term[1])
        if cases and rng.random() < 0.5:
            cases.pop(rng.randrange(len(cases)))
        elif number not in [n for n, _ in cases]:
            cases.insert(rng.randrange(len(cases) + 1), (number, rng.choice(labels)))
        new = term[:4] + (tuple(cases),)
    elif how == 3 and term[0] == "switch" and len(term[4]) > 1:
        cases = list(term[4])
        rng.shuffle(cases)
        new = term[:4] + (tuple(cases),)
    elif labels_of(term):
        new = term[:1] + tuple(rng.choice(labels) if part in labels and rng.random() < 0.5 else part for part in term[1:])
    else:
        new = ("unreachable",)
    starts = lines.index(block.name + ":")
    at = next((k for k in range(starts + 1, len(lines)) if lines[k] == "  " + term_text(term)), None)
    if at is None:                      # another change came before, and wrote the line otherwise
        return False
    lines[at] = "  " + term_text(new)
    return True


def lines_change_places(rng, case, functions):
    which = rng.choice(("source", "target"))
    lines = getattr(case, which)
    at = rng.choice(body(lines))
    if not lines[at + 1].startswith("  "):
        return False
    lines[at], lines[at + 1] = lines[at + 1], lines[at]
    return True


# Changes of the hint alone

def some_steps(rng, case):
    """A list of steps of the hint."""
    lists = [block["steps"] for block in case.blocks() if block.get("steps")]
    lists += [edge["steps"] for block in case.blocks() for edge in block.get("edges", []) if edge["steps"]]
    return rng.choice(lists) if lists else None


def other_rule(rng, told):
    """Another rule for a fact whose left side is the text: any, or one that has a left side of that operator."""
    return rng.choice((rules_for(told) if rng.random() < 0.6 else None) or RULES)


def step_changes(rng, case, functions):
    """A step goes, comes twice, changes places, side, rule or place."""
    steps = some_steps(rng, case)
    if not steps:
        return False
    k, how = rng.randrange(len(steps)), rng.randrange(7)
    step = steps[k]
    if how == 0:
        steps.pop(k)
    elif how == 1:
        other = some_steps(rng, case)
        moved = copy.deepcopy(step)
        if other and (("at" in other[0]) == ("at" in moved)):
            other.insert(rng.randrange(len(other) + 1), moved)
    elif how == 2:
        rng.shuffle(steps)
    elif how == 3 and "side" in step:
        step["side"] = "tgt" if step["side"] == "src" else "src"
    elif how == 4 and "rule" in step:
        step["rule"] = other_rule(rng, step["to"][1])
    elif how == 5 and "at" in step:
        step["at"] = max(0, step["at"] + rng.choice((-1, 1, 2)))
    elif "at" in step:
        shift = rng.choice((-1, 1))
        for one in steps:
            one["at"] = max(0, one["at"] + shift)
    return True


def fact_changes(rng, case, functions):
    """A fact that a block claims goes, comes to other blocks or the other side, or is turned round."""
    blocks = [block for block in case.blocks() if block.get("src") or block.get("tgt")]
    if not blocks:
        return False
    block = rng.choice(blocks)
    side = rng.choice([member for member in ("src", "tgt") if block.get(member)])
    fact, how = rng.choice(block[side]), rng.randrange(4)
    if how == 0:
        for one in case.blocks() if rng.random() < 0.6 else [block]:
            if fact in one.get(side, []):
                one[side].remove(fact)
    elif how == 1:
        for one in case.blocks()[1:]:
            if rng.random() < 0.7:
                one.setdefault(rng.choice(("src", "tgt")), []).append(fact)
    elif how == 2:
        block.setdefault("tgt" if side == "src" else "src", []).append(fact)
    else:
        block[side].append([fact[0], fact[2], fact[1]])
    return True


def diff_changes(rng, case, functions):
    """A register no longer may differ, or now may, at one start or at all."""
    registers = list(widths(functions[rng.randrange(2)]))
    named = [r for block in case.blocks() for r in block.get("diff", [])]
    if named and rng.random() < 0.6:
        gone, all_of = rng.choice(named), rng.random() < 0.6
        blocks = case.blocks() if all_of else [rng.choice(case.blocks())]
        for block in blocks:
            block["diff"] = [r for r in block.get("diff", []) if r != gone]
    elif registers and case.blocks():
        come = rng.choice(registers)
        for block in case.blocks() if rng.random() < 0.6 else [rng.choice(case.blocks())]:
            block.setdefault("diff", []).append(come)
    return True


def letters_change(rng, case, functions):
    blocks = [block for block in case.blocks() if len(block.get("lines", "")) > 1]
    if not blocks:
        return False
    block = rng.choice(blocks)
    letters = list(block["lines"])
    k = rng.randrange(len(letters) - 1)
    if rng.random() < 0.25:
        del letters[rng.randrange(len(letters)):]
    elif letters[k] == "b" and rng.random() < 0.5:
        letters[k] = rng.choice(("st", "ts"))
    else:
        letters[k], letters[k + 1] = letters[k + 1], letters[k]
    block["lines"] = "".join(letters)
    return True


def edge_changes(rng, case, functions):
    """The steps of an edge go to another edge, or are gone."""
    blocks = [block for block in case.blocks() if block.get("edges")]
    if not blocks:
        return False
    block = rng.choice(blocks)
    edge = rng.choice(block["edges"])
    if rng.random() < 0.4:
        block["edges"].remove(edge)
    else:
        edge["to"] = rng.choice(case.blocks())["at"]
    return True


def age_changes(rng, case, functions):
    """On an edge an old register becomes the one as it is now, or the other way round; or a ghost becomes a plain register."""
    edges = [edge for block in case.blocks() for edge in block.get("edges", []) if edge["steps"]]
    if not edges:
        return False
    edge, register = rng.choice(edges), rng.choice(list(widths(functions[0])) or ["%x"])
    word = re.escape(register) + r"(?![\w.])"
    old, new = rng.choice(((r"old (?=%)", ""), (f"(?<!old )(?<!ghost ){word}", "old " + register), (r"ghost (?=%)", ""), (f"old {word}", register)))
    for step in edge["steps"]:
        if "rule" in step:
            step["from"] = [[fact[0]] + [re.sub(old, new, part) for part in fact[1:]] for fact in step["from"]]
            step["to"] = [step["to"][0]] + [re.sub(old, new, part) for part in step["to"][1:]]
    return True


def first_claims(rng, case, functions):
    """Of the first block something is claimed: a fact of another block, or one over what is returned."""
    blocks = case.blocks()
    if not blocks:
        return False
    first = next((block for block in blocks if block["at"] == "%" + functions[0].blocks[0].name), blocks[0])
    side = rng.choice(("src", "tgt"))
    claimed = [fact for block in blocks for member in ("src", "tgt") for fact in block.get(member, [])]
    known = [(r, w) for r, w in widths(functions[0]).items()]
    if claimed and rng.random() < 0.5 or not known:
        first.setdefault(side, []).extend(claimed[:1])
    else:
        register, width = rng.choice(known)
        other = some_operand(rng, known, width)
        first.setdefault(side, []).append(text((plain(width, register), plain(width, other))))
    return True


def parts_go(rng, case, functions):
    """A member of the hint goes, the entry of a block, or that of the whole function; or a function and blocks come that nobody has."""
    how = rng.randrange(5)
    if how == 0:
        case.hint["functions"].pop("@f", None)
    elif how == 1 and case.blocks():
        case.blocks().pop(rng.randrange(len(case.blocks())))
    elif how == 2 and case.blocks():
        block = rng.choice(case.blocks())
        members = [member for member in block if member != "at"]
        if members:
            del block[rng.choice(members)]
    elif how == 3:
        case.hint["functions"]["@g"] = {"blocks": copy.deepcopy(case.blocks())}
    elif case.blocks():
        case.blocks().append(dict(copy.deepcopy(rng.choice(case.blocks())), at="%nowhere"))
    return True


def ghosts_differ(rng, case, functions):
    """A ghost may differ at starts of blocks."""
    for block in case.blocks():
        if rng.random() < 0.6:
            block.setdefault("diff", []).append(rng.choice(("ghost %g1", "ghost %g1", "ghost %g2", "ghost %g9")))
    return True


def types_change(rng, case, functions):
    """In facts and steps a register or a number stands at another type; in all places where it stands at that type, or in some."""
    found = []
    map_texts(case.hint, lambda part: found.extend(re.findall(r"\bi[1-9]\d? (?:old |ghost )?[^\s,]+", part)) or part)
    if not found:
        return False
    old, share = rng.choice(found), rng.choice((1, 1, 0.5))
    new = re.sub(r"\bi\d+", f"i{rng.choice((1, 2, 3, 4))}", old)
    map_texts(case.hint, lambda part: re.sub(re.escape(old) + r"(?![\w.])", lambda m: new if rng.random() < share else old, part))
    return True


def edge_steps(rng, case, functions):
    """Steps come to an edge: what its phis give, a ghost, a same; the edge may stand twice, and may lead nowhere."""
    which = rng.randrange(2)
    block = rng.choice(case.blocks() or [None])
    function = next((b for b in functions[which].blocks if block and "%" + b.name == block["at"]), None)
    if function is None or not labels_of(function.term):
        return False
    label = rng.choice(labels_of(function.term))
    phis = next(b for b in functions[which].blocks if b.name == label).phis
    side, steps = ("src", "tgt")[which], []
    for register, width, entries in phis[:2]:
        now, old = plain(width, register), plain(width, aged(dict((l, o) for o, l in reversed(entries)).get(function.name, 0)))
        how = rng.randrange(5)
        if how == 0:
            other = rng.choice([r for r, w, _ in phis if w == width])
            steps.append(rule("trans", (now, plain(width, other)), (now, old), (old, plain(width, other)), side=side))
        elif how == 1:
            steps.append({"ghost": "%g1", "is": expression_text(rng.choice((now, old)))})
        elif how == 2:
            steps.append({"same": register, "by": expression_text(old)})
        elif how == 3:
            steps.append(rule("trans", (now, plain(width, "ghost %g1")), (now, old), (old, plain(width, "ghost %g1")), side=side))
        else:
            steps.append(rule("refl", (now, now), side=side))
    label = rng.choice(case.blocks())["at"] if rng.random() < 0.15 else "%" + label
    block.setdefault("edges", []).insert(rng.randrange(len(block.get("edges", [])) + 1), {"to": label, "steps": steps})
    return True


def ghosts_early(rng, case, functions):
    """A register's ghost is chosen before its line, and the register is the same by it, or a claim names it."""
    known = widths(functions[rng.randrange(2)])
    if not known or not case.blocks():
        return False
    register, block = rng.choice(list(known)), rng.choice(case.blocks())
    ghost = plain(known[register], "ghost %g1")
    now = plain(known[register], register)
    block.setdefault("steps", []).insert(0, {"at": 0, "ghost": "%g1", "is": expression_text(now)})
    if rng.random() < 0.5:
        block["steps"].append({"at": rng.randrange(4), "same": register, "by": expression_text(ghost)})
    else:
        for one in case.blocks()[1:]:
            one.setdefault(rng.choice(("src", "tgt")), []).append(text(rng.choice(((now, ghost), (ghost, now)))))
    return True


def line_facts(function):
    """The facts that the lines and phis of a function give, by its blocks, and of all."""
    facts = []
    for block in function.blocks:
        for register, width, entries in block.phis:
            for operand, _ in entries:
                facts.append((plain(width, register), plain(width, aged(operand)), block.name))
                facts.append((plain(width, aged(operand)), plain(width, register), block.name))
        for register, expr in block.lines:
            facts.append((plain(width_of(expr), register), expr, block.name))
            facts.append((expr, plain(width_of(expr), register), block.name))
    return facts


def likely_step(rng, case, functions):
    """A step, a claim, a ghost or a same is added that is made from what lines give."""
    which = rng.randrange(2)
    facts, side = line_facts(functions[which]), ("src", "tgt")[which]
    names = [block["at"] for block in case.blocks()]
    if not facts or not names:
        return False
    a, b, home = rng.choice(facts)
    block = next((one for one in case.blocks() if one["at"] == "%" + home), case.blocks()[0])
    at = rng.randrange(len(block.get("lines", "")) + 1) if rng.random() < 0.6 else len(block.get("lines", ""))
    how = rng.randrange(5)
    if how == 0:
        for one in case.blocks()[1:]:
            if rng.random() < 0.7:
                one.setdefault(side, []).append(text((a, b)))
    elif how == 1:
        joined = [(c, d) for c, d, _ in facts if expression_text(c) == expression_text(b)]
        c, d = rng.choice(joined or [(b, a)])
        block.setdefault("steps", []).append(dict(rule("trans", (a, d), (a, b), (c, d), side=side), at=at))
    elif how == 2:
        block.setdefault("steps", []).append({"ghost": "%g1", "is": expression_text(rng.choice((a, b))), "at": at})
    elif how == 3:
        register, by = (a, b) if a[0] == "val" and is_register(a[2]) and not a[2].startswith("old ") else (b, a)
        block.setdefault("steps", []).append({"same": register[2], "by": expression_text(by), "at": at})
    else:
        width = rng.choice((1, 2, 3))
        fact = (plain(width, "undef"), plain(width, rng.randrange(2 ** width)))
        for one in case.blocks():
            one.setdefault("steps", []).append(dict(rule("undef_const", fact, side=side), at=rng.randrange(3)))
    return True


def ruled_step(rng, case, functions):
    """Of a line something is said by a rule of the table, well or badly, and its register is the same by that, or may be the operand."""
    which = rng.randrange(2)
    side, home = ("src", "tgt")[which], rng.choice(functions[which].blocks)
    block = next((one for one in case.blocks() if one["at"] == "%" + home.name), None)
    if block is None or not home.lines:
        return False
    register, expr = rng.choice(home.lines)
    found = concluded(rng, expr, {name: line for one in functions[which].blocks for name, line in one.lines})
    if not found:
        return False
    name, premises, right = found
    at, now = len(block.get("lines", "")), plain(width_of(expr), register)
    step, fact = trans((now, expr), (expr, right), side)
    steps = [rule(name, (expr, right), *premises, side=side), step]
    if right[0] != "val":
        steps.append({"same": register, "by": expression_text(right)})
    elif rng.random() < 0.5:
        for one in case.blocks()[1:]:
            one.setdefault(side, []).append(text(fact))
    block.setdefault("steps", []).extend(dict(step, at=at) for step in steps)
    return True


OF_TEXTS = (one_token, one_token, one_token, one_token, every_token, every_token, swapped, line_goes, line_comes, line_comes,
            term_changes, lines_change_places)
OF_HINTS = (step_changes, step_changes, fact_changes, diff_changes, letters_change, edge_changes, age_changes, first_claims, parts_go,
            ghosts_differ, types_change, edge_steps, ghosts_early, likely_step, likely_step, ruled_step, ruled_step, ruled_step)


def mutant(rng, source, target, hint, changes):
    """A changed pair that is well-formed, its hint, and what was done; None where the changes gave no such pair."""
    case = Case(function_text(source).split("\n"), function_text(target).split("\n"), copy.deepcopy(hint))
    functions, names = (source, target), []
    for _ in range(rng.choice((1, 1, 1, 2, 2, 3))):
        change = rng.choice(changes)
        if change(rng, case, functions):
            names.append(change.__name__)
            functions = tuple(read_function("\n".join(lines)) for lines in (case.source, case.target))
            if not all(function and is_well_formed(function) for function in functions):
                return None
    if not names:
        return None
    return functions[0], functions[1], case.hint, names
