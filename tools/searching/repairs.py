"""Changes a hint by what the program said of it, so that the next question goes a step further.

Of a pair that is wrong no hint may be taken; these changes do what somebody would try who wanted it to be taken.
"""
import copy
import json
import re

from .functions import definitions, expression_text, is_register, read_fact_part
from .mutants import line_facts, other_rule
from .pairs import plain, rule, text, trans
from .rules import concluded

TOLD = re.compile(r"refused @f %(\S+) (start|\d+|edge %(\S+)): (.*?)\s*", re.S)


def entry_of(hint, name):
    """The hint's entry of a block; a new one where it has none."""
    blocks = hint["functions"].setdefault("@f", {"blocks": []})["blocks"]
    for block in blocks:
        if block["at"] == "%" + name:
            return block
    blocks.append({"at": "%" + name})
    return blocks[-1]


def edge_steps(block, label):
    """The steps of the block's edge to the label."""
    for edge in block.setdefault("edges", []):
        if edge["to"] == "%" + label:
            return edge["steps"]
    block["edges"].append({"to": "%" + label, "steps": []})
    return block["edges"][-1]["steps"]


def as_written(fact):
    """A fact as the search writes it: with numbers that aren't negative."""
    parts = [read_fact_part(part) for part in fact[1:]]
    return fact if None in parts else [fact[0]] + [expression_text(part) for part in parts]


def letters(source, target):
    return "b" * min(source, target) + "s" * (source - target) + "t" * (target - source)


def register_widths(source, target):
    """Of each register its widths, as a set, in both functions."""
    found = {}
    for function in (source, target):
        for register, (width, _) in definitions(function).items():
            found.setdefault(register, set()).add(width)
    return found


def givers(rng, functions, fact, which, on_edge):
    """Steps that may give a fact of the source or of the target: by refl, by trans over what a line or a phi gives, by undef_const."""
    name = ("src", "tgt")[which]
    found = []
    if fact[1] == fact[2]:
        found.append({"rule": "refl", "side": name, "from": [], "to": fact})
    for a, b, _ in line_facts(functions[which]):
        first, second = text((a, b))[1:]
        if not on_edge and "old " in first + second:
            continue
        if first == fact[1]:
            found.append({"rule": "trans", "side": name, "from": [["ge", first, second], ["ge", second, fact[2]]], "to": fact})
        if second == fact[2]:
            found.append({"rule": "trans", "side": name, "from": [["ge", fact[1], first], ["ge", first, second]], "to": fact})
    lines = {register: expr for block in functions[which].blocks for register, expr in block.lines}
    left = read_fact_part(fact[1])
    by_table = concluded(rng, left, lines) if left else None
    if by_table and text((left, by_table[2])) == fact:
        found.append(rule(by_table[0], (left, by_table[2]), *by_table[1], side=name))
    found.append({"rule": rng.choice(("undef_const", "drop_flags", "fold", other_rule(rng, fact[1]))), "side": name, "from": [], "to": fact})
    return found


def other_diff(rng, hint, functions, name, spot, label, register):
    """What may differ is told: it is let differ there, or is made the same by its own line."""
    if label and rng.random() < 0.6:
        entry_of(hint, label).setdefault("diff", []).append(register)
        return True
    facts = [(a, b) for a, b, _ in line_facts(functions[0]) if a == plain(a[1], register) and (label or "old " not in text((a, b))[2])]
    by = text(rng.choice(facts))[2] if facts and rng.random() < 0.7 else f"i{rng.choice((1, 2, 3))} {register}"
    if label:
        edge_steps(entry_of(hint, name), label).append({"same": register, "by": by})
    else:
        entry_of(hint, name).setdefault("steps", []).insert(0, {"at": int(spot), "same": register, "by": by})
    return True


def other_claim(rng, hint, functions, name, label, fact):
    """A claim that isn't borne out is claimed of the block before, or proved on the edge, or goes."""
    claimed = entry_of(hint, label or name)
    sides = [k for k, side in enumerate(("src", "tgt")) if fact in map(as_written, claimed.get(side, []))]
    if not sides:
        return False
    which, roll = sides[0], rng.random()
    side = ("src", "tgt")[which]
    if label and roll < 0.4:
        edge_steps(entry_of(hint, name), label).append(rng.choice(givers(rng, functions, fact, which, bool(label))))
    elif label and roll < 0.8:
        entry_of(hint, name).setdefault(side, []).append(fact)
    else:
        claimed[side] = [one for one in claimed[side] if as_written(one) != fact]
    return True


def other_premise(rng, hint, functions, name, label, fact):
    """A premise that isn't known is given by a step before, or claimed at the block's start, or its step goes, comes later or changes sides."""
    block = entry_of(hint, name)
    steps = edge_steps(block, label) if label else block.setdefault("steps", [])
    fitting = [k for k, step in enumerate(steps) if fact in map(as_written, step.get("from", [])) or "same" in step]
    if not fitting:
        return False
    k, roll = rng.choice(fitting), rng.random()
    step, which = steps[k], int(steps[k].get("side", rng.choice(("src", "tgt"))) == "tgt")
    if label and "from" in step and rng.random() < 0.2:
        for one in [step["to"], *step["from"]]:
            one[1:] = [part.replace("old ", "") for part in one[1:]]
        return True
    if not label and any("old " in part for part in fact):
        steps.pop(k)
    elif roll < 0.45:
        given = rng.choice(givers(rng, functions, fact, which, bool(label)))
        steps.insert(k, given if label else dict(given, at=step["at"]))
    elif roll < 0.6:
        block.setdefault(("src", "tgt")[which], []).append(fact)
    elif roll < 0.75 and "side" in step:
        step["side"] = "src" if step["side"] == "tgt" else "tgt"
    elif roll < 0.85 and "at" in step:
        step["at"] += 1
    else:
        steps.pop(k)
    return True


def bridge(rng, hint, functions, name, spot, operands):
    """Two operands that don't match: a ghost, a same step, a number for undef, or a claim shall bring them together."""
    a, b = operands
    widths = register_widths(*functions)
    either = widths.get(a, set()) | widths.get(b, set()) or {1, 2, 3}
    width, block, roll = rng.choice(sorted(either)), entry_of(hint, name), rng.random()
    steps = block.setdefault("steps", [])
    if "undef" in operands or roll < 0.1:
        number = b if a == "undef" else a
        fact = (plain(width, "undef"), plain(width, number))
        steps += [dict(rule("undef_const", fact, side=side), at=int(spot)) for side in ("src", "tgt") if rng.random() < 0.7]
    elif roll < 0.35 and is_register(a):
        facts = [(x, e) for x, e,
                 _ in line_facts(functions[rng.randrange(2)]) if x[0] == "val" and x[2] in (a, b) and "old " not in text((x, e))[2]]
        by = text(rng.choice(facts))[2] if facts and rng.random() < 0.7 else f"i{width} {a}"
        steps.append({"at": int(spot), "same": rng.choice((a, b)) if is_register(b) else a, "by": by})
    elif roll < 0.75:
        worth = plain(width, rng.choice((a, b)))
        ghost = plain(width, "ghost %g9")
        at = rng.choice((0, int(spot)))
        steps.insert(0, {"at": at, "ghost": "%g9", "is": text((worth, worth))[1]})
        if rng.random() < 0.5:
            steps.insert(rng.randrange(1, len(steps) + 1),
                         {"at": rng.choice((at, int(spot))), "ghost": "%g9", "is": f"i{width} {rng.choice((a, b))}"})
        if rng.random() < 0.3:
            side = rng.choice(("src", "tgt"))
            steps.append(dict(trans((plain(width, a), ghost), (ghost, plain(width, b)), side)[0], at=int(spot)))
    else:
        side = rng.choice(("src", "tgt"))
        fact = ["ge", f"i{width} {a}", f"i{width} {b}"]
        for one in hint["functions"]["@f"]["blocks"]:
            if one is block or rng.random() < 0.5:
                one.setdefault(side, []).append(fact)
    return True


def rule_instead(rng, hint, name, label, word):
    """A step that doesn't fit goes, or its fact is turned round, or another rule is named."""
    block = entry_of(hint, name)
    steps = edge_steps(block, label) if label else block.get("steps", [])
    fitting = [k for k, step in enumerate(steps) if step.get("rule", "ghost" if "ghost" in step else "") == word]
    if not fitting:
        return False
    k, roll = rng.choice(fitting), rng.random()
    if roll < 0.4 or "rule" not in steps[k]:
        steps.pop(k)
    elif roll < 0.7:
        steps[k]["to"] = [steps[k]["to"][0], steps[k]["to"][2], steps[k]["to"][1]]
    else:
        steps[k]["rule"] = other_rule(rng, steps[k]["to"][1])
    return True


def other_letters(rng, hint, functions, name):
    """Letters for all lines of a block: most of both sides, or in another order."""
    lengths = [len(next(b for b in function.blocks if b.name == name).lines) for function in functions]
    row = list(letters(*lengths))
    if rng.random() < 0.5:
        row = [letter for one in row for letter in (rng.choice(("b", "st", "ts")) if one == "b" else one)]
    elif rng.random() < 0.5:
        rng.shuffle(row)
    entry_of(hint, name)["lines"] = "".join(row)
    return True


def repaired(rng, source, target, hint, told):
    """The pair with a hint that is changed by what was said of it, and what was done; None where nothing is to be done about it."""
    match = TOLD.fullmatch(told)
    if not match or match.group(1) not in [block.name for block in source.blocks]:
        return None
    name, spot, label, reason = match.groups()
    hint, functions = copy.deepcopy(hint), (source, target)
    first = reason.split(" ", 2)
    done = False
    if reason.startswith("diff left "):
        done = other_diff(rng, hint, functions, name, spot, label, reason[len("diff left "):])
    elif reason.startswith("missing fact "):
        done = other_claim(rng, hint, functions, name, label, as_written(json.loads(reason[len("missing fact "):])))
    elif reason.startswith("missing premise "):
        done = other_premise(rng, hint, functions, name, label, as_written(json.loads(reason[len("missing premise "):])))
    elif reason.startswith("unmatched "):
        done = bridge(rng, hint, functions, name, spot, reason.split(" ")[1:3])
    elif reason.startswith("rule unfit "):
        done = rule_instead(rng, hint, name, label, first[2])
    elif reason in ("alignment differs", "target may trap"):
        done = other_letters(rng, hint, functions, name)
    return (source, target, hint, ["repaired: " + " ".join(first[:2])]) if done else None
