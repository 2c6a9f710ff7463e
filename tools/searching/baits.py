"""Wrong pairs, each with the hint under which a checker would take it that lacks one test. One for each test that was thought of.

Texts are written with i9 for the width, which is drawn; numbers in them are -2 to 3.
"""
import copy
import json

from .functions import read_function
from .rule_baits import LACKING, WRONG_USES

STRAIGHT = "define i9 @f(i9 %a, i9 %b) {{\nentry:\n{}\n}}\n"
ONE_BIT = "define i1 @f(i1 %a, i1 %b) {{\nentry:\n{}\n}}\n"
LOOP = "define i9 @f(i9 %a) {{\nentry:\nbr label %head\nhead:\n{}\nbr i1 undef, label %head, label %done\ndone:\nret i9 {}\n}}\n"
FORK = "define i9 @f(i9 %a, i9 %b) {{\nentry:\n{}\none:\nret i9 {}\ntwo:\nret i9 {}\n}}\n"
CHAIN = "define i9 @f(i9 %a, i9 %b) {{\nentry:\n{}\nbr label %next\nnext:\n{}\n}}\n"


def ge(a, b):
    return ["ge", a, b]


def step(rule, to, *premises, side="src", at=None):
    made = {"rule": rule, "side": side, "from": list(premises), "to": to}
    return made if at is None else dict(made, at=at)


def through(a, b, c, side="src", at=None):
    return step("trans", ge(a, c), ge(a, b), ge(b, c), side=side, at=at)


def straight(name, source, target, lines, *steps, form=STRAIGHT, **members):
    return name, form.format(source), form.format(target), [dict({"at": "%entry", "lines": lines, "steps": list(steps)}, **members)]


def by_rule(name, rule, first, left, right, types, asked=None):
    """A line that becomes the right side by a rule that mustn't take it; asked is the premise where it isn't what the line before says. Its hint
    names the premise, or names none."""
    result, params = types.split()
    whole = not right.startswith("i") or right.startswith("icmp")
    at, y = 1 + bool(first), f"{result} %y"
    lines = [f"%z = {first}"] * bool(first)
    goes = ge(left, right)
    made = ("i1" if first.startswith("icmp") else first.split()[-1] if " to " in first else params) if first else ""
    premises = [ge(f"{made} %z", asked or first)] if first and rule != "select_same" else []
    steps = [step(rule, goes, *premises, at=at), through(y, left, right, at=at)]
    if whole:
        steps.append({"at": at, "same": "%y", "by": right})
    source, target = (["%y = " + left, "ret " + y], ["%y = " + right, "ret " + y] if whole else ["ret " + right])
    return straight(name, "\n".join(lines + source), "\n".join(lines + target), "b" * (at - 1) + "sb"[whole], *steps,
                    form=STRAIGHT.replace("define i9", "define " + result).replace("i9 %", params + " %"))


def without(bait_):
    """The same bait, whose hint names no premise."""
    name, source, target, blocks = copy.deepcopy(bait_)
    blocks[0]["steps"][0]["from"] = []
    return name + ", nor named", source, target, blocks


A, B, Y = "i9 %a", "i9 %b", "i9 %y"
PHI = "%p = phi i9 [ %a, %entry ], [ %n, %head ]\n%n = add i9 %p, 1"
TWO_PHIS = "%p = phi i9 [ %a, %entry ], [ %q, %head ]\n%q = phi i9 [ %a, %entry ], [ %n, %head ]\n%n = add i9 %p, 1"
SWITCH = "switch i9 {}, label %one [ i9 {}, label %{} i9 2, label %{} ]"
BAITS = [
    straight("flags come", "%y = add i9 %a, %b\nret i9 %y", "%y = add nuw i9 %a, %b\nret i9 %y", "b"),
    straight("another predicate", "%y = icmp ult i1 %a, %b\nret i1 %y", "%y = icmp slt i1 %a, %b\nret i1 %y", "b", form=ONE_BIT),
    straight("the second operand", "%y = sub i9 %a, %b\nret i9 %y", "%y = sub i9 %a, 1\nret i9 %y", "b"),
    straight("the operands change places", "%y = sub i9 %a, %b\nret i9 %y", "%y = sub i9 %b, %a\nret i9 %y", "b"),
    straight("what a cast converts", "%y = trunc i9 %a to i1\n%z = zext i1 %y to i9\nret i9 %z",
             "%y = bitcast i9 %a to i9\n%z = bitcast i9 %y to i9\nret i9 %z", "bb"),
    straight("a number of another width is cast", "%y = sext i1 1 to i9\nret i9 %y", "%y = zext i1 1 to i9\nret i9 %y", "b"),
    straight("the same of one cast", "%y = sext i1 1 to i12\n%z = trunc i12 %y to i9\nret i9 %z",
             "%y = sext i9 1 to i12\n%z = trunc i12 %y to i9\nret i9 %z", "bb"),
    straight("a register differs where it is returned", "%y = add i9 %a, 1\nret i9 %y", "%y = add i9 %a, 2\nret i9 %y", "b"),
    straight("and stands on each side alone", "%y = add i9 %a, 1\nret i9 %y", "%y = add i9 %a, 2\nret i9 %y", "st"),
    straight("a ghost that is chosen before its register's line", "%y = add i9 %a, 1\nret i9 %y", "%y = add i9 %a, 2\nret i9 %y", "b",
             {"at": 0, "ghost": "%g", "is": Y}),
    straight("a ghost chosen anew, by the target", "ret i9 %a", "ret i9 %b", "", {"at": 0, "ghost": "%g", "is": A},
             {"at": 0, "ghost": "%g", "is": B},
             through(A, "i9 ghost %g", B, side="tgt", at=0)),
    straight("a ghost chosen anew, by the source", "ret i9 %a", "ret i9 %b", "", {"at": 0, "ghost": "%g", "is": A},
             {"at": 0, "ghost": "%g", "is": B},
             through(A, "i9 ghost %g", B, at=0)),
    straight("a ghost chosen anew, by both", "ret i9 %a", "ret i9 %b", "", {"at": 0, "ghost": "%g", "is": A}, {"at": 0, "ghost": "%g", "is": B}),
    straight("a ghost of a register that differs", "%y = add i9 %a, 1\nret i9 %y", "%y = add i9 %a, 2\nret i9 %y", "b",
             {"at": 1, "ghost": "%g", "is": Y}),
    straight("a ghost of a division", "ret i9 %a", "%y = udiv i9 %a, %b\nret i9 %a", "t", {"at": 0, "ghost": "%g", "is": "udiv i9 %a, %b"}),
    straight("claimed of the first block", "ret i9 %a", "ret i9 %b", "", src=[ge(A, B)]),
    straight("claimed of the target's first block", "ret i9 %a", "ret i9 %b", "", tgt=[ge(A, B)]),
    straight("a division by minus one", "ret i1 %a", "%y = sdiv i1 %a, 1\nret i1 %a", "t", form=ONE_BIT),
    straight("a remainder by minus one", "ret i9 %a", "%y = srem i9 %a, -1\nret i9 %a", "t"),
    straight("a division by zero", "ret i9 %a", "%y = udiv i9 1, 0\nret i9 %a", "t"),
    straight("a division by undef", "ret i9 %a", "%y = udiv i9 1, undef\nret i9 %a", "t"),
    straight("a division by a register", "ret i9 %a", "%y = udiv i9 %a, %b\nret i9 %a", "t"),
    straight("a division beside another", "%y = udiv i9 %a, 1\nret i9 %a", "%y = udiv i9 %a, %b\nret i9 %a", "b"),
    straight("a division beside a sum", "%y = add i9 %a, %b\nret i9 %a", "%y = udiv i9 %a, %b\nret i9 %a", "b"),
    straight("a line that no letter names", "ret i9 %a", "%y = udiv i9 %a, %b\nret i9 %a", ""),
    straight("a number becomes undef, told of the target", "ret i9 1", "ret i9 undef", "",
             step("undef_const", ge("i9 undef", "i9 1"), side="tgt", at=0)),
    straight("a number becomes undef, told of the source", "ret i9 1", "ret i9 undef", "", step("undef_const", ge("i9 undef", "i9 1"), at=0)),
    straight("a number is turned into undef", "ret i9 1", "ret i9 undef", "", step("undef_const", ge("i9 1", "i9 undef"), at=0)),
    straight("a fact of the target is used in the source", "%y = or i9 %a, 1\nret i9 %y", "%y = or i9 %a, 2\nret i9 %y", "st",
             step("refl", ge("or i9 %a, 2", "or i9 %a, 2"), at=2), through(Y, "or i9 %a, 2", "or i9 %a, 2", at=2),
             {"at": 2, "same": "%y", "by": "or i9 %a, 2"}),
    straight("a premise that isn't known", "ret i9 %a", "ret i9 0", "", step("refl", ge(A, A), at=0), through(A, A, "i9 0", at=0)),
    straight("premises that don't meet", "%y = add i9 %a, 1\nret i9 %y", "ret i9 %b", "s", step("refl", ge(B, B), at=1),
             step("trans", ge(Y, B), ge(Y, "add i9 %a, 1"), ge(B, B), at=1)),
    straight("same, by the source alone", "%y = add i9 %a, 1\nret i9 %y", "%y = add i9 %a, 2\nret i9 %y", "b",
             {"at": 1, "same": "%y", "by": "add i9 %a, 1"}),
    straight("same, by the target alone", "%y = add i9 %a, 1\nret i9 %y", "%y = add i9 %a, 2\nret i9 %y", "b",
             {"at": 1, "same": "%y", "by": "add i9 %a, 2"}),
    straight("same, by what differs", "%y = add i9 %a, 1\n%z = add i9 %y, 1\nret i9 %z", "%y = add i9 %a, 2\n%z = add i9 %y, 1\nret i9 %z", "bb",
             {"at": 2, "same": "%z", "by": "add i9 %y, 1"}),
    straight("same, by itself", "%y = add i9 %a, 1\nret i9 %y", "%y = add i9 %a, 2\nret i9 %y", "b", step("refl", ge(Y, Y), at=1),
             step("refl", ge(Y, Y), side="tgt", at=1), {"at": 1, "same": "%y", "by": Y}),
    straight("same, where another width is unset", "%y = zext i9 %a to i12\n%z = trunc i12 %y to i9\nret i9 %z",
             "%y = bitcast i9 %a to i9\n%z = add i9 %y, 1\nret i9 %z", "bb",
             step("refl", ge("i12 %z", "i12 %z"), at=2), step("refl", ge("i12 %z", "i12 %z"), side="tgt", at=2),
             {"at": 2, "same": "%z", "by": "i12 %z"}),
    straight("a bridge that differs", "%y = add i9 %a, 1\n%z = add i9 %y, 0\nret i9 %z", "%y = add i9 %a, 2\nret i9 %y", "bs",
             step("zero_right", ge("add i9 %y, 0", Y), at=2), through("i9 %z", "add i9 %y, 0", Y, at=2)),
    straight("flags are given, not dropped", "%y = add i9 %a, %b\nret i9 %y", "%y = add nuw i9 %a, %b\nret i9 %y", "b",
             step("drop_flags", ge("add i9 %a, %b", "add nuw i9 %a, %b"), at=1), through(Y, "add i9 %a, %b", "add nuw i9 %a, %b", at=1),
             {"at": 1, "same": "%y", "by": "add nuw i9 %a, %b"}),
    straight("a product with zero", "%y = mul i9 %a, 0\nret i9 %y", "ret i9 %a", "s", step("zero_right", ge("mul i9 %a, 0", A), at=1),
             through(Y, "mul i9 %a, 0", A, at=1)),
    straight("a sum with one", "%y = add i9 %a, 1\nret i9 %y", "ret i9 %a", "s", step("zero_right", ge("add i9 %a, 1", A), at=1),
             through(Y, "add i9 %a, 1", A, at=1)),
    straight("zero less a register", "%y = sub i9 0, %a\nret i9 %y", "ret i9 %a", "s", step("zero_right", ge("sub i9 0, %a", A), at=1),
             through(Y, "sub i9 0, %a", A, at=1)),
    straight("another number", "%y = add i9 1, 1\nret i9 %y", "ret i9 3", "s", step("fold", ge("add i9 1, 1", "i9 3"), at=1),
             through(Y, "add i9 1, 1", "i9 3", at=1)),
    straight("a number becomes undef by fold", "%y = add i9 1, 1\nret i9 %y", "ret i9 undef", "s",
             step("fold", ge("add i9 1, 1", "i9 undef"), at=1),
             through(Y, "add i9 1, 1", "i9 undef", at=1)),
    straight("the other way of subst", "%y = add i9 %a, undef\n%z = add i9 %a, 1\nret i9 %z", "%y = add i9 %a, undef\nret i9 %y", "bs",
             step("undef_const", ge("i9 undef", "i9 1"), at=2), step("subst", ge("add i9 %a, 1", "add i9 %a, undef"), ge("i9 undef", "i9 1"), at=2),
             through("i9 %z", "add i9 %a, 1", "add i9 %a, undef", at=2), through("i9 %z", "add i9 %a, undef", Y, at=2)),
    ("what differs is no longer said to", CHAIN.format("%y = add i9 %a, 1", "ret i9 %y"), CHAIN.format("%y = add i9 %a, 2", "ret i9 %y"), []),
    ("a claim of the source that nothing bears out", CHAIN.format("%y = add i9 %a, 1", "ret i9 %y"), CHAIN.format("%y = add i9 %a, 1", "ret i9 %a"),
     [{"at": "%next", "src": [ge(Y, A)]}]),
    ("a claim of the target that nothing bears out", CHAIN.format("%y = add i9 %a, 1", "ret i9 %a"), CHAIN.format("%y = add i9 %a, 1", "ret i9 %y"),
     [{"at": "%next", "tgt": [ge(A, Y)]}]),
    ("a ghost on an edge of what differed", CHAIN.format("%y = add i9 %a, 1", "%p = phi i9 [ %y, %entry ]\nret i9 %p"),
     CHAIN.format("%y = add i9 %a, 2", "%p = phi i9 [ %y, %entry ]\nret i9 %p"),
     [{"at": "%entry", "edges": [{"to": "%next", "steps": [{"ghost": "%g", "is": "i9 old %y"}, through("i9 %p", "i9 old %y", "i9 ghost %g"),
                                                           through("i9 ghost %g", "i9 old %y", "i9 %p", side="tgt"),
                                                           {"same": "%p", "by": "i9 ghost %g"}]}]},
      {"at": "%next", "diff": ["%y"]}]),
    ("a phi's operand differs", CHAIN.format("", "%p = phi i9 [ %a, %entry ]\nret i9 %p"),
     CHAIN.format("", "%p = phi i9 [ %b, %entry ]\nret i9 %p"), []),
    ("a phi's operand becomes undef", CHAIN.format("", "%p = phi i9 [ 1, %entry ]\nret i9 %p"),
     CHAIN.format("", "%p = phi i9 [ undef, %entry ]\nret i9 %p"),
     [{"at": "%entry",
       "steps": [step("undef_const", ge("i9 undef", "i9 1"), at=0), step("undef_const", ge("i9 undef", "i9 1"), side="tgt", at=0)]}]),
    ("a phi's operand differs on the way back", LOOP.format(PHI, "%p"), LOOP.format(PHI.replace("[ %n,", "[ 2,"), "%p"), []),
    ("a phi is what it was before", LOOP.format(PHI, "%p"), LOOP.format(PHI, "%a"),
     [{"at": "%entry", "steps": [{"at": 0, "ghost": "%g", "is": A}],
       "edges": [{"to": "%head", "steps": [through("i9 %p", "i9 old %a", "i9 ghost %g")]}]},
      {"at": "%head", "src": [ge("i9 %p", "i9 ghost %g")], "tgt": [ge("i9 ghost %g", A)]},
      {"at": "%done", "src": [ge("i9 %p", "i9 ghost %g")], "tgt": [ge("i9 ghost %g", A)]}]),
    ("phis are taken one after another", LOOP.format(TWO_PHIS, "%p"), LOOP.format(TWO_PHIS, "%q"),
     [{"at": "%entry", "edges": [{"to": "%head", "steps": [through("i9 %p", "i9 old %a", "i9 %q")]}]},
      {"at": "%head", "src": [ge("i9 %p", "i9 %q")]}, {"at": "%done", "src": [ge("i9 %p", "i9 %q")]}]),
    ("phis are taken one after another, and nothing is old", LOOP.format(TWO_PHIS, "%p"), LOOP.format(TWO_PHIS, "%q"),
     [{"at": "%entry", "edges": [{"to": "%head", "steps": [through("i9 %p", A, "i9 %q")]}]},
      {"at": "%head", "src": [ge("i9 %p", "i9 %q")]}, {"at": "%done", "src": [ge("i9 %p", "i9 %q")]}]),
    ("a claim that the way back doesn't bear out", LOOP.format(PHI, "%p"), LOOP.format(PHI, "%a"),
     [{"at": "%entry",
       "edges": [{"to": "%head", "steps": [step("trans", ge("i9 %p", "i9 old %a"), ge("i9 %p", "i9 old %a"), ge("i9 old %a", "i9 old %a"))]}]},
      {"at": "%head", "src": [ge("i9 %p", A)]}, {"at": "%done", "src": [ge("i9 %p", A)]}]),
    ("what differs on the way back", LOOP.format("%y = add i9 %a, 1", "%y"), LOOP.format("%y = add i9 %a, 2", "%y"), [{"at": "%head", "diff": []}]),
    ("a ghost of the turn before", LOOP.format(PHI, "%n"), LOOP.format(PHI, "%p"),
     [{"at": "%head", "steps": [{"at": 1, "ghost": "%g", "is": "i9 %n"}]},
      {"at": "%done", "src": [ge("i9 %n", "i9 ghost %g")], "tgt": [ge("i9 ghost %g", "i9 %p")]}]),
    ("labels change places", FORK.format(SWITCH.format("%a", 1, "two", "one"), 1, 2), FORK.format(SWITCH.format("%a", 1, "one", "two"), 1, 2), []),
    ("another case", FORK.format(SWITCH.format("%a", 1, "two", "one"), 1, 2), FORK.format(SWITCH.format("%a", 3, "two", "one"), 1, 2), []),
    ("another operand of a switch", FORK.format(SWITCH.format("%a", 1, "two", "one"), 1, 2),
     FORK.format(SWITCH.format("%b", 1, "two", "one"), 1, 2), []),
    ("a branch in place of a switch", FORK.format(SWITCH.format("%a", 1, "two", "one"), 1, 2), FORK.format("br label %one", 1, 2), []),
    ("another label", FORK.format("br label %one", 1, 2), FORK.format("br label %two", 1, 2), []),
    ("a branch on undef", FORK.format("br i1 1, label %one, label %two", 1, 2), FORK.format("br i1 undef, label %one, label %two", 1, 2), []),
    ("no end in place of a result", FORK.format("br label %one", 1, 2),
     FORK.format("br label %one", 1, 2).replace("one:\nret i9 1", "one:\nbr label %one"), []),
    ("no result in place of one", STRAIGHT.format("ret i9 1"), STRAIGHT.format("unreachable"), []),
]
BAITS += [by_rule(*row) for row in WRONG_USES]
BAITS += [made for rule, *row in LACKING for lacking in [by_rule(f"a premise of {rule} that isn't asked", rule, *row)]
          for made in (lacking, without(lacking))]
BAITS.append(straight("a premise turned round", "%z = sub i9 %a, 1\n%y = icmp eq i9 %z, 0\n%r = zext i1 %y to i9\nret i9 %r",
                      "%z = sub i9 %a, 1\n%y = icmp eq i9 %a, undef\n%r = zext i1 %y to i9\nret i9 %r", "bbb",
                      step("undef_const", ge("i9 undef", "i9 1"), at=2),
                      step("subst", ge("sub i9 %a, undef", "sub i9 %a, 1"), ge("i9 undef", "i9 1"), at=2),
                      through("sub i9 %a, undef", "sub i9 %a, 1", "i9 %z", at=2),
                      step("icmp_diff", ge("icmp eq i9 %z, 0", "icmp eq i9 %a, undef"), ge("sub i9 %a, undef", "i9 %z"), at=2),
                      through("i1 %y", "icmp eq i9 %z, 0", "icmp eq i9 %a, undef", at=2),
                      {"at": 2, "same": "%y", "by": "icmp eq i9 %a, undef"}))


def bait(rng, number):
    """The bait of that number at some width: a source, a target, their hint and a name."""
    name, source, target, blocks = BAITS[number]
    width = rng.choice((2, 3))

    def drawn(text):
        return text.replace("i12", f"i{width + 1}").replace("i9", f"i{width}").replace("\n\n", "\n")

    functions = [read_function(drawn(text)) for text in (source, target)]
    hint = {"format": 1, "functions": {"@f": {"blocks": json.loads(drawn(json.dumps(copy.deepcopy(blocks))))}}}
    return functions[0], functions[1], hint, ["bait: " + name]


def some_bait(rng):
    return bait(rng, rng.randrange(len(BAITS)))
