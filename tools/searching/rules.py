"""The forty rules that are data, each a row of texts with letters, and numbers, types and flags for the letters.

x, y and z stand for operands, C, D and E for numbers, L and M for the least and the greatest number with a sign, s, m and t for types, F, G
and H for flags. p, q and r are what stands between the slashes of a word of the row's list: such a row has a form for each word. The premise
of a row is a fact of z.
"""
import re
from collections import namedtuple
from functools import lru_cache

from .functions import FLAGS, expression_text, read_fact_part, width_of
from .pairs import plain

Form = namedtuple("Form", "rule premise left right condition")
ROWS = (
    ("comm", "add mul and or xor", "", "p F t x, y", "p F t y, x", ""),
    ("zero_right", "add sub or xor shl lshr ashr", "", "p F t x, 0", "t x", ""),
    ("one_right", "mul udiv sdiv", "", "p F t x, 1", "t x", ""),
    ("rem_one", "urem srem", "", "p t x, 1", "t 0", ""),
    ("self_zero", "sub xor", "", "p F t x, x", "t 0", ""),
    ("self_same", "and or", "", "p t x, x", "t x", ""),
    ("zero_absorb", "mul and", "", "p F t x, 0", "t 0", ""),
    ("ones_right", "and", "", "p t x, -1", "t x", ""),
    ("or_ones", "or", "", "p t x, -1", "t -1", ""),
    ("zero_shift", "shl lshr ashr", "", "p F t 0, x", "t 0", ""),
    ("sub_to_add", "sub", "", "p F t x, C", "add t x, E", "negative"),
    ("neg_neg", "sub", "p G t 0, x", "p F t 0, z", "t x", ""),
    ("add_const", "add", "p G t x, C", "p F t z, D", "p t x, E", "add"),
    ("sub_add", "add", "p G t x, y", "sub F t z, y", "t x", ""),
    ("add_sub", "sub", "p G t x, y", "add F t z, y", "t x", ""),
    ("mul_pow", "mul", "", "p F t x, C", "shl H t x, E", "power"),
    ("udiv_pow", "udiv", "", "p F t x, C", "lshr H t x, E", "power"),
    ("urem_pow", "urem", "", "p t x, C", "and t x, E", "mask"),
    ("shift_shift", "shl lshr ashr", "p G t x, C", "p F t z, D", "p t x, E", "places"),
    ("bit_bit", "and/and or/or xor/xor", "p t x, C", "p t z, D", "p t x, E", "q"),
    ("sub_ones", "sub", "", "p F t -1, x", "xor t x, -1", ""),
    ("and_or", "or", "p t x, y", "and t z, x", "t x", ""),
    ("or_and", "and", "p t x, y", "or t z, x", "t x", ""),
    ("add_self", "add", "", "p F t x, x", "shl H t x, 1", "two bits"),
    ("zext_zext", "zext", "p s x to m", "p m z to t", "p s x to t", ""),
    ("sext_sext", "sext", "p s x to m", "p m z to t", "p s x to t", ""),
    ("trunc_trunc", "trunc", "p s x to m", "p m z to t", "p s x to t", ""),
    ("trunc_ext", "zext sext", "p s x to m", "trunc m z to s", "s x", ""),
    ("sext_zext", "zext", "p s x to m", "sext m z to t", "p s x to t", ""),
    ("icmp_swap", "eq/eq ne/ne ugt/ult uge/ule ult/ugt ule/uge sgt/slt sge/sle slt/sgt sle/sge", "", "icmp p t x, y", "icmp q t y, x", ""),
    ("icmp_self", "eq/1 ne/0 ugt/0 uge/1 ult/0 ule/1 sgt/0 sge/1 slt/0 sle/1", "", "icmp p t x, x", "i1 q", ""),
    ("icmp_diff", "sub/eq sub/ne xor/eq xor/ne", "p G t x, y", "icmp q t z, 0", "icmp q t x, y", ""),
    ("icmp_edge", "ult/0/0 ugt/-1/0 slt/L/0 sgt/M/0 uge/0/1 ule/-1/1 sge/L/1 sle/M/1", "", "icmp p t x, q", "i1 r", ""),
    ("icmp_one", "ult/1/eq ugt/0/ne", "", "icmp p t x, q", "icmp r t x, 0", ""),
    ("select_known", "1/x 0/y", "", "select i1 p, t x, t y", "t q", ""),
    ("select_same", "", "", "select i1 z, t x, t x", "t x", ""),
    ("select_bool", "", "", "select i1 z, i1 1, i1 0", "i1 z", ""),
    ("select_not", "", "", "select i1 z, i1 0, i1 1", "xor i1 z, 1", ""),
    ("bitcast_same", "bitcast", "", "p s x to s", "s x", ""),
    ("bitcast_bitcast", "bitcast", "p s x to s", "p s z to s", "p s x to s", ""))


def letters_in(pattern):
    return set(re.findall(r"\b[A-Za-z]\b", pattern))


def put_in(pattern, letters):
    """The text with these letters in place; other letters stay."""
    return re.sub(r"\b[A-Za-z]\b", lambda found: str(letters.get(found.group(), found.group())), pattern)


def forms_of(rule, words, *texts):
    return [Form(rule, *(put_in(text, dict(zip("pqr", word.split("/")))) for text in texts)) for word in words.split() or [""]]


FORMS = {row[0]: forms_of(*row) for row in ROWS}
NAMES = tuple(FORMS)


def some_number(rng, width):
    """A number, often one at an edge."""
    return rng.choice((0, 1, -1, 2 ** (width - 1), 2 ** (width - 1) - 1, rng.randrange(2 ** width), rng.randrange(2 ** width))) % 2 ** width


def follows(condition, c, d, width):
    """The number E that a condition asks, where C and D are these."""
    made = {"negative": -c, "power": c.bit_length() - 1, "mask": c - 1, "places": c + d, "add": c + d, "and": c & d, "or": c | d, "xor": c ^ d}
    return made.get(condition, 0) % 2 ** width


def numbers(rng, condition, width, wrong):
    """C, D and E as the condition asks; or nearly so, where it is to be wrong. None where that width has none."""
    c, d, k = some_number(rng, width), some_number(rng, width), rng.randrange(width)
    if condition == "two bits" and width == 1 and not wrong:
        return None
    if condition == "negative":
        c = c or 1
    elif condition in ("power", "mask"):
        c = 2 ** (width - 1 if rng.random() < 0.3 else k)
    elif condition == "places":
        c, d = k, rng.randrange(width if wrong else width - k)
    e = follows(condition, c, d, width)
    if wrong and (condition != "power" or c < 2 ** (width - 1) or rng.random() < 0.5):
        near = [(c, e + 1), (c, e - 1), (c, c), (c, d), (c, width), (c, (c + d) % width), (c, width - 1), (c + 1, e), (c - 1, e), (0, e)]
        c, e = rng.choice(near)
    return {letter: number % 2 ** width for letter, number in zip("CDE", (c, d, e))}


def some_types(rng, form):
    """Widths for the letters of types: rising where a conversion widens, falling where it cuts, mostly of few bits."""
    if "to m" not in form.premise:
        return dict.fromkeys("smt", rng.choice((1, 2, 2, 2, 3, 3, 3, 4, 8, 33, 64)))
    three = rng.choice(((1, 2, 3), (1, 2, 3), (1, 2, 4), (1, 3, 4), (2, 3, 4), (3, 8, 64), (3, 4, 5)))
    return dict(zip("smt", three[::-1] if form.rule == "trunc_trunc" else three))


def some_flags(rng, pattern, among=("nuw", "nsw", "exact")):
    return [flag for flag in FLAGS.get(pattern.split()[0], ()) if flag in among and rng.random() < 0.5]


def some_letters(rng, form, wrong=False):
    """Widths of the types, and what stands for all letters that aren't operands; None where that width has no numbers as the form asks."""
    widths = some_types(rng, form)
    width = widths["t"]
    letters = numbers(rng, form.condition, width, wrong)
    if letters is None:
        return None
    flags = {"F": some_flags(rng, form.left), "G": some_flags(rng, form.premise or "none")}
    flags["H"] = some_flags(rng, form.right) if wrong else some_flags(rng, form.right, flags["F"])
    if form.rule == "mul_pow" and letters["E"] + 1 == width and not wrong:
        flags["H"] = [flag for flag in flags["H"] if flag != "nsw"]
    letters.update({letter: " ".join(chosen) for letter, chosen in flags.items()})
    letters.update({letter: f"i{w}" for letter, w in widths.items()}, L=2 ** (width - 1), M=2 ** (width - 1) - 1)
    return widths, letters


def part(pattern, letters):
    """The expression that the text is with these letters."""
    return read_fact_part(put_in(pattern, letters)) if pattern else None


# From a line to what a rule says of it

OPERAND, NUMBER = r"(?P<{}>%[a-z][a-z0-9.]*|\d+|undef)", r"(?P<{}>\d+)"
SORTS = {**dict.fromkeys("xyz", OPERAND), **dict.fromkeys("CDELM", NUMBER), **dict.fromkeys("smt", r"(?P<{}>i\d+)"),
         **dict.fromkeys("FGH", r"(?P<{}>(?:(?:nuw|nsw|exact) )*)")}


@lru_cache(maxsize=None)
def shape_of(pattern):
    """A regular expression of the texts that a pattern is with letters put in. For -1 any number may stand."""
    seen = set()

    def shape(found):
        letter = found.group()[0]
        if letter in seen:
            return f"(?P={letter})"
        seen.add(letter)
        return SORTS[letter].format(letter)

    return re.compile(re.sub(r"\b([xyzCDELMsmt])\b|\b[FGH] ", shape, pattern.replace("-1", r"\d+")))


def met(pattern, told):
    """What stands where the letters of a pattern stand; None where a text isn't of it."""
    match = shape_of(pattern).fullmatch(told)
    return match and {letter: stands.strip() for letter, stands in match.groupdict().items()}


def rules_for(told):
    """The rules that have a left side of the text's operator."""
    return [name for name in NAMES if any(form.left.split()[0] == told.split()[0] for form in FORMS[name])]


def concluded(rng, expr, lines):
    """A rule that has such a left side, what its premise may be, and its right side, maybe with a wrong number or flags; None where no rule fits.
    lines has the expression of each register."""
    told = expression_text(expr)
    fitting = [(form, letters) for name in rules_for(told) for form in FORMS[name] for letters in [met(form.left, told)] if letters]
    if not fitting:
        return None
    form, letters = rng.choice(fitting)
    premises, width = [], expr[2] if expr[0] == "icmp" else width_of(expr)
    if form.premise:
        before = lines.get(letters["z"])
        if before is None:
            return None
        premises = [(plain(width_of(before), letters["z"]), before)]
        letters = {**(met(form.premise, expression_text(before)) or {}), **letters}
    e = follows(form.condition, int(letters.get("C", 0)), int(letters.get("D", 0)), width)
    letters["E"] = some_number(rng, width) if rng.random() < 0.3 else e
    letters["H"] = " ".join(some_flags(rng, form.right)) if rng.random() < 0.5 else letters.get("F", "")
    right = part(form.right, letters)
    return right and (form.rule, premises, right)
