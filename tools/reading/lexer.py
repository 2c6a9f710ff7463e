"""Cuts a text into tokens (LangRef 3.7, Identifiers; Syntax; Metadata).

A name is a number, or the bytes that it is made of: `%a`, `%"a"` and `%"\\61"` are one name. Comments go from `;` to the end of the line.
"""
import re
from collections import namedtuple

from .faults import FirstFault

# kinds: local, global, label, string, number, word, dots, group (`#0`), metadata (`!x`), "!" alone, punctuation as it is, and at last end
Token = namedtuple("Token", "kind value start end")
GAP = re.compile(rb"(?:[ \t\n\r]+|;[^\n\r]*)*")
RUN = re.compile(rb"[-$._A-Za-z0-9]*")
DIGITS = re.compile(rb"[0-9]*")
NUMERAL = re.compile(rb"-?[0-9]+")
ESCAPE = re.compile(rb"\\(?:(\\)|([0-9A-Fa-f]{2}))")
PUNCTUATION = b"=,(){}[]*<>|"


def tokens_of(text):
    """All tokens, and an end at last; or the first fault of them."""
    tokens, at = [], GAP.match(text).end()
    while at < len(text):
        tokens.append(token_at(text, at))
        at = GAP.match(text, tokens[-1].end).end()
    tokens.append(Token("end", None, len(text), len(text)))
    return tokens


def token_at(text, at):
    """The token that begins here."""
    first = text[at:at + 1]
    if first in (b"%", b"@"):
        return name_token(text, at)
    if first == b"#":
        end = DIGITS.match(text, at + 1).end()
        if end > at + 1:
            return Token("group", None, at, end)
    elif first == b"!":
        end = RUN.match(text, at + 1).end()
        return Token("metadata" if end > at + 1 else "!", None, at, end)
    elif first == b'"':
        return quoted_token(text, at)
    elif RUN.match(text, at).end() > at:
        return word_token(text, at)
    elif first in PUNCTUATION:
        return Token(first.decode(), None, at, at + 1)
    raise FirstFault("bad byte", at)


def number_below(digits, bits):
    """The number that these digits write, where it lies below 2 to so many bits; else None."""
    digits = digits.lstrip(b"0") or b"0"
    if len(digits) > 40:
        return None
    number = int(digits)
    return number if number < 2 ** bits else None


def name_token(text, at):
    """`%` or `@` with a number below 2^32, a run of letters that begins with no digit, or a string that isn't empty."""
    kind = "local" if text[at:at + 1] == b"%" else "global"
    end = DIGITS.match(text, at + 1).end()
    if end > at + 1:
        number = number_below(text[at + 1:end], 32)
        if number is None:
            raise FirstFault("bad byte", at)
        return Token(kind, number, at, end)
    end = RUN.match(text, at + 1).end()
    if end > at + 1:
        return Token(kind, text[at + 1:end], at, end)
    if text[at + 1:at + 2] != b'"':
        raise FirstFault("bad byte", at)
    end = end_of_string(text, at + 1)
    if end == at + 3:
        raise FirstFault("bad string", at + 1)
    return Token(kind, unescaped(text[at + 2:end - 1]), at, end)


def end_of_string(text, at):
    """Where the string that begins here ends: behind the next quote."""
    quote = text.find(b'"', at + 1)
    if quote < 0:
        raise FirstFault("bad string", at)
    return quote + 1


def unescaped(inside):
    """The bytes that a string stands for: two backslashes are one, a backslash with two hexadecimal digits is a byte, and any other itself."""
    return ESCAPE.sub(lambda found: b"\\" if found.group(1) else bytes([int(found.group(2), 16)]), inside)


def quoted_token(text, at):
    """A string; with `:` behind it, and something in it, a label."""
    end = end_of_string(text, at)
    value = unescaped(text[at + 1:end - 1])
    if end > at + 2 and text[end:end + 1] == b":":
        return Token("label", value, at, end + 1)
    return Token("string", value, at, end)


def word_token(text, at):
    """A run of letters: with `:` behind it a label, else dots, a number below 2^128, or a word that begins with no digit and no `-`."""
    end = RUN.match(text, at).end()
    run = text[at:end]
    if text[end:end + 1] == b":":
        return label_token(run, at, end + 1)
    if run == b"...":
        return Token("dots", None, at, end)
    if NUMERAL.fullmatch(run):
        magnitude = number_below(run.lstrip(b"-"), 128)
        if magnitude is None:
            raise FirstFault("bad number", at)
        return Token("number", -magnitude if run[:1] == b"-" else magnitude, at, end)
    if run[:1] in b"-0123456789":
        raise FirstFault("bad number", at)
    return Token("word", run.decode(), at, end)


def label_token(run, at, end):
    """`a:`, or `7:` with a number below 2^32."""
    if not run.isdigit():
        return Token("label", run, at, end)
    number = number_below(run, 32)
    if number is None:
        raise FirstFault("bad number", at)
    return Token("label", number, at, end)
