"""Where a reader of tokens stands, and the first token that it doesn't expect."""
from .faults import FirstFault, LimitPassed
from .lexer import tokens_of
from .words import LEFT_OUT

DEPTH, LINES = 64, 2 ** 20
CLOSING = {"(": ")", "[": "]", "{": "}"}


def width_written(word):
    """N of `iN`, written without leading zeros, or None; a width beyond those of the profile is 65."""
    if word is None or word[:1] != "i" or not word[1:].isdigit() or word[1] == "0":
        return None
    return int(word[1:]) if len(word) < 4 else 65


class Cursor:
    """The tokens of a text, and the place of the next one."""

    def __init__(self, text):
        self.text, self.tokens, self.at = text, tokens_of(text), 0
        self.lines = 0
        self.is_trying = self.was_deep = False

    def token(self):
        return self.tokens[self.at]

    def kind(self, ahead=0):
        return self.tokens[min(self.at + ahead, len(self.tokens) - 1)].kind

    def word(self):
        """The word that comes next, if one does."""
        return self.token().value if self.kind() == "word" else None

    def fail(self):
        """The next token isn't expected. One of LLVM's that the profile leaves out is told so."""
        kind, _, start, end = self.token()
        spelled = self.text[start:end].decode("latin1")
        if kind in ("word", "<") and spelled in LEFT_OUT or kind == "word" and (width_written(spelled) or 0) > 64:
            raise FirstFault("left out", start, end)
        raise FirstFault("expected other", start)

    def advance(self):
        self.at += 1
        return self.tokens[self.at - 1]

    def take(self, kind):
        """The next token, which has to be of that kind."""
        if self.kind() != kind:
            self.fail()
        return self.advance()

    def take_word(self, *words):
        if self.word() not in words:
            self.fail()
        return self.advance().value

    def passes(self, kind):
        """Takes the next token if it is of that kind; whether it was."""
        if self.kind() != kind:
            return False
        self.advance()
        return True

    def passes_word(self, *words):
        """Takes the next token if it is one of these words; the word, or None."""
        return self.advance().value if self.word() in words else None

    def enter(self, depth):
        """A type, constant or initialiser begins, which stands in all but one of so many."""
        self.was_deep = self.was_deep or depth > DEPTH
        if self.was_deep and not self.is_trying:
            raise LimitPassed("depth")

    def begin_line(self):
        self.lines += 1
        if self.lines > LINES:
            raise LimitPassed("lines")

    def listed(self, close, read):
        """What `read` takes before `close`, with commas between; maybe nothing."""
        if self.kind() == close:
            return []
        found = [read()]
        while self.passes(","):
            found.append(read())
        return found

    def open_list(self, read):
        """What `read` takes before `)`, with commas between, and whether `...` ends it."""
        found = []
        if self.kind() == ")":
            return found, False
        while not self.passes("dots"):
            found.append(read())
            if not self.passes(","):
                return found, False
        return found, True

    def pass_balanced(self, close):
        """Passes text of which nothing is kept, up to this closing bracket and over it: brackets in it pair."""
        opened = []
        while opened or self.kind() != close:
            kind = self.kind()
            if kind == "end":
                self.fail()
            if kind in CLOSING:
                opened.append(CLOSING[kind])
            elif kind in CLOSING.values():
                if not opened or opened.pop() != kind:
                    self.fail()
            self.advance()
        self.advance()

    def read_again(self, start, read):
        """What `read` takes of the parenthesis that was passed from there on. It has to take all of it, or the next token isn't expected; only
        where it does it counts how deep it is."""
        end, self.at = self.at, start
        self.is_trying, self.was_deep = True, False
        try:
            found = read()
            self.take(")")
            fits = self.at == end
        except FirstFault:
            fits = False
        self.at, self.is_trying = end, False
        if not fits:
            self.fail()
        if self.was_deep:
            raise LimitPassed("depth")
        return found
