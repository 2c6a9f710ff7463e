"""Reads types, constants, initialisers, attributes and metadata (LangRef 3.7, Type System, Constants, Parameter Attributes, Metadata).

`around` is how many types, constants and initialisers a part stands in; more than 64 in one another pass the limit on depth.
"""
from .cursor import Cursor, width_written
from .tree import Address, Array, Bytes, Cast, Global, Integer, Local, Named, Number, Operand, Parts, Pointer, Struct, Word, height_of
from .words import EXTENSIONS, OF_FUNCTIONS, OF_PARAMETERS

PLAIN_WORDS = ("true", "false", "null", "undef")


class ExpressionReader(Cursor):
    """A cursor that reads the parts of lines and items."""

    # ---- types

    def starts_type(self):
        width = width_written(self.word())
        return width is not None and width <= 64 or self.kind() in ("[", "{", "local")

    def type(self, around=0):
        """`iN`, `%name`, `[N x T]` or `{ T, .. }`, and stars behind it, each of which holds all that comes before."""
        if not self.starts_type():
            self.fail()
        self.enter(around + 1)
        found = self.type_without_stars(around)
        deepest = around + height_of(found)
        while self.kind() == "*":
            deepest += 1
            self.enter(deepest)
            self.advance()
            found = Pointer(found)
        return found

    def type_without_stars(self, around):
        if self.kind() == "{":
            return self.struct(around)
        token = self.advance()
        if token.kind == "word":
            return Integer(width_written(token.value), token.start)
        if token.kind == "local":
            return Named(token.value, token)
        count = self.take("number")
        self.take_word("x")
        element = self.type(around + 1)
        self.take("]")
        return Array(count.value if 0 <= count.value < 2 ** 64 else 0, element, count, token.start)

    def struct(self, around):
        start = self.take("{").start
        fields = self.listed("}", lambda: self.type(around + 1))
        self.take("}")
        return Struct(tuple(fields), start)

    # ---- constants and initialisers

    def starts_constant(self):
        return self.kind() in ("number", "global") or self.word() in (*PLAIN_WORDS, "getelementptr", "bitcast")

    def constant(self, around=0):
        """A number, `true`, `false`, `null`, `undef`, a global's name, `getelementptr (..)` or `bitcast (..)`."""
        if not self.starts_constant():
            self.fail()
        self.enter(around + 1)
        token = self.advance()
        if token.kind == "global":
            return Global(token)
        if token.kind == "number" or token.value in ("true", "false"):
            return Number(token)
        if token.value in PLAIN_WORDS:
            return Word(token)
        return self.address(token, around) if token.value == "getelementptr" else self.cast(token, around)

    def stated_constant(self, around):
        return Operand(self.type(around), self.constant(around))

    def address(self, token, around):
        """`getelementptr [inbounds] (T, T* c, T c, ..)`: at least the first operand stands there."""
        inbounds = bool(self.passes_word("inbounds"))
        self.take("(")
        of = self.type(around + 1)
        self.take(",")
        operands = [self.stated_constant(around + 1)]
        while self.passes(","):
            operands.append(self.stated_constant(around + 1))
        self.take(")")
        return Address(token, inbounds, of, operands)

    def cast(self, token, around):
        """`bitcast (T c to T)`."""
        self.take("(")
        operand = self.stated_constant(around + 1)
        self.take_word("to")
        target = self.type(around + 1)
        self.take(")")
        return Cast(token, operand, target)

    def initialiser(self, around=0):
        """A constant, `zeroinitializer`, `c".."` without a gap, or a list in `[ ]` or `{ }` of parts with their types."""
        if self.starts_constant():
            return self.constant(around)
        if self.word() not in ("zeroinitializer", "c") and self.kind() not in ("[", "{"):
            self.fail()
        self.enter(around + 1)
        token = self.advance()
        if token.value == "zeroinitializer":
            return Word(token)
        if token.value == "c":
            if self.token().start != token.end:
                self.fail()
            return Bytes(token, self.take("string").value)
        close = "]" if token.kind == "[" else "}"
        operands = self.listed(close, lambda: Operand(self.type(around + 1), self.initialiser(around + 1)))
        self.take(close)
        return Parts(token, operands)

    # ---- operands

    def value(self):
        """A register or a constant."""
        return Local(self.advance()) if self.kind() == "local" else self.constant()

    def operand(self):
        return Operand(self.type(), self.value())

    def number(self):
        """A number, `true` or `false`, as counts and cases are."""
        if self.kind() != "number" and self.word() not in ("true", "false"):
            self.fail()
        return self.constant()

    # ---- attributes

    def parameter_attributes(self):
        """Attributes of a parameter, an argument or a result, of which `signext` and `zeroext` are kept."""
        extensions = set()
        while True:
            word = self.passes_word(*OF_PARAMETERS, "dereferenceable", "dereferenceable_or_null", "align")
            if word is None:
                return extensions
            if word in EXTENSIONS:
                extensions.add(word)
            elif word == "align":
                self.take("number")
            elif word not in OF_PARAMETERS:
                self.number_in_parentheses()

    def number_in_parentheses(self):
        self.take("(")
        self.take("number")
        self.take(")")

    def function_attributes(self):
        """Attributes of a function or a call: groups, words, strings. None is kept."""
        while True:
            word = self.passes_word(*OF_FUNCTIONS, "align", "alignstack")
            if word == "align":
                self.take("number")
            elif word == "alignstack":
                self.number_in_parentheses()
            elif word is None and self.passes("string"):
                if self.passes("="):
                    self.take("string")
            elif word is None and not self.passes("group"):
                return

    # ---- metadata, of which nothing is kept

    def metadata(self):
        """`!name`, also with parentheses behind it, `!".."` or `!{ .. }`."""
        if self.passes("metadata"):
            if self.passes("("):
                self.pass_balanced(")")
            return
        self.take("!")
        if not self.passes("string"):
            self.take("{")
            self.pass_balanced("}")

    def attachments(self):
        """`, !name METADATA` behind a line, so often as it comes."""
        while self.passes(","):
            self.take("metadata")
            self.metadata()
