"""Reads blocks, their lines and their ends (LangRef 3.7, Instruction Reference). Metadata behind a line and attributes of calls aren't kept."""
from .expressions import ExpressionReader
from .tree import (Alloca, Argument, Binary, Block, Branch, Call, Case, Compare, Conditional, Convert, Dropped, Element, Entry, Line, Load,
                   Operand, Phi, Return, Select, Store, Switch, Unreachable)
from .words import CONVERSIONS, EXACT, FLAGS, OF_PARAMETERS, PREDICATES

DEBUGGING = b"llvm.dbg."


def is_for_debugging(token):
    """Calls and declarations of names that begin so are dropped."""
    return token.kind == "global" and isinstance(token.value, bytes) and token.value.startswith(DEBUGGING)


class LineReader(ExpressionReader):
    """A reader of blocks."""

    def block(self):
        """A label or none, phis, lines and an end. A phi comes before all lines."""
        label = self.advance() if self.kind() == "label" else None
        phis, lines = [], []
        while True:
            register = self.advance() if self.kind() == "local" else None
            if register:
                self.take("=")
            if not lines and self.word() == "phi":
                phis.append(self.phi(register))
                continue
            body = self.line()
            if body is None:
                if register:
                    self.fail()
                return Block(label, phis, lines, self.end())
            lines.append(Line(register, body))

    def phi(self, register):
        """`phi T [ value, %label ], ..`, at least one; a comma before `!name` begins what is attached."""
        self.begin_line()
        self.advance()
        type_, entries = self.type(), [self.entry()]
        while self.another():
            entries.append(self.entry())
        self.attachments()
        return Phi(register, type_, entries)

    def entry(self):
        self.take("[")
        value = self.value()
        self.take(",")
        label = self.take("local")
        self.take("]")
        return Entry(value, label)

    def another(self):
        """Takes a comma behind which more of the line comes, and no metadata."""
        return self.kind(1) != "metadata" and self.passes(",")

    def align_behind(self):
        """`, align N`, or None."""
        if not self.another():
            return None
        self.take_word("align")
        return self.take("number")

    # ---- ends of blocks

    def end(self):
        word = self.word()
        if word not in ("ret", "br", "switch", "unreachable"):
            self.fail()
        self.begin_line()
        self.advance()
        if word == "ret":
            found = Return(None if self.passes_word("void") else self.operand())
        elif word == "br":
            found = self.branch()
        else:
            found = self.switch() if word == "switch" else Unreachable()
        self.attachments()
        return found

    def label(self):
        self.take_word("label")
        return self.take("local")

    def label_behind(self):
        self.take(",")
        return self.label()

    def branch(self):
        if self.word() == "label":
            return Branch(self.label())
        return Conditional(self.operand(), self.label_behind(), self.label_behind())

    def switch(self):
        """`switch T value, label %default [ T number, label %label .. ]`, the cases without commas between."""
        value, default, cases = self.operand(), self.label_behind(), []
        self.take("[")
        while not self.passes("]"):
            cases.append(Case(Operand(self.type(), self.number()), self.label_behind()))
        return Switch(value, default, cases)

    # ---- lines

    def line(self):
        """What a line does, or None where its end of a block comes, or nothing that is expected."""
        word = self.word()
        if word in FLAGS:
            read = self.binary
        elif word in CONVERSIONS:
            read = self.convert
        else:
            read = {"icmp": self.compare, "select": self.select, "getelementptr": self.element, "alloca": self.alloca, "load": self.load,
                    "store": self.store, "call": self.call, "tail": self.call}.get(word)
        if read is None:
            return None
        if word not in ("call", "tail"):
            self.begin_line()
        found = read(self.advance().value)
        self.attachments()
        return found

    def binary(self, operator):
        """`nuw` and `nsw` in any order and number, `exact` once."""
        flags = set()
        while self.word() in FLAGS[operator]:
            flags.add(self.advance().value)
            if FLAGS[operator] == EXACT:
                break
        left = self.operand()
        self.take(",")
        return Binary(operator, flags, left, self.value())

    def compare(self, _):
        predicate, left = self.take_word(*PREDICATES), self.operand()
        self.take(",")
        return Compare(predicate, left, self.value())

    def convert(self, word):
        operand = self.operand()
        self.take_word("to")
        return Convert(word, operand, self.type())

    def select(self, _):
        found = [self.operand()]
        for _ in range(2):
            self.take(",")
            found.append(self.operand())
        return Select(*found)

    def element(self, _):
        """`getelementptr [inbounds] T, T* base, T index, ..`."""
        inbounds, of = bool(self.passes_word("inbounds")), self.type()
        self.take(",")
        operands = [self.operand()]
        while self.another():
            operands.append(self.operand())
        return Element(inbounds, of, operands)

    def alloca(self, _):
        """`alloca T [, T number] [, align N]`."""
        type_, count, align = self.type(), None, None
        if self.another():
            if self.passes_word("align"):
                align = self.take("number")
            else:
                count = Operand(self.type(), self.number())
                align = self.align_behind()
        return Alloca(type_, count, align)

    def load(self, _):
        type_ = self.type()
        self.take(",")
        return Load(type_, self.operand(), self.align_behind())

    def store(self, _):
        value = self.operand()
        self.take(",")
        return Store(value, self.operand(), self.align_behind())

    # ---- calls

    def call(self, word):
        """`[tail] call [ccc] attributes T [(types)] @f(arguments) attributes`; one of `void` to a name of debugging is dropped."""
        if word == "tail":
            self.take_word("call")
        if self.word() == "void":
            return self.call_of_void()
        if self.word() in ("ccc", *OF_PARAMETERS, "dereferenceable", "dereferenceable_or_null", "align") or self.starts_type():
            self.begin_line()
        extensions, result = self.result()
        stated = self.stated_types() if self.passes("(") else None
        return self.called(extensions, result, stated)

    def result(self):
        """`[ccc] attributes T`, or `void` for the type, which is None."""
        self.passes_word("ccc")
        return self.parameter_attributes(), None if self.passes_word("void") else self.type()

    def stated_types(self):
        """The parameters' types, and whether `...` comes behind them."""
        types, is_open = self.open_list(self.type)
        self.take(")")
        return types, is_open

    def call_of_void(self):
        """What stands between the parentheses before the name are types, but where the name is one of debugging."""
        self.advance()
        start = None
        if self.passes("("):
            start = self.at
            self.pass_balanced(")")
            if self.kind() != "global":
                self.fail()
        if is_for_debugging(self.token()):
            self.advance()
            self.take("(")
            self.pass_balanced(")")
            self.function_attributes()
            return Dropped()
        stated = None if start is None else self.read_again(start, lambda: self.open_list(self.type))
        if self.kind() == "global":
            self.begin_line()
        return self.called(set(), None, stated)

    def called(self, extensions, result, stated):
        callee = self.take("global")
        self.take("(")
        arguments = self.listed(")", self.argument)
        self.take(")")
        self.function_attributes()
        return Call(extensions, result, stated, callee, arguments)

    def argument(self):
        type_, extensions = self.type(), self.parameter_attributes()
        return Argument(Operand(type_, self.value()), extensions)
