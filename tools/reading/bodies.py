"""What is wrong with names and types in the bodies of functions (LangRef 3.7, Instruction Reference, Identifiers).

Everything without a name takes the next number: parameters, then block by block its label, its phis and its lines that give something.
"""
from .judging import Judge, index_of, number_at
from .tree import (Alloca, Binary, Block, Branch, Call, Compare, Conditional, Convert, Definition, Dropped, Element, Integer, Line, Load, Local,
                   Phi, Pointer, Return, Select, Switch)

LABEL = "a label"           # what a label's name is; a register's is its type, or UNTOLD
UNTOLD = "any type"         # of a `getelementptr` whose indices lead nowhere


class NamedFunction:
    """A definition with the names that all have: `parameters` and `blocks` have names in place of tokens, and no dropped lines."""

    def __init__(self, item):
        self.item, self.names, self.due = item, {}, 0
        self.parameters, self.blocks = [], []


class BodyJudge(Judge):
    """A judge of whole modules."""

    def __init__(self, items):
        super().__init__(items)
        self.named = {}
        self.judge_module()
        for item in items:
            if isinstance(item, Definition):
                self.named[id(item)] = self.judge_definition(item)

    def judge_definition(self, item):
        function = NamedFunction(item)
        for parameter in item.parameters:
            name = self.new_name(function, parameter.name, parameter.type)
            function.parameters.append(parameter._replace(name=name))
        for block in item.blocks:
            function.blocks.append(self.named_block(function, block))
        for block in function.blocks:
            self.judge_block(function, block)
        return function

    # ---- names

    def new_name(self, function, token, what):
        """The name of something that is defined: the one that is written, which is new, or the number that is due."""
        if token is None:
            name = function.due
        else:
            name = token.value
            if name in function.names:
                self.fault("twice", token)
            if isinstance(name, int) and name != function.due:
                self.fault("wrong number", token, function.due)
        function.due += isinstance(name, int)
        function.names.setdefault(name, what)
        return name

    def named_block(self, function, block):
        label = self.new_name(function, block.label, LABEL)
        phis = [Phi(self.new_name(function, phi.register, phi.type), phi.type, phi.entries) for phi in block.phis]
        lines = []
        for line in block.lines:
            given = self.given(line.body)
            name = None
            if given is not None:
                name = self.new_name(function, line.register, given)
            elif line.register:
                self.judge_idle_register(function, line.register)
            if not isinstance(line.body, Dropped):
                lines.append(Line(name, line.body))
        return Block(label, phis, lines, block.end)

    def judge_idle_register(self, function, token):
        """A line that gives nothing has no register."""
        if token.value in function.names:
            self.fault("twice", token)
        self.fault("wrong type", token)

    def given(self, line):
        """The type of what a line gives, or None."""
        if isinstance(line, (Binary, Select)):
            return line.left.type if isinstance(line, Binary) else line.first.type
        if isinstance(line, Compare):
            return Integer(1, 0)
        if isinstance(line, Convert):
            return line.to
        if isinstance(line, Element):
            return self.layout.address_type(line.of, line.operands[0].type, list(map(index_of, line.operands[1:]))) or UNTOLD
        if isinstance(line, Alloca):
            return Pointer(line.type)
        if isinstance(line, Load):
            return line.type
        return line.result if isinstance(line, Call) else None

    # ---- uses

    def judge_label(self, function, token):
        what = function.names.get(token.value)
        if what is None:
            self.fault("unknown", token)
        else:
            self.wrong_unless(what == LABEL, token)

    def judge_value(self, function, value, type_):
        """A register of that type, or a constant of it."""
        if not isinstance(value, Local):
            self.judge_constant(value, type_)
            return
        what = function.names.get(value.token.value)
        if what is None:
            self.fault("unknown", value.token)
        else:
            self.wrong_unless(what in (UNTOLD, type_), value.token)

    def judge_operand(self, function, operand):
        """The type that an operand states."""
        self.judge_value_type(operand.type)
        self.judge_value(function, operand.value, operand.type)
        return operand.type

    def judge_block(self, function, block):
        for phi in block.phis:
            self.judge_value_type(phi.type)
            for entry in phi.entries:
                self.judge_value(function, entry.value, phi.type)
                self.judge_label(function, entry.label)
        for line in block.lines:
            getattr(self, "judge_" + type(line.body).__name__.lower())(function, line.body)
        self.judge_end(function, block.end)

    # ---- lines, by the names of their classes

    def judge_binary(self, function, line):
        type_ = self.judge_operand(function, line.left)
        self.judge_value(function, line.right, type_)
        self.need(isinstance(type_, Integer), "operand type")

    def judge_compare(self, function, line):
        self.judge_value(function, line.right, self.judge_operand(function, line.left))

    def judge_convert(self, function, line):
        """`zext` and `sext` widen, `trunc` narrows; `bitcast` leads to the same type, or from pointer to pointer."""
        source, target = self.judge_operand(function, line.operand), line.to
        self.judge_value_type(target)
        if line.word == "bitcast":
            fits = source == target or isinstance(source, Pointer) and isinstance(target, Pointer)
        elif isinstance(source, Integer) and isinstance(target, Integer):
            fits = source.width > target.width if line.word == "trunc" else source.width < target.width
        else:
            fits = False
        self.need(fits, "cast width")

    def judge_select(self, function, line):
        condition, first, second = (self.judge_operand(function, operand) for operand in line)
        self.need(condition == Integer(1, 0) and first == second, "operand type")

    def judge_element(self, function, line):
        self.judge_type(line.of)
        self.judge_memory(line.of)
        types = [self.judge_operand(function, operand) for operand in line.operands]
        indices = list(map(index_of, line.operands[1:]))
        self.judge_entered(line.of, indices)
        self.need(types[0] == Pointer(line.of), "operand type")
        self.need(self.layout.address_type(line.of, line.operands[0].type, indices) is not None, "gep index")

    def judge_alloca(self, function, line):
        """The count is a number of its type, read without sign."""
        self.judge_type(line.type)
        count = 1
        if line.count:
            self.judge_type(line.count.type)
            count = number_at(line.count.type, line.count.value.token)
            self.wrong_unless(count is not None, line.count.value.token)
        if count is not None:
            self.judge_memory(line.type, count)
        self.judge_align(line.align)

    def judge_load(self, function, line):
        self.judge_value_type(line.type)
        self.need(self.judge_operand(function, line.address) == Pointer(line.type), "operand type")
        self.judge_align(line.align)

    def judge_store(self, function, line):
        type_ = self.judge_operand(function, line.value)
        self.need(self.judge_operand(function, line.address) == Pointer(type_), "operand type")
        self.judge_align(line.align)

    def judge_call(self, function, line):
        """A callee is a function of the module; types that are stated are its own, and one that is open has them stated."""
        if line.result:
            self.judge_value_type(line.result)
        for type_ in line.stated[0] if line.stated else ():
            self.judge_type(type_)
        name = line.callee.value
        types = [self.judge_operand(function, argument.operand) for argument in line.arguments]
        if name not in self.functions:
            self.fault("wrong type" if name in self.globals else "unknown", line.callee)
            return
        result, parameters, is_open = self.functions[name]
        self.wrong_unless(line.stated == (parameters, is_open) if line.stated else not is_open, line.callee)
        self.need(line.result == result and types[:len(parameters)] == parameters and (is_open or len(types) == len(parameters)), "call type")

    # ---- ends of blocks

    def judge_end(self, function, end):
        if isinstance(end, Return):
            type_ = end.operand and self.judge_operand(function, end.operand)
            self.need(type_ == function.item.result, "return type")
        elif isinstance(end, Branch):
            self.judge_label(function, end.label)
        elif isinstance(end, Conditional):
            self.need(self.judge_operand(function, end.condition) == Integer(1, 0), "operand type")
            self.judge_label(function, end.on_true)
            self.judge_label(function, end.on_false)
        elif isinstance(end, Switch):
            self.judge_switch(function, end)

    def judge_switch(self, function, end):
        """A case is a number of its type, which is the value's, and comes once."""
        type_, seen = self.judge_operand(function, end.value), set()
        self.judge_label(function, end.default)
        self.need(isinstance(type_, Integer), "operand type")
        for case in end.cases:
            self.judge_type(case.operand.type)
            number = number_at(case.operand.type, case.operand.value.token)
            self.wrong_unless(number is not None, case.operand.value.token)
            self.need(case.operand.type == type_ and number not in seen, "case twice")
            seen.add(number)
            self.judge_label(function, case.label)
