"""What is wrong with names and types of a module that was read (LangRef 3.7, Identifiers, Type System, Constants, Global Variables).

All faults are gathered, with their places; the first one counts. What a program tells of shape, behind all of these, is gathered in words.
Two named types are one where their names are, whether the module has them or not.
"""
from .faults import Fault
from .layout import Layout
from .lines import is_for_debugging
from .tree import (Address, Array, Bytes, Cast, Declaration, Definition, Global, GlobalItem, Integer, Named, Number, Parts, Pointer, Struct,
                   TypeItem, inner_types, start_of)


def number_at(type_, token):
    """The number that a token is at a type, from 0 to 2^N - 1, or None: iN has those from -2^(N-1) to 2^N - 1, `true` and `false` are i1's."""
    if not isinstance(type_, Integer):
        return None
    if token.kind == "word":
        return int(token.value == "true") if type_.width == 1 else None
    return token.value % 2 ** type_.width if -2 ** (type_.width - 1) <= token.value < 2 ** type_.width else None


def index_of(operand):
    """The type of an index, and its number where it is written."""
    return operand.type, number_at(operand.type, operand.value.token) if isinstance(operand.value, Number) else None


class Judge:
    """The tables of a module, and what is wrong with it."""

    def __init__(self, items):
        self.faults, self.shape = [], []
        self.items = items
        bodies, self.globals, self.functions = {}, {}, {}
        for item in items:
            name = item.name.value
            if isinstance(item, TypeItem):
                bodies.setdefault(name, item.body)
            elif isinstance(item, GlobalItem):
                self.globals.setdefault(name, item.type)
            else:
                is_open = isinstance(item, Declaration) and item.is_open
                self.functions.setdefault(name, (item.result, [parameter.type for parameter in item.parameters], is_open))
        self.layout = Layout(bodies)

    def fault(self, kind, token, due=None):
        """A token is at fault; of a label without its colon."""
        self.faults.append(Fault(token.start, kind, token.end - (token.kind == "label"), due))

    def fault_at(self, kind, start):
        self.faults.append(Fault(start, kind, None, None))

    def wrong_unless(self, fits, token):
        if not fits:
            self.fault("wrong type", token)

    def need(self, holds, what):
        """A demand on shape."""
        if not holds:
            self.shape.append(what)

    # ---- the module

    def judge_module(self):
        """All but the bodies of functions."""
        types = [item.name for item in self.items if isinstance(item, TypeItem)]
        globals_ = [item.name for item in self.items if isinstance(item, GlobalItem)]
        functions = [item.name for item in self.items if isinstance(item, (Declaration, Definition))]
        self.judge_twice(types)
        self.judge_twice([item.name for item in self.items if not isinstance(item, TypeItem)])
        self.judge_numbers(types)
        self.judge_numbers(globals_ + functions)
        for item in self.items:
            if isinstance(item, TypeItem):
                for inner in item.body.fields if item.body else ():
                    self.judge_type(inner)
            elif isinstance(item, GlobalItem):
                self.judge_global(item)
            else:
                self.judge_signature(item)

    def judge_twice(self, names):
        seen = set()
        for token in names:
            if token.value in seen:
                self.fault("twice", token)
            seen.add(token.value)

    def judge_numbers(self, names):
        """Names that are numbers count from 0: those of types, and those of all globals, then of all functions."""
        due = 0
        for token in names:
            if isinstance(token.value, int):
                if token.value != due:
                    self.fault("wrong number", token, due)
                due += 1

    def judge_global(self, item):
        self.judge_type(item.type)
        self.judge_memory(item.type)
        if item.value is not None:
            self.judge_initialiser(item.value, item.type)
        self.judge_align(item.align)

    def judge_signature(self, item):
        if item.result:
            self.judge_value_type(item.result)
        for parameter in item.parameters:
            self.judge_value_type(parameter.type)
        self.need(not is_for_debugging(item.name), "name")

    # ---- types

    def judge_type(self, type_):
        if isinstance(type_, Named) and type_.name not in self.layout.bodies:
            self.fault("unknown", type_.token)
        if isinstance(type_, Array):
            self.wrong_unless(0 <= type_.token.value < 2 ** 64, type_.token)
        for inner in inner_types(type_):
            self.judge_type(inner)

    def judge_value_type(self, type_):
        """Values of lines are integers and pointers (First Class Types, within the profile)."""
        self.judge_type(type_)
        if not isinstance(type_, (Integer, Pointer)):
            self.fault_at("wrong type", start_of(type_))

    def judge_memory(self, type_, count=1):
        """So many of a type are wanted at once: it has a size, of no more bytes than the limit. One with a fault of its own wants nothing."""
        if self.layout.is_sound(type_):
            self.need(self.layout.size(type_) is not None, "unsized")
            if self.layout.is_large(type_, count):
                self.fault_at("limit block", start_of(type_))

    def judge_entered(self, type_, indices):
        """What a `getelementptr` steps over is wanted as if it were held."""
        if self.layout.is_sound(type_) and any(map(self.layout.is_large, self.layout.entered(type_, indices))):
            self.fault_at("limit block", start_of(type_))

    def judge_align(self, token):
        """A power of two up to 2^29, or 0, which is none."""
        if token is not None:
            align = token.value
            self.wrong_unless(align == 0 or 0 < align <= 2 ** 29 and align & (align - 1) == 0, token)

    # ---- constants

    def judge_constant(self, constant, type_):
        """A constant is of the type that is stated for it."""
        if isinstance(constant, Number):
            self.wrong_unless(number_at(type_, constant.token) is not None, constant.token)
        elif isinstance(constant, Global):
            self.judge_global_name(constant.token, type_)
        elif isinstance(constant, Address):
            self.judge_address(constant, type_)
        elif isinstance(constant, Cast):
            self.judge_cast(constant, type_)
        elif constant.token.value == "null":
            self.wrong_unless(isinstance(type_, Pointer), constant.token)

    def judge_global_name(self, token, type_):
        """A global is a pointer to what it holds. A function's name as a value is left out."""
        if token.value in self.globals:
            self.wrong_unless(Pointer(self.globals[token.value]) == type_, token)
        else:
            self.fault("left out" if token.value in self.functions else "unknown", token)

    def judge_stated(self, operand):
        self.judge_value_type(operand.type)
        self.judge_constant(operand.value, operand.type)

    def judge_address(self, constant, type_):
        """It is of the type to which its indices lead; where they lead nowhere, shape is asked for it later, and any type fits."""
        self.judge_type(constant.of)
        self.judge_memory(constant.of)
        for operand in constant.operands:
            self.judge_stated(operand)
        indices = list(map(index_of, constant.operands[1:]))
        self.judge_entered(constant.of, indices)
        own = self.layout.address_type(constant.of, constant.operands[0].type, indices)
        self.wrong_unless(own in (None, type_), constant.token)
        self.need(own is not None, "gep index")
        self.need(constant.operands[0].type == Pointer(constant.of), "operand type")

    def judge_cast(self, constant, type_):
        """It is of the type behind its `to`, which is its operand's own, or both are pointers."""
        source = constant.operand.type
        self.judge_stated(constant.operand)
        self.judge_type(constant.to)
        self.wrong_unless(constant.to == type_, constant.token)
        self.need(source == constant.to or isinstance(source, Pointer) and isinstance(constant.to, Pointer), "cast width")

    # ---- initialisers

    def judge_initialiser(self, value, type_):
        """`zeroinitializer` and `undef` are of each type, bytes an array of as many i8, a list an array or a struct of as many parts."""
        if isinstance(value, Bytes):
            is_array = isinstance(type_, Array) and isinstance(type_.element, Integer)
            self.wrong_unless(is_array and (type_.length, type_.element.width) == (len(value.value), 8), value.token)
        elif isinstance(value, Parts):
            self.judge_parts(value, type_)
        elif value.token.value != "zeroinitializer":
            self.judge_constant(value, type_)

    def judge_parts(self, value, type_):
        """The types of the parts are those of the whole. Where there is no such whole, its bracket is at fault, and then comes what is in it."""
        due = self.parts_due(value, type_)
        self.wrong_unless(due is not None, value.token)
        for number, operand in enumerate(value.operands):
            self.judge_type(operand.type)
            if due is not None and due[number] != operand.type:
                self.fault_at("wrong type", start_of(operand.type))
            self.judge_initialiser(operand.value, operand.type)

    def parts_due(self, value, type_):
        """The types of so many parts: in `[ ]` those of an array, in `{ }` those of a struct, also of a named one; else None."""
        count = len(value.operands)
        if value.token.kind == "[":
            return [type_.element] * count if isinstance(type_, Array) and type_.length == count else None
        whole = self.layout.behind_name(type_)
        return whole.fields if isinstance(whole, Struct) and len(whole.fields) == count else None
