"""Reads a module (LangRef 3.7, Module Structure, Global Variables, Functions, Attribute Groups, Data Layout)."""
from .lines import LineReader, is_for_debugging
from .tree import Declaration, Definition, GlobalItem, Parameter, TypeItem
from .words import LINKAGES


class ModuleReader(LineReader):
    """A reader of a whole text."""

    def module(self):
        """The items of which something is kept: types, globals, declarations and definitions."""
        items = []
        while self.kind() != "end":
            item = self.item()
            if item is not None:
                items.append(item)
        return items

    def item(self):
        kind = self.kind()
        if kind == "local":
            return self.type_item()
        if kind == "global":
            return self.global_item()
        read = self.metadata_item if kind == "metadata" else {
            "target": self.target, "attributes": self.attribute_group, "declare": self.declaration, "define": self.definition}.get(self.word())
        if read is None:
            self.fail()
        self.advance()
        return read()

    # ---- items of which nothing is kept

    def target(self):
        self.take_word("datalayout", "triple")
        self.take("=")
        self.take("string")

    def attribute_group(self):
        self.take("group")
        self.take("=")
        self.take("{")
        self.pass_balanced("}")

    def metadata_item(self):
        self.take("=")
        self.passes_word("distinct")
        self.metadata()

    # ---- types and globals

    def type_item(self):
        name = self.advance()
        self.take("=")
        self.take_word("type")
        return TypeItem(name, None if self.passes_word("opaque") else self.struct(0))

    def global_item(self):
        """`@name = LINKAGE [unnamed_addr] global T INITIALISER [, align N]`; one that is `external` has no initialiser."""
        name = self.advance()
        self.take("=")
        linkage = self.passes_word("external", *LINKAGES)
        self.passes_word("unnamed_addr")
        word, type_ = self.take_word("global", "constant"), self.type()
        value = None if linkage == "external" else self.initialiser()
        align = None
        if self.passes(","):
            self.take_word("align")
            align = self.take("number")
        return GlobalItem(name, linkage, word, type_, value, align)

    # ---- functions

    def parameter(self):
        type_, extensions = self.type(), self.parameter_attributes()
        return Parameter(type_, extensions, self.advance() if self.kind() == "local" else None)

    def declaration(self):
        """`declare [ccc] attributes T @name(parameters) [unnamed_addr] attributes`."""
        extensions, result = self.result()
        name = self.take("global")
        self.take("(")
        if is_for_debugging(name):
            found = self.parameters_for_debugging()
        else:
            found = self.open_list(self.parameter)
            self.take(")")
            self.passes_word("unnamed_addr")
        self.function_attributes()
        return None if found is None else Declaration(name, extensions, result, *found)

    def parameters_for_debugging(self):
        """A declaration of a name of debugging is dropped, whatever stands between its parentheses; with `unnamed_addr` it is one as any other."""
        start = self.at
        self.pass_balanced(")")
        if self.word() != "unnamed_addr":
            return None
        found = self.read_again(start, lambda: self.open_list(self.parameter))
        self.advance()
        return found

    def definition(self):
        """`define LINKAGE [ccc] attributes T @name(parameters) [unnamed_addr] attributes { blocks }`, of at least one block."""
        linkage = self.passes_word("external", *LINKAGES)
        extensions, result = self.result()
        name = self.take("global")
        self.take("(")
        parameters = self.listed(")", self.parameter)
        self.take(")")
        self.passes_word("unnamed_addr")
        self.function_attributes()
        if self.passes("metadata"):
            self.metadata()
        self.take("{")
        self.lines = 0
        blocks = [self.block()]
        while not self.passes("}"):
            blocks.append(self.block())
        return Definition(name, linkage, extensions, result, parameters, blocks)
