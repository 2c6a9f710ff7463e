"""Prints a module without fault as `crell fmt` does: one line each, what has no part in meaning gone (LangRef 3.7, Instruction Reference).

Numbers are read with sign, those of i1 as `true` and `false`; names stand without quotes where they can.
"""
from .judging import number_at
from .lexer import RUN
from .tree import (Address, Alloca, Array, Binary, Branch, Bytes, Cast, Compare, Conditional, Convert, Declaration, Definition, Element, Global,
                   GlobalItem, Integer, Load, Local, Named, Number, Parts, Pointer, Return, Select, Store, Switch, TypeItem)
from .words import EXTENSIONS

FLAG_ORDER = ("nuw", "nsw", "exact")


# ---- names and types

def quoted(value):
    """A string: bytes that can't be seen, quotes and backslashes as two hexadecimal digits behind a backslash."""
    return '"' + "".join(chr(byte) if 32 <= byte <= 126 and byte not in b'"\\' else "\\%02X" % byte for byte in value) + '"'


def name_text(name):
    if isinstance(name, int):
        return str(name)
    return name.decode() if RUN.fullmatch(name) and not name[:1].isdigit() else quoted(name)


def braces(inside):
    return "{ " + ", ".join(inside) + " }" if inside else "{}"


def type_text(type_):
    if type_ is None:
        return "void"
    if isinstance(type_, Integer):
        return f"i{type_.width}"
    if isinstance(type_, Named):
        return "%" + name_text(type_.name)
    if isinstance(type_, Pointer):
        return type_text(type_.target) + "*"
    if isinstance(type_, Array):
        return f"[{type_.length} x {type_text(type_.element)}]"
    return braces([type_text(inner) for inner in type_.fields])


# ---- values

def number_text(type_, token):
    number = number_at(type_, token)
    if type_.width == 1:
        return "true" if number else "false"
    return str(number - 2 ** type_.width if number >= 2 ** (type_.width - 1) else number)


def value_text(value, type_):
    """A register, a constant or an initialiser of this type."""
    if isinstance(value, Local):
        return "%" + name_text(value.token.value)
    if isinstance(value, Global):
        return "@" + name_text(value.token.value)
    if isinstance(value, Number):
        return number_text(type_, value.token)
    if isinstance(value, Address):
        inside = ", ".join([type_text(value.of)] + [operand_text(operand) for operand in value.operands])
        return "getelementptr " + ("inbounds " if value.inbounds else "") + "(" + inside + ")"
    if isinstance(value, Cast):
        return f"bitcast ({operand_text(value.operand)} to {type_text(value.to)})"
    if isinstance(value, Bytes):
        return "c" + quoted(value.value)
    if isinstance(value, Parts):
        inside = [operand_text(operand) for operand in value.operands]
        return braces(inside) if value.token.kind == "{" else "[" + ", ".join(inside) + "]"
    return value.token.value


def operand_text(operand):
    return type_text(operand.type) + " " + value_text(operand.value, operand.type)


def operands_text(operands):
    return ", ".join(map(operand_text, operands))


def extended(type_, extensions):
    """A type and its kept attributes."""
    return " ".join([type_text(type_)] + [word for word in EXTENSIONS if word in extensions])


def result_text(result, extensions):
    """The kept attributes of a result stand before its type."""
    return " ".join([word for word in EXTENSIONS if word in extensions] + [type_text(result)])


def align_text(token):
    return f", align {token.value}" if token and token.value else ""


def label_text(token):
    return "label %" + name_text(token.value)


# ---- lines

def line_text(judge, line):
    """What a line does, without its register."""
    if isinstance(line, Binary):
        flags = [flag for flag in FLAG_ORDER if flag in line.flags]
        return " ".join([line.operator, *flags, operand_text(line.left)]) + ", " + value_text(line.right, line.left.type)
    if isinstance(line, Compare):
        return f"icmp {line.predicate} {operand_text(line.left)}, {value_text(line.right, line.left.type)}"
    if isinstance(line, Convert):
        return f"{line.word} {operand_text(line.operand)} to {type_text(line.to)}"
    if isinstance(line, Select):
        return "select " + operands_text(line)
    if isinstance(line, Element):
        return "getelementptr " + ("inbounds " if line.inbounds else "") + type_text(line.of) + ", " + operands_text(line.operands)
    if isinstance(line, Alloca):
        return alloca_text(line)
    if isinstance(line, Load):
        return f"load {type_text(line.type)}, {operand_text(line.address)}{align_text(line.align)}"
    if isinstance(line, Store):
        return f"store {operand_text(line.value)}, {operand_text(line.address)}{align_text(line.align)}"
    return call_text(judge, line)


def alloca_text(line):
    """A count of 1 is none."""
    count = ""
    if line.count and number_at(line.count.type, line.count.value.token) != 1:
        count = ", " + operand_text(line.count)
    return f"alloca {type_text(line.type)}{count}{align_text(line.align)}"


def call_text(judge, line):
    """The parameters' types are stated where the callee is open, and only there."""
    _, parameters, is_open = judge.functions[line.callee.value]
    arguments = ", ".join(extended(argument.operand.type, argument.extensions) + " " + value_text(argument.operand.value, argument.operand.type)
                          for argument in line.arguments)
    stated = " (" + ", ".join([type_text(type_) for type_ in parameters] + ["..."]) + ")" if is_open else ""
    return f"call {result_text(line.result, line.extensions)}{stated} @{name_text(line.callee.value)}({arguments})"


def end_text(end):
    if isinstance(end, Return):
        return "ret " + (operand_text(end.operand) if end.operand else "void")
    if isinstance(end, Branch):
        return "br " + label_text(end.label)
    if isinstance(end, Conditional):
        return f"br {operand_text(end.condition)}, {label_text(end.on_true)}, {label_text(end.on_false)}"
    if isinstance(end, Switch):
        cases = "".join(f"    {operand_text(case.operand)}, {label_text(case.label)}\n" for case in end.cases)
        return f"switch {operand_text(end.value)}, {label_text(end.default)} [\n{cases}  ]"
    return "unreachable"


# ---- functions and modules

def block_text(judge, block, is_first):
    """A label stands over its block; of a number it is a comment, and over the first block nothing."""
    if isinstance(block.label, int):
        head = "" if is_first else f"; <label>:{block.label}\n"
    else:
        head = name_text(block.label) + ":\n"
    lines = []
    for phi in block.phis:
        entries = ", ".join(f"[ {value_text(entry.value, phi.type)}, %{name_text(entry.label.value)} ]" for entry in phi.entries)
        lines.append(f"%{name_text(phi.register)} = phi {type_text(phi.type)} {entries}")
    for line in block.lines:
        register = "" if line.register is None else f"%{name_text(line.register)} = "
        lines.append(register + line_text(judge, line.body))
    return head + "".join(f"  {line}\n" for line in lines + [end_text(block.end)])


def definition_text(judge, item):
    """Parameters whose names are numbers stand without them, and linkage `external` isn't told."""
    function = judge.named[id(item)]
    words = ["define"] + ([item.linkage] if item.linkage not in (None, "external") else []) + [result_text(item.result, item.extensions)]
    parameters = ", ".join(extended(parameter.type, parameter.extensions)
                           + (" %" + name_text(parameter.name) if isinstance(parameter.name, bytes) else "")
                           for parameter in function.parameters)
    blocks = "\n".join(block_text(judge, block, number == 0) for number, block in enumerate(function.blocks))
    return f"{' '.join(words)} @{name_text(item.name.value)}({parameters}) {{\n{blocks}}}\n"


def declaration_text(item):
    parameters = [extended(parameter.type, parameter.extensions) for parameter in item.parameters] + (["..."] if item.is_open else [])
    return f"declare {result_text(item.result, item.extensions)} @{name_text(item.name.value)}({', '.join(parameters)})\n"


def global_text(item):
    words = ([item.linkage] if item.linkage else []) + [item.word, type_text(item.type)]
    value = "" if item.value is None else " " + value_text(item.value, item.type)
    return f"@{name_text(item.name.value)} = {' '.join(words)}{value}{align_text(item.align)}\n"


def type_item_text(item):
    return f"%{name_text(item.name.value)} = type {type_text(item.body) if item.body else 'opaque'}\n"


def module_text(judge):
    """The types, the globals, and each function, with an empty line between."""
    parts = ["".join(type_item_text(item) for item in judge.items if isinstance(item, TypeItem)),
             "".join(global_text(item) for item in judge.items if isinstance(item, GlobalItem))]
    for item in judge.items:
        if isinstance(item, Definition):
            parts.append(definition_text(judge, item))
        elif isinstance(item, Declaration):
            parts.append(declaration_text(item))
    return "\n".join(part for part in parts if part)
