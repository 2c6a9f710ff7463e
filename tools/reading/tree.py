"""What a text is read as. A type is compared without the places where it stands in the text."""
from collections import namedtuple
from dataclasses import dataclass, field

from .lexer import Token


@dataclass(frozen=True)
class Integer:
    """`iN`, of one to 64 bits."""

    width: int
    start: int = field(compare=False)


@dataclass(frozen=True)
class Named:
    """`%name`, which is the same type as `%name` alone, whether the module has it or not."""

    name: object
    token: Token = field(compare=False)


@dataclass(frozen=True)
class Pointer:
    """`T*`."""

    target: object


@dataclass(frozen=True)
class Array:
    """`[N x T]`. A count that is none (its token is at fault) stands for the number without its sign, or for 0 from 2^64 on."""

    length: int
    element: object
    token: Token = field(compare=False)
    start: int = field(compare=False)


@dataclass(frozen=True)
class Struct:
    """`{ T, .. }`."""

    fields: tuple
    start: int = field(compare=False)


def start_of(type_):
    """Where the first token of a type stands."""
    while isinstance(type_, Pointer):
        type_ = type_.target
    return type_.token.start if isinstance(type_, Named) else type_.start


def height_of(type_):
    """How many types stand in one another."""
    if isinstance(type_, Pointer):
        return 1 + height_of(type_.target)
    if isinstance(type_, Array):
        return 1 + height_of(type_.element)
    if isinstance(type_, Struct):
        return 1 + max(map(height_of, type_.fields), default=0)
    return 1


def inner_types(type_):
    """The types that stand right in one."""
    if isinstance(type_, Pointer):
        return (type_.target,)
    if isinstance(type_, Array):
        return (type_.element,)
    return type_.fields if isinstance(type_, Struct) else ()


# ---- values: each has the token with which it begins

Number = namedtuple("Number", "token")          # a number, or `true` and `false`
Word = namedtuple("Word", "token")              # `null`, `undef`, `zeroinitializer`
Global = namedtuple("Global", "token")
Local = namedtuple("Local", "token")
Address = namedtuple("Address", "token inbounds of operands")    # `getelementptr (..)`
Cast = namedtuple("Cast", "token operand to")                    # `bitcast (..)`
Bytes = namedtuple("Bytes", "token value")                       # `c".."`
Parts = namedtuple("Parts", "token operands")                    # `[ .. ]`, `{ .. }`
Operand = namedtuple("Operand", "type value")

# ---- lines

Binary = namedtuple("Binary", "operator flags left right")       # right has the type of left
Compare = namedtuple("Compare", "predicate left right")
Convert = namedtuple("Convert", "word operand to")
Select = namedtuple("Select", "condition first second")
Element = namedtuple("Element", "inbounds of operands")
Alloca = namedtuple("Alloca", "type count align")
Load = namedtuple("Load", "type address align")
Store = namedtuple("Store", "value address align")
Call = namedtuple("Call", "extensions result stated callee arguments")   # stated: the parameters' types and whether more may follow
Argument = namedtuple("Argument", "operand extensions")
Dropped = namedtuple("Dropped", "")              # a call that debugging wants

# ---- ends of blocks

Return = namedtuple("Return", "operand")
Branch = namedtuple("Branch", "label")
Conditional = namedtuple("Conditional", "condition on_true on_false")
Switch = namedtuple("Switch", "value default cases")
Case = namedtuple("Case", "operand label")
Unreachable = namedtuple("Unreachable", "")

# ---- functions and modules: a name is its token, and None where none is written; a result of None is void

Phi = namedtuple("Phi", "register type entries")
Entry = namedtuple("Entry", "value label")
Line = namedtuple("Line", "register body")
Block = namedtuple("Block", "label phis lines end")
Parameter = namedtuple("Parameter", "type extensions name")
TypeItem = namedtuple("TypeItem", "name body")                   # a body of None is opaque
GlobalItem = namedtuple("GlobalItem", "name linkage word type value align")
Declaration = namedtuple("Declaration", "name extensions result parameters is_open")
Definition = namedtuple("Definition", "name linkage extensions result parameters blocks")
