"""What types a module names, how large they are, and where indices lead (LangRef 3.7, Data Layout, Structure Type, getelementptr Instruction)."""
from .tree import Array, Integer, Named, Pointer, Struct, inner_types

LARGEST = 2 ** 31                       # bytes that may be wanted at once


class Layout:
    """The named types of a module: the first body of each name, which is None where it is opaque."""

    def __init__(self, bodies):
        self.bodies = bodies

    def is_sound(self, type_):
        """Whether nothing is at fault in a type itself: its names are the module's, and its counts lie from 0 to 2^64 - 1."""
        if isinstance(type_, Named):
            return type_.name in self.bodies
        return (not isinstance(type_, Array) or 0 <= type_.token.value < 2 ** 64) and all(map(self.is_sound, inner_types(type_)))

    def behind_name(self, type_):
        """The type that a name stands for, or None; any other type itself."""
        return self.bodies.get(type_.name) if isinstance(type_, Named) else type_

    def size(self, type_, names=()):
        """Size and alignment in bytes, or None where it has none. An integer takes the power of two of bytes that it needs, a pointer 8."""
        if isinstance(type_, Integer):
            size = 1
            while 8 * size < type_.width:
                size *= 2
            return size, size
        if isinstance(type_, Pointer):
            return 8, 8
        if isinstance(type_, Array):
            inner = self.size(type_.element, names)
            return inner and (inner[0] * type_.length, inner[1])
        if isinstance(type_, Struct):
            return self.size_of_struct(type_, names)
        if type_.name in names or self.bodies.get(type_.name) is None:
            return None
        return self.size(self.bodies[type_.name], names + (type_.name,))

    def size_of_struct(self, type_, names):
        """Fields stand one behind the other, each at a multiple of its alignment, and the end is one of the largest."""
        end, alignment = 0, 1
        for inner in type_.fields:
            size = self.size(inner, names)
            if size is None:
                return None
            end = rounded_up(end, size[1]) + size[0]
            alignment = max(alignment, size[1])
        return rounded_up(end, alignment), alignment

    def is_large(self, type_, count=1):
        size = self.size(type_)
        return size is not None and size[0] * count > LARGEST

    def entered(self, type_, indices):
        """The types that the indices behind the first enter, one inside the other, as far as they lead somewhere: any integer enters an array,
        a number of i32 a field. An index is its type and its number, or None for one that isn't written."""
        found = []
        for index, number in indices[1:]:
            whole = self.behind_name(type_)
            if isinstance(whole, Array) and isinstance(index, Integer):
                type_ = whole.element
            elif isinstance(whole, Struct) and index == Integer(32, 0) and number is not None and number < len(whole.fields):
                type_ = whole.fields[number]
            else:
                break
            found.append(type_)
        return found

    def address_type(self, type_, base, indices):
        """The type of a `getelementptr`: a pointer to where its indices lead, or None where they don't; without index, that of its base. The
        first index goes over many of the type."""
        if not indices:
            return base
        if not isinstance(indices[0][0], Integer):
            return None
        found = self.entered(type_, indices)
        if len(found) < len(indices) - 1:
            return None
        return Pointer(found[-1] if found else type_)


def rounded_up(number, multiple):
    return (number + multiple - 1) // multiple * multiple
