"""Joins bytes to words: what the sources read and write byte by byte becomes one `Load` or `Store` of 2, 4 or 8 bytes.

Two rules, used again and again, each true of all numbers:
    the n bytes at p, or'ed with the n bytes at p + n shifted left by 8 n bits, are the 2 n bytes at p;
    writing v's low n bytes at p and then those of v / 256^n at p + n writes v's low 2 n bytes at p.
Both halves are accesses that the proof allows, so the joined one lies within the memory as well. C compilers make one instruction of
it where the machine can; helpers.py has `Load` and `Store` in C.
"""
from fold import reads_memory
from forms import (U8, Assign, Binary, Cast, Copy, Deref, Int, Load, Offset, Place, Store, with_bodies, with_operands, with_values)


def split(pointer):
    """A pointer as what is moved, by what sum, and by how many bytes more."""
    if not isinstance(pointer, Offset):
        return pointer, None, 0
    count, more = pointer.count, 0
    while isinstance(count, Binary) and count.op == 'Add' and isinstance(count.right, Int):
        count, more = count.left, more + count.right.value
    if isinstance(count, Int):
        count, more = None, more + count.value
    return pointer.pointer, count, more


def follows(first, second, distance):
    """Whether the second pointer is the first one moved up by the distance."""
    a, b = split(first), split(second)
    return a[:2] == b[:2] and a[2] + distance == b[2]


def byte_at(value):
    """A byte read from memory and widened, as a Load of one byte."""
    if isinstance(value, Cast) and value.width == 64 and not value.signed and isinstance(value.operand, Copy):
        place = value.operand.place
        if place.steps == (Deref(U8),) and isinstance(place.base, Offset):
            return Load(1, place.base)
    return value


def joined_load(value):
    """`low | high << 8 n` as one Load, where it is one."""
    if not (isinstance(value, Binary) and value.op == 'Or' and isinstance(value.right, Binary) and value.right.op == 'Shl'):
        return value
    low, high, shift = byte_at(value.left), byte_at(value.right.left), value.right.right
    if isinstance(low, Load) and isinstance(high, Load) and low.size == high.size <= 4 and shift == Int(64, 8 * low.size) \
            and follows(low.pointer, high.pointer, low.size):
        return Load(2 * low.size, low.pointer)
    return value


def byte_store(statement):
    """The low byte of a number written to memory, as a Store of one byte."""
    if not (isinstance(statement, Assign) and statement.place.steps == (Deref(U8),) and isinstance(statement.place.base, Offset)):
        return statement
    value = statement.value
    if isinstance(value, Cast) and value.width == 8 and not value.signed and isinstance(value.operand, Binary) and value.operand.op == 'Rem' \
            and value.operand.right == Int(64, 256):
        return Store(1, statement.place.base, value.operand.left)
    return statement


def joined_store(first, second, in_memory):
    """Two Stores after each other as one, or None. What they are computed from must not be what the first one writes."""
    if not (isinstance(first, Store) and isinstance(second, Store) and first.size == second.size <= 4):
        return None
    above = Binary('Div', first.value, Int(64, 256 ** first.size))
    if second.value != above or not follows(first.pointer, second.pointer, first.size):
        return None
    if any(reads_memory(value, in_memory) for value in (first.pointer, second.pointer, first.value)):
        return None
    return Store(2 * first.size, first.pointer, first.value)


def join_words(function):
    def change(value):
        return joined_load(with_operands(value, change))

    def treat(body):
        out = []
        for statement in body:
            statement = byte_store(with_values(with_bodies(statement, treat), change))
            while out and joined_store(out[-1], statement, function.in_memory):
                statement = joined_store(out.pop(), statement, function.in_memory)
            out.append(statement)
        return tuple(single_bytes(statement) for statement in out)
    function.body = treat(function.body)


def single_bytes(statement):
    """A Store of one byte that found no neighbour, as the assignment that it was."""
    if isinstance(statement, Store) and statement.size == 1:
        low = Cast(8, Binary('Rem', statement.value, Int(64, 256)))
        return Assign(Place(statement.pointer, (Deref(U8),)), low)
    return statement
