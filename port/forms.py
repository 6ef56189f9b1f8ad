"""The forms of a proved program, as the prover's machine runs it, and ways through them.

A function is a list of locals (0 the result, then the parameters, then the rest) and a body, a tuple of statements. The kit's
logic defines what each form means: Mir/Syntax.antt and Mir/Val.antt the values, Prog/Machine.antt the statements. `Load` and `Store`
are no forms of the prover; the pass in words.py puts them where the bytes of a number are read or written one by one.
"""
from dataclasses import dataclass, replace


class Stop(Exception):
    """A form that the generator does not know. Nothing is written then."""


# ---- types

@dataclass(frozen=True)
class IntType:
    width: int


@dataclass(frozen=True)
class BoolType:
    pass


@dataclass(frozen=True)
class UnitType:
    pass


@dataclass(frozen=True)
class RawPointer:
    """A pointer that says nothing of what it points to; pointers.py finds it out."""


@dataclass(frozen=True)
class Ref:
    mutable: bool
    target: object


@dataclass(frozen=True)
class Array:
    item: object
    count: int


@dataclass(frozen=True)
class Slice:
    mutable: bool
    item: object


@dataclass(frozen=True)
class Named:
    """A declared struct or enum."""
    name: str


@dataclass(frozen=True)
class Fields:
    """The shape of a declared struct: its fields' types."""
    types: tuple


@dataclass(frozen=True)
class Variants:
    """The shape of a declared enum: for each variant its fields' types."""
    variants: tuple


U8, U32, U64 = IntType(8), IntType(32), IntType(64)
BOOL, UNIT = BoolType(), UnitType()


# ---- places: a local, or what a pointer's value points to, and steps from there

@dataclass(frozen=True)
class Deref:
    target: object


@dataclass(frozen=True)
class Field:
    index: int


@dataclass(frozen=True)
class Variant:
    index: int


@dataclass(frozen=True)
class Place:
    base: object                # a local's number; after folding also a pointer's value, with a Deref as the first step
    steps: tuple = ()


# ---- values

@dataclass(frozen=True)
class Copy:
    place: Place


@dataclass(frozen=True)
class Int:
    width: int
    value: int


@dataclass(frozen=True)
class Bool:
    value: bool


@dataclass(frozen=True)
class Unit:
    pass


@dataclass(frozen=True)
class Unary:
    op: str
    operand: object


@dataclass(frozen=True)
class Cast:
    width: int
    operand: object
    signed: bool = False        # the bits are read as a signed number, which the new width holds


@dataclass(frozen=True)
class Binary:
    """`Add` and so on are of natural numbers and proved to stay in range; `SignedAdd` and so on read the bits as signed numbers; `WrapAdd` and
    `WrapSub`, no forms of the prover either, are modulo 2^64 (wrap.py)."""
    op: str
    left: object
    right: object


@dataclass(frozen=True)
class Choice:
    """The one value where a test holds, else the other: two branches of a function that is put in place (library.py), no form of the prover."""
    test: object
    then: object
    other: object


@dataclass(frozen=True)
class Offset:
    """A pointer moved up by a count of bytes."""
    pointer: object
    count: object


@dataclass(frozen=True)
class Address:
    place: Place


@dataclass(frozen=True)
class Aggregate:
    parts: tuple


@dataclass(frozen=True)
class Repeat:
    item: object
    count: int


@dataclass(frozen=True)
class Load:
    """The number of 64 bits that `size` bytes at a pointer make, lowest byte first."""
    size: int
    pointer: object


# ---- statements

@dataclass(frozen=True)
class Assign:
    place: Place
    value: object


@dataclass(frozen=True)
class Call:
    name: str
    args: tuple
    place: Place


@dataclass(frozen=True)
class If:
    test: object
    then: tuple
    other: tuple


@dataclass(frozen=True)
class Switch:
    value: object
    arms: tuple                 # of (keys, or None for the default; body)


@dataclass(frozen=True)
class Block:
    body: tuple


@dataclass(frozen=True)
class Loop:
    body: tuple


@dataclass(frozen=True)
class Exit:
    depth: int


@dataclass(frozen=True)
class Return:
    pass


@dataclass(frozen=True)
class Unreachable:
    """No run comes here; the reader leaves out the arm that ends so."""


@dataclass(frozen=True)
class Lend:
    """A local points from here on to an array that is there from the start and never written; the reader makes a local array of it."""
    local: int
    type: Array
    value: object


@dataclass(frozen=True)
class Store:
    """Writes the low `size` bytes of a number of 64 bits at a pointer, lowest byte first."""
    size: int
    pointer: object
    value: object


class Function:
    def __init__(self, name, params, types, in_memory, body):
        self.name, self.params, self.types, self.body = name, params, types, body
        self.in_memory = in_memory                      # the locals whose address may be taken
        self.names = [f'p{i}' if 1 <= i <= params else f't{i}' for i in range(len(types))]
        self.comment, self.is_done = '', False          # done: see library.py

    def parameters(self):
        return range(1, self.params + 1)

    def add_local(self, t):
        self.types.append(t)
        self.names.append(f't{len(self.types) - 1}')
        return len(self.types) - 1


# ---- ways through the forms

def operands(value):
    """The values directly inside a value; a place counts by the pointer that it starts from."""
    if isinstance(value, (Copy, Address)):
        return () if isinstance(value.place.base, int) else (value.place.base,)
    if isinstance(value, (Unary, Cast)):
        return (value.operand,)
    if isinstance(value, Binary):
        return (value.left, value.right)
    if isinstance(value, Choice):
        return (value.test, value.then, value.other)
    if isinstance(value, Offset):
        return (value.pointer, value.count)
    if isinstance(value, Load):
        return (value.pointer,)
    if isinstance(value, Aggregate):
        return value.parts
    return (value.item,) if isinstance(value, Repeat) else ()


def with_operands(value, change):
    """The value with each value directly inside it changed."""
    if isinstance(value, (Copy, Address)):
        return type(value)(place_with(value.place, change))
    if isinstance(value, (Unary, Cast)):
        return replace(value, operand=change(value.operand))
    if isinstance(value, Binary):
        return Binary(value.op, change(value.left), change(value.right))
    if isinstance(value, Choice):
        return Choice(change(value.test), change(value.then), change(value.other))
    if isinstance(value, Offset):
        return Offset(change(value.pointer), change(value.count))
    if isinstance(value, Load):
        return Load(value.size, change(value.pointer))
    if isinstance(value, Aggregate):
        return Aggregate(tuple(change(part) for part in value.parts))
    return Repeat(change(value.item), value.count) if isinstance(value, Repeat) else value


def place_with(place, change):
    return place if isinstance(place.base, int) else Place(change(place.base), place.steps)


def values_of(statement):
    """The values that a statement evaluates itself, its bodies left out. A written place counts by the pointer it starts from."""
    if isinstance(statement, Assign):
        return (statement.value,) + started(statement.place)
    if isinstance(statement, Call):
        return statement.args + started(statement.place)
    if isinstance(statement, Store):
        return (statement.pointer, statement.value)
    if isinstance(statement, If):
        return (statement.test,)
    return (statement.value,) if isinstance(statement, Switch) else ()


def started(place):
    return () if isinstance(place.base, int) else (place.base,)


def with_values(statement, change):
    """The statement with each of its own values changed."""
    if isinstance(statement, Assign):
        return Assign(place_with(statement.place, change), change(statement.value))
    if isinstance(statement, Call):
        return Call(statement.name, tuple(change(a) for a in statement.args), place_with(statement.place, change))
    if isinstance(statement, Store):
        return Store(statement.size, change(statement.pointer), change(statement.value))
    if isinstance(statement, If):
        return replace(statement, test=change(statement.test))
    return replace(statement, value=change(statement.value)) if isinstance(statement, Switch) else statement


def bodies_of(statement):
    if isinstance(statement, (Block, Loop)):
        return (statement.body,)
    if isinstance(statement, If):
        return (statement.then, statement.other)
    return tuple(body for _, body in statement.arms) if isinstance(statement, Switch) else ()


def with_bodies(statement, change):
    """The statement with each body inside it changed."""
    if isinstance(statement, (Block, Loop)):
        return type(statement)(change(statement.body))
    if isinstance(statement, If):
        return If(statement.test, change(statement.then), change(statement.other))
    if isinstance(statement, Switch):
        return Switch(statement.value, tuple((keys, change(body)) for keys, body in statement.arms))
    return statement


def statements(body):
    """Every statement of a body and of the bodies in it."""
    for statement in body:
        yield statement
        for inner in bodies_of(statement):
            yield from statements(inner)


def inside(value):
    """The value and every value in it."""
    yield value
    for operand in operands(value):
        yield from inside(operand)


def target_of(statement):
    """The place that a statement writes, if it is an assignment or a call."""
    return statement.place if isinstance(statement, (Assign, Call)) else None


def places_in(value):
    """Every place that a value reads or takes the address of, with whether it is the address."""
    for part in inside(value):
        if isinstance(part, (Copy, Address)):
            yield part.place, isinstance(part, Address)


def locals_read(value):
    return {place.base for place, _ in places_in(value) if isinstance(place.base, int)}


def derefs(steps):
    return any(isinstance(step, Deref) for step in steps)
