"""Puts the value of a temporary where it is read, if that is once, and drops what nothing reads.

Values have no effects, so only the order of readings changes, and a value is moved past no statement that writes what it reads.
A value never comes into a branch or a turn of a loop in which it was not computed before.
"""
from forms import (UNIT, Address, Aggregate, Array, Assign, Call, Copy, Deref, Exit, Field, Int, Load, Place, Repeat, Return, Slice, Store, Switch,
                   bodies_of, derefs, inside, locals_read, places_in, started, statements, target_of, values_of, with_bodies,
                   with_operands, with_values)

UNKNOWN = Int(64, 0)        # stands for a call's result while its reading is looked for

LARGEST = 40        # values in one folded value; a limit for the reader's sake only


# ---- simpler forms of one value

def simplify(function):
    """The address of *p is p; and pointer and length of one slice, which is how a slice is lent on, are that slice."""
    def change(value):
        value = with_operands(value, change)
        if isinstance(value, Address) and value.place.steps and isinstance(value.place.steps[-1], Deref):
            place = value.place
            return place.base if len(place.steps) == 1 and not isinstance(place.base, int) else Copy(Place(place.base, place.steps[:-1]))
        return lent_on(function, value)

    def treat(body):
        return tuple(with_values(with_bodies(statement, treat), change) for statement in body)
    function.body = treat(function.body)


def lent_on(function, value):
    """`{s.pointer, s.length}` as s. The language names a slice's parts in no other way."""
    if not (isinstance(value, Aggregate) and len(value.parts) == 2 and all(isinstance(part, Copy) for part in value.parts)):
        return value
    first, second = (part.place for part in value.parts)
    if isinstance(first.base, int) and first.base == second.base and isinstance(function.types[first.base], Slice) \
            and first.steps == (Field(0),) and second.steps == (Field(1),):
        return Copy(Place(first.base))
    return value


# ---- folding

def reads_memory(value, in_memory):
    """Whether the value depends on memory: through a pointer, or a local whose address may be taken."""
    for part in inside(value):
        if isinstance(part, Load):
            return True
        if isinstance(part, (Copy, Address)):
            if part.place.base in in_memory or derefs(part.place.steps if isinstance(part, Copy) else part.place.steps[:-1]):
                return True
    return False


def accesses(function, local):
    """How often a local is written whole and how often it is read; None if it is not only read whole or gone through as a pointer."""
    reads = writes = 0
    for statement in statements(function.body):
        values = list(values_of(statement))
        to = target_of(statement)
        if to and to.base == local and not to.steps:
            writes += 1
            if isinstance(statement, Assign) and isinstance(statement.value, Repeat):
                return None
        elif to and to.base == local:
            values.append(Copy(to))
        for value in values:
            for place, address in places_in(value):
                if place.base == local:
                    reads += 1
                    if place.steps and not isinstance(place.steps[0], Deref) or address and not place.steps:
                        return None
    return writes, reads


def put(value, local, new, hits):
    """The value with each reading of a local replaced."""
    if isinstance(value, Copy) and value.place == Place(local):
        hits.append(1)
        return new
    if isinstance(value, (Copy, Address)) and value.place.base == local:
        hits.append(1)
        return type(value)(Place(new, value.place.steps))
    return with_operands(value, lambda v: put(v, local, new, hits))


def put_into(statement, local, new, hits):
    to = target_of(statement)
    statement = with_values(statement, lambda v: put(v, local, new, hits))
    if to and to.base == local and to.steps:
        hits.append(1)
        place = Place(new, to.steps)
        return Assign(place, statement.value) if isinstance(statement, Assign) else Call(statement.name, statement.args, place)
    return statement


def may_pass(statement, local, read, memory, in_memory):
    """Whether a value that reads these locals, and memory or not, may be computed after this statement instead of before."""
    if isinstance(statement, Store):
        return not memory
    to = target_of(statement)
    if to is None or to.base == local or to.base in read:
        return False
    return not memory or not (isinstance(statement, Call) or started(to) or derefs(to.steps) or to.base in in_memory)


def mentions(body, local):
    """Whether anything in a body reads or writes the local."""
    for statement in statements(body):
        to = target_of(statement)
        if to and to.base == local or any(local in locals_read(value) for value in values_of(statement)):
            return True
    return False


class Folding:
    """One local of a function. `pairs` counts the writings that have exactly one reading, later in the same list of statements."""

    def __init__(self, function, local):
        self.local, self.in_memory, self.pairs = local, function.in_memory, 0
        self.body = self.fold_list(function.body)

    def fold_list(self, before):
        body = [with_bodies(statement, self.fold_list) for statement in before]
        for i, statement in enumerate(body):
            to = target_of(statement)
            if to == Place(self.local):
                self.fold_one(before, body, i)
        return tuple(statement for statement in body if statement is not None)

    def fold_one(self, before, body, i):
        """Finds the reading of what statement i writes, and folds it if nothing between forbids it. Whether a body inside mentions the
        local is asked of the list as it was: folded, the body no longer shows that it writes it."""
        value = body[i].value if isinstance(body[i], Assign) else None
        read, memory = (locals_read(value), reads_memory(value, self.in_memory)) if value else (set(), True)
        free = value is not None
        for j in range(i + 1, len(body)):
            hits = []
            new = put_into(body[j], self.local, value or UNKNOWN, hits)
            if any(mentions(inner, self.local) for inner in bodies_of(before[j])) or len(hits) > 1:
                return
            if hits:
                self.pairs += 1
                is_asked_often = isinstance(new, Switch) and not isinstance(new.value, Copy)        # once for each arm
                if free and not is_asked_often and max(sum(1 for _ in inside(v)) for v in values_of(new)) <= LARGEST:
                    body[i], body[j] = None, new
                return
            if target_of(body[j]) == Place(self.local) or isinstance(body[j], (Return, Exit)):
                return
            free = free and may_pass(body[j], self.local, read, memory, self.in_memory)


def fold(function):
    for local in reversed(range(function.params + 1, len(function.types))):
        if local in function.in_memory or isinstance(function.types[local], Array) or function.types[local] == UNIT:
            continue
        counts = accesses(function, local)
        if counts and counts[0] == counts[1] > 0:
            folding = Folding(function, local)
            if folding.pairs == counts[0]:              # each writing has its own reading, so each may be folded or not
                function.body = folding.body
    sweep(function)


# ---- dropping what nothing reads

def read_locals(function):
    """The locals that anything reads, or whose address is taken, and the result."""
    read = {0}
    for statement in statements(function.body):
        for value in values_of(statement):
            read |= locals_read(value)
        to = target_of(statement)
        if to and to.steps and isinstance(to.base, int):
            read.add(to.base)
    return read


def sweep(function):
    """Drops assignments of `()` and to locals that nothing reads, again and again."""
    def is_idle(s):
        return isinstance(s, Assign) and isinstance(s.place.base, int) and not s.place.steps and (
            s.place.base not in read or function.types[s.place.base] == UNIT)

    def kept(body):
        return tuple(with_bodies(s, kept) for s in body if not is_idle(s))
    before = None
    while before != function.body:
        before, read = function.body, read_locals(function)
        function.body = kept(function.body)
