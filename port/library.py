"""Puts the library's functions, and others that get references to structs, in place of their calls, and follows what is known of structs then.

So `?` on a value just returned becomes one test: the library's functions behind it only make structs of which the variant is known. A local whose
address only such functions had is a value again. A function of the library that has a loop stays one of its own. A program that calls no such function
is not changed.
"""
from dataclasses import replace

from fold import fold, mentions, simplify, sweep
from forms import (BOOL, U64, U8, Address, Aggregate, Array, Assign, Binary, Block, Bool, Call, Cast, Choice, Copy, Deref, Exit, Field, Fields, If, Int, IntType,
                   Loop, Named, Place, Ref, Return, Slice, Stop, Switch, Unary, Unit, Variant, bodies_of, derefs, inside, locals_read, places_in,
                   statements, target_of, values_of, with_bodies, with_operands, with_values)
from inline import renamed_body
from pointers import infer_pointers

TAG = (Variant(0), Field(0))
ROUNDS = 12         # of following what is known
TWICE = 12          # statements that may come to stand in two branches, or in place of each call of a function of the program's own


def put_size(program, name):
    """How many statements stand for a call of the function, or None if it stays one. Put in place are the library's functions, instances that get a
    reference to anything but an array, and short ones that get one to a struct, an enum or a boolean. What is decided is the same for all calls."""
    if name not in program.put:
        program.put[name] = None                # what calls itself stays a call, and stops the generator later
        program.put[name] = measured(program, program.function(name))
    return program.put[name]


def measured(program, function):
    lent, is_instance = [t for t in function.types[1:function.params + 1] if isinstance(t, Ref)], function.name in program.instances
    is_own = not program.of_library(function.name) and not is_instance
    if not program.of_library(function.name) and not any(
            not isinstance(t.target, Array) and (is_instance or not isinstance(t.target, IntType)) for t in lent):
        return None
    function = program.read(function.name)      # as it is in the file, whatever became of it
    if any(isinstance(s, Loop) for s in statements(function.body)):
        return None
    if not is_own:
        return 1
    if any(isinstance(t, Array) for t in function.types):       # which only its own calls should have on the stack
        return None
    try:
        total = straight_size(program, function.body, 0)
    except Stop:
        return None
    return total if total <= TWICE else None


def put_in_place(program, function):
    """The function with these calls replaced; once."""
    if function.is_done:
        return
    function.is_done = True
    if with_calls_put(program, function, {function.name}):
        follow(program, function)
        function.body = as_tests(function.body)


# ---- in place of calls

def with_calls_put(program, function, around):
    """Whether there was such a call."""
    found = []

    def treat(body):
        out = []
        for statement in body:
            if isinstance(statement, Call) and put_size(program, statement.name) is not None:
                found.append(statement.name)
                out += in_place(program, function, statement, around)
            else:
                out.append(with_bodies(statement, treat))
        return tuple(out)
    function.body = treat(function.body)
    return found


def in_place(program, caller, call, around):
    """The statements that stand for a call: parameters set, the body, the result."""
    callee = made_ready(program, call.name, around)
    new = {i: caller.add_local(t) for i, t in enumerate(callee.types)}
    caller.in_memory |= {new[i] for i in callee.in_memory}
    out = [Assign(Place(new[i]), arg) for i, arg in zip(callee.parameters(), call.args)]
    return out + list(renamed_body(callee.body, new)) + [Assign(call.place, Copy(Place(new[0])))]


def made_ready(program, name, around):
    """A function to be put in place: so is what it calls itself, nothing returns before the end, and branches that choose a number are one value."""
    if name in around:
        raise Stop(f'{name}: recursion')
    if name not in program.ready:
        function = program.ready[name] = program.read(name)
        with_calls_put(program, function, around | {name})
        function.body = straight(function.body)
        follow(program, function)
        infer_pointers(function)
        for step in (simplify, fold, simplify, fold):
            step(function)
        before = None
        while before != function.body:
            before, function.body = function.body, chosen(function, function.body)
            fold(function)
    return program.ready[name]


def straight(body):
    """The body without a `return`: what comes after a branch that returns goes into the branches that do not."""
    for i, statement in enumerate(body):
        rest = body[i + 1:]
        if isinstance(statement, Return):
            return body[:i]
        if not any(isinstance(s, Return) for s in statements((statement,))):
            continue
        if isinstance(statement, (If, Switch)):
            return body[:i] + (with_bodies(statement, lambda b: straight(b + rest)),)
        if isinstance(statement, Block) and not leaves(statement.body):
            return straight(body[:i] + statement.body + rest)
        raise Stop('a return that leaves a block, in a function that is put in place of its calls')
    return body


def straight_size(program, body, behind):
    """How many statements `straight` makes of a body with so many behind it, calls in it put in place."""
    total = 0
    for i, statement in enumerate(body):
        if isinstance(statement, Return):
            return total
        if not any(isinstance(s, Return) for s in statements((statement,))):
            total += sum(isinstance(s, Call) and put_size(program, s.name) or 1 for s in statements((statement,)))
        elif isinstance(statement, (If, Switch)):
            rest = straight_size(program, body[i + 1:], behind)
            return total + 1 + sum(straight_size(program, b, rest) for b in bodies_of(statement))
        elif isinstance(statement, Block) and not leaves(statement.body):
            return total + straight_size(program, statement.body + body[i + 1:], behind)
        else:
            raise Stop('a return that leaves a block, in a function that is put in place of its calls')
    return total + behind


def leaves(body, depth=0):
    """Whether an `exit` in a block's body leaves the block, or one around it."""
    return any(isinstance(s, Exit) and s.depth >= depth or any(leaves(b, depth + isinstance(s, (Block, Loop))) for b in bodies_of(s)) for s in body)


def has_exit(body):
    return any(isinstance(s, Exit) for s in statements(body))


def chosen(function, body, only=None):
    """Branches that do nothing but give a local one number each, as one value. `only`: these locals."""
    out = []
    for statement in body:
        statement = with_bodies(statement, lambda b: chosen(function, b, only))
        branches = bodies_of(statement) if isinstance(statement, If) or isinstance(statement, Switch) and is_tag(statement.value) else ()
        if branches and all(len(b) == 1 and isinstance(b[0], Assign) and b[0].place == branches[0][0].place for b in branches):
            place, values = branches[0][0].place, [b[0].value for b in branches]
            if isinstance(place.base, int) and not place.steps and isinstance(function.types[place.base], (IntType, type(BOOL))) \
                    and (only is None or place.base in only):
                statement = Assign(place, one_value(statement, values))
        out.append(statement)
    return tuple(out)


def one_value(statement, values):
    """The values of an `if` or a switch as one. Of a switch without a default the last arm is what is left."""
    if isinstance(statement, If):
        return settled(Choice(statement.test, *values))
    out = values[-1]
    for (keys, _), value in reversed(list(zip(statement.arms, values))[:-1]):
        for key in keys:
            out = settled(Choice(Binary('Eq', statement.value, Int(8, key)), value, out))
    return out


def as_tests(body):
    """A switch on the tag of an enum with one number on each side, as an `if`; where only one side does anything, its number is asked for. A branch
    that does what comes behind it is left out."""
    out = []
    for i, statement in enumerate(body):
        statement = with_bodies(statement, as_tests)
        if isinstance(statement, Switch) and is_tag(statement.value):
            first, second = (statement.arms if len(statement.arms) == 2 else (statement.arms[0], (None, ())))
            if len(statement.arms) == 2 and not first[1] and second[0] is not None and len(second[0]) == 1:
                first, second = second, first
            if len(statement.arms) == 2 and len(first[0] or ()) == 1:
                statement = If(Binary('Eq', statement.value, Int(8, first[0][0])), first[1], second[1])
        if not (isinstance(statement, If) and ends(statement.then) and (statement.then, statement.other) == (as_tests(body[i + 1:]), ())):
            out.append(statement)
    return tuple(out)


def is_tag(value):
    return isinstance(value, Copy) and value.place.steps[-2:] == TAG


# ---- what is known of locals

def settled(value):
    """A value of literals as its outcome."""
    if isinstance(value, Choice):
        if isinstance(value.test, Bool):
            return value.then if value.test.value else value.other
        if value.then == value.other:
            return value.then
        if (value.then, value.other) == (Bool(True), Bool(False)):
            return value.test
        if (value.then, value.other) == (Bool(False), Bool(True)):
            return opposite(value.test)
        if value.then == Bool(False) or value.other == Bool(True):      # `and` and `or` have their literal on the other side
            return Choice(opposite(value.test), value.other, value.then)
    if isinstance(value, Binary) and value.op in ('Eq', 'Ne') and all(isinstance(v, (Int, Bool)) for v in (value.left, value.right)):
        return Bool((value.left == value.right) == (value.op == 'Eq'))
    if isinstance(value, Cast) and isinstance(value.operand, Bool):
        return Int(value.width, int(value.operand.value))
    if isinstance(value, Cast) and isinstance(value.operand, Int) and not value.signed and value.operand.value < 1 << value.width:
        return Int(value.width, value.operand.value)
    return opposite(value.operand) if isinstance(value, Unary) and value.op == 'Not' and is_test(value.operand) else value


def is_test(value):
    return isinstance(value, Bool) or isinstance(value, Binary) and value.op in ('Eq', 'Ne')


def opposite(test):
    if isinstance(test, Bool):
        return Bool(not test.value)
    if isinstance(test, Binary) and test.op in ('Eq', 'Ne'):
        return replace(test, op='Ne' if test.op == 'Eq' else 'Eq')
    if isinstance(test, Unary) and test.op == 'Not':
        return test.operand
    return Unary('Not', test)


def part_of(value, steps):
    """What lies behind these steps in a value, or None."""
    if not steps:
        return value
    if isinstance(value, Copy):
        return Copy(Place(value.place.base, value.place.steps + steps))
    if isinstance(value, Address) and isinstance(steps[0], Deref):
        return Copy(Place(value.place.base, value.place.steps + steps[1:]))
    if isinstance(value, Aggregate) and isinstance(steps[0], Field):
        return part_of(value.parts[steps[0].index], steps[1:])
    if isinstance(value, Aggregate) and isinstance(steps[0], Variant) and len(steps) > 1:
        if steps[1].index == 0 or value.parts[0].value == steps[0].index:
            return part_of(value.parts[steps[1].index], steps[2:])
    return None


class Known:
    """What locals hold at one point, and the tags of enums."""

    def __init__(self, values=(), tags=()):
        self.values, self.tags = dict(values), dict(tags)

    def copy(self):
        return Known(self.values, self.tags)

    def forget(self, local):
        """The local is written."""
        self.values = {i: v for i, v in self.values.items() if i != local and local not in locals_read(v)}
        self.tags = {place: k for place, k in self.tags.items() if place.base != local}


def joined(knowns):
    """What is known whichever of these points was the last; None if there are none."""
    knowns = [known for known in knowns if known is not None]
    if not knowns:
        return None
    first, *others = knowns
    return Known([i for i in first.values.items() if all(i in o.values.items() for o in others)],
                 [i for i in first.tags.items() if all(i in o.tags.items() for o in others)])


def ends(body):
    """Whether nothing after the body is reached."""
    return bool(body) and (isinstance(body[-1], (Return, Exit)) or isinstance(body[-1], (If, Switch)) and all(map(ends, bodies_of(body[-1]))))


def written_in(body):
    return {target_of(s).base for s in statements(body) if target_of(s)}


class Following:
    """Goes through a function once, with what is known of its locals."""

    def __init__(self, program, function):
        self.program, self.function, self.types, self.in_memory = program, function, function.types, function.in_memory
        self.asked, self.open = None, False             # a branch that was moved into others, and whether one of them leaves it open

    # ---- values

    def value(self, value, known):
        if isinstance(value, Copy):
            return self.read(value, known)
        if isinstance(value, Address):
            return self.address(value, known)
        if isinstance(value, Choice):
            test = self.value(value.test, known)
            then, other = (self.value(v, self.under(test, holds, known)) for v, holds in ((value.then, True), (value.other, False)))
            return settled(Choice(test, then, other))
        return settled(with_operands(value, lambda v: self.value(v, known)))

    def read(self, value, known):
        place = value.place
        if not isinstance(place.base, int):
            base = self.value(place.base, known)
            found = part_of(base, place.steps) if isinstance(base, (Copy, Address)) else None
            return Copy(Place(base, place.steps)) if found is None else found if not isinstance(found.place.base, int) else self.read(found, known)
        found = part_of(known.values[place.base], place.steps) if place.base in known.values else None
        if found is None or isinstance(found, Aggregate) and not place.steps:
            tag = known.tags.get(Place(place.base, place.steps[:-2])) if is_tag(value) else None
            return value if tag is None else Int(8, tag)
        return self.read(found, known) if isinstance(found, Copy) else found

    def address(self, value, known):
        """The address of what a pointer points to, where that is an address itself."""
        place = value.place
        if not isinstance(place.base, int):
            return with_operands(value, lambda v: self.value(v, known))
        found = known.values.get(place.base)
        if isinstance(found, Address) and place.steps and isinstance(place.steps[0], Deref):
            return self.address(Address(Place(found.place.base, found.place.steps + place.steps[1:])), known)
        if isinstance(found, Copy) and place.steps and isinstance(place.steps[0], Deref):
            return Address(Place(found.place.base, found.place.steps + place.steps))
        return value

    def is_plain(self, value):
        """A value that stays what it is until a local that it mentions is written."""
        if isinstance(value, Aggregate):
            return all(map(self.is_plain, value.parts))
        if isinstance(value, Address):
            return isinstance(value.place.base, int) and not derefs(value.place.steps[1:]) \
                and not (derefs(value.place.steps) and value.place.base in self.in_memory)
        if isinstance(value, Copy):
            return isinstance(value.place.base, int) and value.place.base not in self.in_memory and not derefs(value.place.steps)
        return isinstance(value, (Int, Bool, Unit))

    def place(self, place, known):
        """A place that is written, by what is known of the pointer that it starts from."""
        if not isinstance(place.base, int) or not place.steps or not isinstance(place.steps[0], Deref):
            return place
        found = self.read(Copy(place), known)
        return found.place if isinstance(found, Copy) else place

    def type_of(self, place):
        t = self.types[place.base] if isinstance(place.base, int) else None
        for step in place.steps:
            if isinstance(step, Deref):
                t = step.target
            elif isinstance(step, Variant):
                t = t, step.index
            elif isinstance(t, tuple):
                t = (U8,) + self.program.shapes[t[0].name].variants[t[1]]
                t = t[step.index]
            else:
                t = (Ref(t.mutable, t.item), U64)[step.index] if isinstance(t, Slice) else self.program.shapes[t.name].types[step.index]
        return t

    def whole(self, value, place, known):
        """A variant put together of the fields of one that is there, as that one."""
        if not isinstance(value, Aggregate) or len(value.parts) < 2 or not isinstance(value.parts[0], Int) or not isinstance(value.parts[1], Copy):
            return value
        source = value.parts[1].place
        k, source = value.parts[0].value, Place(source.base, source.steps[:-2])
        same = all(part == Copy(Place(source.base, source.steps + (Variant(k), Field(i + 1)))) for i, part in enumerate(value.parts[1:]))
        to = self.type_of(place)
        if same and isinstance(to, Named) and known.tags.get(source) == k and self.type_of(source) == to:
            return Copy(source)
        return value

    def by_parts(self, value, to, out):
        """A struct or variant that a local gets, with each part that is computed in a local of its own, so that it is known as long as that is."""
        t = self.types[to.base] if isinstance(to.base, int) else None
        if not isinstance(value, Aggregate) or not isinstance(t, (Named, Slice)) or to.steps or not to.base or to.base in self.in_memory:
            return value
        parts = []
        for i, part in enumerate(value.parts):
            if not self.is_plain(part):
                path = (Variant(value.parts[0].value), Field(i)) if i and self.is_enum(t) else (Field(i),)
                local = self.function.add_local(self.type_of(Place(to.base, path)))
                out.append(Assign(Place(local), part))
                part = Copy(Place(local))
            parts.append(part)
        return Aggregate(tuple(parts))

    def is_enum(self, t):
        return isinstance(t, Named) and not isinstance(self.program.shapes[t.name], Fields)

    # ---- statements

    def body(self, body, known):
        """The body, and what is known at its end, None if that is not reached."""
        out, body = [], list(body)
        while body and known is not None:
            statement = body.pop(0)
            if isinstance(statement, Block) and not has_exit(statement.body):
                body[:0] = statement.body
            elif isinstance(statement, (If, Switch)):
                known = self.branches(statement, out, body, known)
            elif isinstance(statement, (Block, Loop)):
                known = self.around(statement, out, known)
            else:
                known = self.simple(statement, out, known)
        return tuple(out), known

    def simple(self, statement, out, known):
        statement = with_values(statement, lambda v: self.value(v, known))
        to = target_of(statement)
        if to is None:
            out.append(statement)
            return None if isinstance(statement, (Return, Exit)) else known
        to = self.place(to, known)
        if isinstance(statement, Assign):
            statement = Assign(to, self.by_parts(self.whole(statement.value, to, known), to, out))
        else:
            statement = replace(statement, place=to)
        if statement != Assign(to, Copy(to)):
            out.append(statement)
        if isinstance(to.base, int) and not derefs(to.steps):
            known.forget(to.base)
            value = statement.value if isinstance(statement, Assign) and not to.steps else None
            if value is not None and to.base not in self.in_memory and not isinstance(self.types[to.base], Array) \
                    and self.is_plain(value) and to.base not in locals_read(value):
                known.values[to.base] = value
        return known

    def around(self, statement, out, known):
        """A block or a loop: what it writes is not known at its head, nor after it."""
        for local in written_in(statement.body):
            known.forget(local)
        out.append(type(statement)(self.body(statement.body, known.copy())[0]))
        return None if isinstance(statement, Loop) else known

    def branches(self, statement, out, rest, known):
        """An `if` or a switch. A decided one is its branch; one that decides the next takes it into its branches; and where only one branch goes on,
        it goes on behind."""
        value = self.value(statement.test if isinstance(statement, If) else statement.value, known)
        if isinstance(value, (Int, Bool)):
            rest[:0] = decided_arm(statement, value)
            return known
        if statement is self.asked:
            self.open = True
        knowns = [self.in_branch(statement, k, value, known) for k in range(len(bodies_of(statement)))]
        ways = [self.body(b, inner) for b, inner in zip(bodies_of(statement), knowns)]
        new = with_each_body(with_values(statement, lambda v: value), [b for b, _ in ways])
        if rest and isinstance(rest[0], (If, Switch)) and self.asked is None:
            moved = self.moved_in(new, rest[0], known)
            if moved is not None:
                rest[0] = moved
                return known
        going = [i for i, (_, end) in enumerate(ways) if end is not None]
        if len(going) == 1 and ways[going[0]][0]:
            out.append(with_each_body(new, [() if i == going[0] else b for i, (b, _) in enumerate(ways)]))
            out += ways[going[0]][0]
        elif any(b for b, _ in ways):
            out.append(new)
        return joined([end for _, end in ways])

    def under(self, test, holds, known):
        """What is known where a test holds or does not."""
        known = known.copy()
        if isinstance(test, Binary) and test.op == ('Eq' if holds else 'Ne') and isinstance(test.right, Int):
            self.note(test.left, test.right.value, known)
        return known

    def note(self, value, tag, known):
        if is_tag(value) and self.is_plain(value):
            known.tags[Place(value.place.base, value.place.steps[:-2])] = tag

    def in_branch(self, statement, k, value, known):
        if isinstance(statement, If):
            return self.under(value, k == 0, known)
        known = known.copy()
        if len(statement.arms[k][0] or ()) == 1:
            self.note(value, statement.arms[k][0][0], known)
        return known

    def moved_in(self, statement, after, known):
        """The statement with the next one in each of its branches, if each decides it and not much stands there twice."""
        self.asked, self.open = after, False
        try:
            moved = with_bodies(statement, lambda b: with_last(b, after))
            found = self.body((moved,), known.copy())[0]
        finally:
            self.asked = None
        if self.open or size(found) > size((statement, after)) + TWICE:
            return None
        return moved


def with_last(body, statement):
    """A body with one more statement at each of its ends that is reached."""
    if ends(body):
        return body
    if body and isinstance(body[-1], (If, Switch)):
        return body[:-1] + (with_bodies(body[-1], lambda b: with_last(b, statement)),)
    return body + (statement,)


def with_each_body(statement, bodies):
    bodies = iter(bodies)
    return with_bodies(statement, lambda _: next(bodies))


def size(body):
    return sum(1 for _ in statements(body))


def decided_arm(statement, value):
    if isinstance(statement, If):
        return statement.then if value.value else statement.other
    return next((body for keys, body in statement.arms if keys is None or value.value in keys), ())


def without_overwritten(body):
    """The body without what is written to a local that is written again before anything reads it."""
    body = [with_bodies(statement, without_overwritten) for statement in body]
    return tuple(s for i, s in enumerate(body) if not (
        isinstance(s, Assign) and isinstance(s.place.base, int) and not s.place.steps and is_overwritten(s.place, body[i + 1:])))


def is_overwritten(place, rest):
    for statement in rest:
        if isinstance(statement, (Assign, Call)) and statement.place == place:
            return not any(place.base in locals_read(v) for v in values_of(statement))
        if isinstance(statement, Return):
            return place.base != 0
        if isinstance(statement, Exit) or mentions((statement,), place.base) or has_exit((statement,)):
            return False
    return False


def follow(program, function):
    """Again and again, as long as something new comes of it."""
    for _ in range(ROUNDS):
        before = function.body, set(function.in_memory)
        function.body = Following(program, function).body(function.body, Known())[0]
        function.body = without_overwritten(function.body)
        sweep(function)
        addressed = {place.base for s in statements(function.body) for v in values_of(s) for place, address in places_in(v)
                     if address and not derefs(place.steps)}
        function.in_memory = {i for i in function.in_memory if i in addressed or isinstance(function.types[i], Array)}
        if before == (function.body, function.in_memory):
            return
