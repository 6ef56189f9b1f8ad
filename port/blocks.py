"""Blocks that an `exit` leaves, as branches, so that C needs no `goto`: `if a && b { x } else { y }` is such a block in the prover's program.

What comes after a branch that leaves the block goes into the one that does not, or under a test of its own of which branch it was. Blocks that are left
out of a loop stay; around a single loop they are `break`.
"""
from fold import fold, mentions
from forms import (BOOL, Assign, Block, Bool, Call, Copy, Exit, If, Loop, Place, Return, Switch, bodies_of, places_in, statements, target_of, values_of,
                   with_bodies)
from inline import renamed_body
from library import chosen, ends


class Keep(Exception):
    """A block that stays one."""


def as_branches(function):
    """The function with such blocks as branches; the new tests, for `as_values`."""
    tests = set()
    function.body = without_blocks(function, function.body, tests)
    if tests:
        function.body = split(function, function.body)
    return tests


def as_values(function, tests):
    """Branches that only give a test its outcome, as one value."""
    before = None
    while tests and before != function.body:
        fold(function)
        before, function.body = function.body, chosen(function, function.body, tests)


def without_blocks(function, body, tests):
    out = []
    for statement in body:
        statement = with_bodies(statement, lambda b: without_blocks(function, b, tests))
        if statement == Block(()):
            continue
        if isinstance(statement, Block) and goes_out(statement.body):
            try:
                found = set()
                out += lowered(opened(function, statement.body, found))
                tests |= found
                continue
            except Keep:
                pass
        out.append(statement)
    return tuple(out)


def goes_out(body, depth=0):
    """Whether an `exit` in the body leaves that many blocks and loops around it and one more."""
    for statement in body:
        if isinstance(statement, Exit) and statement.depth == depth:
            return True
        if any(goes_out(inner, depth + isinstance(statement, (Block, Loop))) for inner in bodies_of(statement)):
            return True
    return False


def opened(function, body, tests):
    """The body of a block with no `exit` out of it alone."""
    for i, statement in enumerate(body):
        if isinstance(statement, Exit) and statement.depth == 0:
            return body[:i]
        if not goes_out((statement,)):
            continue
        if not isinstance(statement, (If, Switch)):
            raise Keep
        going, leaving, rest = count(bodies_of(statement)), count(bodies_of(statement), True), body[i + 1:]
        if not rest or going == 0:
            return body[:i] + (at_ends(statement, lambda b: b[:-1], lambda b: b),)
        if going == 1:
            return body[:i] + (at_ends(statement, lambda b: b[:-1], lambda b: opened(function, b + rest, tests)),)
        test, before = Place(function.add_local(BOOL)), []
        tests.add(test.base)
        rest = opened(function, rest, tests)
        at_ends(statement, lambda b: before.append(b[:-1]) or b, lambda b: b)
        if leaving == 1 and before[0]:
            asked = at_ends(statement, lambda b: (Assign(test, Bool(True)),), lambda b: b + (Assign(test, Bool(False)),))
            return body[:i] + (asked, If(Copy(test), before[0], rest))
        asked = at_ends(statement, lambda b: b[:-1] + (Assign(test, Bool(False)),), lambda b: b + (Assign(test, Bool(True)),))
        return body[:i] + (asked, If(Copy(test), rest, ()))
    return body


def count(bodies, leaving=False):
    """How many ends of these bodies go on behind, or leave the block."""
    total = 0
    for body in bodies:
        if any(goes_out((statement,)) for statement in body[:-1]):
            raise Keep
        last = body[-1] if body else None
        if last is not None and goes_out((last,)) and not isinstance(last, Exit):
            if not isinstance(last, (If, Switch)):
                raise Keep
            total += count(bodies_of(last), leaving)
        elif isinstance(last, (Exit, Return)):
            total += leaving and last == Exit(0)
        else:
            total += not leaving and not ends(body)
    return total


def at_ends(statement, leave, go):
    """The statement with its ends changed: those that leave the block and those that go on behind."""
    def change(body):
        last = body[-1] if body else None
        if last == Exit(0):
            return tuple(leave(body))
        if last is not None and goes_out((last,)) and isinstance(last, (If, Switch)):
            return body[:-1] + (with_bodies(last, change),)
        return body if ends(body) else tuple(go(body))
    return with_bodies(statement, change)


def lowered(body, depth=0):
    """The body, with one block less around it."""
    out = []
    for statement in body:
        if isinstance(statement, Exit) and statement.depth > depth:
            statement = Exit(statement.depth - 1)
        inner = depth + isinstance(statement, (Block, Loop))
        out.append(with_bodies(statement, lambda b: lowered(b, inner)))
    return tuple(out)


# ---- a test that is written again under itself

def split(function, body):
    """`t = a; if t { t = b; .. }` with another local for the second, where nothing else reads the first."""
    out = list(body)
    for i, statement in enumerate(out):
        if isinstance(statement, If) and isinstance(statement.test, Copy) and not statement.test.place.steps:
            local = statement.test.place.base
            if function.types[local] == BOOL and local not in function.parameters() and local and not mentions(out[i + 1:], local) \
                    and times(out, local) == times(function.body, local) and is_first(out[:i], local):
                statement = with_bodies(statement, lambda b: anew(function, b, local))
        out[i] = with_bodies(statement, lambda b: split(function, b))
    return tuple(out)


def times(body, local):
    """How often a local is mentioned."""
    return sum(place.base == local for s in statements(body) for value in values_of(s) for place, _ in places_in(value)) \
        + sum(target_of(s) is not None and target_of(s).base == local for s in statements(body))


def is_first(body, local):
    """Whether the first that is done with a local in a body is to write it."""
    for statement in body:
        if mentions((statement,), local):
            return isinstance(statement, (Assign, Call)) and statement.place == Place(local) and times((statement,), local) == 1
    return False


def anew(function, body, local):
    for k, statement in enumerate(body):
        if mentions((statement,), local):
            return body[:k] + renamed_body(body[k:], {local: function.add_local(BOOL)}) if is_first(body, local) else body
    return body
