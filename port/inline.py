"""Copies of functions for literal arguments, and short functions put where they are called.

A function that compares a parameter with literals (the width of a number) is copied for each literal that it is called with, the
comparisons decided. A function that is a short straight run is put in place of its calls. Callees are treated before callers.
"""
from forms import (UNIT, Address, Assign, Binary, Bool, Call, Copy, Function, If, Int, Place, Return, Stop, Store, Unit, derefs,
                   statements, target_of, with_bodies, with_operands, with_values)

LONGEST = 4         # statements of a function that is put in place of its calls


# ---- replacing locals

def renamed(value, new):
    """The value with each local of `new` replaced: by another local's number, or by a value that is read in its place."""
    if isinstance(value, (Copy, Address)) and isinstance(value.place.base, int):
        other = new.get(value.place.base, value.place.base)
        if isinstance(other, int):
            return type(value)(Place(other, value.place.steps))
        if isinstance(value, Copy) and not value.place.steps:
            return other
        if isinstance(other, Copy):
            return type(value)(Place(other.place.base, other.place.steps + value.place.steps))
        raise Stop(f'part of the value {other}')
    return decided(with_operands(value, lambda v: renamed(v, new)))


def decided(value):
    """A comparison of two literals as its outcome."""
    if isinstance(value, Binary) and value.op == 'Eq' and isinstance(value.left, Int) and isinstance(value.right, Int):
        return Bool(value.left == value.right)
    return value


def renamed_place(place, new):
    return renamed(Copy(place), new).place


def renamed_body(body, new):
    """The body with locals replaced; of a decided `if` only its branch is left."""
    out = []
    for statement in body:
        to = target_of(statement)
        if to and isinstance(to.base, int):
            place = renamed_place(to, new)
            statement = with_values(statement, lambda v: renamed(v, new))
            statement = Assign(place, statement.value) if isinstance(statement, Assign) else Call(statement.name, statement.args, place)
        else:
            statement = with_values(statement, lambda v: renamed(v, new))
        if isinstance(statement, If) and isinstance(statement.test, Bool):
            out += renamed_body(statement.then if statement.test.value else statement.other, new)
        else:
            out.append(with_bodies(statement, lambda b: renamed_body(b, new)))
        if out and isinstance(out[-1], Return):
            break
    return tuple(out)


def assigned(function):
    """The locals that the function writes, whole or in part."""
    return {target_of(s).base for s in statements(function.body) if target_of(s) and not derefs(target_of(s).steps)}


# ---- copies for literal arguments

def compared(function):
    """The parameters that an `if` compares with a literal, and that keep their value."""
    found = set()
    for statement in statements(function.body):
        test = statement.test if isinstance(statement, If) else None
        if isinstance(test, Binary) and test.op == 'Eq' and isinstance(test.left, Copy) and isinstance(test.right, Int) \
                and test.left.place.base in function.parameters() and not test.left.place.steps:
            found.add(test.left.place.base)
    return found - assigned(function)


def copied_for(i, literal, all_known):
    """A literal in the copy's name; with its parameter's number where other copies may have it for another parameter."""
    return str(literal.value) if all_known else f'p{i}@{literal.value}'


def specialised(program, call, prepare):
    """A call with literals for compared parameters, as a call of a copy of the function without these."""
    function = program.function(call.name)
    asked = sorted(compared(function))
    known = {i: call.args[i - 1] for i in asked if isinstance(call.args[i - 1], Int)}
    if not known:
        return call
    name = '@'.join([function.name] + [copied_for(i, literal, len(known) == len(asked)) for i, literal in known.items()])
    if name not in program.functions:
        types = [UNIT if i in known else t for i, t in enumerate(function.types)]
        copy = Function(name, function.params, types, function.in_memory, renamed_body(function.body, known))
        copy.names, copy.comment = list(function.names), function.comment
        program.functions[name] = copy
        prepare(copy)
    return Call(name, tuple(Unit() if i + 1 in known else arg for i, arg in enumerate(call.args)), call.place)


# ---- short functions in place of their calls

def is_short(function):
    """A straight run without calls that keeps its parameters."""
    *run, last = function.body
    return isinstance(last, Return) and len(run) <= LONGEST and not function.in_memory \
        and all(isinstance(s, (Assign, Store)) for s in run) and not assigned(function) & set(function.parameters())


def is_plain(arg, in_memory):
    """Whether an argument may be read later than at the call: nothing in a straight run changes it."""
    return isinstance(arg, (Int, Bool)) or isinstance(arg, Copy) and arg.place.base not in in_memory and not derefs(arg.place.steps)


def in_place(caller, callee, call):
    """The statements that stand for the call."""
    new, out = {}, []
    for i, t in enumerate(callee.types):
        arg = call.args[i - 1] if i in callee.parameters() else None
        if arg is not None and (t == UNIT or is_plain(arg, caller.in_memory)):
            new[i] = arg
            continue
        new[i] = caller.add_local(t)
        if arg is not None:
            out.append(Assign(Place(new[i]), arg))
    out += renamed_body(callee.body[:-1], new)
    if callee.types[0] != UNIT:
        out.append(Assign(call.place, Copy(Place(new[0]))))
    return out


def inline(program, function, prepare):
    def treat(body):
        out = []
        for statement in body:
            statement = with_bodies(statement, treat)
            if isinstance(statement, Call):
                statement = specialised(program, statement, prepare)
                callee = program.function(statement.name)
                if is_short(callee):
                    out += in_place(function, callee, statement)
                    continue
            out.append(statement)
        return tuple(out)
    function.body = treat(function.body)
