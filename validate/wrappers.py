"""The functions at the border of a C file: exported ones, which C calls, and imported ones, which call another C file."""
import z3
from c_run import CRun
from c_text import CInt
from compare import Compare
from terms import Mem, Refused, Run, State, called, leaves_of, number, shaped, simple, sorts_of, symbols, widened


class Expected(Run):
    """What a border function must do: one call of the program's function with these leaves, and no more."""

    def __init__(self, program, path, leaves):
        super().__init__()
        self.program, self.f = program, program.get(path)
        self.result = self.f.types[0]
        state = State((), {}, z3.Const('memory', Mem))
        self.calls.append(((), path, leaves, state.memory))
        shape = program.shape(self.result)
        results, state.memory = called(path, leaves, state.memory, sorts_of(shape))
        state.locals[0] = shaped(shape, results)
        self.returns.append(state)


def validate_export(matcher, solver, export, inner):
    """The exported function hands its parameters on in order, a pointer and a size as a slice, and gives the result's fields in order."""
    c, f = matcher.c, matcher.program.get(export.path)
    run = CRun(c, export.name, range(len(c.parameters(c.functions[export.name]))), {}, matcher.callees([inner]))
    leaves, given = [], [leaf for i, (_, t) in enumerate(c.parameters(c.functions[export.name])) for leaf in [parameter(c, i, t)]]
    for sort in [sort for i in f.parameters() for sort in sorts_of(matcher.program.shape(f.types[i]))]:
        if not given:
            raise Refused('another number of parameters')
        term = given.pop(0)
        leaves.append(simple(widened(term, 64, False) if z3.is_bv(term) and sort == z3.BitVecSort(64) else term))
    if given:
        raise Refused('another number of parameters')
    return held_to(solver, Expected(matcher.program, export.path, leaves), run)


def parameter(c, i, t):
    return symbols(c.shape(t), f'parameter {i}')[0]


class ImportRun(CRun):
    """A function whose one call goes to another C file. What that call does is what its own file's validation says: the program's
    function of the same name, each size_t as 64 bits, the members of the result in order."""

    def __init__(self, c, name, parameters, path, extern):
        self.path, self.extern = path, extern
        super().__init__(c, name, parameters, {}, {})

    def call(self, state, e):
        if e.name.name != self.extern:
            return super().call(state, e)
        leaves = []
        for value, (_, t) in zip(self.arguments(state, e), self.c.parameters(self.c.declared[self.extern])):
            leaves.append(simple(widened(value[0], 64, False) if isinstance(t, CInt) and t.is_size else value[0]))
        self.calls.append((state.guard, self.path, leaves, state.memory))
        return self.result_of_call(state, self.path, leaves, self.c.result(self.c.declared[self.extern]))


def validate_import(matcher, solver, name, extern):
    """The function of the file that stands for one of another file."""
    way = matcher.copies[name]
    f = matcher.program.get(way.name)
    if way.fixed or extern not in matcher.c.declared or extern in matcher.c.functions:
        raise Refused(f'{extern} is not declared, or is defined here')
    values = [symbols(matcher.program.shape(f.types[i]), f'parameter {i}') for i in f.parameters()]
    expected = Expected(matcher.program, way.name, [simple(leaf[0]) for value in values for leaf in leaves_of(value)])
    for i, value in zip(f.parameters(), values):
        if matcher.program.is_slice(f.types[i]):
            expected.fact(State((), {}, None), z3.ULE(value[1][0], number((1 << matcher.c.target.size_bits) - 1)))
    return held_to(solver, expected, ImportRun(matcher.c, name, way.parameters, way.name, extern))


def held_to(solver, expected, run):
    if len(run.calls) != 1 or run.heads:
        raise Refused('a border function that does more than one call')
    compare = Compare(solver, expected, run)
    compare.run()
    return compare
