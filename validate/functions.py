"""Validates one C function against the program's function that it came from."""
import z3
from pycparser import c_ast

from c_run import CRun
from compare import Compare
from helpers import HELPERS
from program import used_locals
from program_run import ProgramRun
from solver import abstracted
from terms import Refused

TURNS = 12          # variables of one function that may be found to be dead at a loop's head


def called_in(body):
    found = set()

    class Seek(c_ast.NodeVisitor):
        def visit_FuncCall(self, node):
            found.add(node.name.name)
            self.generic_visit(node)
    Seek().visit(body)
    return found


def declared_in(body):
    found = set()

    class Seek(c_ast.NodeVisitor):
        def visit_Decl(self, node):
            found.add(node.name)
    Seek().visit(body)
    return found


class Calls:
    """Which calls of the program C has too; the others are run in place. A hint: both ways say what the program does. By names and literals
    first; `by_terms`: only where C has a call with equal arguments, for functions that C calls here and has in place there."""

    def __init__(self, matcher, solver, called):
        self.matcher, self.solver, self.called = matcher, solver, called
        self.by_terms, self.doubtful, self.theirs = False, False, None

    def in_place(self, name, literals, guard, leaves):
        if not self.matcher.has_call(self.called, name, literals):
            return True
        if leaves is None or any(self.equal(guard, leaves, other) for _, callee, other, _ in self.theirs.calls if callee == name):
            return False
        self.doubtful = True
        return self.by_terms

    def equal(self, guard, leaves, other):
        if len(leaves) != len(other) or any(x.sort() != y.sort() for x, y in zip(leaves, other)):
            return False
        differ = [x != y for x, y in zip(leaves, other) if not x.eq(y)]
        return not differ or self.by_terms and self.solver.contradict([abstracted(a) for a in (*guard, z3.Or(*differ))]) == 'unsat'


def validate_copy(matcher, solver, name):
    """The second time, if the first is refused, with the calls told apart by their arguments."""
    calls = Calls(matcher, solver, called_in(matcher.c.functions[name].body))
    if calls.called - set(matcher.copies) - set(HELPERS) - {'memset'}:
        raise Refused('a call of no function of the file, if it is reached or not')
    try:
        return with_calls(matcher, solver, name, calls)
    except Refused:
        if not calls.doubtful:
            raise
    calls.by_terms = True
    return with_calls(matcher, solver, name, calls)


def with_calls(matcher, solver, name, calls):
    """Variables that turn out not to be the program's at a loop's head are taken as not written there, loops that write memory on one
    side are taken to write it on both, and all is tried again."""
    c, program, way = matcher.c, matcher.program, matcher.copies[name]
    locals_of, callees, dead, written, behind = matcher.locals_of(name, way), matcher.callees(calls.called), frozenset(), frozenset(), frozenset()
    f = program.get(way.name)
    shapes = {i: program.shape(t) for i, t in f.memory().items()}
    unused = set(shapes) - {locals_of.get(variable) for variable in declared_in(c.functions[name].body)} - used_locals(f.body)
    for _ in range(TURNS):
        calls.theirs = CRun(c, name, way.parameters, locals_of, callees, shapes, dead, written)
        kept = {locals_of[variable] for variable in calls.theirs.memory}
        try:
            ours = ProgramRun(program, way.name, calls.in_place, way.fixed, c.target.size_bits, written, unused, kept, behind)
            compare = Compare(solver, ours, calls.theirs)
            compare.run()
            return compare
        except Refused as refused:
            if refused.variable is not None and refused.variable not in dead:
                dead |= {refused.variable}
            elif refused.loop is not None:
                written |= {refused.loop}
            elif refused.behind is not None and refused.behind not in behind:
                behind |= {refused.behind}
            else:
                raise
    raise Refused('too many variables that differ at loop heads')
