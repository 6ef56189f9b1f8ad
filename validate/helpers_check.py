"""Proves that the text of each helper of a C file, for a target, does what helpers.py takes it for."""
import z3
from pycparser import c_ast

from c_run import CRun
from c_text import C_VOID, CInt
from c_values import Value
from helpers import HELPERS
from solver import abstracted
from terms import (FUNCTIONS, Mem, Refused, Run, State, conjunction, known, merge, number, read, resized, sign_extended, signed_order, simple,
                   symbols, widened, written)


# ---- the definitions of what is not interpreted elsewhere

def ones_by_bits(x):
    bits = [widened(z3.Extract(i, i, x), 8, False) for i in range(64)]
    while len(bits) > 1:
        bits = [a + b for a, b in zip(bits[::2], bits[1::2])]
    return widened(bits[0], 32, False)


def trailing_by_bits(x):
    result = number(64, 32)
    for i in reversed(range(64)):
        result = z3.If(z3.Extract(i, i, x) == 1, number(i, 32), result)
    return result


def leading_by_bits(x):
    result = number(64, 32)
    for i in range(64):
        result = z3.If(z3.Extract(i, i, x) == 1, number(63 - i, 32), result)
    return result


def magnitude(x):
    return z3.If(x < 0, -x, x)


def quotient_by_magnitudes(x, y):
    """SMT-LIB's bvsdiv, written out."""
    q = z3.UDiv(magnitude(x), magnitude(y))
    return z3.If((x < 0) != (y < 0), -q, q)


def remainder_by_magnitudes(x, y):
    """SMT-LIB's bvsrem, written out."""
    r = z3.URem(magnitude(x), magnitude(y))
    return z3.If(x < 0, -r, r)


DEFINITIONS = {'count ones': ones_by_bits, 'trailing zeros': trailing_by_bits, 'leading zeros': leading_by_bits,
               'signed quotient': quotient_by_magnitudes, 'signed remainder': remainder_by_magnitudes}


def defined(term):
    """The term with each of these functions replaced by its definition."""
    parts = [defined(part) for part in term.children()]
    for (name, _), f in FUNCTIONS.items():
        if parts and name in DEFINITIONS and term.decl().eq(f):
            return DEFINITIONS[name](*parts)
    changed = [pair for pair in zip(term.children(), parts) if not pair[0].eq(pair[1])]
    return z3.substitute(term, *changed) if changed else term


def check_forms(solver):
    """The forms in terms.py that stand for an extension by the sign and for signed comparison are these."""
    for width in (8, 16, 32, 64):
        x, y = z3.BitVec('x', width), z3.BitVec('y', width)
        for wrong in (sign_extended(x, 64) != widened(x, 64, True), signed_order(z3.ULT, x, y) != (x < y), signed_order(z3.ULE, x, y) != (x <= y)):
            if solver.contradict([wrong]) != 'unsat':
                raise Refused('a form of signed numbers')


# ---- the text of one helper

class HelperRun(CRun):
    """memcpy between a number and bytes in the target's order, and gcc's builtin, which is not defined at 0."""

    def __init__(self, c, name):
        super(CRun, self).__init__(c)
        self.locals_of, self.callees, self.shapes, self.dead, self.written = {}, {}, {}, frozenset(), frozenset()
        f = c.functions[name]
        self.result, self.outermost, values = c.result(f), f.body.block_items or [], {}
        for i, (variable, t) in enumerate(c.parameters(f)):
            self.types[variable] = t
            values[variable] = symbols(c.shape(t), f'parameter {i}')
        self.run(f.body, State((), values, z3.Const('memory', Mem)))

    def pure_call(self, state, e):
        if e.name.name != '__builtin_ctzll':
            return super().pure_call(state, e)
        x = self.converted(state, self.expression(state, e.args.exprs[0]), CInt(64, False)).term
        self.duty(state, 'the builtin at 0', x != 0)
        return Value(self.int, resized(trailing_by_bits(x), self.int.bits))

    def call(self, state, e):
        if e.name.name != 'memcpy':
            return super().call(state, e)
        to, source, size = e.args.exprs
        count = self.constant(size.value).term.as_long()
        variable = (to if self.is_address(to) else source).expr.name
        if self.is_address(to) == self.is_address(source) or self.types[variable] != CInt(8 * count, False):
            raise Refused('memcpy of another form')
        at = [8 * (i if self.c.target.order == 'little' else count - 1 - i) for i in range(count)]
        if self.is_address(to):
            self.bytes_in(state, variable, self.bytes_at(state, source), at)
        else:
            self.bytes_out(state, variable, self.bytes_at(state, to), at)
        return Value(C_VOID, [])

    def is_address(self, e):
        return isinstance(e, c_ast.UnaryOp) and e.op == '&' and isinstance(e.expr, c_ast.ID) and e.expr.name in self.types

    def bytes_at(self, state, e):
        v = self.expression(state, e)
        if v.item != CInt(8, False):
            raise Refused('memcpy of no bytes')
        return v.term

    def bytes_in(self, state, variable, pointer, at):
        parts = {}
        for i, low in enumerate(at):
            self.access(state, 'read', 8, pointer + number(i))
            parts[low] = read(state.memory, pointer + number(i), 8)
        state.locals[variable] = known(z3.Concat(*[parts[low] for low in sorted(parts, reverse=True)]))

    def bytes_out(self, state, variable, pointer, at):
        x = state.locals[variable][0]
        for i, low in enumerate(at):
            self.access(state, 'write', 8, pointer + number(i))
            state.memory = written(state.memory, pointer + number(i), simple(z3.Extract(low + 7, low, x)))


def check_helper(solver, c, name):
    """Refused unless value, memory, accesses and duties are those of the definition, for all arguments."""
    run = HelperRun(c, name)
    end = merge(run.returns)
    values = [symbols(c.shape(t), f'parameter {i}') for i, (_, t) in enumerate(c.parameters(c.functions[name]))]
    wanted, state = Run(), State((), {}, z3.Const('memory', Mem))
    value = HELPERS[name].value(wanted, state, values)
    if c.result(c.functions[name]) != value.t or end is None or run.heads or run.calls:
        raise Refused(f'{name}: another form')
    goals = [('memory', end.memory == state.memory)]
    if value.t != C_VOID:
        goals.append(('result', z3.And(end.locals['return'][1], end.locals['return'][0] == value.term)))
    goals += [(what, z3.Implies(conjunction(guard), test)) for guard, what, test in run.duties]
    for what, goal in goals:
        wrong = [defined(a) for a in [*(test for _, _, test in wanted.duties), z3.Not(goal)]]
        if solver.contradict([abstracted(a) for a in wrong]) != 'unsat' and solver.contradict(wrong) != 'unsat':
            raise Refused(f'{name}: {what} differs from the definition, or could not be decided')
    if {(kind, width, p.get_id()) for _, kind, width, p in run.accesses} != {(kind, width, p.get_id()) for _, kind, width, p in wanted.accesses}:
        raise Refused(f'{name}: reaches other memory')
    reached = {p.get_id() for _, _, _, p in wanted.accesses}
    if any(p.get_id() not in reached for _, p in run.formed):
        raise Refused(f'{name}: computes a pointer where nothing is reached')

