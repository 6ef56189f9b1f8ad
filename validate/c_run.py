"""Runs a C function on terms: statements, loops cut at their heads, calls. A call that may have an effect stands alone: as a statement,
after `return`, or as all that is assigned to a variable; so C's order of evaluation does not matter."""
import z3
from pycparser import c_ast

from c_text import C_BOOL, C_VOID, U64, CStruct
from c_values import CValues, Value
from helpers import HELPERS
from terms import (FALSE, Head, Mem, Refused, State, called, filled, leaves_of, merge, negation, number, resized, same_shape, shaped,
                   simple, sorts_of, symbols, used_leaves)


class CRun(CValues):
    """`parameters`: the program's local for each parameter; `locals_of`: for each variable, a hint; `callees`: for each function that
    may be called, the program's, and its literal arguments by place; `shapes`: of the program's locals that lie in memory; `dead`: (loop,
    variable) that is not taken to be equal at the head; `written`: loops at whose heads memory is anything in any case."""

    def __init__(self, c, name, parameters, locals_of, callees, shapes=None, dead=frozenset(), written=frozenset()):
        super().__init__(c)
        self.locals_of, self.callees, self.shapes, self.dead, self.written = locals_of, callees, shapes or {}, dead, written
        f = c.functions[name]
        self.result, self.outermost = c.result(f), f.body.block_items or []
        given = c.parameters(f)
        if len(given) != len(parameters):
            raise Refused('another number of parameters')
        addressed, values = addressed_variables(c, f.body), {}
        for (variable, t), i in zip(given, parameters):
            self.types[variable] = t
            values[variable] = symbols(c.shape(t), f'parameter {i}')
            if variable in addressed:
                raise Refused('a parameter whose address is taken')
        for variable in addressed:
            if variable not in locals_of:
                raise Refused(f'the address of {variable}, which the program has not')
            self.memory[variable] = z3.Const(f'address 0 {locals_of[variable]}', z3.BitVecSort(64))
        self.run(f.body, State((), values, z3.Const('memory', Mem)))

    def run(self, body, state):
        self.ahead, self.passed = {}, set()         # states on the way to labels; labels that lie behind
        end = self.statement(body, state, None)
        if self.ahead:
            raise Refused(f'goto {min(self.ahead)}, where no run comes by')
        if end is not None:
            if self.result != C_VOID:
                raise Refused('a result is missing at the end')
            self.returns.append(end)

    # ---- statements

    def statement(self, s, state, around):
        """The state after it, or None. `around`: the states that break and continue the loop around."""
        if isinstance(s, c_ast.Compound):
            for inner in s.block_items or []:
                state = None if state is None and not isinstance(inner, c_ast.Label) else self.statement(inner, state, around)
            return state
        if isinstance(s, c_ast.DeclList):
            for inner in s.decls:
                self.declare(inner, state)
            return state
        if isinstance(s, c_ast.Decl):
            self.declare(s, state)
            return state
        if isinstance(s, c_ast.Assignment):
            if s.op == '=':
                self.assign(state, s.lvalue, s.rvalue)
            else:
                self.assign(state, s.lvalue, c_ast.BinaryOp(s.op[:-1], s.lvalue, s.rvalue))
            return state
        if isinstance(s, (c_ast.FuncCall, c_ast.Cast)):
            return self.alone(s, state)
        if isinstance(s, c_ast.If):
            return self.branch(s, state, around)
        if isinstance(s, (c_ast.While, c_ast.For)):
            return self.loop(s, state)
        if isinstance(s, (c_ast.Break, c_ast.Continue)) and around:
            around[isinstance(s, c_ast.Continue)].append(state)
            return None
        if isinstance(s, c_ast.Return):
            self.leave(s, state)
            return None
        if isinstance(s, c_ast.Goto):
            if s.name in self.passed:
                raise Refused(f'goto {s.name}, which lies before')
            self.ahead.setdefault(s.name, []).append(state)
            return None
        if isinstance(s, c_ast.Label):
            return self.label(s, state, around)
        if isinstance(s, (c_ast.EmptyStatement, c_ast.Pragma)):
            return state
        raise Refused(f'C statement {type(s).__name__}')

    def label(self, s, state, around):
        """All that came here by a `goto` before, and what comes from above."""
        if s.name in self.passed:
            raise Refused(f'label {s.name}: twice')
        self.passed.add(s.name)
        state = merge(self.ahead.pop(s.name, []) + [state])
        return None if state is None else self.statement(s.stmt, state, around)

    def declare(self, s, state):
        if s.name in self.types or s.storage or s.align or not isinstance(s.type, (c_ast.TypeDecl, c_ast.PtrDecl)):
            raise Refused(f'declaration of {s.name}')
        if s.name in self.memory and s not in self.outermost:
            raise Refused(f'{s.name} lies in memory, and ends with the block that it is declared in')
        self.types[s.name] = self.c.type(s.type)
        local = self.locals_of.get(s.name)
        if s.name in self.memory and not (local in self.shapes and same_shape(self.c.shape(self.types[s.name]), self.shapes[local])):
            raise Refused(f'{s.name} lies in memory, and is not what the program has there')
        state.locals[s.name] = None
        if s.init is not None:
            self.assign(state, c_ast.ID(s.name), s.init)

    def alone(self, s, state):
        """A call as a statement, or what `(void)` drops."""
        if isinstance(s, c_ast.Cast):
            if self.c.type(s.to_type) != C_VOID:
                raise Refused('a cast as a statement')
            s = s.expr
        if isinstance(s, c_ast.FuncCall):
            self.call(state, s)
        elif isinstance(s, c_ast.ID):
            self.expression(state, s)
        else:
            raise Refused('an expression as a statement')
        return state

    def branch(self, s, state, around):
        test = simple(self.truth(state, s.cond))
        other = s.iffalse or c_ast.EmptyStatement()
        if z3.is_true(test) or z3.is_false(test):
            return self.statement(s.iftrue if z3.is_true(test) else other, state, around)
        return merge([self.statement(s.iftrue, state.under(test), around), self.statement(other, state.under(negation(test)), around)])

    def leave(self, s, state):
        if (s.expr is None) != (self.result == C_VOID):
            raise Refused('a return with another result')
        if s.expr is not None:
            state.locals['return'] = self.stored(state, self.alone_or_pure(state, s.expr), self.result)
        self.returns.append(state)

    def alone_or_pure(self, state, e):
        return self.call(state, e) if isinstance(e, c_ast.FuncCall) and e.name.name not in HELPERS else self.expression(state, e)

    def assign(self, state, to, e):
        at, t = self.place(state, to)
        if at[0] == 'memory' and self.c.is_array(t) and isinstance(e, c_ast.CompoundLiteral):
            return self.assign_array(state, at[1], t, e)
        if at[0] == 'memory' and isinstance(e, c_ast.FuncCall) and e.name.name not in HELPERS and not isinstance(to, c_ast.ID):
            raise Refused('the result of a call goes behind a pointer')
        value = self.stored(state, self.alone_or_pure(state, e), t)
        if at[0] == 'value':
            shape = self.c.shape(self.types[at[1]])
            state.locals[at[1]] = updated(state.locals.get(at[1]), at[2], value, shape)
            return None
        if at[2]:
            raise Refused('a write through a pointer to const')
        pointer = at[1]
        for leaf in leaves_of(value):
            self.duty(state, 'a part that is not written goes to memory', leaf[1] if leaf else FALSE)
            pointer = self.write_leaf(state, pointer, leaf[0])
        return None

    def assign_array(self, state, pointer, t, e):
        array, parts = self.c.members[t.name][0][1], e.init.exprs[0].exprs
        if self.c.type(e.type) != t or len(parts) != array.count or len(e.init.exprs) != 1:
            raise Refused('an array of another type or length')
        for value in [self.stored(state, self.expression(state, part), array.item) for part in parts]:
            pointer = self.write_leaf(state, pointer, value[0])

    # ---- loops

    def loop(self, s, state):
        """Cut at its head. A variable that the loop writes is the program's there, if it is one that was written before, and is proved
        equal at each arrival (compare.py); otherwise it counts as not written at the head."""
        if isinstance(s, c_ast.For) and (s.init or s.cond or s.next):
            raise Refused('a for with parts')
        n = len(self.heads)
        changed, memory = self.changes(s)
        memory = memory or n in self.written
        head, turn = Head(state, set(), memory), state.copy()
        for variable in sorted(changed):
            if variable in self.locals_of and (n, variable) not in self.dead and any(leaves_of(state.locals.get(variable))):
                turn.locals[variable] = symbols(self.c.shape(self.types[variable]), f'loop {n} local {self.locals_of[variable]}')
                head.changed.add(variable)
            else:
                turn.locals[variable] = None
        if memory:
            turn.memory = z3.Const(f'loop {n} memory', Mem)
        self.heads.append(head)
        leaving, again = [], []
        if isinstance(s, c_ast.While):
            test = simple(self.truth(turn, s.cond))
            if not z3.is_true(test):
                leaving.append(turn.under(negation(test)) if not z3.is_false(test) else turn)
                turn = None if z3.is_false(test) else turn.under(test)
        end = None if turn is None else self.statement(s.stmt, turn, (leaving, again))
        head.back = merge(again + [end])
        return merge(leaving)

    def changes(self, s):
        """The variables that a statement may write, and whether it may write memory."""
        changed, run = set(), self

        class Seek(c_ast.NodeVisitor):
            memory = False

            def visit_Assignment(self, node):
                base = node.lvalue
                while isinstance(base, c_ast.StructRef) and base.type == '.':
                    base = base.name
                if isinstance(base, c_ast.ID) and base.name not in run.memory:
                    changed.add(base.name)
                else:
                    self.memory = True
                self.generic_visit(node)

            def visit_Decl(self, node):
                raise Refused('a declaration in a loop')

            def visit_FuncCall(self, node):
                self.memory |= not (node.name.name in HELPERS and HELPERS[node.name.name].pure)
                self.generic_visit(node)
        seek = Seek()
        seek.visit(s)
        return changed, seek.memory

    # ---- calls

    def pure_call(self, state, e):
        helper = HELPERS.get(e.name.name)
        if helper is None or not helper.pure:
            raise Refused(f'a call of {e.name.name} inside an expression')
        return helper.value(self, state, self.arguments(state, e))

    def arguments(self, state, e):
        """The values of a call's arguments, as the parameters hold them."""
        name = e.name.name
        f = self.c.functions.get(name) or self.c.declared.get(name)
        if f is None:
            raise Refused(f'a call of {name}, which is not declared')
        given, parameters = e.args.exprs if e.args else [], self.c.parameters(f)
        if len(given) != len(parameters):
            raise Refused(f'a call of {name} with another number of arguments')
        return [self.stored(state, self.expression(state, a), t) for a, (_, t) in zip(given, parameters)]

    def call(self, state, e):
        """A call that may have an effect: its result, and memory after it."""
        name = e.name.name
        if name in HELPERS:
            return HELPERS[name].value(self, state, self.arguments(state, e))
        if name == 'memset':
            return self.fill(state, *e.args.exprs)
        if name not in self.callees:
            raise Refused(f'a call of {name}, which is no function of the program')
        callee, literals, shapes = self.callees[name]
        leaves, values = [], self.arguments(state, e)
        if len(values) != len(shapes):
            raise Refused(f'a call of {name} with another number of arguments than the program has')
        for leaf in [leaf for value in values for leaf in leaves_of(value)]:
            self.duty(state, f'an argument of {name} is not written', leaf[1] if leaf else FALSE)
        for leaf in [leaf for value, shape in zip(values, shapes) for leaf in used_leaves(value, shape)]:
            leaves.append(simple(leaf[0] if leaf else z3.BoolVal(False)))
        for at, value in sorted(literals.items()):
            leaves.insert(at, value)
        self.calls.append((state.guard, callee, leaves, state.memory))
        return self.result_of_call(state, callee, leaves, self.c.result(self.c.functions[name]))

    def result_of_call(self, state, callee, leaves, t):
        shape = self.c.shape(t)
        results, state.memory = called(callee, leaves, state.memory, sorts_of(shape))
        if t == C_VOID:
            return Value(t, [])
        value = shaped(shape, results)
        if isinstance(t, CStruct):
            return Value(t, value)
        return Value(t, truth=value[0]) if t == C_BOOL else Value(t, value[0])

    def fill(self, state, to, byte, size):
        """memset(&x, byte, sizeof x) of an array."""
        whole = isinstance(to, c_ast.UnaryOp) and to.op == '&' and isinstance(size, c_ast.UnaryOp) and size.op == 'sizeof'
        if not whole or not isinstance(to.expr, c_ast.ID) or not isinstance(size.expr, c_ast.ID) or to.expr.name != size.expr.name:
            raise Refused('memset of another form')
        (kind, pointer, const), t = self.place(state, to.expr)
        if kind != 'memory' or const or not self.c.is_array(t):
            raise Refused('memset of no array')
        _, item, count = self.c.shape(t)
        value = resized(self.converted(state, self.expression(state, byte), U64).term, 8)
        if item.size() != 8 and not simple(value).eq(number(0, 8)):
            raise Refused('memset of wider numbers than bytes, not with 0')
        state.memory = filled(state.memory, pointer, count, value if item.size() == 8 else number(0, item.size()))
        return Value(C_VOID, [])


def updated(old, path, value, shape):
    if not path:
        return value
    parts = list(old) if old else [None] * len(shape)
    parts[path[0]] = updated(parts[path[0]], path[1:], value, shape[path[0]])
    return parts


def addressed_variables(c, body):
    """The variables of a function that lie in memory: whose address is taken, or whose array is reached."""
    found, types = set(), {}

    class Seek(c_ast.NodeVisitor):
        def visit_Decl(self, node):
            types[node.name] = c.type(node.type)
            self.generic_visit(node)

        def visit_UnaryOp(self, node):
            if node.op == '&' and isinstance(node.expr, c_ast.ID):
                found.add(node.expr.name)
            self.generic_visit(node)

        def visit_StructRef(self, node):
            if node.type == '.' and isinstance(node.name, c_ast.ID) and c.is_array(types.get(node.name.name)):
                found.add(node.name.name)
            self.generic_visit(node)
    Seek().visit(body)
    return found
